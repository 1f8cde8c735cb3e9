#!/usr/bin/env python3
"""Compares the output formats of `sizing ask` with each other.

    python3 checks/forms.py

For each plan of ../examples and of mistakes/, for a plan in a file whose name has characters that formats escape, and for a plan
with a certificate that is no JSON:

- Each format has the exit status of `ask`.
- `ask --json` writes one object on one line, which Python's json reads. The object always has the same keys, in order. Its answer, its
  faults and its warnings are those of `ask`, with the same positions and texts.
- The shares of clients and threads in a bound add up to the bound, and a standing bound is at most the queue, unless this is unbounded.
- In `sizing replay`, the events of a witness end in a refused submit or in jobs that are stuck.
- The sizes are those of `sizing fit`.
- `ask --dot` writes a graph that has each pool, and that Graphviz draws, if `dot` is installed.
- `ask --format html` writes the template of web/report.html, as tools/page puts it into the program, with the object of `ask --json`.
- `ask --format github` writes a line for each fault, each warning, and each part of the answer, with the positions of `ask --json`.
- `ask --format sarif` writes a log with one run, which has the same results as `ask --format github`, and a rule for each.

The program is crates/sizing/out/sizing, or the one that the environment variable SIZING names.

Exit status: 0 if all of this holds, 1 if not, 2 if there is no program.
"""

import json
import re
import shutil
import subprocess
import sys
import tempfile
from importlib.machinery import SourceFileLoader
from importlib.util import module_from_spec, spec_from_loader
from pathlib import Path
from urllib.parse import unquote

sys.dont_write_bytecode = True

from asking import built_program

HERE = Path(__file__).resolve().parent
KEYS = ["answer", "assumptions", "faults", "file", "format", "omitted", "plan", "pools", "sizes", "version", "warnings", "witness"]
POOL_KEYS = ["blocked", "bound", "core", "max", "name", "prestart", "queue", "waits_for"]
# The further keys of a pool that may reject jobs, and of one whose core threads may time out.
REJECTING_KEYS, TIMED_KEYS = ["may_reject", "rejects_after"], ["core_timeout"]
# The queue of a pool without a capacity.
UNBOUNDED = "unbounded"
# The kinds of warnings that are notes: whether they matter depends on the code around a submit.
NOTES = {"open future", "run in caller"}
ANSWERS = {"SAFE", "NOT SAFE", "NOT DECIDED"}
TOOLS = HERE.parent / "tools"
# A plan that is not safe, with a warning and with sizes to change.
PLAN = HERE.parent / "examples" / "two-clients.toml"
# A name of a file that has each character that a workflow command escapes, except the ends of lines, and characters that a URI escapes.
NAME = "50%, a:b %0A #1?é.toml"
# A relative reference of RFC 3986 whose first segment has no colon, without a query and a fragment.
URI = re.compile(r"(?:[\w.~!$&'()*+,;=@-]|%[0-9A-F]{2})*(?:/(?:[\w.~!$&'()*+,;=:@-]|%[0-9A-F]{2})*)*", re.A)
# A workflow command: its name, its file, its place, its title and its message.
COMMAND = re.compile(r"::(error|warning|notice) file=([^,]*)(?:,line=(\d+),col=(\d+))?,title=([^,:]*)::(.*)")
SECONDS = 120


def main():
    if not (program := built_program()):
        return 2
    dot, page = shutil.which("dot"), template()
    plans = sorted([*(HERE.parent / "examples").glob("*.toml"), *(HERE / "mistakes").glob("*.toml")])
    wrong = 0
    with tempfile.TemporaryDirectory(prefix="sizing-forms-") as folder:
        named = Path(shutil.copyfile(PLAN, Path(folder) / NAME))
        # the plan is no JSON, so it is a certificate with a fault
        for files in [*([plan] for plan in plans), [named], [PLAN, PLAN]]:
            for difference in differences(program, dot, page, *files):
                print(f"{' '.join(file.name for file in files)}: {difference}")
                wrong += 1
    drawn = "each drawn by Graphviz" if dot else "no picture drawn: there is no `dot` (apt-get install graphviz)"
    print(f"{len(plans)} plans, {wrong} differences, {drawn}")
    return 1 if wrong or not plans else 0


def template():
    """Returns the texts of a page before and after the answer."""
    sys.path.insert(0, str(TOOLS))
    loader = SourceFileLoader("page", str(TOOLS / "page"))
    page = module_from_spec(spec_from_loader("page", loader))
    loader.exec_module(page)
    before, after = page.joined(page.lines_of(Path(page.TEMPLATE).read_text(encoding="utf-8"))).split(page.MARK)
    return before, f"{page.ascii_of(after)}\n"


def differences(program, dot, page, plan, *certificate):
    """Yields the faults of the answers to a plan, with a certificate if one is given."""

    def ask(*options):
        files = [file.name for file in (plan, *certificate)]
        words = [program, "ask", *options, *files]
        return subprocess.run(words, cwd=plan.parent, capture_output=True, text=True, timeout=SECONDS, check=False)

    words, as_json, picture = ask(), ask("--json"), ask("--dot")
    forms = {form: ask("--format", form) for form in ("html", "github", "sarif")}
    for form, ran in {"json": as_json, "dot": picture, **forms}.items():
        if ran.returncode != words.returncode:
            yield f"the status with {form} is {ran.returncode}, and without it {words.returncode}"
    if as_json.stdout.count("\n") != 1 or not as_json.stdout.endswith("\n"):
        yield "--json is not one line"
    value = json.loads(as_json.stdout)
    if list(value) != KEYS or any(list(pool) != keys_of(pool) for pool in value["pools"]):
        yield f"the keys are {list(value)}"
    yield from differences_of_lines(value, words.stdout)
    yield from differences_of_bounds(value)
    yield from differences_of_sizes(program, plan, value)
    yield from differences_of_witness(program, plan, value)
    yield from differences_of_page(page, as_json.stdout, forms["html"].stdout)
    yield from differences_of_annotations(value, forms["github"].stdout, forms["sarif"].stdout)
    if value["answer"] != "FAULTS":
        yield from differences_of_picture(dot, value, picture.stdout)
    elif picture.stdout != words.stdout:
        yield "--dot has other faults than the lines"


def keys_of(pool):
    """Returns the keys of a pool, in order."""
    more = [key for keys in (REJECTING_KEYS, TIMED_KEYS) if keys[0] in pool for key in keys]
    return sorted([*POOL_KEYS, *more])


def differences_of_lines(value, text):
    """Yields a line if the answer, the faults or the warnings of the JSON form differ from those in the lines of `ask`."""
    lines = text.splitlines()
    answers = [line for line in lines if line in ANSWERS] or ["FAULTS"]
    if [value["answer"]] != answers:
        yield f"the answer is {value['answer']}, and in lines {answers}"
    file = value["file"]
    faults = [f"{place_in(file, it)}{it['text']} (fault {it['fault']})" for it in value["faults"]]
    warnings = [f"{place_in(file, it)}{'note' if it['kind'] in NOTES else 'warning'}: {it['text']}" for it in value["warnings"]]
    more = [more_faults(value)] if value["omitted"] else []
    is_faulty = value["answer"] == "FAULTS"
    if [line for line in lines if is_faulty or line.startswith(f"{file}:")] != [*faults, *more, *warnings]:
        yield "the faults or the warnings differ"


def more_faults(value):
    """Returns the words for the faults that are left out."""
    return f"... and {value['omitted']} more fault{'s' if value['omitted'] > 1 else ''}"


def place_in(file, it):
    """Returns the beginning of the line about a fault or a warning. A fault of a certificate has no place."""
    return "" if it["line"] is None else f"{file}:{it['line']}:{it['column']}: "


def differences_of_bounds(value):
    """Yields a line for each wrong bound. Pools have bounds exactly when the plan is safe, except that a pool that may reject jobs or has
    an unbounded queue needs none, and the shares in a bound add up to it."""
    for pool in value["pools"]:
        bound = pool["bound"]
        may_lack_it = value["answer"] != "SAFE" or "may_reject" in pool or pool["queue"] == UNBOUNDED
        if (bound is None and not may_lack_it) or (bound is not None and value["answer"] != "SAFE"):
            yield f"pool {pool['name']} has the bound {bound}"
        if bound is None:
            continue
        paid = sum(share["jobs"] for share in [*bound["clients"], *bound["threads"]])
        if paid != bound["total"]:
            yield f"pool {pool['name']}: the shares add up to {paid}, and the bound is {bound['total']}"
        if bound["kind"] == "standing" and pool["queue"] != UNBOUNDED and bound["total"] > pool["queue"]:
            yield f"pool {pool['name']}: {bound['total']} may wait in a queue of {pool['queue']}"
        threads = 1 if "core_timeout" in pool else pool["core"]
        if pool["blocked"]["most"] + pool["blocked"]["left"] != threads:
            yield f"pool {pool['name']}: {pool['blocked']}, of {threads} threads"


def differences_of_sizes(program, plan, value):
    """Yields a line if the sizes, or the reason why there are none, differ from those of `fit`."""
    if (sizes := value["sizes"]) is None:
        return
    fit = subprocess.run([program, "fit", plan], capture_output=True, text=True, timeout=SECONDS, check=False)
    if sizes["cause"] is not None:
        if fit.stdout != f"no fitting sizes found\n{sizes['cause']['text']}\n":
            yield f"the cause is {sizes['cause']!r}, and that of fit is {fit.stdout!r}"
        return
    fitted = re.findall(r"(?m)^pool (\w+): core (\d+)(?: \(now \d+\))?(?:, max (\w+).*)?, queue (\w+)", fit.stdout)
    timed = {pool["name"] for pool in value["plan"]["pools"] if "core_timeout" in pool}
    if [sizes_of(it, timed) for it in sizes["pools"]] != fitted:
        sizes_of_json = sizes["pools"]
        yield f"the sizes are {sizes_of_json}, and those of fit are {fitted}"


def sizes_of(pool, timed):
    """Returns the sizes of a pool of the JSON form as `fit` prints them: without the maximum if the queue is unbounded and core threads never
    time out."""
    is_useless = pool["queue"] == UNBOUNDED and pool["name"] not in timed
    return pool["name"], str(pool["core"]), "" if is_useless else str(pool["max"]), str(pool["queue"])


def differences_of_witness(program, plan, value):
    """Yields a line if an event of the witness is not possible, or if the events do not end as the witness says."""
    witness = value["witness"]
    if (witness is None) != (value["answer"] != "NOT SAFE"):
        yield f"the witness is {witness}"
    if witness is None:
        return
    given = plan.read_text(encoding="utf-8").rstrip("\n") + "\n%%\n" + "\n".join(witness["replay"]) + "\n"
    done = subprocess.run([program, "replay"], input=given, capture_output=True, text=True, timeout=SECONDS, check=False)
    *happened, last, _ = done.stdout.splitlines()
    ending = ": refused by " if witness["ending"]["kind"] == "refused" else ": stuck yes"
    if ending not in last or any("refused" in line or "not possible" in line for line in happened):
        yield f"replay ends in {last!r}"


def differences_of_page(template, line, page):
    """Yields a line if the page is not the template with the object of the JSON form."""
    before, after = template
    if page != before + line.rstrip("\n").replace("<", "\\u003c") + after:
        yield "the page is not the template with the object of --json"


def unescaped(text):
    """Returns the text of a part of a workflow command."""
    for escape, char in (("%3A", ":"), ("%2C", ","), ("%0D", "\r"), ("%0A", "\n"), ("%25", "%")):
        text = text.replace(escape, char)
    return text


def annotations_of(value):
    """Yields what each annotation must say, from the JSON form: the level, the line, the column, and the message or None."""
    for fault in value["faults"]:
        yield "error", fault["line"], fault["column"], fault["text"]
    if value["omitted"]:
        yield "error", None, None, more_faults(value)
    for warning in value["warnings"]:
        yield "notice" if warning["kind"] in NOTES else "warning", warning["line"], warning["column"], warning["text"]
    if value["answer"] == "SAFE":
        yield "notice", None, None, None
    if value["sizes"] is None:
        return
    level = "error" if value["answer"] == "NOT SAFE" else "warning"
    ending = value["witness"]["ending"] if value["witness"] else {"pool": None}
    at = next((pool for pool in value["plan"]["pools"] if pool["name"] == ending["pool"]), None)
    yield level, at and at["line"], at and at["column"], None
    if cause := value["sizes"]["cause"]:
        yield level, cause["line"], cause["column"], cause["text"]
    for pool in value["sizes"]["pools"]:
        for change in pool["changes"]:
            words = f"pool {pool['name']}: {change['key']} {change['now']} -> {change['value']}"
            yield level, change["line"], change["column"], words


def differences_of_annotations(value, github, sarif):
    """Yields a line if the annotations differ from the JSON form, or those of the two forms from each other."""
    found = [COMMAND.fullmatch(line) for line in github.splitlines()]
    if not all(found) or any(unescaped(each[2]) != value["file"] for each in found):
        yield f"a line is no workflow command for the file: {github!r}"
        return
    commands = [(each[1], each[3] and int(each[3]), each[4] and int(each[4]), unescaped(each[6])) for each in found]
    wanted = list(annotations_of(value))
    if len(commands) != len(wanted) or any(
        known is not None and known != mine for each, want in zip(commands, wanted) for mine, known in zip(each, want)
    ):
        yield f"the workflow commands are {commands}, and must be {wanted}"
    log = json.loads(sarif)
    (run,) = log["runs"]
    driver = run["tool"]["driver"]
    # what SARIF 2.1.0 requires of a log, a run, a tool and a rule
    if log["version"] != "2.1.0" or not driver["name"] or not all(rule["id"] for rule in driver["rules"]):
        yield f"the log lacks its version, or the name of its tool or of a rule: {sarif!r}"
    results = []
    for result in run["results"]:
        physical = result["locations"][0]["physicalLocation"]
        region = physical.get("region", {})
        if not result["message"]["text"] or any(region[key] < 1 for key in region):
            yield f"a result has no text, or a place below 1: {result}"
        level = "notice" if result["level"] == "note" else result["level"]
        results.append((level, region.get("startLine"), region.get("startColumn"), result["message"]["text"]))
        uri = physical["artifactLocation"]["uri"]
        if not URI.fullmatch(uri) or unquote(uri.removeprefix("./")) != value["file"]:
            yield f"the log is for {uri}"
    if results != commands:
        yield f"the log has the results {results}, and the workflow commands {commands}"
    rules = [rule["id"] for rule in driver["rules"]]
    if len(set(rules)) != len(rules) or set(rules) != {result["ruleId"] for result in run["results"]}:
        yield f"the log has the rules {rules}"


def differences_of_picture(dot, value, picture):
    """Yields a line if the graph cannot be drawn, or lacks a pool."""
    for pool in value["pools"]:
        if f'label="{pool["name"]}\\n' not in picture:
            yield f"the picture lacks pool {pool['name']}"
    if dot:
        drawn = subprocess.run([dot, "-Tsvg"], input=picture, capture_output=True, text=True, timeout=SECONDS, check=False)
        if drawn.returncode != 0 or drawn.stderr or "</svg>" not in drawn.stdout:
            yield f"dot says {drawn.stderr!r}"


if __name__ == "__main__":
    sys.exit(main())
