#!/usr/bin/env python3
"""Runs the built program with unusable streams or arguments, and compares what it reports.

`main` has no contract. This check tests what `main` does with standard input, standard output and the command line. README.md
describes each case.

The program is crates/sizing/out/sizing, or the one that the environment variable SIZING names.

Exit status: 0 if all cases end as they should, 1 if one does not, 2 if there is no program.
"""

import os
import re
import subprocess
import sys
import tempfile
from pathlib import Path

HERE = Path(__file__).resolve().parent
BUILT = HERE.parent / "crates" / "sizing" / "out" / "sizing"
EXAMPLES = HERE.parent / "examples"
# The arguments of each command, and the files of its input. If there are two, a line `%%` separates them.
COMMANDS = [
    (["replay"], ["two-clients.toml", "two-clients.events"]),
    (["check"], ["two-clients.toml", "two-clients.json"]),
    (["explain"], ["two-clients.toml", "two-clients.json"]),
    (["certify"], ["two-clients.toml"]),
    (["fit"], ["two-clients.toml"]),
    (["fit", "--bundle"], ["two-clients.toml"]),
    (["refute"], ["two-clients.toml"]),
    (["refute", "--bundle"], ["two-clients.toml"]),
    (["ask"], ["two-clients-queue-of-two.toml"]),
    (["ask", "--dot"], ["two-clients.toml"]),
    (["conform"], ["recordings/web-and-database.toml", "recordings/web-and-database.recording"]),
    (["learn"], ["recordings/web-and-database.recording"]),
    (["run", "--rounds", "3"], ["two-clients-queue-of-two.toml", "two-clients-queue-of-two.json"]),
]
BAD_ROUNDS = [[], ["--rounds"], *(["--rounds", word] for word in ("0", "1000001", "-1", "three", "18446744073709551617"))]
SECONDS = 20

NOT_WRITTEN = (3, b"", b"fault 61 WriteFailed\n")
NOT_READ = (3, b"", b"fault 60 ReadFailed\n")
TWICE = (2, b"", b"`-` names standard input for both texts: name a file for one of them\n")
NO_COMMAND = (
    2, b"",
    b"no command\n\nUsage: sizing <COMMAND>\n\nAsk about a plan with `sizing ask PLAN`. `sizing --help` lists the commands\n",
)
NOT_UTF_8 = (2, b"", b"the arguments must be UTF-8\n")


def main():
    program = Path(os.environ.get("SIZING") or BUILT).resolve()
    if not os.access(program, os.X_OK) or not program.is_file():
        print(f"there is no program at {program}: run `make program` at the top of the repository", file=sys.stderr)
        return 2
    with tempfile.TemporaryDirectory() as folder:
        results = [shown(*case) for case in cases(program, Path(folder))]
    wrong = results.count(False)
    print(f"{len(results) - wrong} ok, {wrong} wrong")
    return 1 if wrong else 0


def cases(program, folder):
    """Yields the name, the run and the expected end of each case. The end is None for help and invalid arguments."""
    for command, parts in COMMANDS:
        title = " ".join(command)
        given = folder / command[0]
        given.write_bytes(b"%%\n".join((EXAMPLES / part).read_bytes() for part in parts))
        words = [program, *command]
        yield f"{title}, a full device as standard output", lambda: full_device(words, given), NOT_WRITTEN
        yield f"{title}, a closed standard output", lambda: ends(words, given, close=1), NOT_WRITTEN
        yield f"{title}, a pipe that no process reads", lambda: broken_pipe(words, given), NOT_WRITTEN
        yield f"{title}, a directory as standard input", lambda: ends(words, folder), NOT_READ
        yield f"{title}, a closed standard input", lambda: ends(words, given, close=0), NOT_READ
        yield f"{title}, words too many", lambda: ends([*words, "a", "b", "c"], given), None
        yield from cases_of_files(title, words, parts, folder)
        yield f"help of {title}", lambda: ends([*words, "--help"], given), None
    for options in BAD_ROUNDS:
        yield " ".join(["run", *options]), lambda: ends([program, "run", *options], folder / "run"), None
    yield from cases_of_certificates(program, folder)
    yield from cases_of_misplaced_files(program, folder)
    given = folder / "check"
    yield "no command", lambda: ends([program], given), NO_COMMAND
    yield "the version", lambda: version_of(program, given), (0, True, b"")
    directory = [program, "ask", "--certificate", folder, EXAMPLES / "two-clients.toml"]
    complaint = b"%s is a directory: --certificate needs the name of a file\n" % bytes(folder)
    yield "a directory as the certificate's file", lambda: ends(directory, given), (2, b"", complaint)
    yield "a bad word", lambda: ends([program, "chek"], given), None
    yield "help", lambda: ends([program, "--help"], given), None
    yield "words that are not UTF-8", lambda: ends([program, b"check\xff"], given), NOT_UTF_8


def version_of(program, given):
    """Runs `--version`. Returns the status, whether the output is a version with a commit, and standard error."""
    status, printed, complained = ends([program, "--version"], given)
    return status, bool(re.fullmatch(rb"sizing \d+\.\d+\.\d+ \([0-9a-f]{12}\)\n", printed)), complained


def cases_of_files(title, words, parts, folder):
    """Yields the cases in which a named file cannot be read, or `-` names standard input for both files."""
    files = [EXAMPLES / part for part in parts]
    for number, part in enumerate(parts):
        missing = folder / "none" / part
        for what, path, why in (("a directory", folder, b"it is a directory"), (f"no file {part}", missing, b"there is no such file")):
            named = [*files[:number], path, *files[number + 1 :]]
            expected = (3, b"", b"fault 60 ReadFailed at %s: %s\n" % (bytes(path), why))
            yield f"{title}, {what} as a file", lambda named=named: ends([*words, *named], folder), expected
    if len(parts) == 2:
        yield f"{title}, standard input as both files", lambda: ends([*words, "-", "-"], files[0]), TWICE


def cases_of_misplaced_files(program, folder):
    """Yields the cases in which a file is missing, is in the place of another one, or has carriage returns."""
    plan, certificate, events = (EXAMPLES / f"two-clients.{ending}" for ending in ("toml", "json", "events"))
    recording = EXAMPLES / "recordings/web-and-database.recording"
    bundle, returns, bad_events = (folder / name for name in ("bundle", "returns", "bad-events"))
    other = EXAMPLES / "cross-pools.json"
    bad_plan, bad_line = folder / "bad-plan", folder / "bad-line"
    bad_plan.write_bytes(plan.read_bytes().replace(b"core = 1", b"core = 0"))
    bad_line.write_bytes(b"client 0\nclient  1\n")
    text = b"%%\n".join(file.read_bytes() for file in (plan, certificate))
    bundle.write_bytes(text)
    returns.write_bytes(text.replace(b"\n", b"\r\n"))
    bad_events.write_bytes(events.read_bytes().replace(b"\n", b"\r\n"))
    a_bundle = b"%s is a bundle: a line `%%%%` separates its two texts; pass each text as a file of its own\n"
    alone = b"%s has no line `%%%%`: name a second file with the certificate\n"
    with_return = b"the line `%%%%` of %s ends with a carriage return: convert the file from CRLF to newlines alone\n"
    with_returns = b"the lines of %s end with a carriage return: convert the file from CRLF to newlines alone\n"
    like_a_certificate = b"%s looks like a certificate: name a plan in its place\n"
    like_a_recording = b"%s looks like a recording: name a plan in its place\n"
    plan_for_a_certificate = b"%s looks like a plan: name a certificate in its place\n"
    plan_for_events = b"%s looks like a plan: name events in its place\n"
    certificate_for_events = b"%s looks like a certificate: name events in its place\n"
    no_recording = b"%s is not a recording: the first line of a recording is `recording 1`\n"
    faulty_plan = b"`sizing ask %s` prints each fault of this plan with its line, and what would be right\n"
    no_certificate = b"%s is not a certificate for this plan: `sizing ask --certificate %s PLAN` writes one if the plan is safe\n"
    malformed = b"each line of %s must be `client N`, `job N`, `take POOL`, `retire POOL` or `stuck N N ..`, with single spaces\n"
    no_plan, no_line, no_separator = b"fault 1 NotToml\n", b"fault 53 BadRecording at line 1: it is not a valid line\n", b"fault 50 NoSeparator\n"
    bad_core = b"fault 8 BadNumber at pool 0\n"
    no_json, no_event = b"fault 30 NotJson\n", b"fault 51 BadEvent at line 1\n"
    for words, printed, hint, file in (
        (["check", plan], no_separator, alone, plan),
        (["check", returns], no_separator, with_return, returns),
        (["check", bundle, certificate], b"", a_bundle, bundle),
        (["check", plan, bundle], b"", a_bundle, bundle),
        (["check", certificate, plan], no_plan, like_a_certificate, certificate),
        (["certify", certificate], no_plan, like_a_certificate, certificate),
        (["fit", recording], no_plan, like_a_recording, recording),
        (["conform", recording, plan], no_plan, like_a_recording, recording),
        (["conform", plan, plan], no_line, no_recording, plan),
        (["conform", plan, bundle], no_line, no_recording, bundle),
        (["conform", bundle, recording], b"", a_bundle, bundle),
        (["learn", plan], no_line, no_recording, plan),
        (["check", plan, plan], no_json, plan_for_a_certificate, plan),
        (["explain", plan, plan], no_json, plan_for_a_certificate, plan),
        (["run", "--rounds", "3", plan, plan], no_json, plan_for_a_certificate, plan),
        (["replay", plan, plan], no_event, plan_for_events, plan),
        (["replay", plan, certificate], no_event, certificate_for_events, certificate),
        (["replay", plan, bad_events], no_event, with_returns, bad_events),
        (["replay", "-", bad_events], no_event, with_returns, bad_events),
        (["check", bad_plan, certificate], bad_core, faulty_plan, bad_plan),
        (["fit", bad_plan], bad_core, faulty_plan, bad_plan),
        (["replay", bad_plan, bad_line], bad_core, faulty_plan, bad_plan),
        (["conform", bad_plan, recording], bad_core, faulty_plan, bad_plan),
        (["check", plan, other], b"fault 31 WrongShape\n", no_certificate, other),
        (["explain", plan, other], b"fault 31 WrongShape\n", no_certificate, other),
        (["replay", plan, bad_line], b"fault 51 BadEvent at line 2\n", malformed, bad_line),
    ):
        title = " ".join([words[0], *(Path(word).name for word in words[1:])])
        yield title, lambda words=words: ends([program, *words], plan), (2, printed, hint.replace(b"%s", bytes(file)).replace(b"%%", b"%"))


def cases_of_certificates(program, folder):
    """Yields the cases of `ask --certificate` on a file with some content. The expected end includes the content of the file after it."""
    plan = (EXAMPLES / "two-clients-queue-of-two.toml").read_bytes()
    occupied = b"%s exists and is not a certificate, so it was not changed: name another file for --certificate\n"
    for what, before, is_kept in (
        ("its own plan", plan, True), ("a recording", b"recording 1\n", True), ("a blank", b" {}", True),
        ("another JSON object", b'{"name": "p", "version": 1, "pools": []}\n', True),
        ("nothing", None, False), ("an empty file", b"", False),
        ("an older certificate", b'{"version": 1, "pools": [], "ranks": {"levels": [], "pools": [], "reach": []}}\n', False),
    ):
        path = folder / f"certificate-{what.replace(' ', '-')}"
        if before is not None:
            path.write_bytes(before)
        given = folder / "asked"
        given.write_bytes(plan)
        wanted = (2, b"", occupied % bytes(path), before) if is_kept else (0, b"SAFE", b"", b'{"pools"')
        yield f"ask, {what} as the certificate's file", lambda path=path: ask_for(program, given, path), wanted
    for what, path in (("a missing directory", folder / "none" / "certificate"), ("a file in place of a directory", given / "certificate")):
        complaint = b"fault 61 WriteFailed at %s: there is no such directory\n" % bytes(path)
        yield f"ask, {what} for the certificate", lambda path=path: answered(program, given, path), (3, True, complaint)


def ask_for(program, given, path):
    """Runs `ask --certificate`. Returns the status, the start of standard output, standard error, and the content of the file (only the
    start of it if the certificate was written)."""
    status, printed, complained = ends([program, "ask", "--certificate", path], given)
    text = path.read_bytes()
    return status, printed[:4], complained, text[:8] if status == 0 else text


def answered(program, given, path):
    """Runs `ask --certificate`. Returns the status, whether standard output is the whole answer, and standard error."""
    status, printed, complained = ends([program, "ask", "--certificate", path], given)
    return status, printed == ends([program, "ask"], given)[1], complained


def shown(name, run, wanted):
    """Runs a case, prints how it ends, and returns whether the end is right."""
    try:
        ended = run()
    except subprocess.TimeoutExpired:
        print(f"{name}: it does not end within {SECONDS} seconds")
        return False
    is_right = is_usage_error(ended) if wanted is None else ended == wanted
    print(f"{name}: {'ok' if is_right else ended}")
    return is_right


def is_usage_error(ended):
    """Returns whether the status is 2, standard output is empty, and standard error has an error message or the usage."""
    status, printed, complained = ended
    has_message = b"sizing" in complained or complained.startswith(b"error: ")
    return status == 2 and printed == b"" and has_message and complained.endswith(b"\n")


def ends(words, given, stdout=subprocess.PIPE, close=None):
    """Returns the status, standard output and standard error of a run."""
    def prepare():
        if close is not None:
            os.close(close)
    file = os.open(given, os.O_RDONLY)
    try:
        done = subprocess.run(words, stdin=file, stdout=stdout, stderr=subprocess.PIPE, preexec_fn=prepare,
                              timeout=SECONDS)
    finally:
        os.close(file)
    return done.returncode, done.stdout or b"", done.stderr


def full_device(words, given):
    with open("/dev/full", "wb") as full:
        return ends(words, given, stdout=full)


def broken_pipe(words, given):
    reading, writing = os.pipe()
    os.close(reading)
    try:
        return ends(words, given, stdout=writing)
    finally:
        os.close(writing)


if __name__ == "__main__":
    sys.exit(main())
