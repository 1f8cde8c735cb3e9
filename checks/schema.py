#!/usr/bin/env python3
"""Checks share/plan.schema.json against plans and against the program.

    python3 checks/schema.py

- By the schema, each plan of examples/ and each right plan of mistakes/ is valid.
- The schema finds exactly the mistakes that SCHEMA lists. The mistakes in SYNTAX are not TOML, so an editor reports them before it
  uses the schema. For each other mistake, BEYOND has the reason why a schema cannot find it.
- On plans at the boundary of each rule, the schema and `sizing ask` agree, except for the plans in DIFFERENT.

If the Python package jsonschema is installed, it checks the same. The plans at the boundaries need the program
crates/sizing/out/sizing, or the one that the environment variable SIZING names. Without the program they are skipped.

Exit status: 0 if all of this holds, 1 if not.
"""

import json
import os
import subprocess
import sys
import tomllib
from concurrent.futures import ThreadPoolExecutor
from pathlib import Path

sys.dont_write_bytecode = True

from asking import built_program
from json_schema import errors

HERE = Path(__file__).resolve().parent
ROOT = HERE.parent
SCHEMA_FILE = ROOT / "share" / "plan.schema.json"

SOUND = ["sound", "crlf_and_tab"]

# The mistakes that the schema finds, each with the path of its first error.
SCHEMA = {
    "plural_table": "",
    "class_called_job": "",
    "misspelled_key": "pool.1",
    "java_key": "pool.0",
    "spring_key": "pool.0",
    "spring_names": "pool.0",
    "timeout_in_seconds": "pool.0.core_timeout",
    "missing_key": "pool.1",
    "count_missing": "client.0",
    "quoted_number": "pool.1.core",
    "body_is_text": "class.1.body",
    "name_with_dash": "pool.1.name",
    "size_zero": "pool.0.queue",
    "max_value_queue": "pool.1.queue",
    "unlimited_queue": "pool.1.queue",
    "max_without_a_bound": "pool.1.max",
    "work_without_number": "class.1.body.0",
    "two_spaces": "class.1.body.0",
    "get_with_timeout": "client.0.body.1",
    "execute_for_submit": "client.0.body.0",
    # the second mistake, a get of a slot that is not open, cannot be found by a schema
    "two_slips": "client.0.count",
}

# The mistakes with which a plan is not TOML.
SYNTAX = [
    "unclosed_quote",
    "slash_comment",
    "smart_quotes",
    "one_bracket",
    "yes_for_true",
    "capital_true",
    "unquoted_unbounded",
    "repeated_key",
    "utf16",
    "a_bundle_for_a_plan",
]

# The mistakes that a schema of draft-07 cannot find, each with the reason.
COMPARES = "it would have to compare two numbers of the text"
LOOKS_UP = "it would have to look a name up elsewhere in the text"
FOLLOWS = "it would have to follow a slot through the actions of a body"
VALID = "the plan is valid, and `sizing ask` only warns of it"
BEYOND = {
    "core_above_max": COMPARES,
    "unknown_pool": LOOKS_UP,
    "unknown_class": LOOKS_UP,
    "got_twice": FOLLOWS,
    "repeat_forgotten": VALID,
    "client_forgotten": VALID,
    "class_nobody_submits": VALID,
    "pool_without_jobs": VALID,
    "queue_may_grow": VALID,
    "last_thread_waits": VALID,
    "empty_file": VALID,
}

# A valid plan. A plan at a boundary differs from it in one value.
BASE = {
    "pool": {"name": '"p"', "core": "1", "max": "1", "queue": "2"},
    "class": {"name": '"a"', "pool": '"p"', "body": '["work 1"]'},
    "client": {"name": '"c"', "count": "1", "repeat": "true", "body": '["submit a as x", "get x"]'},
}
NUMBERS = ["0", "1", "1000000", "1000001", "-1", "1.0", "1.5", '"1"', "1_000", "0x10", "true"]
NAMES = ['"a"', '"A"', '""', '"_a"', '"a_"', f'"{"a" * 32}"', f'"{"a" * 33}"', '"a-b"', '"é"', '"a\\n"', "1"]
WORK = '"work 1"'
BODIES = [
    "[]",
    '["work 0"]',
    '["work 1000000"]',
    '["work 1000001"]',
    '["work 01"]',
    '["work 1 "]',
    '[" work 1"]',
    '["Work 1"]',
    '["work 1\\n"]',
    '["work ١"]',
    '["submit a"]',
    '["submit a as x"]',
    '["submit A as x"]',
    '["submit a  as x"]',
    '["get"]',
    "[1]",
    '"work 1"',
    f"[{', '.join([WORK] * 256)}]",
    f"[{', '.join([WORK] * 257)}]",
]

# The two kinds of changes that concern a queue of 0: may_reject beside a queue of 0, and the queue beside may_reject = true.
SYNCHRONOUS, REJECTING = "may_reject beside queue 0", "queue beside may_reject"
# The kinds of changes that concern an unbounded queue: the maximum beside it, without and with core_timeout.
UNBOUNDED, TIMED = "max beside queue unbounded", "max beside queue unbounded and core_timeout"
TEXTS = ['"unbounded"', '"Unbounded"', '"unbounded "', '"unbounded\\n"', '""', '["unbounded"]']

# The boundaries at which the schema accepts a plan that has a fault for `sizing ask`, each with the reason.
DIFFERENT = {
    ("pool", "core", "1.0"): "1.0 is an integer in JSON Schema, and not in TOML",
    ("pool", "max", "1.0"): "1.0 is an integer in JSON Schema, and not in TOML",
    ("pool", "queue", "1.0"): "1.0 is an integer in JSON Schema, and not in TOML",
    ("pool", REJECTING, "1.0"): "1.0 is an integer in JSON Schema, and not in TOML",
    ("pool", UNBOUNDED, "1.0"): "1.0 is an integer in JSON Schema, and not in TOML",
    ("pool", TIMED, "1.0"): "1.0 is an integer in JSON Schema, and not in TOML",
    ("client", "count", "1.0"): "1.0 is an integer in JSON Schema, and not in TOML",
}


def read(path):
    """Returns the plan of a file, or None if the file is not TOML."""
    try:
        return tomllib.loads(path.read_bytes().decode())
    except (tomllib.TOMLDecodeError, UnicodeDecodeError):
        return None


def first_error(schema, plan):
    """Returns the path of the first error, such as pool.0.core, or None if the plan is valid."""
    found = next(errors(schema, plan), None)
    return None if found is None else ".".join(map(str, found[0]))


def files_differ(schema):
    """Yields a line for each file for which the result of the schema is wrong, and for each file that no list names."""
    sound = [*sorted((ROOT / "examples").glob("*.toml")), *(HERE / "mistakes" / f"{name}.toml" for name in SOUND)]
    for path in sound:
        plan = read(path)
        if plan is None or first_error(schema, plan) is not None:
            yield f"{path.name}: {list(errors(schema, plan or {}))}"
    for path in sorted((HERE / "mistakes").glob("*.toml")):
        name, plan = path.stem, read(path)
        lists = [name in names for names in (SOUND, SCHEMA, SYNTAX, BEYOND)]
        if sum(lists) != 1:
            yield f"{name}: {sum(lists)} lists name it"
        elif (plan is None) != (name in SYNTAX):
            yield f"{name}: {'no TOML' if plan is None else 'TOML'}"
        elif plan is not None and (found := first_error(schema, plan)) != SCHEMA.get(name):
            yield f"{name}: the first error is at {found}, and not at {SCHEMA.get(name)}"


def boundaries():
    """Yields the plans at the boundaries of each rule: the table, the key, the value of the key, and the text of the plan."""
    sizes = (("pool", "core"), ("pool", "max"), ("pool", "queue"), ("client", "count"))
    changes = [(table, key, value) for table, key in sizes for value in NUMBERS]
    changes += [("pool", key, value) for key in ("core", "max", "queue", REJECTING, UNBOUNDED, TIMED) for value in TEXTS]
    changes += [("pool", key, value) for key in (UNBOUNDED, TIMED) for value in [*NUMBERS, "268435455", None]]
    changes += [(table, "name", value) for table in BASE for value in NAMES]
    changes += [("client", "body", value) for value in BODIES]
    changes += [("pool", "prestart", "true"), ("pool", "prestart", "1"), ("pool", "note", '"x"'), ("client", "repeat", '"yes"')]
    for flag in ("core_timeout", "may_reject"):
        changes += [("pool", flag, value) for value in ("true", "false", "1", '"true"')] + [("class", flag, "true")]
    changes += [("pool", SYNCHRONOUS, value) for value in ("true", "false", None, "0", '"true"')] + [("pool", REJECTING, value) for value in NUMBERS]
    changes += [(table, key, None) for table, keys in BASE.items() for key in keys]
    for table, key, value in changes:
        plan = {name: dict(keys) for name, keys in BASE.items()}
        if key == SYNCHRONOUS:
            plan[table] |= {"queue": "0"} | ({} if value is None else {"may_reject": value})
        elif key == REJECTING:
            plan[table] |= {"queue": value, "may_reject": "true"}
        elif key in (UNBOUNDED, TIMED):
            plan[table] = {name: text for name, text in plan[table].items() if name != "max"} | {"queue": '"unbounded"'}
            plan[table] |= {"core_timeout": "true"} if key == TIMED else {}
            plan[table] |= {} if value is None else {"max": value}
        elif value is None:
            del plan[table][key]
        else:
            plan[table][key] = value
        # another value changes with this one, so that nothing else is wrong
        if value in NUMBERS and (table, key) == ("pool", "core"):
            plan["pool"]["max"] = value
        if value and (table, key) == ("pool", "name"):
            plan["class"]["pool"] = value
        if value and (table, key) == ("class", "name") and value.startswith('"'):
            plan["client"]["body"] = f'["submit {value[1:-1]} as x", "get x"]'
        text = "".join(f"[[{name}]]\n" + "".join(f"{key} = {it}\n" for key, it in keys.items()) for name, keys in plan.items())
        yield table, key, value, text


def has_faults(program, text):
    """Returns whether `sizing ask` reports faults of a plan."""
    ran = subprocess.run([program, "ask", "--json"], input=text.encode(), capture_output=True, check=False)
    return json.loads(ran.stdout)["answer"] == "FAULTS"


def boundaries_differ(schema, program):
    """Yields a line for each boundary at which the schema and the program differ although DIFFERENT has no reason for it, or agree
    although DIFFERENT has one."""
    cases = list(boundaries())
    with ThreadPoolExecutor(os.cpu_count()) as pool:
        faulty = list(pool.map(lambda case: has_faults(program, case[3]), cases))
    for (table, key, value, text), refused in zip(cases, faulty):
        invalid = first_error(schema, tomllib.loads(text)) is not None
        if (invalid != refused) != ((table, key, value) in DIFFERENT):
            yield f"{table} {key} {str(value)[:60]}: the schema {'refuses' if invalid else 'accepts'} it, the program {'refuses' if refused else 'accepts'} it"


def validators_differ(schema):
    """Yields a line for each plan for which the package jsonschema has another result, and a line if it finds the schema invalid."""
    try:
        from jsonschema import Draft7Validator
    except ImportError:
        return
    Draft7Validator.check_schema(schema)
    validator = Draft7Validator(schema)
    texts = [path.read_bytes() for path in [*(ROOT / "examples").glob("*.toml"), *(HERE / "mistakes").glob("*.toml")]]
    texts += [text.encode() for *_, text in boundaries()]
    for text in texts:
        try:
            plan = tomllib.loads(text.decode())
        except (tomllib.TOMLDecodeError, UnicodeDecodeError):
            continue
        # the package jsonschema matches a pattern with Python's `$`, which allows a newline after the text
        if validator.is_valid(plan) != (first_error(schema, plan) is None) and b"\\n" not in text:
            yield f"the package jsonschema differs: {text.decode()[:200]}"


def main():
    schema = json.loads(SCHEMA_FILE.read_text(encoding="utf-8"))
    wrong = [*files_differ(schema), *validators_differ(schema)]
    program = built_program()
    if program:
        wrong += boundaries_differ(schema, program)
    print(*wrong, sep="\n", end="\n" if wrong else "")
    plans = len(list((ROOT / "examples").glob("*.toml")))
    cases = f"{sum(1 for _ in boundaries())} boundaries" if program else "no boundaries, since there is no program"
    found = f"{len(SCHEMA)} mistakes found by the schema, {len(SYNTAX)} that are no TOML, {len(BEYOND)} beyond a schema"
    print(f"{plans} examples, {found}, {cases}: {len(wrong)} wrong")
    return 1 if wrong else 0


if __name__ == "__main__":
    sys.exit(main())
