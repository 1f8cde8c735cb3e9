"""A reader of test rows, in the form that crates/tests/src/files.rt describes. It skips rows with sample plans."""

import re
from pathlib import Path

DATA = Path(__file__).resolve().parent.parent / "crates" / "tests" / "data"
REPEATED = re.compile(r"\^<(\d+) (.*?)\^>", re.DOTALL)
SPELLED = {"^n": "\n", "^r": "\r", "^t": "\t", "^s": " "}


def rows_of(file, kind):
    """Yields the name, the input of this kind and the expected answer of each row in a file. Skips rows with a sample plan."""
    for text in re.split(r"(?m)^== ", (DATA / file).read_text())[1:]:
        name = text.partition("\n")[0]
        parts = dict(part_of(part) for part in re.split(r"(?m)^-- ", text)[1:])
        lets = {f"$({head[4:]})": part for head, part in parts.items() if head.startswith("let ")}
        if kind not in parts:
            continue
        for values, answer in answers_of(parts):
            given = parts[kind]
            for number, value in enumerate(values, 1):
                given = given.replace(f"${number}", value)
            given, answer = (spelled(one, lets) for one in (given, answer))
            if "$(" not in given + answer:
                yield name, given, answer


def part_of(text):
    head, _, part = text.partition("\n")
    return head, part.rstrip("\n")


def answers_of(parts):
    if "answer" in parts:
        return [([], parts["answer"])]
    pairs = (line.partition("=> ") for line in parts["answers"].split("\n"))
    return [(left.removesuffix(" ").split(" | "), answer) for left, _, answer in pairs]


def spelled(text, lets):
    for name, part in lets.items():
        text = text.replace(name, part)
    while found := REPEATED.search(text):
        times, one = int(found[1]), found[2]
        text = text[:found.start()] + "".join(one.replace("^#", str(n)).replace("^+", str(n + 1)) for n in range(times)) + text[found.end():]
    for name, byte in SPELLED.items():
        text = text.replace(name, byte)
    return text
