"""Reads rows: inputs, each with an expected answer written by hand. The program of the crate tests
also runs the rows of crates/tests/data, and only the built program of sizing those of checks/rows.

crates/tests/src/files.rt describes the form of a row. This module reads the same form, and takes the sample plans and
certificates from the sources of that crate."""
import functools
import os
import re
from typing import NamedTuple

from crates import ROOT

FOLDERS = (f"{ROOT}/crates/tests/data", f"{ROOT}/checks/rows")
SOURCES = f"{ROOT}/crates/tests/src/files"
SAMPLE = re.compile(r'const (\w+): &str = r#"(.*?)"#;', re.S)
TEMPLATE = re.compile(r'((?:"\w+"(?: \| )?)+) => (?:Some\()?(\w+)\)?,')
SPELLED = {b"n": b"\n", b"r": b"\r", b"t": b"\t", b"s": b" "}


class Case(NamedTuple):
    """An input of a row, with its expected answer."""

    file: str
    row: str
    columns: tuple
    kind: str
    given: bytes
    wanted: str


class Row(NamedTuple):
    name: str
    parts: list  # of pairs of a head and a text

    def part(self, head):
        return next((text for it, text in self.parts if it == head), None)


def files():
    """Returns the paths of the files of rows, by name."""
    return {name: f"{folder}/{name}" for folder in FOLDERS for name in sorted(os.listdir(folder))}


def rows_of(file):
    """Returns the rows of a file, in order."""
    with open(files()[file], encoding="utf-8", newline="") as data:
        texts = data.read().split("\n== ")[1:]
    rows = []
    for text in texts:
        parts = [part.partition("\n") for part in text.split("\n-- ")[1:]]
        rows.append(Row(text.partition("\n")[0], [(head, body.rstrip("\n")) for head, _, body in parts]))
    return rows


def cases_of(file, kinds):
    """Yields the inputs of these kinds in a file."""
    for row in rows_of(file):
        for head, text in row.parts:
            kind, _, place = head.partition(" at ")
            if kind not in kinds:
                continue
            if (answer := row.part("answer")) is not None:
                yield case(file, row, (), kind, place, text, answer)
            if (lines := row.part("lines")) is not None:
                pairs = [sides(line) for line in lines.split("\n")]
                asked = "".join(f"\n{left}" for left, _ in pairs)
                yield case(file, row, (), kind, place, text + asked, "\n".join(right for _, right in pairs))
            for line in (row.part("answers") or "").split("\n") if row.part("answers") else ():
                left, right = sides(line)
                yield case(file, row, tuple(left.split(" | ")), kind, place, text, right)


def case(file, row, columns, kind, place, text, answer):
    given = spelled(repeated(with_names(with_columns(text, columns), row)))
    wanted = repeated(with_names(answer, row)).replace("*", place, 1)
    return Case(file, row.name, columns, kind, given, spelled(wanted).decode("utf-8", "replace"))


def sides(line):
    """Returns the texts to the left and to the right of the last arrow of a line."""
    left, arrow, right = line.rpartition("=> ")
    if not arrow:
        left, right = line, ""
    return left.removesuffix(" "), right


def with_columns(text, columns):
    """Returns the text with the columns in place of `$1`, `$2` and so on."""
    return re.sub(r"\$([1-9])", lambda found: columns[int(found[1]) - 1] if int(found[1]) <= len(columns) else found[0], text)


def with_names(text, row):
    """Returns the text with each `$(NAME)` replaced by the text that the name stands for."""
    first, *pieces = text.split("$(")
    filled = [first]
    for piece in pieces:
        name, _, rest = piece.partition(")")
        filled += [named(name, row), rest]
    return "".join(filled)


def named(name, row):
    own = row.part(f"let {name}")
    if own is not None:
        return repeated(own)
    word, _, rest = name.partition(" ")
    words = rest.split(" ")
    if word in samples("certs"):
        text = samples("certs")[word].replace("\n", "")
        for old, new in zip(words[::2], words[1::2]):
            text = text.replace(old, new, 1)
        return text
    text = with_columns(samples("plans").get(word, "no such plan"), words)
    return text + constants("plans")["A_THIRD_POOL"] if word == "three_pools" else text


@functools.cache
def constants(module):
    """Returns the sample texts of a source, by the names of their constants."""
    with open(f"{SOURCES}/{module}.rt", encoding="utf-8") as source:
        return dict(SAMPLE.findall(source.read()))


@functools.cache
def samples(module):
    """Returns the sample texts of a source, by the names that rows use for them."""
    with open(f"{SOURCES}/{module}.rt", encoding="utf-8") as source:
        templates = TEMPLATE.findall(source.read())
    return {name: constants(module)[constant] for names, constant in templates for name in re.findall(r'"(\w+)"', names)}


def repeated(text):
    """Returns the text with each `^<64 TEXT^>` replaced by TEXT repeated 64 times, and each `^<to 64 BYTE^>` replaced by as many of
    this byte as complete 64 bytes."""
    whole, *pieces = text.split("^<")
    for piece in pieces:
        inner, _, rest = piece.partition("^>")
        is_to = inner.startswith("to ")
        count, _, piece = inner.removeprefix("to ").partition(" ")
        count = max(0, (int(count) if count.isdecimal() else 0) - (len(spelled(whole)) if is_to else 0))
        if "^#" in piece or "^+" in piece:
            whole += "".join(piece.replace("^#", str(at)).replace("^+", str(at + 1)) for at in range(count))
        else:
            whole += piece * count
        whole += rest
    return whole


def spelled(text):
    """Returns the bytes of the text, with each escape (`^n`, `^r`, `^t`, `^s` or `^xff`) replaced by its byte."""
    data = text.encode()
    return re.sub(rb"\^(?:([nrts])|x([0-9a-f]{2}))", lambda found: SPELLED[found[1]] if found[1] else bytes([int(found[2], 16)]), data)
