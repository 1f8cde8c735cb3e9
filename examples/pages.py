#!/usr/bin/env python3
"""Checks the quotations, paths and links in the pages of the repository.

A command of a page is a line `    $ sizing ..` of an indented block. The lines after it, up to the next command or the end of the
block, are its output in this folder; check.py runs each command. This module checks what needs no program:

- A quotation from an answer inside a sentence (QUOTED) must be in a stored answer of a plan that the same part of the page names.
- A path that a page names (NAMED) must exist, and so must the target heading of a link.

    python3 examples/pages.py     # prints the faults; status 1 if there are any
"""

import re
import sys
from pathlib import Path

HERE = Path(__file__).resolve().parent
TOP = HERE.parent
COMMAND = re.compile(r"( {4,})\$ (.*)")
CODE = re.compile(r"`([^`\n]+)`")
QUOTED = re.compile(
    r"standing \d|blocked \d|pool [a-z]\w*(:| standing,| blocked,)|queue \d+ \(now "
    r"|(client|class) [a-z]\w* action \d|[A-Z]\d \d+ above|changes \d"
)
FOLDERS = "bench|checks|crates|docs|examples|java|tools"
NAMED = re.compile(rf"((?:{FOLDERS}|\w+/(?:data|proofs|specs|src))(?:/[\w./*-]*)?|[A-Z]+\.md|Makefile|crates\.txt)$")
LINK = re.compile(r"\]\(([^)#\s]*)(?:#([\w-]+))?\)")
STORED = (".check", ".explain", ".fit", ".refute", ".replay", ".run")


def pages():
    return [TOP / "README.md", TOP / "CONTRIBUTING.md", *sorted((TOP / "docs").glob("*.md"))]


def commands_of(text):
    """Returns the commands of a page, each with its output."""
    found, indent = [], None
    for line in text.splitlines():
        if command := COMMAND.fullmatch(line):
            indent = command[1]
            found.append((command[2], []))
        elif indent and line and not line.startswith(indent):
            indent = None
        elif indent:
            found[-1][1].append(line[len(indent) :])
    return [(command, "\n".join(printed).strip("\n") + "\n") for command, printed in found]


def faults_of(page, text):
    """Yields the faults of a page, except those of its commands."""
    if lost := [quoted for part in parts_of(text) for quoted in unanswered(part)]:
        yield f"no stored answer of a plan that is named with it has {lost}"
    if lost := [path for code in CODE.findall(text) if (path := NAMED.match(code)) and not is_there(path[1])]:
        yield f"there is no {[path[1] for path in lost]}"
    if lost := [target for target in LINK.findall(text) if not leads_somewhere(page, *target)]:
        yield f"these links lead nowhere: {lost}"


def parts_of(text):
    """Returns the parts of a page, each from a heading to the next one, with the lines of a paragraph joined."""
    return [re.sub(r"\n(?=\S)", " ", part) for part in re.split(r"(?m)^#+ ", text)[1:]]


def unanswered(part):
    """Returns the quotations in a part of a page that are in no stored answer of a plan that it names."""
    names = re.findall(r"`(?:examples/)?([a-z0-9-]+)(?:\.\w+)?`", part)
    answers = "".join(path.read_text() for name in names for path in HERE.glob(f"{name}.*") if path.suffix in STORED)
    return [quoted for quoted in CODE.findall(part) if QUOTED.match(quoted) and quoted not in answers]


def is_there(path):
    """Returns whether a path names files or a folder, of the repository, of crates/ or docs/, or an example with several files."""
    tops = (TOP, TOP / "crates", TOP / "docs")
    return any(any(top.glob(pattern)) for top in tops for pattern in (path.rstrip("/"), f"{path}.*"))


def leads_somewhere(page, path, heading):
    """Returns whether a link of this page leads to a file, and to a heading of it if the link names one."""
    target = page.parent / path if path else page
    if path.startswith(("http:", "https:")) or not target.is_file():
        return path.startswith("http")
    if not heading:
        return True
    headings = re.findall(r"(?m)^#+ (.*)$", target.read_text(encoding="utf-8"))
    return heading in [re.sub(r"[^\w -]", "", line.lower()).replace(" ", "-") for line in headings]


def main():
    faults = [f"{page.name}: {fault}" for page in pages() for fault in faults_of(page, page.read_text(encoding="utf-8"))]
    print(*faults, f"{len(pages())} pages, {len(faults)} wrong", sep="\n")
    return 1 if faults else 0


if __name__ == "__main__":
    sys.exit(main())
