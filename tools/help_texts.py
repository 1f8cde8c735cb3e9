"""The command line of a program, read from its help texts."""
import re
import subprocess
import sys
from typing import NamedTuple


VALUES = re.compile(r" *\[possible values: ([^]]*)\]")


class Option(NamedTuple):
    """An option, as --workers <N>; its value has no name if it takes none."""

    short: str
    long: str
    value: str
    values: list
    about: str

    def names(self):
        return [name for name in (self.short, self.long) if name]


class Command(NamedTuple):
    """A command with its files, in order, and its options."""

    name: str
    about: str
    files: list
    options: list


def help_of(program, *words):
    """Returns what `--help` prints; `clap` prints it on standard error."""
    ran = subprocess.run([program, *words, "--help"], capture_output=True, text=True, check=False)
    if not ran.stderr.strip():
        sys.exit(f"{program} {' '.join(words)} --help prints nothing")
    return ran.stderr.rstrip("\n")


def version_of(program):
    """Returns the first line that `--version` prints, such as `sizing 0.9.0 (23e7679e8a41)`."""
    return subprocess.run([program, "--version"], capture_output=True, text=True, check=False).stdout.split("\n")[0]


def about_of(text):
    """Returns the description at the head of a help text, on one line."""
    return " ".join(text.split("\n\n")[0].split())


def commands_of(text):
    """Returns the names of the commands that the program's help lists."""
    listed = re.search(r"(?m)^Commands:\n((?:  .*\n)+)", text)
    names = re.findall(r"(?m)^  ([a-z]+) ", listed[1]) if listed else []
    return [name for name in names if name != "help"]


def options_of(text):
    """Returns the options that a help text lists."""
    listed = re.search(r"(?m)^Options:\n((?:  .*(?:\n|\Z))+)", text)
    lines = listed[1].splitlines() if listed else []
    joined = re.sub(r"\n {11,}(?=[^ -])", " ", "\n".join(lines))
    form = re.compile(r"(?m)^ +(?:(-\w))?(?:, )?(?:(--[a-z-]+))?(?: <(\w+)>)?(?:  +(.*))?$")
    return [
        Option(short or "", long or "", value or "", values_of(about or ""), VALUES.sub("", about or "").strip())
        for short, long, value, about in form.findall(joined)
        if short or long
    ]


def values_of(about):
    """Returns the possible values that the help of an option lists."""
    listed = VALUES.search(about)
    return listed[1].split(", ") if listed else []


def files_of(text):
    """Returns the names of the files that the first line of the usage has, in order, as PLAN and CERTIFICATE."""
    usage = text.partition("Usage:")[2].split("\n")[0]
    usage = re.sub(r"\[-[^]]*\]|--[a-z-]+ [A-Z]+", "", usage)
    return re.findall(r"\[?\b([A-Z]{2,})\b\]?", usage)


def command_of(program, name):
    """Returns a command, from its help."""
    text = help_of(program, name)
    return Command(name, about_of(text), files_of(text), options_of(text))
