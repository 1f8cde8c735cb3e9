"""Proofs of a copy: some crates with those below them, in a folder of their own, where `rt ci` proves each from nothing."""
import contextlib
import os
import re
import shutil
import subprocess
import sys
import tempfile

from crates import below, copy_crates, folder_of, lines_of_crates, with_bench_program
from proved import VERSION_FILE, version_of_program

TOOLS = os.path.dirname(os.path.abspath(__file__))
# The suffixes of a program's name, as LLVM builds it and as Rattle's own compiler does.
BUILDS = ("", ".by-rattle")


@contextlib.contextmanager
def copied(crate, left_out):
    """Yields a folder with the crate and those below it, without these folders of each crate, and the number of its crates."""
    lines = with_bench_program(lines_of_crates(), crate)
    names = below(lines, [crate])
    with tempfile.TemporaryDirectory(prefix="sizing-proof-") as room:
        copy_crates(lines, names, room, left_out)
        write_version(room)
        yield room, len(names)


def write_version(room):
    """Writes the version and the commit into the sources of the program in a copy, if they are there."""
    path = f"{room}/{VERSION_FILE}"
    if os.path.isfile(path):
        with open(path, encoding="utf-8") as file:
            text = re.sub('"[^"]*";', f'"{version_of_program()}";', file.read())
        with open(path, "w", encoding="utf-8") as file:
            file.write(text)


def gate(room, times, *options):
    """Starts `rt ci` in a folder, with these options of measured.py. It writes its times to a file."""
    command = [sys.executable, f"{TOOLS}/measured.py", *options, times, "ci"]
    return subprocess.Popen(command, cwd=room, stdout=subprocess.PIPE, stderr=subprocess.STDOUT, text=True)


def take_programs(room, crate):
    """Copies the built programs of a crate into its folder out/."""
    to = f"{folder_of(crate)}/out"
    os.makedirs(to, exist_ok=True)
    for ending in BUILDS:
        made = f"{room}/crates/{crate}/out/{crate}{ending}"
        with contextlib.suppress(FileNotFoundError):
            os.remove(f"{to}/{crate}{ending}")
        if os.path.isfile(made):
            shutil.copy(made, f"{to}/{crate}{ending}")
