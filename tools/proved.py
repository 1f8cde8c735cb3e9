"""The record of what the prover said about a built program: a text beside it, from which a release takes its file PROVED.

The record has checksums of the sources and of the program, so that a program which was not built from these sources is found.
Each checksum of several files is that of the lines `CHECKSUM  PATH` in the order of the paths, as `sha256sum PATH.. | sha256sum`
prints it."""
import hashlib
import os
import re
import subprocess

from crates import ROOT, below, folder_of, lines_of_crates, with_bench_program
from sources import functions_of

# The folders of a crate that are not part of the proof of its program.
LEFT_OUT = {"out", "mutants", "must-fail"}
# The file of the version and the commit, which differs in the copy that is proved. It is in no checksum.
VERSION_FILE = "crates/sizing/src/version.rt"


def record_of(crate):
    """Returns the path of the record of a crate's program."""
    return f"{folder_of(crate)}/out/PROVED"


def write_record(crate, command, result, root=ROOT):
    """Writes the record of a crate's program, which a command has proved and built from the sources at `root`."""
    names = crates_of(crate)
    facts = {
        "command": command,
        "result": result,
        "version": version_in(root),
        "crates": len(names),
        "functions": sum(len(functions_of(read(root, path))) for path in sources(root, names) if path.endswith(".rt")),
        "kit": subprocess.run(["rt", "version"], capture_output=True, text=True, check=True).stdout.strip(),
        "definitions": sum_of(root, [path for path in sources(root, names) if "/specs/" in path]),
        "sources": sum_of(root, sources(root, names)),
        "program": sum_of_file(f"{folder_of(crate)}/out/{crate}"),
    }
    with open(record_of(crate), "w", encoding="utf-8") as file:
        file.writelines(f"{name}: {value}\n" for name, value in facts.items())


def read_record(crate):
    """Returns the facts of the record of a crate's program, by name; none if there is no record."""
    try:
        with open(record_of(crate), encoding="utf-8") as file:
            return dict(line.rstrip("\n").split(": ", 1) for line in file)
    except FileNotFoundError:
        return {}


def faults_of(crate, facts, command):
    """Yields why this record does not show that the command has proved the crate's program from the current sources."""
    program = f"{folder_of(crate)}/out/{crate}"
    if not facts or not os.path.isfile(program):
        yield f"no program was built with a record: run `{command}`"
        return
    if facts["command"] != command:
        yield f"the program was built by `{facts['command']}`: run `{command}`"
    if facts["program"] != sum_of_file(program):
        yield f"the program is not that of its record: run `{command}`"
    if facts["sources"] != sum_of(ROOT, sources(ROOT, crates_of(crate))):
        yield f"the sources have changed since the program was built: run `{command}`"
    if facts["version"] != version_of_program():
        yield f"the program was built as {facts['version']}, and this is {version_of_program()}: run `{command}`"


def version_in(root):
    """Returns the version that the program prints which is built from the sources at `root`, or from a copy of this tree."""
    with open(f"{root}/{VERSION_FILE}", encoding="utf-8") as file:
        written = re.search('"(.*)";', file.read())[1]
    return version_of_program() if root == ROOT else written


def version_of_program():
    """Returns the version that a program prints which is built from this tree now, with the commit."""
    return subprocess.run(["tools/version", "--program"], cwd=ROOT, capture_output=True, text=True, check=True).stdout.strip()


def crates_of(crate):
    """Returns the names of a crate and of all crates of this repository below it."""
    return below(with_bench_program(lines_of_crates(), crate), [crate])


def sources(root, names):
    """Returns the paths from `root` of the files from which these crates are proved, in order."""
    found = []
    for name in names:
        for folder, folders, files in os.walk(f"{root}/crates/{name}"):
            folders[:] = set(folders) - LEFT_OUT
            found += (os.path.relpath(f"{folder}/{file}", root) for file in files)
    return sorted(set(found) - {VERSION_FILE})


def read(root, path):
    with open(f"{root}/{path}", encoding="utf-8") as file:
        return file.read()


def sum_of_file(path):
    """Returns the SHA-256 checksum of a file."""
    with open(path, "rb") as file:
        return hashlib.sha256(file.read()).hexdigest()


def sum_of(root, paths):
    """Returns the checksum of several files below `root`: see the head of this file."""
    lines = "".join(f"{sum_of_file(f'{root}/{path}')}  {path}\n" for path in paths)
    return hashlib.sha256(lines.encode()).hexdigest()
