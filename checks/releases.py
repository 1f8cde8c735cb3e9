"""Releases of a copy of this repository, and a stub in place of the proved program."""

import os
import shutil
import subprocess
from pathlib import Path

ROOT = Path(__file__).resolve().parent.parent
PROGRAM = "crates/sizing/out/sizing"
# The copy has one commit, and its record names this toolchain.
COMMIT_TIME = "2026-01-01T00:00:00Z"
KIT = "a toolchain for a check"
# A program with the help texts that `tools/man` and `tools/completions` read, and an answer.
STUB = """
#include <stdio.h>
#include <string.h>
int main(int count, char **words) {
    if (count > 1 && !strcmp(words[1], "--version")) return puts("sizing 0.0.0") < 0;
    int asks = count > 1 && !strcmp(words[1], "ask");
    if (count > 1 && !strcmp(words[count - 1], "--help")) {
        fputs(asks ? "Answers whether a plan is safe\\n\\nUsage: sizing ask [OPTIONS] [PLAN] [CERTIFICATE]\\n\\n"
                     "Arguments:\\n  [PLAN]         a file\\n  [CERTIFICATE]  a file\\n\\n"
                     "Options:\\n      --strict  for a build\\n  -h, --help    Print help\\n"
                   : "A stub\\n\\nUsage: sizing <COMMAND>\\n\\nCommands:\\n  ask   Answers whether a plan is safe\\n"
                     "  help  Print this message or the help of the given subcommand(s)\\n\\nOptions:\\n  -h, --help  Print help\\n", stderr);
        return 2;
    }
    return asks ? puts("SAFE") < 0 : 2;
}
"""


def run(words, folder, **named):
    """Runs a command in a folder, and returns its status and the output of both streams."""
    ended = subprocess.run(words, cwd=folder, stdout=subprocess.PIPE, stderr=subprocess.STDOUT, text=True, check=False, **named)
    return ended.returncode, ended.stdout


def must(words, folder, **named):
    """Runs a command in a folder, and returns its output; the check stops if the command fails."""
    status, printed = run(words, folder, **named)
    if status:
        raise SystemExit(f"{' '.join(map(str, words))}: status {status}\n{printed}")
    return printed


def copy_of_repository(folder, change=lambda copy: None):
    """Copies this repository as it is now to a folder, without what git ignores, changes the copy, and commits it."""
    files = must(["git", "ls-files", "-z", "--cached", "--others", "--exclude-standard"], ROOT).split("\0")
    for file in files:
        if file and (ROOT / file).is_file():
            (folder / file).parent.mkdir(parents=True, exist_ok=True)
            shutil.copy(ROOT / file, folder / file)
    change(folder)
    must(["git", "init", "-q", "."], folder)
    must(["git", "add", "-A"], folder)
    commit(folder, COMMIT_TIME)


def commit(folder, time):
    """
    Commits what is staged, as of a time.

    Git does not pack the objects afterwards: it would do so in the background, while the check removes the folder.
    """
    who = {f"GIT_{role}_{what}": "check" for role in ("AUTHOR", "COMMITTER") for what in ("NAME", "EMAIL")}
    times = {"GIT_AUTHOR_DATE": time, "GIT_COMMITTER_DATE": time}
    words = ["git", "-c", "gc.auto=0", "-c", "maintenance.auto=false", "commit", "-q", "-m", "a commit of a check"]
    must(words, folder, env={**os.environ, **who, **times})


def put_program(copy, program, command="make gate"):
    """Puts a program into a copy of the repository, with a record that this command has proved it there."""
    (copy / PROGRAM).parent.mkdir(exist_ok=True)
    shutil.copy(program, copy / PROGRAM)
    tools = copy.parent / "tools"
    tools.mkdir(exist_ok=True)
    (tools / "rt").write_text(f"#!/bin/sh\necho '{KIT}'\n")
    (tools / "rt").chmod(0o755)
    script = f"import proved; proved.write_record('sizing', {command!r}, '3 passed, 0 failed')"
    must(["python3", "-B", "-c", script], copy / "tools", env={**os.environ, "PATH": f"{tools}:{os.environ['PATH']}"})


def build_stub(path, *flags, source=STUB):
    """Compiles the stub, or another program, and returns its path."""
    path.with_name(f"{path.name}.c").write_text(source)
    must(["gcc", "-O1", "-o", path, f"{path}.c", *flags], path.parent)
    return path


def unpack(archive, folder):
    """Unpacks a release into a folder, and returns the folder of its files."""
    folder.mkdir(parents=True, exist_ok=True)
    must(["tar", "-xzf", archive, "-C", folder], folder)
    return next(folder.iterdir())


def files_below(folder):
    """Returns the paths of all files below a folder."""
    return {str(path.relative_to(folder)) for path in folder.rglob("*") if path.is_file()}


def copied_by_dockerfile(release):
    """Yields each COPY of the release's Dockerfile: the sources and the destination."""
    for line in (release / "Dockerfile").read_text(encoding="utf-8").splitlines():
        if line.startswith("COPY "):
            *sources, to = line.split()[1:]
            yield sources, to


def apply_dockerfile(release, root):
    """Copies the files into `root` that the release's Dockerfile copies into an image."""
    for sources, to in copied_by_dockerfile(release):
        for source in sources:
            at = root / to.lstrip("/")
            if source.endswith("/"):
                shutil.copytree(release / source, at, dirs_exist_ok=True)
            else:
                at.mkdir(parents=True, exist_ok=True)
                shutil.copy(release / source, at / source)
