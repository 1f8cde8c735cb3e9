"""Finds the built program, and runs it on inputs."""

import os
import subprocess
import sys
from concurrent.futures import ThreadPoolExecutor
from pathlib import Path

BUILT = Path(__file__).resolve().parent.parent / "crates" / "sizing" / "out" / "sizing"
SECONDS = 600


def built_program():
    """Returns the path of the built program. If there is no program, prints a line that says so and returns None."""
    program = Path(os.environ.get("SIZING") or BUILT).resolve()
    if os.access(program, os.X_OK) and program.is_file():
        return program
    print(f"there is no program at {program}: run `make program` at the top of the repository", file=sys.stderr)
    return None


def written(program, words, text):
    """Runs the program with this standard input. Prints its standard error, and returns its standard output."""
    ended = subprocess.run([program, *words], input=text, capture_output=True, text=True, timeout=SECONDS, check=False)
    if ended.stderr:
        print(ended.stderr, file=sys.stderr, end="")
    return ended.stdout


def each(ask, inputs):
    """Returns the result of `ask` for each input. Several calls run at the same time."""
    with ThreadPoolExecutor(os.cpu_count()) as pool:
        return list(pool.map(ask, inputs))
