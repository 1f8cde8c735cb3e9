"""The shared code of the benchmarks, which finds, runs and measures programs, compares their answers, and prints tables."""

import os
import shutil
import subprocess
import sys
import tempfile
from dataclasses import dataclass
from pathlib import Path

HERE = Path(__file__).resolve().parent
CRATES = HERE.parent / "crates"


class Unable(Exception):
    """The benchmark cannot be run."""


class Wrong(Exception):
    """A program gives a wrong answer, or exceeds its bar."""


@dataclass
class Program:
    """A program to measure: its arguments, its right answer and exit status, and the file of the folder that is its input.

    The output of the program is written to a file and compared, or goes to /dev/null.
    """

    words: list
    answer: bytes
    status: int = 0
    given: str = "input"
    is_compared: bool = True


@dataclass
class Cost:
    """The cost of a program: the least CPU time, the greatest peak memory and the least elapsed time of several runs."""

    milliseconds: float
    mebibytes: float
    elapsed: float


def in_folder(bench):
    """Calls the benchmark with an empty folder, and returns the exit status."""
    try:
        with tempfile.TemporaryDirectory() as folder:
            bench(Path(folder))
    except Unable as why:
        print(why, file=sys.stderr)
        return 2
    except Wrong as why:
        print(why, file=sys.stderr)
        return 1
    return 0


def without_words(name, words, bench):
    """Calls a benchmark that takes no arguments, and returns the exit status."""
    if words:
        print(f"usage: {name}", file=sys.stderr)
        return 2
    return in_folder(bench)


def built(name):
    """Returns the path of a crate's built program, or the path in the environment variable with the crate's name in capitals."""
    folder = HERE if (HERE / name).is_dir() else CRATES
    program = Path(os.environ.get(name.upper()) or folder / name / "out" / name).resolve()
    if not os.access(program, os.X_OK) or not program.is_file():
        raise Unable(f"there is no program at {program}: `make bench` builds it")
    return program


def compiled(folder, name, *options):
    """Compiles a C program of this folder into another folder, and returns its path."""
    if shutil.which("gcc") is None:
        raise Unable("gcc is not installed")
    path = folder / name
    if subprocess.run(["gcc", "-O2", *options, "-o", path, HERE / f"{name}.c"]).returncode != 0:
        raise Unable(f"gcc cannot compile {name}.c")
    return path


def costs(folder, measure, programs, runs):
    """Returns the cost of each program on its input, which is in the folder.

    The programs run in turn, so that other load on the machine affects all of them.
    """
    measured = [[run(folder, measure, program) for program in programs] for _ in range(runs)]
    return [
        Cost(min(times) / 1000, max(memories) / 1024, min(elapsed) / 1000)
        for times, memories, elapsed in (zip(*of_one) for of_one in zip(*measured))
    ]


def run(folder, measure, program):
    """Returns the CPU time in microseconds, the peak memory in KiB, and the elapsed time in microseconds of a run.

    Raises Wrong if the exit status is wrong, or if the answer is compared and is wrong.
    """
    name = program.words[0]
    output = folder / "output" if program.is_compared else Path(os.devnull)
    ended = subprocess.run([measure, folder / program.given, output, *program.words], stdout=subprocess.PIPE)
    if ended.returncode != 0:
        raise Unable(f"{name} cannot be measured")
    status, microseconds, kibibytes, elapsed = map(int, ended.stdout.split())
    if status > 128:
        raise Wrong(f"{name} is ended by signal {status - 128} after {microseconds / 1e6:.1f} s of CPU time")
    if program.is_compared and output.read_bytes() != program.answer:
        raise Wrong(f"{name} ends with status {status}: {difference(output.read_bytes(), program.answer)}")
    if status != program.status:
        raise Wrong(f"{name} ends with status {status}, expected {program.status}")
    return microseconds, kibibytes, elapsed


def difference(printed, wanted):
    printed, wanted = printed.split(b"\n"), wanted.split(b"\n")
    for number, (left, right) in enumerate(zip(printed, wanted), 1):
        if left != right:
            return f"line {number} is {left.decode(errors='replace')!r}, expected {right.decode()!r}"
    return f"it printed {len(printed) - 1} lines, expected {len(wanted) - 1}"


class Bars:
    """The bars that were exceeded so far."""

    def __init__(self):
        self.exceeded = []

    def hold(self, what, found, bar):
        if found > bar:
            self.exceeded.append(f"{what} is {found:.2f}, above the bar {bar:.2f}")

    def end(self):
        """Raises Wrong if a bar was exceeded. Called at the end of the benchmark."""
        if self.exceeded:
            raise Wrong("\n".join(self.exceeded))


def has_callgrind():
    return shutil.which("valgrind") is not None


def tell_if_uncounted():
    if not has_callgrind():
        print("no instructions are counted: valgrind is missing (`apt-get install valgrind`)")


def instruction_cells(folder, programs):
    """Returns the cells of the instructions of two programs, and of their ratio."""
    if not has_callgrind():
        return ["-"] * 3
    first, second = [instructions(folder, program) for program in programs]
    return [f"{first:.1f}", f"{second:.1f}", f"{first / second:.2f}"]


def instructions(folder, program):
    """Returns the number of instructions that a program executes on its input, in millions, as callgrind counts them."""
    counter = ["valgrind", "--tool=callgrind", f"--callgrind-out-file={os.devnull}", *program.words]
    with open(folder / program.given, "rb") as given:
        ended = subprocess.run(counter, stdin=given, stdout=subprocess.DEVNULL, stderr=subprocess.PIPE, text=True)
    for line in ended.stderr.splitlines():
        if "Collected :" in line:
            return int(line.split()[-1]) / 1e6
    raise Unable(f"callgrind counts nothing of {program.words[0]}: {ended.stderr}")


class Table:
    """A table that is printed row by row. The first column is aligned to the left, and the others to the right."""

    def __init__(self, *columns):
        self.widths = [width for _, width in columns]
        self.row(*[title for title, _ in columns])

    def row(self, first, *others):
        left, *widths = self.widths
        cells = [f"{cell:>{width}}" for cell, width in zip(others, widths)]
        print("  ".join([f"{first:<{left}}", *cells]), flush=True)
