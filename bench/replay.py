#!/usr/bin/env python3
"""usage: replay.py [KIB]

Compares the time of `sizing replay`, on three inputs with nearly KIB KiB of event lines (1 to 1024; default: 1024), with that of a
plain C program that only splits the same bytes into lines and words and counts them. Also compares a replay of one event on a plan
of many clients with one on a plan of few. If valgrind is installed, counts the instructions of the replays, and compares those for
a byte of a long line `stuck` with descending numbers with those for one with ascending numbers. README.md describes the
measurements and the bars.

The program is crates/sizing/out/sizing, or the one that the environment variable SIZING names.

Exit status: 0 if all answers are right and no bar is exceeded, 1 if not, 2 if the benchmark cannot be run.
"""

import sys

sys.dont_write_bytecode = True

from inputs import nested_jobs, one_event, one_looping_client, stuck_lines
from timing import Bars, Program, Table, built, compiled, costs
from timing import has_callgrind, in_folder, instructions, tell_if_uncounted

RUNS = 3
MOST_KIB = 1024
# The bar for the peak memory in MiB. It holds for an input of MOST_KIB KiB, and so for any input.
MOST_MEBIBYTES = 11
# The bar for the instructions on an input of MOST_KIB KiB with many events, in millions.
MOST_INSTRUCTIONS = 71.5
# The bar for the ratio of the instructions for a byte of two lines `stuck`: one with descending numbers, of which the last is repeated,
# and one with each number once, in ascending order.
STUCK_RATIO = 3
# The bars for one event on a plan with the maximum number of clients: in total, and relative to a plan with one client of each kind.
MANY = 1_000_000
FEW = 1
MANY_MEBIBYTES = 10
MANY_RATIO = 1.2


def main(words):
    try:
        kib = int(words[0]) if words else MOST_KIB
        if len(words) > 1 or not 1 <= kib <= MOST_KIB:
            raise ValueError
    except ValueError:
        print(f"usage: replay.py [KIB], with 1 to {MOST_KIB} KiB", file=sys.stderr)
        return 2
    return in_folder(lambda folder: Bench(folder).run(kib * 1024))


class Bench:
    """The programs, the table, and the bars that are exceeded so far."""

    def __init__(self, folder):
        self.folder = folder
        self.sizing = built("sizing")
        self.measure = compiled(folder, "measure")
        self.count_lines = compiled(folder, "count_lines")
        self.is_counted = has_callgrind()
        self.bars = Bars()
        self.table = Table(
            ("input", 18), ("bytes", 9), ("events", 7), ("unfinished", 10), ("sizing ms", 10), ("count ms", 9),
            ("ratio", 7), ("M instr", 8), (f"of {MOST_INSTRUCTIONS}", 7), ("sizing MiB", 10), ("count MiB", 9), ("bar", 4),
        )

    def run(self, room):
        for make in (one_looping_client, nested_jobs):
            self.lines(make(room), MOST_INSTRUCTIONS)
        self.stuck(*stuck_lines(room))
        self.clients()
        tell_if_uncounted()
        self.bars.end()

    def lines(self, script, most=None):
        """Compares a long replay with counting its lines. Returns the number of instructions of the replay, in millions, or None if they
        are not counted."""
        replay = self.replay(script)
        given = (self.folder / replay.given).read_bytes()
        lines = f"lines {given.count(10)}, words {len(given.split())}\n".encode()
        count = Program([self.count_lines], lines, given=replay.given)
        replayed, count = costs(self.folder, self.measure, [replay, count], RUNS)
        counted = self.counted(replay)
        self.table.row(
            script.name,
            len(given),
            len(script.events),
            script.most_unfinished,
            f"{replayed.milliseconds:.1f}",
            f"{count.milliseconds:.1f}",
            f"{replayed.milliseconds / count.milliseconds:.1f}",
            f"{counted:.1f}" if counted else "-",
            f"{counted / most:.2f}" if counted and most else "-",
            f"{replayed.mebibytes:.1f}",
            f"{count.mebibytes:.1f}",
            f"{MOST_MEBIBYTES}",
        )
        self.bars.hold(f"{script.name}: MiB", replayed.mebibytes, MOST_MEBIBYTES)
        if counted and most:
            self.bars.hold(f"{script.name}: M instructions", counted, most)
        return counted

    def replay(self, script):
        """Writes the input of a script into the folder, and returns the program that replays it."""
        (self.folder / script.name).write_bytes(script.input())
        return Program([self.sizing, "replay"], script.answer(), script.status(), given=script.name)

    def counted(self, program):
        """Returns the number of instructions that the program executes, in millions, or None if they are not counted."""
        return instructions(self.folder, program) if self.is_counted else None

    def stuck(self, falling, rising, silent):
        """Compares the instructions for a byte of a line `stuck` with descending numbers with those for ascending numbers."""
        of_falling = self.lines(falling)
        if not self.is_counted:
            return
        of_rising, of_silent = [self.counted(self.replay(script)) for script in (rising, silent)]
        first, second = [
            1e6 * (counted - of_silent) / len(script.events[-1])
            for script, counted in ((falling, of_falling), (rising, of_rising))
        ]
        print(f"  instructions a byte: {first:.1f}, and {second:.1f} where the numbers rise", end="")
        print(f", ratio {first / second:.2f} of {STUCK_RATIO}")
        self.bars.hold(f"{falling.name}: ratio of instructions a byte", first / second, STUCK_RATIO)

    def clients(self):
        """Compares a replay of one event on a plan with many clients with one on a plan with few."""
        programs = []
        for name, count in (("many", MANY), ("few", FEW)):
            given, answer = one_event(count)
            (self.folder / name).write_bytes(given)
            programs.append(Program([self.sizing, "replay"], answer, given=name))
        many, few = costs(self.folder, self.measure, programs, RUNS)
        print(f"one event, {MANY:,} clients of each kind: {many.milliseconds:.1f} ms, {many.mebibytes:.1f} MiB", end="")
        print(f" of {MANY_MEBIBYTES}; {FEW} of each: {few.milliseconds:.1f} ms, {few.mebibytes:.1f} MiB")
        self.bars.hold("one event on many clients: MiB", many.mebibytes, MANY_MEBIBYTES)
        if self.is_counted:
            first, second = [self.counted(program) for program in programs]
            print(f"  M instructions: {first:.2f} and {second:.2f}, ratio {first / second:.2f} of {MANY_RATIO}")
            self.bars.hold("one event on many clients: ratio of instructions", first / second, MANY_RATIO)


if __name__ == "__main__":
    sys.exit(main(sys.argv[1:]))
