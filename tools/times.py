"""Reads files of times that tools/measured.py wrote: the times of a run of the gate by crate, and its longest chain of crates.

    times.py TIMES     # prints the slowest crates and the longest chain of a run"""
import sys
from collections import defaultdict
from typing import NamedTuple

from crates import lines_of_crates


class Whole(NamedTuple):
    """The totals of a run of the gate: processor time and elapsed time in seconds, the number of processors, and the memory of the
    largest process in GiB."""

    seconds: float
    clock: float
    cores: int
    gibibytes: float


class Times:
    """The times of one run of the gate."""

    def __init__(self, path):
        self.whole, self.seconds, self.edits = None, defaultdict(float), defaultdict(int)
        with open(path, encoding="utf-8") as file:
            for line in file:
                crate, kind, name, seconds, clock, mebibytes, _ = line.rstrip("\n").split("\t")
                if kind == "whole":
                    self.whole = Whole(float(seconds), float(clock), int(crate), int(mebibytes) / 1024)
                else:
                    self.seconds[crate, kind] += float(seconds)
                    self.edits[crate] += bool(name)

    def proof(self, crate):
        """Returns the processor time of a crate's proof and of the builds of its program, in seconds."""
        return self.seconds[crate, "proofs"] + self.seconds[crate, "build"]

    def crates(self):
        """Returns the crates of the run, the slowest first."""
        return sorted({crate for crate, _ in self.seconds}, key=lambda it: -self.proof(it) - self.seconds[it, "edit"])

    def chain(self):
        """Returns the longest chain of crates, each of which waits for the one before, and its processor time in seconds."""
        lines, best = lines_of_crates(), {}
        for crate in lines:
            below = [it for it in lines[crate].partition(":")[2].split() if it in best]
            chain, seconds = max((best[it] for it in below), key=lambda it: it[1], default=([], 0.0))
            best[crate] = [*chain, crate], seconds + self.proof(crate)
        return max((best[it] for it in best if self.proof(it)), key=lambda it: it[1])


def main(path):
    times = Times(path)
    for crate in times.crates()[:20]:
        print(f"{times.proof(crate):7.0f} s {crate}" + (f", and {times.seconds[crate, 'edit']:.0f} s for {times.edits[crate]} mutants" if times.edits[crate] else ""))
    chain, seconds = times.chain()
    print(f"the longest chain takes {seconds:.0f} s: {' > '.join(chain)}")


if __name__ == "__main__":
    sys.dont_write_bytecode = True
    main(*sys.argv[1:])
