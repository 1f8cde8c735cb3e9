"""Checks which mutants tools/mutants tries together, how it judges them by the lines of a check, and what it runs in parallel.

The lines are as the prover prints them for a crate with six mutants at once: the proofs of `level_above`, `follow` and one of two
functions `next` fail, that of `add_all` was not searched because it calls `follow`, and `has` is proved although a mutant changes it. The
last line is 'N passed, M failed'."""
import sys
import tempfile
import threading
from pathlib import Path
from types import SimpleNamespace

sys.dont_write_bytecode = True
sys.path.insert(0, str(Path(__file__).resolve().parent.parent / "tools"))
from lanes import compile_at_once, compile_with_llvm, startable
from mutant_batches import batches_of, refused_in

SOURCE = """\
const MOST: usize = 4;

pub const fn least() -> usize {
    1
}

fn level_above(number: usize) -> usize
    ensures { result ≡ spec.level number }
{
    number + 1
}

impl NodeSet {
    fn has(&self, node: usize) -> bool
        ensures { result ≡ spec.has self.now node }
    {
        self.marks.get(node) == Some(&true)
    }

    fn follow(&mut self) {
        self.add(MOST);
    }

    fn add_all(&mut self) {
        self.follow();
        self.follow_twice();
    }
}

impl Iterator for Nodes {
    fn next(&mut self) -> Option<usize> {
        self.rest.pop()
    }
}

impl<'a> Iterator for Levels<'a> {
    fn next(&mut self) -> Option<usize> {
        self.below.next()
    }
}
"""
MUTANTS = {
    "a_level": ("number + 1", "number + 2"),
    "another_level": ("number + 1", "number"),
    "no_mark": ("Some(&true)", "Some(&false)"),
    "fewer": ("self.add(MOST)", "self.add(1)"),
    "once": ("self.follow_twice();", ""),
    "the_last": ("self.rest.pop()", "None"),
    "no_level": ("self.below.next()", "None"),
    "another_constant": ("usize = 4", "usize = 5"),
    "another_promise": ("spec.level number", "spec.level 0"),
    "a_constant_function": ("    1", "    2"),
}
LINES = """\
./proofs/set/NodeSet/follow/Answers.antt:9:101: error: `add-requires`: the two types differ
./proofs/set/Nodes/next/Answers.antt:3:1: error: `returns`: the two types differ
fn graphs::set::level_above: no proof: expected answers in ./proofs/set/level_above/Answers.antt; `search` did not prove `returns`
fn graphs::set::NodeSet::has: proved
fn graphs::set::NodeSet::follow: not proved
fn graphs::set::NodeSet::add_all: no proof: it calls `graphs::set::NodeSet::follow`, which is not proved
fn graphs::set::Nodes::next: not proved
fn graphs::set::Levels::next: not proved; it calls `graphs::set::Nodes::next`, which is not proved
logic=not-proved""".split("\n")
# The lists of mutants, by hand: the second one of a function does not fit into the first list, and a list of one is left out.
TOGETHER = [["a_level", "no_mark", "fewer", "once", "the_last", "no_level"]]
# `Levels::next` is not proved either, but not by an error in its own proof.
REFUSED = ["a_level", "fewer", "the_last"]

# Tasks of a crate with four mutants, and the number of those that start at once on four processors: all if no proof is left, none
# while the proof of a large crate uses all processors, three beside the last proof of a small crate, and one if another proof waits.
FOUR = {("set", "edits", number): ((), 1, 1, None) for number in range(4)}
AFTER = {("set", "sound"): (tuple(FOUR), 1, 1, None)}
LARGE = {("graph", "proof"): ((), 5000, 1, None)}
SMALL = {("tree", "proof"): ((), 100, 1, None)}
ABOVE = {("program", "proof"): ((("tree", "proof"),), 100, 1, None)}
STARTED = [4, 0, 3, 1]
# The jobs of the last proof of a small crate: one while mutants wait, and two if there are none.
JOBS = [1, 2]


def started(tasks):
    """Returns the number of mutants that start at once on four processors."""
    waiting, running = list(tasks), {}
    for key, jobs in startable(tasks, waiting, running, {}, 4, 100):
        waiting.remove(key)
        running[key] = key, 1, jobs
    return sum(key in FOUR for key in running)


def jobs_of_small(tasks):
    """Returns the number of jobs that the proof of the small crate gets on four processors."""
    [(_, jobs), *_] = startable(tasks, list(tasks), {}, {}, 4, 100)
    return jobs


def compiled_at_once():
    """Returns what the two compilers of a program return, each of which waits until the other has started, too."""
    both = threading.Barrier(2, timeout=10)

    class Crate:
        name = "program"

        def compile_by(self, backend, words, to):
            both.wait()
            return backend

    compile_at_once(SimpleNamespace(Crate=Crate))
    return [Crate().compile_by(backend, [], "") for backend in ("llvm", "rattle")]


def compiled_with_llvm():
    """Returns what the compilers of a program return, if programs are built with LLVM alone."""
    rt = SimpleNamespace(Crate=type("Crate", (), {"name": "program", "compile_by": lambda crate, backend, words, to: backend}))
    compile_with_llvm(rt)
    compile_at_once(rt)
    return [rt.Crate().compile_by(backend, [], "") for backend in ("llvm", "rattle")]


def main():
    with tempfile.TemporaryDirectory() as room:
        Path(room, "src").mkdir()
        Path(room, "src", "set.rt").write_text(SOURCE, encoding="utf-8")
        paths = []
        for name, (old, new) in MUTANTS.items():
            paths.append(str(Path(room, f"{name}.edit")))
            Path(paths[-1]).write_text(f"file: src/set.rt\nold: {old}\nnew: {new}\n", encoding="utf-8")
        batches = batches_of(paths, room)
        together = [[Path(mutant).stem for mutant, _ in batch] for batch in batches]
        refused = [Path(mutant).stem for mutant, _ in refused_in(SimpleNamespace(name="graphs"), batches[0], LINES)]
    parallel = [started({**proofs, **FOUR, **AFTER}) for proofs in ({}, LARGE, SMALL, {**SMALL, **ABOVE})]
    cases = [("tried together", together, TOGETHER), ("refused", refused, REFUSED), ("in parallel", parallel, STARTED)]
    cases.append(("jobs", [jobs_of_small({**SMALL, **FOUR}), jobs_of_small(SMALL)], JOBS))
    cases.append(("compiled", compiled_at_once(), ["llvm", "rattle"]))
    cases.append(("compiled with LLVM alone", compiled_with_llvm(), ["llvm", 0]))
    wrong = [f"{what}: {found}, and not {right}" for what, found, right in cases if found != right]
    print(*wrong, f"{len(cases) - len(wrong)} passed, {len(wrong)} failed", sep="\n")
    return 1 if wrong else 0


if __name__ == "__main__":
    sys.exit(main())
