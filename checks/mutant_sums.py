#!/usr/bin/env python3
"""Checks when the checksum of a crate's mutants changes, on a small tree with a crate `pools` and a crate `plans` above it.

The last line is 'N passed, M failed'."""
import sys
import tempfile
from pathlib import Path

sys.dont_write_bytecode = True
sys.path.insert(0, str(Path(__file__).resolve().parent.parent / "tools"))
import crates
import mutant_sums
import sources

POOLS = """\
//! A pool.

ghost use Rattle.pools.specs.Pool.{has_room};

use std::alloc::{
    AllocError,
    Global,
};

/// A pool.
#[derive(Drop)]
pub struct Pool {
    queue: u64,
}

impl Pool {
    /// Returns whether the queue has room.
    pub fn has_room(&self) -> bool
        ensures { result ≡ has_room self.now }
    {
        self.queue < limit()
    }

    pub fn threads(&self) -> u64
        ensures { result ≡ self.now.threads }
    {
        1
    }
}

// Returns the limit.
fn limit() -> u64 {
    4
}
"""
DEFINITIONS = """\
-- a pool
use Rattle.std.specs.Prelude.{ℕ, Bool, nat_lt}

abbrev pub most : ℕ
most = 4

-- whether a queue has room
abbrev pub has_room : ℕ → Bool
has_room queue = nat_lt queue most

abbrev pub unused : ℕ
unused = 7
"""
PLANS = """\
use pools::Pool;

/// Returns whether a job is queued.
pub fn is_queued(pool: &Pool) -> bool
    ensures { result ≡ has_room pool.now }
{
    pool.has_room()
}
"""
MUTANT = """\
file: src/lib.rt
replace: pool.has_room()
with: true
"""
FILES = {
    "crates.txt": "pools:\nplans: pools\n",
    "crates/pools/src/lib.rt": POOLS,
    "crates/pools/specs/Pool.antt": DEFINITIONS,
    "crates/plans/src/lib.rt": PLANS,
    "crates/plans/mutants/each_job_is_queued.edit": MUTANT,
}
# By the name of a case: a file, a text in it, what replaces the text, and whether the checksum of `plans` changes.
CASES = {
    "a clause that is used": ("crates/pools/src/lib.rt", "result ≡ has_room self.now", "result ≡ true", True),
    "a definition that is used": ("crates/pools/specs/Pool.antt", "nat_lt queue most", "true", True),
    "a definition that a used one names": ("crates/pools/specs/Pool.antt", "most = 4", "most = 5", True),
    "a field of a type that is used": ("crates/pools/src/lib.rt", "queue: u64", "queue: u32", True),
    "an attribute of a function that is used": ("crates/pools/src/lib.rt", "    pub fn has_room", "    #[cold]\n    pub fn has_room", True),
    "an import with a new name": ("crates/pools/src/lib.rt", "specs.Pool.{has_room}", "specs.Pool.{has_room as room}", True),
    "a body below": ("crates/pools/src/lib.rt", "self.queue < limit()", "true", False),
    "a private function below": ("crates/pools/src/lib.rt", "    4\n", "    5\n", False),
    "a clause that is not used": ("crates/pools/src/lib.rt", "self.now.threads", "1", False),
    "a new public function that is not used": ("crates/pools/src/lib.rt", "    pub fn threads", "    pub fn idle(&self) -> u64 {\n        0\n    }\n\n    pub fn threads", False),
    "a definition that is not used": ("crates/pools/specs/Pool.antt", "unused = 7", "unused = 8", False),
    "a comment": ("crates/pools/specs/Pool.antt", "-- whether a queue", "-- if a queue", False),
    "an import": ("crates/pools/src/lib.rt", "    Global,\n", "", False),
    "the body of the crate": ("crates/plans/src/lib.rt", "pool.has_room()\n", "pool.has_room() && true\n", True),
    "a mutant": ("crates/plans/mutants/each_job_is_queued.edit", "with: true", "with: false", True),
}


def sum_of(files):
    """Returns the checksum of the mutants of `plans` in a tree of these files."""
    with tempfile.TemporaryDirectory(prefix="sizing-sums-") as room:
        for path, text in files.items():
            Path(room, path).parent.mkdir(parents=True, exist_ok=True)
            Path(room, path).write_text(text, encoding="utf-8")
        for module in (crates, mutant_sums, sources):
            module.ROOT = room
        return mutant_sums.Sums().of("plans")


def main():
    before, failed = sum_of(FILES), 0
    for name, (path, old, new, changes) in CASES.items():
        assert FILES[path].count(old) == 1, (name, old)
        changed = sum_of({**FILES, path: FILES[path].replace(old, new)}) != before
        if changed != changes:
            failed += 1
            print(f"{name}: the checksum {'changes' if changed else 'stays'}")
    print(f"{len(CASES) - failed} passed, {failed} failed")
    return 1 if failed else 0


if __name__ == "__main__":
    sys.exit(main())
