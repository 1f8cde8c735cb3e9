#!/usr/bin/env python3
"""usage: peer.py

Builds the plain Rust program of bench/rust, and compares its answers to the examples with the stored answers of `sizing`.
The environment variable PLAIN names a program to use instead of bench/rust/target/release/plain, which is then not built.

Exit status: 0 if all answers are right or the program cannot be built here, 1 if an answer is wrong.
"""

import os
import subprocess
import sys
from importlib.util import module_from_spec, spec_from_file_location
from pathlib import Path

sys.dont_write_bytecode = True

from timing import HERE, Wrong, without_words

RUST = HERE / "rust"
EXAMPLES = HERE.parent / "examples"
# The commands of the plain program, whose answers are stored beside the examples.
COMMANDS = ["replay", "check", "explain"]


def main(words):
    return without_words("peer.py", words, lambda _: tell(built_peer()))


def tell(peer):
    if peer is not None:
        print(f"{compared_with_examples(peer)} examples: the plain Rust program answers as sizing does")


def built_peer():
    """Returns the path of the plain program. If it cannot be built here, prints a line that says so and returns None."""
    named = os.environ.get("PLAIN")
    if named:
        return Path(named).resolve()
    if subprocess.run([RUST / "build"]).returncode != 0:
        return None
    return RUST / "target" / "release" / "plain"


def compared_with_examples(peer):
    """Returns the number of stored answers to the commands of the plain program. Raises Wrong if an answer of the program differs."""
    compare = examples_check().compare
    answers = sorted(path for path in EXAMPLES.iterdir() if path.suffix[1:] in COMMANDS)
    for answer in answers:
        difference = compare(peer, answer, names_files=False)
        if difference:
            raise Wrong(f"{answer.name}: the plain Rust program: {difference}")
    if not answers:
        raise Wrong(f"there are no examples in {EXAMPLES}")
    return len(answers)


def examples_check():
    """Returns the module examples/check.py, which imports modules of its folder. This folder, too, has a module named check."""
    sys.path.append(str(EXAMPLES))
    spec = spec_from_file_location("examples_check", EXAMPLES / "check.py")
    module = module_from_spec(spec)
    spec.loader.exec_module(module)
    return module


def example_plans():
    """Returns the texts of the plans of all examples, by name."""
    return {path.stem: path.read_bytes() for path in sorted(EXAMPLES.glob("*.toml"))}


if __name__ == "__main__":
    sys.exit(main(sys.argv[1:]))
