"""Checksums of what the results of a crate's mutants depend on, and the file `mutants.lock` that stores them.

A mutant changes one crate. Whether the prover refuses the mutant depends on the sources, definitions, proofs and mutants of that
crate, on those definitions and public contracts of its dependencies that it uses, and on the toolchain. Comments and layout do not
count. A crate uses what it names, and what the texts of that name; so a new public function below it changes nothing if nothing has
its name.

The mutants of the headline (checks/headline) are listed like those of a crate. Each of them changes several crates, so their checksum
covers the sources, definitions and proofs of all crates that have to be proved again.
"""
import hashlib
import os
import re
import subprocess

from crates import ROOT, below, lines_of_crates
from sources import code_of, interface_of, texts_below

LOCK = "mutants.lock"
HEAD = """\
# The mutants that the prover refused, by crate. `make mutants` writes this file; docs/GATE.md says how it is used.
# CRATE: CHECKSUM of what their results depend on, and how many were refused; or untried, if they were not tried yet.
# headline: the same for the mutants in checks/headline.
"""
LINE = re.compile(r"(\w+): (?:([0-9a-f]{16}) (\d+)|untried)")
# The folders of a crate's mutants: those that only `make mutants` tries, and those that a plain `rt ci` tries, too.
FOLDERS = ("mutants", "must-fail")
# The name under which the mutants of the headline are listed, their folder and the crate whose laws refuse them.
HEADLINE, BUGS, THEOREMS = "headline", f"{ROOT}/checks/headline", "soundness"
CHANGED = re.compile(r"(?m)^file: crates/(\w+)/")


def mutants_of(crate):
    """Returns the paths of a crate's mutants or of those of the headline, by name."""
    if crate == HEADLINE:
        return {name: f"{BUGS}/{name}" for name in sorted(os.listdir(BUGS)) if name.endswith(".bug")}
    found = {}
    for folder in FOLDERS:
        path = f"{ROOT}/crates/{crate}/{folder}"
        for name in sorted(os.listdir(path)) if os.path.isdir(path) else []:
            if name.endswith(".edit"):
                if name in found:
                    raise SystemExit(f"crates/{crate}: {name} is both in {FOLDERS[0]}/ and in {FOLDERS[1]}/: rename one")
                found[name] = f"{path}/{name}"
    return found


def crates_of(mutants):
    """Returns the crates that are proved again with the mutants of a crate or of the headline, in order."""
    if mutants != HEADLINE:
        return [mutants]
    changed = set()
    for path in mutants_of(HEADLINE).values():
        with open(path, encoding="utf-8") as file:
            changed |= set(CHANGED.findall(file.read()))
    lines = lines_of_crates()
    between = below(lines, [THEOREMS])
    return [crate for crate in lines if crate in between and below(lines, [crate]) & changed]


def kit():
    """Returns the identity of the toolchain."""
    return subprocess.run(["rt", "version"], capture_output=True, text=True, check=True).stdout.strip()


WORD = re.compile(r"\w+")


class Sums:
    """A computation of checksums, which reads the interface of each crate once."""

    def __init__(self):
        self.lines, self.kit, self.interfaces = lines_of_crates(), kit(), {}

    def interface(self, crate):
        """Returns the definitions and public contracts of a crate: for each, its name, its place and its text."""
        if crate not in self.interfaces:
            files = texts_below(crate, ("specs", "src"))
            self.interfaces[crate] = [(name, (crate, path), text) for path, text in files for name, text in interface_of(text, path)]
        return self.interfaces[crate]

    def of(self, mutants):
        """Returns the checksum of the mutants of a crate or of the headline."""
        crates = crates_of(mutants)
        own = [repr((self.kit, *(self.lines[crate] for crate in crates)))]
        for crate in crates:
            own += (repr((path, code_of(text, path))) for path, text in texts_below(crate, ("specs", "src", "proofs")))
        for name, path in sorted(mutants_of(mutants).items()):
            with open(path, encoding="utf-8") as file:
                own.append(repr((name, file.read())))
        lower = [item for crate in sorted(below(self.lines, crates) - set(crates)) for item in self.interface(crate)]
        return hashlib.sha256("\n".join([*own, *map(repr, used_of(lower, own))]).encode()).hexdigest()[:16]


def used_of(items, texts):
    """Returns those of these items that the texts use: whose name is in them, or in the text of a used item. An item without a name is
    used."""
    words, used = set(WORD.findall("\n".join(texts))), set()
    while found := [it for it in items if it not in used and (it[0] is None or words.issuperset(WORD.findall(it[0])))]:
        used.update(found)
        words.update(word for _, _, text in found for word in WORD.findall(text))
    return [it for it in items if it in used]


def read_lock(text):
    """Returns the checksum and the count of each crate in the text of a lock file. They are None for a crate that is untried."""
    found = {}
    for line in text.splitlines():
        if line and not line.startswith("#"):
            match = LINE.fullmatch(line)
            if not match:
                raise SystemExit(f"{LOCK}: `{line}` is neither `CRATE: CHECKSUM COUNT` nor `CRATE: untried`: run make mutants")
            found[match[1]] = (match[2], int(match[3])) if match[2] else None
    return found


def lock_text():
    """Returns the text of the lock file, or an empty text if there is no lock file."""
    try:
        with open(f"{ROOT}/{LOCK}", encoding="utf-8") as file:
            return file.read()
    except FileNotFoundError:
        return ""


def write_lock(entries):
    """Writes the lock file, with the crates in the order of crates.txt, and then the headline."""
    with open(f"{ROOT}/{LOCK}.new", "w", encoding="utf-8") as file:
        file.write(HEAD)
        for crate in [*lines_of_crates(), HEADLINE]:
            if crate in entries:
                entry = entries[crate]
                file.write(f"{crate}: {entry[0]} {entry[1]}\n" if entry else f"{crate}: untried\n")
    os.replace(f"{ROOT}/{LOCK}.new", f"{ROOT}/{LOCK}")
