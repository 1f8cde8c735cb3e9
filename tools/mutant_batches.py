"""Mutants that are tried together. A function is proved against the contracts of the functions that it calls, never against their
bodies, so a mutant that changes the body of one function can make only the proof of this function fail. One check of a crate with
several such mutants, each in another function, shows which of them the prover refuses.

The prover does not search for the proof of a function before those that it calls are proved. So the mutants that one check refused
are left out, and the others are tried together again, as long as this refuses any. Each mutant that is left is tried alone, as is
one that changes anything but the body of one function."""
import os
import re
import shutil

from sources import BLOCK, FUNCTION

# The most mutants of one check. With more, processors are idle at the end of a run.
MOST = 24
# The part of a check's memory that a check over stored results takes.
OVER = 0.7
# A line of a check about a function, and what it says of one for whose proof the prover searched in vain.
LINE = re.compile(r"fn (\S.*?): ((?:not |no |could |depends |proved).*)")
NOT_FOUND = re.compile(r"no proof: expected answers .*(did not prove|gave up)")


class Body:
    """A function whose body a mutant changes: its file, its first and last line, its name, and the type to which it belongs, if any."""

    def __init__(self, file, first, last, name, owner):
        self.file, self.first, self.last, self.name, self.owner = file, first, last, name, owner

    def overlaps(self, other):
        """Returns whether one of the functions is in the other, or they are the same."""
        return self.file == other.file and self.first <= other.last and other.first <= self.last

    def is_called(self, symbol):
        """Returns whether the prover may mean this function by this symbol, such as `support::counter::Counter::count`."""
        path, _, name = symbol.rpartition("::")
        owner = self.owner or os.path.basename(self.file).removesuffix(".rt")
        return name == self.name and bool(re.search(rf"\b{owner}\b", path if self.owner else path.rpartition("::")[2]))


# ---- which mutants


def bodies_in(text, file):
    """Yields each function of a source that has a body on lines of its own and is no `const fn`, and the line before its body."""
    lines = text.splitlines()
    for found in FUNCTION.finditer(text):
        first = text.count("\n", 0, found.start()) + 1
        ends = (at for at in range(first, len(lines) + 1) if ends_head(lines[at - 1], found[1], at == first))
        opens = next(ends, None)
        if opens and lines[opens - 1].endswith("{") and "const " not in found[0]:
            yield Body(file, first, lines.index(found[1] + "}", opens) + 1, found[3], owner_at(text, found)), opens


def ends_head(line, indent, is_first):
    """Returns whether this line is the last one before the body of a function, or the last one of a function on one line."""
    return line.endswith(("{", "}", ";")) if is_first else line in (indent + "{", indent + "{}", indent + ";")


def owner_at(text, function):
    """Returns the name of the type whose `impl` block has this function, or None if the function is in no block."""
    if not function[1]:
        return None
    block = [*BLOCK.finditer(text, 0, function.start())][-1]
    head = text[block.start() : text.index("{", block.start())]
    return re.search(r"(?:.* for |.*?\b(?:impl|trait)(?:<.*?>)? )(\w+)", head)[1]


def body_with(folder, file, old):
    """Returns the innermost function of a crate's file whose body contains this text, or None."""
    if not file.endswith(".rt"):
        return None
    with open(f"{folder}/{file}", encoding="utf-8") as source:
        text = source.read()
    line = text.count("\n", 0, text.find(old)) + 1
    inside = [body for body, opens in bodies_in(text, file) if opens < line < body.last]
    return inside[-1] if text.count(old) == 1 and inside else None


def body_changed(mutant, folder):
    """Returns the function of the crate in `folder` whose body the mutant changes, or None if it changes anything else."""
    bodies, file = [], ""
    with open(mutant, encoding="utf-8") as lines:
        for line in lines:
            word, _, rest = line.rstrip("\n").partition(": ")
            if word == "file":
                file = rest.strip()
            elif word == "old":
                bodies.append(body_with(folder, file, rest))
    return bodies[0] if bodies and None not in bodies and all(vars(it) == vars(bodies[0]) for it in bodies) else None


def batches_of(mutants, folder):
    """Returns lists of mutants that can be tried together, each with the function that it changes: no function twice in a list."""
    lists = []
    for mutant in mutants:
        if body := body_changed(mutant, folder):
            free = (it for it in lists if len(it) < MOST and not any(body.overlaps(other) for _, other in it))
            batch = next(free, None)
            if batch is None:
                lists.append(batch := [])
            batch.append((mutant, body))
    return [it for it in lists if len(it) > 1]


# ---- trying them


class Batches:
    """The results of mutants that were tried together, which replace those of rt's function `must_fail`. No check of several mutants
    starts when `is_late` returns true."""

    def __init__(self, rt, is_late):
        self.rt, self.is_late, self.refused, self.paths, self.must_fail = rt, is_late, {}, {}, rt.must_fail
        rt.must_fail = self.result

    def is_refused(self, key):
        """Returns whether a check of several mutants refused the mutant that the task with this key tries."""
        return self.paths.get(key) in self.refused

    def result(self, crate, mutant, flags, kept=None):
        """Returns what a try of this mutant came to, and a text. Tries the mutant alone if no check with others refused it."""
        if kept and mutant in self.refused:
            return self.rt.REFUSED, self.refused[mutant]
        return self.must_fail(crate, mutant, flags, kept)

    def add_mutants(self, tasks, crate, mutants, own, is_well, kept):
        """Adds the tasks that try these mutants of a crate, which wait for the tasks with the keys `own`. Returns a function of what all
        tasks gave, which returns the result of each mutant."""
        batches = batches_of(mutants, crate.folder)
        keys = [(crate.name, "batch", number) for number in range(len(batches))]
        alone, start, seed = {}, f"{crate.folder}/out/incremental", (crate.name, "seed")
        results, known = self.rt.add_edits(alone, crate, mutants, own, [*own, *keys], is_well, kept, start, in_ci=False)
        tasks[seed] = alone.pop(seed)
        for key, batch in zip(keys, batches):
            call = lambda given, jobs, batch=batch: self.try_unknown(crate, batch, given[seed], {mutants[it] for it in known()})
            tasks[key] = ([*own, seed], crate.count(rb"\n"), OVER * self.rt.need(crate), call)
        tasks.update(alone)
        self.paths.update({(crate.name, "edits", number): mutant for number, mutant in enumerate(mutants)})
        return results

    def try_unknown(self, crate, batch, room, known):
        """Tries the mutants of a list together whose results are not known yet, if there is a folder of stored results to start from."""
        batch = [it for it in batch if it[0] not in known]
        if room and batch:
            self.try_together(crate, batch, room)

    def try_together(self, crate, batch, room):
        """Tries mutants together, over copies of the stored results in `room`. If a check ends without a verdict, tries the two halves of
        the list."""
        while len(batch) > 1 and not self.is_late():
            lines = self.lines_of_check(crate, batch, room)
            if lines is None:
                for half in batch[: len(batch) // 2], batch[len(batch) // 2 :]:
                    self.try_together(crate, half, room)
                return
            refused = dict(refused_in(crate, batch, lines))
            self.refused.update(refused)
            batch = [it for it in batch if it[0] not in refused] if refused else []

    def lines_of_check(self, crate, batch, room):
        """Returns the lines of a check of the crate with these mutants, or None if it ended without a verdict."""
        over = f"{room}/with-{os.path.basename(batch[0][0])}-{len(batch)}"
        try:
            self.rt.linked(f"{room}/seed", over)
            ran = self.rt.checked(crate, texts_with(self.rt, crate, batch), ["--jobs", "1"], over)
        except (OSError, shutil.Error):
            return []
        finally:
            shutil.rmtree(over, ignore_errors=True)
        lines = ran.stdout.rstrip("\n").split("\n")
        return lines if ran.returncode in (0, 1) and lines[-1].startswith("logic=") else None


def texts_with(rt, crate, batch):
    """Returns the texts of the files that these mutants change, by path, with all their changes."""
    whole = []
    for mutant, _ in batch:
        with open(mutant, encoding="utf-8") as text:
            whole.append(text.read())
    texts, why = rt.edited("\n".join(whole), crate.folder)
    return texts if not why else {}


def refused_in(crate, batch, lines):
    """Yields each of these mutants whose function's own proof fails in a check with these lines, with a text for it."""
    functions = [found.groups() for line in lines if (found := LINE.fullmatch(line))]
    for mutant, body in batch:
        own = [(symbol, words) for symbol, words in functions if body.is_called(symbol)]
        if len(own) == 1 and fails(*own[0], lines):
            yield mutant, f"must-fail {crate.name}/{os.path.basename(mutant)}: refused, as it must be: {': '.join(own[0])[:200]}"


def fails(symbol, words, lines):
    """Returns whether the function's own proof fails: the prover finds none, or there is an error in the one that is written."""
    written = "/".join(["./proofs", *symbol.split("::")[1:], ""])
    return bool(NOT_FOUND.match(words)) or words.startswith("not proved") and any(it.startswith(written) and ": error: " in it for it in lines)
