"""measured.py [--llvm] TIMES WORD..: runs `rt WORD..` through rt's Python modules, and writes the time and memory of each check,
build and edit to the file TIMES. With --llvm, a program is built with LLVM alone.

A line has the crate, the kind (proofs, tests, build or edit), the name of the edit, the processor time and the elapsed time in
seconds, the memory of the largest process in MiB, and the time from the start of the run to the beginning of this entry in seconds.
The last line is the total: the number of processors, `whole`, the words, and the same numbers. rt starts a process for each check,
and the system reports the time and memory of a process when it ends."""
import os
import resource
import subprocess
import sys
import threading
import time

from kit import rt_module
from lanes import compile_with_llvm, realistic_need

here = threading.local()
started, written = {}, []
BEGAN = time.monotonic()


def word_after(words, word):
    """Returns the argument after an option, or an empty text if the option is absent."""
    return words[words.index(word) + 1] if word in words else ""


def kind_of(words):
    """Returns the crate that a process checks or builds, the kind of its work, and the name of an edit. The kind is empty if the
    process is none of rattle's."""
    name = word_after(words, "--crate-name")
    edit = getattr(here, "edit", "")
    if edit:
        return edit[0], "edit", edit[1]
    if name and "--test" in words:
        return name, "tests", ""
    if name:
        return name, "build" if "--crate-checked" in words else "proofs", ""
    return "", "", ""


class Popen(subprocess.Popen):
    def __init__(self, args, *more, **named):
        super().__init__(args, *more, **named)
        words = args if isinstance(args, list) else [args]
        started[self.pid] = kind_of(words), time.monotonic()


def write(crate, kind, name, seconds, wall, mebibytes, since):
    for file in written:
        file.write(f"{crate}\t{kind}\t{name}\t{seconds:.2f}\t{wall:.2f}\t{mebibytes}\t{since - BEGAN:.1f}\n")


def measured_wait(pid, options):
    pid, status, used = os.wait4(pid, options)
    if pid in started:
        (crate, kind, name), since = started.pop(pid)
        if kind:
            write(crate, kind, name, used.ru_utime + used.ru_stime, time.monotonic() - since, used.ru_maxrss // 1024, since)
    return pid, status


def measure(rt):
    """Makes rt record the time and memory of its processes. The thread that tries an edit stores the name of the edit."""
    subprocess.Popen, os.waitpid = Popen, measured_wait
    must_fail, checked = rt.must_fail, rt.checked

    def named_must_fail(crate, edit, flags, kept=None):
        here.edit = crate.name, os.path.basename(edit)[: -len(".edit")]
        try:
            return must_fail(crate, edit, flags, kept)
        finally:
            here.edit = ""

    def named_checked(crate, texts, flags, kept):
        was = getattr(here, "edit", "")
        here.edit = was or (crate.name, "")
        try:
            return checked(crate, texts, flags, kept)
        finally:
            here.edit = was

    rt.must_fail, rt.checked = named_must_fail, named_checked


def processor_seconds():
    """Returns the user and system time so far of this process and of the processes that it waited for, in seconds."""
    both = resource.getrusage(resource.RUSAGE_SELF), resource.getrusage(resource.RUSAGE_CHILDREN)
    return sum(it.ru_utime + it.ru_stime for it in both)


def main(words):
    """Runs rt with these arguments, and writes the file of times."""
    llvm = words[0] == "--llvm"
    path, *words = words[1:] if llvm else words
    path = os.path.abspath(path)
    os.makedirs(os.path.dirname(path), exist_ok=True)
    rt = rt_module()
    if llvm:
        compile_with_llvm(rt)
    realistic_need(rt)
    measure(rt)
    since, used = time.monotonic(), processor_seconds()
    with open(path, "w", buffering=1, encoding="utf-8") as file:
        written.append(file)
        status = rt.main(words)
        most = resource.getrusage(resource.RUSAGE_CHILDREN).ru_maxrss // 1024
        write(rt.processors(), "whole", " ".join(words), processor_seconds() - used, time.monotonic() - since, most, since)
        written.clear()
    return status


if __name__ == "__main__":
    sys.dont_write_bytecode = True
    sys.exit(main(sys.argv[1:]))
