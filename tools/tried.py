"""tried.py [--keep FILE] WORD..: runs `rt try WORD..` through rt's Python modules, without the check by which rt finds a hint during
each try. With --keep the program is compiled and not run: it is copied to FILE, and the status is 0 if that is done.

That check takes as much time and memory as the try itself, and the gate checks every crate anyway. rt compiles a program anew at
each try; one that is kept may be run many times, and several runs of it at once."""
import contextlib
import os
import shlex
import shutil
import sys
import tempfile

from kit import rt_module

# The linker of a program that is kept. It fails once it has copied the program, so that rt ends there and runs nothing.
LINKER = """\
#!/bin/sh
{linker} "$@" && cp program {copy} && mv {copy} {file}
exit 1
"""


def link_all(folder, to, but):
    """Creates the folder `to` with a link to each entry of a folder except one."""
    os.mkdir(to)
    for name in os.listdir(folder):
        if name != but:
            os.symlink(f"{folder}/{name}", f"{to}/{name}")


def use_keeping_linker(rt, file, room):
    """Makes rt use its kit by links in the folder `room`, where the linker copies the program to a file."""
    kit, own = rt.rtlib.KIT, f"{room}/kit"
    for part, but in (("", "toolchain"), ("/toolchain", "bin"), ("/toolchain/bin", "ld.lld")):
        link_all(f"{kit}{part}", f"{own}{part}", but)
    words = {"linker": f"{kit}/toolchain/bin/ld.lld", "copy": f"{file}.part", "file": file}
    path = f"{own}/toolchain/bin/ld.lld"
    with open(path, "w", encoding="utf-8") as script:
        script.write(LINKER.format(**{name: shlex.quote(word) for name, word in words.items()}))
    shutil.copymode(words["linker"], path)
    rt.rtlib.KIT = own


def keep(rt, file, words):
    """Compiles and links the program of a try and copies it to a file, and returns whether that was done."""
    with contextlib.suppress(FileNotFoundError):
        os.remove(file)
    with tempfile.TemporaryDirectory(prefix="sizing-kit-") as room:
        use_keeping_linker(rt, file, room)
        # the interpreter that runs beside a program is of no use here
        rt.main(["try", "--steps", "1", *words])
    return os.path.isfile(file)


def main(words):
    rt = rt_module()
    # the command `true` in place of the prover takes any arguments, and prints nothing
    rt.rtlib.RATTLE = "true"
    if words[:1] == ["--keep"]:
        return 0 if keep(rt, os.path.abspath(words[1]), words[2:]) else 1
    return rt.main(["try", *words])


if __name__ == "__main__":
    sys.dont_write_bytecode = True
    sys.exit(main(sys.argv[1:]))
