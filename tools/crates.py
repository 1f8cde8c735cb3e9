"""The crates of this repository, as crates.txt lists them, and copies of some of them.

    crates.py CRATE     # prints the files from which the program of this crate is proved, for make"""
import os
import re
import shutil
import sys

ROOT = os.path.dirname(os.path.dirname(os.path.abspath(__file__)))


def lines_of_crates():
    """Returns the lines of crates.txt by the name of their crate, in order: each crate comes after its dependencies."""
    with open(f"{ROOT}/crates.txt", encoding="utf-8") as file:
        lines = [line.split("#")[0].strip() for line in file]
    return {re.split("[: ]", line)[0]: line for line in lines if ":" in line}


def with_bench_program(lines, name):
    """Returns the lines. If `name` is a program of bench/, adds its line, which is in the file `crate` of its folder."""
    path = f"{ROOT}/bench/{name}/crate"
    if name in lines or not os.path.isfile(path):
        return lines
    with open(path, encoding="utf-8") as file:
        return {**lines, name: file.read().strip()}


def folder_of(name):
    """Returns the folder of a crate, or of a program of bench/."""
    bench = f"{ROOT}/bench/{name}"
    return bench if os.path.isfile(f"{bench}/crate") else f"{ROOT}/crates/{name}"


def below(lines, names):
    """Returns these crates and all their dependencies in this repository."""
    found, left = set(), list(names)
    while left:
        crate = left.pop()
        if crate in lines and crate not in found:
            found.add(crate)
            left += lines[crate].partition(":")[2].split()
    return found


def copy_crates(lines, names, room, left_out=()):
    """Copies these crates to the folder `room`, with a crates.txt that lists only them, and without the names in `left_out`."""
    leave = shutil.ignore_patterns("out", *left_out)
    for name in names:
        shutil.copytree(folder_of(name), f"{room}/crates/{name}", ignore=leave)
        # a program of bench/ has no .rt file in the repository, since rt accepts these only in a crate that crates.txt lists
        if os.path.isfile(f"{room}/crates/{name}/main.rt.in"):
            os.makedirs(f"{room}/crates/{name}/src")
            os.rename(f"{room}/crates/{name}/main.rt.in", f"{room}/crates/{name}/src/main.rt")
            os.remove(f"{room}/crates/{name}/crate")
    shutil.copy(f"{ROOT}/HANDLES", room)
    with open(f"{room}/crates.txt", "w", encoding="utf-8") as file:
        file.writelines(f"{line}\n" for name, line in lines.items() if name in names)


def files_of(names):
    """Yields the paths, from the top of the repository, of the files from which these crates are proved."""
    for name in sorted(names):
        for folder, folders, files in os.walk(folder_of(name)):
            folders[:] = sorted(set(folders) - {"out", "must-fail", "mutants"})
            yield from (os.path.relpath(f"{folder}/{file}", ROOT) for file in sorted(files))
    yield from ("crates.txt", "HANDLES")


if __name__ == "__main__":
    crates = with_bench_program(lines_of_crates(), *sys.argv[1:2])
    print(*files_of(below(crates, sys.argv[1:2])))
