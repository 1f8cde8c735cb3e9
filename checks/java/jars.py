#!/usr/bin/env python3
"""Builds the jars of java/ twice, and compares their bytes.

    python3 checks/java/jars.py     # a minute of processor time

Each build has its own copy of the tracked files, in a folder with another name, and its own time zone (`tools/java --jars`). Without
a JDK, Maven or the packages of the build it prints a line that says what is missing, and compares nothing.

Exit status: 0 if all jars have the same bytes, or if something is missing; 1 if a jar differs or is not there.
"""

import hashlib
import os
import re
import shutil
import subprocess
import sys
import tempfile
from pathlib import Path

TOP = Path(__file__).resolve().parent.parent.parent
# The folder and the time zone of each build.
BUILDS = {"one": "UTC", "another/folder": "Asia/Kolkata"}
# The endings of the names of the jars of each module.
ENDINGS = ("", "-sources", "-javadoc")


def main():
    lack = subprocess.run([TOP / "tools/java", "--check"], capture_output=True, text=True, check=False).stdout.strip()
    if lack:
        print(f"jars: nothing is built: {lack}")
        return 0
    # Jars store the modes of the files in them.
    os.umask(0o022)
    with tempfile.TemporaryDirectory(prefix="sizing-jars-") as room:
        one, other = (sums_of_jars(Path(room, folder), zone) for folder, zone in BUILDS.items())
    wrong = [f"{name} is missing" for name in sorted(expected_jars() - (one.keys() & other.keys()))]
    wrong += [f"{name} differs" for name in sorted(one.keys() & other.keys()) if one[name] != other[name]]
    for name in sorted(one):
        print(f"{one[name]}  {name}")
    for fault in wrong:
        print(f"jars: {fault}")
    print(f"jars: {len(one)} jars built twice, {len(wrong)} wrong")
    return 1 if wrong else 0


def expected_jars():
    """Returns the names of the jars that a build has."""
    version = re.search(r"<version>(.*?)</version>", (TOP / "java/pom.xml").read_text(encoding="utf-8"))[1]
    modules = [pom.parent.name for pom in (TOP / "java").glob("*/pom.xml")]
    return {f"{module}-{version}{ending}.jar" for module in modules for ending in ENDINGS}


def sums_of_jars(folder, zone):
    """Builds the jars of a new copy of java/, and returns the SHA-256 of each jar by its name."""
    tracked = subprocess.run(["git", "ls-files", "-z", "java"], cwd=TOP, stdout=subprocess.PIPE, text=True, check=True).stdout
    for path in filter(None, tracked.split("\0")):
        place = folder / path
        place.parent.mkdir(parents=True, exist_ok=True)
        shutil.copyfile(TOP / path, place)
    built = subprocess.run([TOP / "tools/java", "--jars", folder / "java"], env={**os.environ, "TZ": zone},
                           stdout=subprocess.PIPE, stderr=subprocess.STDOUT, text=True, check=False)
    if built.returncode:
        raise SystemExit(f"{built.stdout}jars: tools/java --jars failed")
    return {jar.name: hashlib.sha256(jar.read_bytes()).hexdigest() for jar in folder.glob("java/*/target/*.jar")}


if __name__ == "__main__":
    sys.exit(main())
