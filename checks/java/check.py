#!/usr/bin/env python3
"""Compares unmodified executors of java.util.concurrent with the plans, the rules of docs/GUIDE.md and the promises.

    python3 checks/java/check.py [PART ..]     # replays, interleavings, bursts, loops, timeouts, permits,
                                               # facts, services, learned; all by default

README.md describes the parts. Each part must also find deliberate errors. The check needs a JDK, which is the one in JAVA_HOME if
that is set. Without a JDK it prints a line that says so, and checks nothing.

The program is crates/sizing/out/sizing, or the one that the environment variable SIZING names. The parts `interleavings`, `bursts`,
`loops`, `permits`, `facts` and `services` do not need it.

Exit status: 0 if all parts pass, or if there is no JDK; 1 if one fails; 2 if there is no program.
"""

import os
import shutil
import subprocess
import sys
import tempfile
from pathlib import Path

sys.dont_write_bytecode = True
HERE = Path(__file__).resolve().parent
sys.path[:0] = [str(HERE), str(HERE.parent)]

import bursts
import facts
import interleavings
import learned
import loops
import permits
import replays
import services
import timeouts
from refused_growths import Unable, built

PARTS = {"replays": replays.part, "interleavings": interleavings.part, "bursts": bursts.part, "loops": loops.part,
         "timeouts": timeouts.part, "permits": permits.part, "facts": facts.part, "services": services.part, "learned": learned.part}
# The parts that need the program.
ASKING = {"replays", "timeouts", "learned"}
LIBRARY = HERE.parent.parent / "java" / "sizing-recorder" / "src" / "main" / "java" / "sizing"
SECONDS = 1800


class Tools:
    """The program, and the compiled classes."""

    def __init__(self, program, java, classes):
        self.program, self.java, self.classes = program, java, classes

    def run_java(self, name, *words, given=""):
        """Runs a Java program with these arguments and this standard input, and returns the lines that it prints."""
        ended = subprocess.run([self.java, "-cp", self.classes, name, *map(str, words)], input=given, text=True,
                               stdout=subprocess.PIPE, timeout=SECONDS, check=True)
        return ended.stdout.splitlines()

    def sizing(self, command, text, *options):
        ended = subprocess.run([self.program, command, *options], input=text, text=True, capture_output=True, timeout=SECONDS)
        return ended.returncode, ended.stdout


def tool(name):
    home = os.environ.get("JAVA_HOME")
    return shutil.which(name, path=str(Path(home) / "bin")) if home else shutil.which(name)


def main():
    javac, java = tool("javac"), tool("java")
    if not javac or not java:
        print("checks/java: there is no JDK (javac and java) here, so nothing is checked")
        return 0
    wanted = sys.argv[1:] or list(PARTS)
    try:
        program = built() if ASKING & set(wanted) else None
    except Unable as why:
        print(why, file=sys.stderr)
        return 2
    with tempfile.TemporaryDirectory() as classes:
        sources = sorted(map(str, [*HERE.glob("*.java"), *HERE.glob("services/*.java"), *LIBRARY.glob("*.java")]))
        # -try: the variable of a recording's round in a `try` statement is not used in the statement
        subprocess.run([javac, "-Xlint:all,-try", "-Werror", "-d", classes, *sources], check=True)
        version = subprocess.run([java, "-version"], capture_output=True, text=True).stderr.splitlines()[0]
        print(f"{version}, {os.cpu_count()} processors", flush=True)
        tools = Tools(program, java, classes)
        wrong = [line for name in wanted for line in PARTS[name](tools)]
    for line in wrong[:5]:
        print(line)
    print(f"{len(wrong)} wrong")
    return 1 if wrong else 0


if __name__ == "__main__":
    sys.exit(main())
