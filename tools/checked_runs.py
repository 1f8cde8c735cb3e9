"""Programs that `rt try` compiles, with its checks and before any proof. Each is compiled once, and may run many times.

If a crate has tests and a program without arguments, both are one program: in a copy of its sources, `main` becomes the test
`the_stored_run`. The compiler reads all crates that a crate depends on, so that to compile both apart takes twice as long."""
import functools
import os
import re
import subprocess
import sys
import tempfile
from typing import NamedTuple

from crates import ROOT, below, copy_crates, lines_of_crates
from kit import rt_module

# The time limits of a compilation and of a run, in seconds.
BUILD_SECONDS = 3600
RUN_SECONDS = 1500

STORED_RUN = "the_stored_run"
MAIN = re.compile(r"^fn main\(", re.M)
MAIN_AS_TEST = f"fn main(_rt: HostRuntime) {{}}\n\n#[test]\nfn {STORED_RUN}("

# The last output of a test that passes, and the output of the checks when they stop a run.
PASSED = b"\ntest result: ok\n"
STOPPED = re.compile(r"^(?:AddressSanitizer:DEADLYSIGNAL\n)*(?:=+\n)?==\d+==ERROR: ", re.M)


class Build(NamedTuple):
    """A program to compile: the tests of a crate, its program, or both."""

    crate: str
    has_tests: bool
    has_program: bool
    path: str


class Ran(NamedTuple):
    """The exit status of a run (None if it was stopped after its time limit), its output and its error output."""

    status: object
    output: bytes
    said: str

    def is_ended_with(self, status):
        return self.status == status and not STOPPED.search(self.said)

    def ended_text(self):
        if self.status is None:
            return "it was stopped after its time limit"
        if STOPPED.search(self.said):
            return "a check stopped it: rt try in the crate's folder, for a test with --test, prints where"
        return f"it ended with {self.status}"

    def texts(self):
        """Returns the end of the output and of the error output, without the report of a check that has only addresses."""
        return self.output.decode(errors="replace")[-4000:], STOPPED.split(self.said)[0][-2000:]


def root_file(crate, top=ROOT):
    """Returns the path of the file with the `main` of a crate that is a program."""
    return f"{top}/crates/{crate}/src/main.rt"


def stored(crate, file):
    """Returns the bytes of a file beside the sources of a crate, or none if it does not exist."""
    path = f"{ROOT}/crates/{crate}/{file}"
    if not os.path.isfile(path):
        return b""
    with open(path, "rb") as it:
        return it.read()


def has_tests(crate):
    for folder, _, files in os.walk(f"{ROOT}/crates/{crate}/src"):
        for file in files:
            with open(f"{folder}/{file}", encoding="utf-8") as it:
                if re.search(r"^\s*#\[test\]", it.read(), re.M):
                    return True
    return False


def builds_of(crate, room):
    """Yields what is to be compiled of a crate, to files in the folder `room`. A test gets no arguments, and ends with 0."""
    is_program = os.path.isfile(root_file(crate))
    if has_tests(crate):
        is_joined = is_program and not stored(crate, "args") and not stored(crate, "status")
        yield Build(crate, True, is_joined, f"{room}/{crate}.tests")
        is_program = is_program and not is_joined
    if is_program:
        yield Build(crate, False, True, f"{room}/{crate}")


def prepared(crates, room):
    """Copies the crates and their dependencies into the folder `room`. Returns what is to be compiled there, crates with more
    dependencies first."""
    lines = lines_of_crates()
    copy_crates(lines, below(lines, crates), room, ["must-fail", "mutants"])
    builds = [build for crate in crates for build in builds_of(crate, room)]
    for build in builds:
        if build.has_tests and build.has_program:
            make_main_a_test(root_file(build.crate, room))
    return sorted(builds, key=lambda it: -len(lines[it.crate]))


def make_main_a_test(path):
    """Makes the function `main` in a copy of a crate's root file a test. It keeps its body and its result."""
    with open(path, encoding="utf-8") as file:
        text, count = MAIN.subn(MAIN_AS_TEST, file.read())
    if count != 1:
        raise ValueError(f"{path} has {count} lines that begin with `fn main(`")
    with open(path, "w", encoding="utf-8") as file:
        file.write(text)


def compiled(build):
    """Compiles a program in the folder of the copies. Returns what the compiler said if there is no program, and otherwise nothing."""
    command = [sys.executable, f"{ROOT}/tools/tried.py", "--keep", build.path, *["--test"] * build.has_tests]
    folder = f"{os.path.dirname(build.path)}/crates/{build.crate}"
    streams = {"stdin": subprocess.DEVNULL, "stdout": subprocess.PIPE, "stderr": subprocess.STDOUT}
    with subprocess.Popen(command, cwd=folder, **streams) as process:
        try:
            said = process.communicate(timeout=BUILD_SECONDS)[0].decode(errors="replace")
        except subprocess.TimeoutExpired:
            # rt ends its compilers itself when it is terminated
            process.terminate()
            said = f"it was stopped after {BUILD_SECONDS} seconds\n{process.communicate()[0].decode(errors='replace')}"
    return "" if process.returncode == 0 else said


@functools.cache
def library():
    """Returns the folder of the C library that compiled programs run with."""
    return f"{rt_module().rtlib.KIT}/toolchain/lib"


def run(build, words, files=None, given=b""):
    """Runs a compiled program with these arguments in a folder of its own with these files: their bytes by name."""
    command = [f"{library()}/ld-linux-x86-64.so.2", "--inhibit-cache", "--library-path", library(), build.path, *words]
    with tempfile.TemporaryDirectory(prefix="sizing-test-") as room:
        for name, data in (files or {}).items():
            with open(f"{room}/{name}", "wb") as file:
                file.write(data)
        try:
            ran = subprocess.run(command, cwd=room, env={}, input=given, capture_output=True, timeout=RUN_SECONDS, check=False)
        except subprocess.TimeoutExpired as stopped:
            return Ran(None, stopped.stdout or b"", (stopped.stderr or b"").decode(errors="replace"))
    return Ran(ran.returncode, ran.stdout, ran.stderr.decode(errors="replace"))


def tests_of(build):
    """Returns the names of the tests of a compiled program, without the stored run."""
    ran = run(build, ["--list"])
    lines = ran.output.decode(errors="replace").splitlines()
    names = [line.removesuffix(": test") for line in lines[:-1] if line.endswith(": test")]
    if not ran.is_ended_with(0) or not names or lines[-1] != f"tests: {len(names)}":
        raise ValueError(f"{build.crate}: its tests are not all listed: {ran.ended_text()}\n{ran.output.decode(errors='replace')}{ran.said}")
    return [name for name in names if name != STORED_RUN]


def run_stored(build, files):
    """Runs the program of a crate with these files, and with the stored arguments and input. Of a test, the line that reports its
    success is no part of the output."""
    words = stored(build.crate, "args").decode().splitlines()
    ran = run(build, [STORED_RUN] if build.has_tests else words, files, stored(build.crate, "stdin"))
    return ran._replace(output=ran.output.removesuffix(PASSED)) if build.has_tests else ran


def passes(ran):
    """Returns whether a run of a test passed."""
    return ran.is_ended_with(0) and ran.output.endswith(PASSED)
