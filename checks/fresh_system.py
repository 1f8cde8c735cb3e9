#!/usr/bin/env python3
"""fresh_system.py [RELEASE]: unpacks a release in a fresh Debian system without the toolchain, and runs its contents there.

RELEASE is a tarball of `make dist`. Without it, the check packs a release of a copy of this repository and the built program, for
which a JDK and Maven are needed: if they are missing, the check prints what is missing and ends with 0. The
base system is created by debootstrap, which needs root, a network and a few minutes, or copied from the folder that the environment
variable SIZING_BASE names. If neither is possible, the check prints one line and ends with 0. README.md describes the cases.

Exit status: 0 if all cases are right, 1 if one is wrong, 2 if there is no program.
"""

import os
import shutil
import subprocess
import sys
import tempfile
import zipfile
from pathlib import Path

sys.dont_write_bytecode = True
from asking import built_program
from releases import ROOT, apply_dockerfile, copy_of_repository, must, put_program, run, unpack

sys.path.insert(0, str(ROOT / "examples"))
from pages import commands_of

SUITE = "bookworm"
# The packages of the base system in addition to those of a minimal Debian: the reader of manual pages.
PACKAGES = "man-db"
EXAMPLES = "share/sizing/examples"
# A class of each module's main jar.
MAIN_CLASSES = {
    "sizing-recorder": "sizing/Recorder.class",
    "sizing-junit5": "sizing/junit5/SizingPlan.class",
    "sizing-spring": "sizing/spring/SizingBeans.class",
}
ASKED = f"bin/sizing ask {EXAMPLES}/two-clients.toml"


class System:
    """A base system below a folder, in which commands are run."""

    def __init__(self, root):
        self.root, self.wrong = root, 0

    def run(self, command, folder="/", path="/usr/local/bin:/usr/bin:/bin"):
        """Runs a shell command in the system, and returns its exit status and the output of both streams."""
        words = ["chroot", self.root, "/usr/bin/env", "-i", f"PATH={path}", "HOME=/", "LC_ALL=C.UTF-8", "MANPAGER=cat", "MANWIDTH=100", "bash", "-c"]
        ended = subprocess.run([*words, f"cd {folder} && {command}"], stdin=subprocess.DEVNULL, stdout=subprocess.PIPE, stderr=subprocess.STDOUT, text=True, check=False)
        return ended.returncode, ended.stdout

    def case(self, name, is_right, printed):
        """Prints the result of a case, with the output if the case is wrong."""
        self.wrong += not is_right
        print(f"{name}: {'ok' if is_right else f'wrong: {printed}'}", flush=True)


def main(words):
    base = os.environ.get("SIZING_BASE")
    if os.geteuid() or not (base or shutil.which("debootstrap")):
        print("fresh_system: this check needs root, and debootstrap or SIZING_BASE (README.md), so nothing is tried")
        return 0
    lacks_java, lack = run(["tools/java", "--check"], ROOT)
    if lacks_java and not words:
        print(f"fresh_system: no release can be packed, so nothing is tried: {lack}", end="")
        return 0
    with tempfile.TemporaryDirectory(prefix="sizing-system-") as folder:
        room = Path(folder)
        release = Path(words[0]).resolve() if words else packed(room)
        if not release:
            return 2
        root = room / "system"
        if base:
            must(["cp", "-a", base, root], room)
        else:
            must(["debootstrap", "--variant=minbase", f"--include={PACKAGES}", SUITE, root], room)
        system = System(root)
        print(f"Debian {SUITE if not base else base}, {system.run('getconf GNU_LIBC_VERSION')[1].strip()}")
        at = unpack(release, root / "opt")
        unpacked(system, at)
        jars(system, at)
        an_installation(system, at)
        an_image(system, at)
    print(f"{system.wrong} wrong")
    return 1 if system.wrong else 0


def packed(room):
    """Packs a release of a copy of the repository and the built program, and returns its path, or None if there is no program."""
    program = built_program()
    if program is None:
        return None
    copy_of_repository(room / "repository")
    put_program(room / "repository", program)
    print(must(["make", "-s", "dist"], room / "repository"), end="")
    return next((room / "repository/dist").glob("*.tar.gz"))


def quoted(page, wanted=None):
    """Returns the commands that a page quotes, or only the wanted one, each with its output."""
    return [it for it in commands_of((ROOT / page).read_text(encoding="utf-8")) if wanted in (None, it[0])]


def unpacked(system, at):
    """Tries the files of a release in the folder in which it was unpacked."""
    here = f"/{at.relative_to(system.root)}"
    system.case("there is no toolchain", system.run("command -v rt gcc make python3")[0] == 1, "there is one")
    status, printed = system.run("sha256sum -c SHA256SUMS", here)
    system.case("sha256sum -c SHA256SUMS", status == 0, printed)
    ((_, wanted),) = quoted("docs/GUIDE.md", "sizing ask two-clients.toml")
    status, printed = system.run(ASKED, here)
    system.case(ASKED, printed.replace(f"{EXAMPLES}/", "") == wanted and status == 1, printed)
    status, printed = system.run("bin/sizing --version", here)
    if status == 0:
        version = system.run("sed -n 's/^version: //p' VERSION", here)[1].strip()
        system.case("bin/sizing --version", version in printed, printed)
    for command, wanted in quoted("README.md"):
        _, printed = system.run(command, f"{here}/{EXAMPLES}", f"{here}/bin:/usr/bin:/bin")
        system.case(f"README: {command}", printed == wanted, printed)
    status, printed = system.run("man -l share/man/man1/sizing.1", here)
    system.case("man -l share/man/man1/sizing.1", status == 0 and "SIZING ASK" in printed, printed)


def jars(system, at):
    """Checks that a release has the jars of each module, with their checksums, and that each main jar has classes."""
    maven = at / "share/sizing/maven/sizing"
    version = system.run("sed -n 's/^version: //p' VERSION", f"/{at.relative_to(system.root)}")[1].strip()
    wanted = {f"{module}-{version}{kind}.jar" for module in MAIN_CLASSES for kind in ("", "-sources", "-javadoc")}
    found = {path.name for path in maven.rglob("*.jar")}
    system.case("the nine jars", found == wanted, f"{sorted(found)}")
    command = "for file in */*/*.jar */*/*.pom; do echo \"$(cat $file.sha1)  $file\"; done | sha1sum -c"
    status, printed = system.run(command, f"/{maven.relative_to(system.root)}")
    system.case("the checksums of the jars and poms", status == 0 and printed.count(": OK\n") == 13, printed)
    for module, main_class in MAIN_CLASSES.items():
        jar = maven / module / version / f"{module}-{version}.jar"
        names = zipfile.ZipFile(jar).namelist() if jar.is_file() else []
        system.case(f"{jar.name} has {main_class}", main_class in names, names)


def an_installation(system, at):
    """Tries the files that install.sh installs into /usr/local."""
    status, printed = system.run("./install.sh", f"/{at.relative_to(system.root)}")
    system.case("./install.sh", (status, printed) == (0, "sizing is in /usr/local/bin\n"), printed)
    status, printed = system.run("sizing ask /usr/local/share/sizing/examples/shop.toml")
    system.case("sizing ask, from PATH", status == 0 and printed.startswith("SAFE\n"), printed)
    status, printed = system.run("man sizing")
    system.case("man sizing", status == 0 and "SIZING ASK" in printed, printed)
    completion = "/usr/local/share/bash-completion/completions/sizing"
    if (system.root / completion[1:]).is_file():
        status, printed = system.run(f". {completion} && complete -p sizing")
        system.case("the completions of bash", status == 0 and printed.startswith("complete ") and printed.endswith(" sizing\n"), printed)
    else:
        print("the release has no completions")


def an_image(system, at):
    """Tries the file system of the image that the Dockerfile of a release describes."""
    shutil.rmtree(system.root / "usr/local")
    apply_dockerfile(at, system.root)
    shutil.rmtree(at)
    status, printed = system.run("sizing ask /usr/local/share/sizing/examples/shop.toml")
    system.case("the image: sizing ask", status == 0 and printed.startswith("SAFE\n"), printed)
    status, printed = system.run("cat VERSION PROVED", "/usr/local/share/doc/sizing")
    system.case("the image: VERSION and PROVED", status == 0 and printed.startswith("version: "), printed)


if __name__ == "__main__":
    sys.exit(main(sys.argv[1:]) if len(sys.argv) <= 2 else __doc__)
