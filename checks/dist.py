#!/usr/bin/env python3
"""Packs releases of a copy of this repository, with a stub in place of the program, and checks their contents.

Needs gcc with binutils, git, and no proof. README.md describes each case.

Exit status: 0 if all cases are as they should be, 1 if one is not, 2 if gcc or readelf is missing.
"""

import hashlib
import os
import re
import shutil
import sys
import tempfile
from pathlib import Path

sys.dont_write_bytecode = True
from releases import (ROOT, KIT, apply_dockerfile, build_stub, commit, copy_of_repository, copied_by_dockerfile, files_below, must,
                      put_program, run, unpack)

VERSION = (ROOT / "VERSION").read_text().strip()
NAME = f"sizing-{VERSION}-linux-x86_64"
ARCHIVE = f"dist/{NAME}.tar.gz"
# The files of a release, without examples, pictures and jars.
FILES = """
    Dockerfile PROVED SHA256SUMS VERSION install.sh
    bin/sizing
    share/man/man1/sizing.1
    share/doc/sizing/README.md share/doc/sizing/CHANGELOG.md share/doc/sizing/java/README.md
    share/doc/sizing/docs/COVERAGE.md share/doc/sizing/docs/GUIDE.md share/doc/sizing/docs/MODEL.md
    share/doc/sizing/docs/PATTERNS.md share/doc/sizing/docs/PERMITS.md share/doc/sizing/docs/PROOFS.md
    share/doc/sizing/docs/RECORDING.md
    share/sizing/plan.schema.json
    share/bash-completion/completions/sizing share/zsh/site-functions/_sizing share/fish/vendor_completions.d/sizing.fish
""".split()
NOT_PACKED = {"check.py", "demo", "pages.py"}
# The files that a release adds to its own folder, and an installation does not need.
NOT_INSTALLED = {"Dockerfile", "SHA256SUMS", "install.sh"}
# The modules and the files that Maven builds, without the checksums beside them.
MODULES = ["sizing-junit5", "sizing-recorder", "sizing-spring"]
ARTIFACTS = [f"sizing-parent/{VERSION}/sizing-parent-{VERSION}.pom"]
ARTIFACTS += [f"{module}/{VERSION}/{module}-{VERSION}{ending}" for module in MODULES for ending in (".pom", ".jar", "-sources.jar", "-javadoc.jar")]
JARS = [f"share/sizing/maven/sizing/{path}{ending}" for path in ARTIFACTS for ending in ("", ".sha1")]
# A stub of tools/java. Its jars depend on the sources and their modes, as real jars do. NO_JAVA is what it lacks, and NO_JAR a kind
# of jars that it does not build.
JAVA = """#!/bin/sh
set -eu
if [ "$1" = --check ]; then
    [ -z "${NO_JAVA-}" ] || { echo "$NO_JAVA"; exit 1; }
    exit 0
fi
cd "$2"
for module in */; do
    module=${module%/}
    mkdir "$module/target"
    for kind in "" -sources -javadoc; do
        [ "$kind" != "${NO_JAR-none}" ] || continue
        find "$module/src" -type f | LC_ALL=C sort | xargs stat -c "%a %n" > "$module/target/$module-VERSION$kind.jar"
        find "$module/src" -type f | LC_ALL=C sort | xargs cat >> "$module/target/$module-VERSION$kind.jar"
    done
done
"""


class Cases:
    """A counter of cases, which prints each with its fault."""

    def __init__(self):
        self.ok = self.wrong = 0

    def equal(self, name, found, wanted):
        differs = f"is {found!r}, not {wanted!r}"
        if isinstance(found, set):
            differs = f"has {sorted(found - wanted)} too, and lacks {sorted(wanted - found)}"
        self.true(name, found == wanted, differs)

    def true(self, name, is_right, differs="no"):
        self.ok, self.wrong = self.ok + bool(is_right), self.wrong + (not is_right)
        print(f"{name}: {'ok' if is_right else differs}", flush=True)


def main():
    if lacking := [tool for tool in ("gcc", "readelf", "strip", "git") if not shutil.which(tool)]:
        print(f"there is no {lacking[0]}", file=sys.stderr)
        return 2
    cases = Cases()
    with tempfile.TemporaryDirectory(prefix="sizing-dist-check-") as folder:
        room = Path(folder)
        repository = room / "repository"
        copy_of_repository(repository, with_stub_of_java)
        stub = build_stub(room / "stub")
        put_program(repository, stub)
        release = same_bytes(cases, room, repository)
        contents(cases, repository, release)
        installations(cases, room, repository, release)
        no_java(cases, room, repository)
        refusals(cases, room, repository, stub)
    with tempfile.TemporaryDirectory(prefix="sizing-version-check-") as folder:
        versions(cases, Path(folder))
    print(f"{cases.ok} ok, {cases.wrong} wrong")
    return 1 if cases.wrong else 0


# ---- jars


def with_stub_of_java(repository):
    """Replaces tools/java by a stub, which needs neither a JDK nor Maven."""
    path = repository / "tools/java"
    path.write_text(JAVA.replace("VERSION", VERSION))
    path.chmod(0o755)


def no_java(cases, room, repository):
    """Checks that nothing is packed without all nine jars, and that CI passes then and says why."""
    lack = "missing packages, install them: apt-get install maven"
    environment = {**os.environ, "NO_JAVA": lack}
    packs_nothing(cases, repository, "no Maven", ["tools/dist"], environment, (1, f"dist: the jars cannot be built: {lack}\n"))
    line = f"dist: the version has changed, but no release is packed, because the jars cannot be built: {lack}\n"
    packs_nothing(cases, repository, "no Maven, in CI", ["tools/dist", "--ci"], environment, (0, line))
    line = f"dist: tools/java --jars did not build sizing-junit5-{VERSION}-javadoc.jar\n"
    packs_nothing(cases, repository, "no Javadoc jars", ["tools/dist"], {**os.environ, "NO_JAR": "-javadoc"}, (1, line))
    tools = room / "tools_without_java"
    tools.mkdir()
    for tool in ("bash", "dirname", "sed"):
        (tools / tool).symlink_to(shutil.which(tool))
    status, printed = run([ROOT / "tools/java", "--check"], room, env={"PATH": str(tools)})
    wanted = "missing packages, install them: apt-get install --no-install-recommends openjdk-17-jdk-headless maven python3"
    cases.true("tools/java --check names all that is missing, in a line", status == 1 and printed.startswith(wanted) and printed.count("\n") == 1, printed)


def packs_nothing(cases, repository, name, words, environment, wanted):
    """Checks what a command prints that does not pack a release."""
    shutil.rmtree(repository / "dist", ignore_errors=True)
    found = run(words, repository, env=environment)
    cases.true(name, found == wanted and not (repository / "dist").exists(), found)


# ---- contents


def same_bytes(cases, room, repository):
    """Packs two releases under different circumstances, compares them, and returns the folder of the unpacked one."""
    must(["tools/dist", "--ci"], repository)
    first = (repository / ARCHIVE).read_bytes()
    for path in repository.rglob("*.toml"):
        os.utime(path, (1, 1))
    must(["chmod", "-R", "go=", "java"], repository)
    for built in (f"sizing-recorder-{VERSION}.jar", "sizing-recorder-0.0.1.jar"):
        (repository / "java/sizing-recorder/target").mkdir(exist_ok=True)
        (repository / "java/sizing-recorder/target" / built).write_text("an earlier make java\n")
    shutil.rmtree(repository / "dist")
    printed = must(["sh", "-c", "umask 077; make dist"], repository, env={**os.environ, "TZ": "Asia/Tokyo", "LC_ALL": "C"})
    second = (repository / ARCHIVE).read_bytes()
    cases.true("two runs give the same bytes", first == second)
    checksum = hashlib.sha256(second).hexdigest()
    cases.equal("the checksum beside it", (repository / f"{ARCHIVE}.sha256").read_text(), f"{checksum}  {NAME}.tar.gz\n")
    release = unpack(repository / ARCHIVE, room / "unpacked")
    program = hashlib.sha256((release / "bin/sizing").read_bytes()).hexdigest()
    cases.true("make dist prints the checksums of the release and the program", checksum in printed and program in printed, printed)
    return release


def contents(cases, repository, release):
    """Checks that a release has each file that it should have, and checks the texts of its own files."""
    examples = {f"share/sizing/examples/{path}" for path in files_below(repository / "examples") if path not in NOT_PACKED}
    pictures = {f"share/doc/sizing/docs/pictures/{path}" for path in files_below(repository / "docs/pictures")}
    files = files_below(release)
    cases.equal("the files of a release", files, {*FILES, *examples, *pictures, *JARS})
    sums = {path: (release / f"{path}.sha1").read_text() for path in JARS if not path.endswith(".sha1")}
    cases.equal("the .sha1 files", sums, {path: hashlib.sha1((release / path).read_bytes()).hexdigest() for path in sums})
    modes = set(re.findall(r"(?m)^(\d+) sizing-\w+/src/", (release / JARS[4]).read_text()))
    cases.equal("the modes of the files in a jar", modes, {"644"})
    # README says that a release does not have CONTRIBUTING.md.
    pages = re.findall(r"`([\w/-]+\.md)`", (release / "share/doc/sizing/README.md").read_text().replace("`CONTRIBUTING.md` in a checkout", ""))
    cases.equal("the pages that README names and a release lacks", {page for page in pages if f"share/doc/sizing/{page}" not in files}, set())
    executable = {path for path in files if os.access(release / path, os.X_OK) and (release / path).stat().st_mode & 0o100}
    cases.equal("the files that can be run", executable, {"bin/sizing", "install.sh"})
    sums = dict(reversed(line.split("  ")) for line in (release / "SHA256SUMS").read_text().splitlines())
    cases.equal("SHA256SUMS", sums, {path: hashlib.sha256((release / path).read_bytes()).hexdigest() for path in files - {"SHA256SUMS"}})
    head = must(["git", "rev-parse", "HEAD"], repository).strip()
    facts = f"version: {VERSION}\ncommit: {head}\nkit: {KIT}\nsystem: Linux\nglibc: 2.34 or later\nCPU: x86-64-v2\n"
    cases.equal("VERSION", (release / "VERSION").read_text(), facts)
    text = (release / "PROVED").read_text()
    proved = dict(line.split(": ", 1) for line in text.splitlines() if not line.startswith("#"))
    cases.equal("the facts of PROVED", list(proved), ["commit", "command", "result", "version", "crates", "functions", "kit", "definitions", "sources", "program"])
    cases.equal("the gate's last line in PROVED", (proved["commit"], proved["result"]), (head, "3 passed, 0 failed"))
    for name, command in re.findall(r"(?m)^# (\w+): +LIST (.*)$", text):
        printed = must(["sh", "-c", f"python3 -B tools/crates.py sizing {command}"], repository)
        cases.equal(f"the checksum `{name}` of PROVED by its command", proved[name], printed.split()[0])
    cases.true("the manual page", ".TH SIZING 1" in (release / "share/man/man1/sizing.1").read_text())


# ---- installing


def installed(release):
    """Returns the files that an installation of a release has."""
    moved = {"VERSION": "share/doc/sizing/VERSION", "PROVED": "share/doc/sizing/PROVED"}
    return {moved.get(path, path) for path in files_below(release) - NOT_INSTALLED}


def installations(cases, room, repository, release):
    """Installs a release in each way, and checks that each gives the same files."""
    wanted = installed(release)
    must([release / "install.sh", room / "prefix"], room)
    cases.equal("install.sh PREFIX", files_below(room / "prefix"), wanted)
    cases.true("the installed program runs", run([room / "prefix/bin/sizing", "ask"], room) == (0, "SAFE\n"))
    must([release / "install.sh", "relative"], room, env={**os.environ, "DESTDIR": ""})
    cases.equal("install.sh, a relative PREFIX", files_below(room / "relative"), wanted)
    must([release / "install.sh"], room, env={**os.environ, "DESTDIR": str(room / "image")})
    cases.equal("install.sh with DESTDIR", files_below(room / "image/usr/local"), wanted)
    must(["make", "install", f"DIST={ARCHIVE}", f"PREFIX={room / 'made'}"], repository)
    cases.equal("make install DIST=FILE", files_below(room / "made"), wanted)
    apply_dockerfile(release, room / "docker")
    cases.equal("what the Dockerfile copies", files_below(room / "docker/usr/local"), wanted)
    text = (release / "Dockerfile").read_text()
    cases.true("the Dockerfile names files of the release alone", all((release / it).exists() for names, _ in copied_by_dockerfile(release) for it in names))
    cases.true("the Dockerfile runs the program", text.rstrip().endswith('ENTRYPOINT ["sizing"]'), text)
    damaged(cases, room, release)


def damaged(cases, room, release):
    """Checks that install.sh installs nothing of a damaged release, and nothing that does not run here."""
    broken = room / "broken"
    shutil.copytree(release, broken)
    (broken / "share/sizing/examples/shop.toml").write_text("")
    status, printed = run([broken / "install.sh", room / "none"], room)
    cases.true("install.sh of a damaged release", status == 1 and "damaged" in printed and not (room / "none").exists(), printed)
    program = broken / "bin/sizing"
    program.write_text("#!/bin/sh\nexit 1\n")
    (broken / "SHA256SUMS").write_text(f"{hashlib.sha256(program.read_bytes()).hexdigest()}  bin/sizing\n")
    status, printed = run([broken / "install.sh", room / "none"], room)
    cases.true("install.sh where the program does not run", status == 1 and "does not run here" in printed and not (room / "none").exists(), printed)
    status, printed = run([broken / "install.sh", "--help"], room)
    cases.true("install.sh --help", status == 2 and printed == "usage: ./install.sh [PREFIX]\n", printed)


# ---- what is refused


def refusals(cases, room, repository, stub):
    """Checks that no release is packed from a program, a record or a tree that does not permit one."""
    def refused(name, wanted):
        shutil.rmtree(repository / "dist", ignore_errors=True)
        status, printed = run(["tools/dist"], repository)
        cases.true(name, status == 1 and wanted in printed.splitlines() and not (repository / "dist").exists(), f"status {status}, {printed}")

    put_program(repository, with_library(room, "libc.so.6", "GLIBC_2.99"))
    refused("a program that needs a newer glibc", "dist: the program needs glibc 2.99, and a release at most 2.34")
    put_program(repository, with_library(room, "libc.so.6", "GLIBC_ABI_DT_RELR"))
    refused("a program that needs a later addition to glibc", "dist: the program needs glibc ABI_DT_RELR, and a release at most 2.34")
    put_program(repository, with_library(room, "libother.so.1", "OTHER_1.0"))
    others = "ld-linux-x86-64.so.2 libc.so.6 libm.so.6"
    refused("a program that needs another library", f"dist: the program needs the library libother.so.1, and a release only {others}")
    put_program(repository, build_stub(room / "with_path", "-Wl,-rpath,/opt/lib"))
    refused("a program that looks for libraries elsewhere", "dist: the program looks for libraries in /opt/lib, which a release does not have")
    put_program(repository, build_stub(room / "newer_cpu", "-Wl,-z,x86-64-v3"))
    refused("a program for newer processors", "dist: the program needs a processor with x86-64-v3, and a release only x86-64-v2")
    put_program(repository, __file__)
    refused("a text in the place of the program", "dist: the program is no program for x86-64")
    put_program(repository, stub, "make program")
    refused("a program without a gate", "dist: the program was built by `make program`: run `make gate`")
    put_program(repository, stub)
    shutil.copy(room / "with_path", repository / "crates/sizing/out/sizing")
    refused("a program that is not that of the record", "dist: the program is not that of its record: run `make gate`")
    put_program(repository, stub)
    with open(repository / "crates/sizing/src/main.rt", "a", encoding="utf-8") as file:
        file.write("// changed\n")
    refused("sources that have changed", "dist: the sources have changed since the program was built: run `make gate`")
    refused("uncommitted changes", "dist: uncommitted changes, crates/sizing/src/main.rt among them: commit them")
    shutil.rmtree(repository / "crates/sizing/out")
    refused("no program", "dist: no program was built with a record: run `make gate`")


def with_library(room, library, version):
    """Returns a program that needs a symbol of this version of a library of this name."""
    (room / "versions").write_text(f"{version} {{ global: addition; }};\n")
    (room / "addition.c").write_text("int addition(void) { return 0; }\n")
    must(["gcc", "-shared", "-fPIC", f"-Wl,-soname,{library}", "-Wl,--version-script=versions", "-o", "libaddition.so", "addition.c"], room)
    source = "int addition(void);\nvoid _start(void) { addition(); }\n"
    return build_stub(room / f"needs_{version}", "-nostdlib", "-L.", "-laddition", source=source)


# ---- versions


def versions(cases, room):
    """Checks that one number is the version everywhere, and when a commit is known to change it."""
    cases.equal("tools/version", must(["tools/version"], ROOT), f"{VERSION}\n")
    headings = re.findall(r"(?m)^## (.*)$", (ROOT / "CHANGELOG.md").read_text(encoding="utf-8"))
    cases.true("CHANGELOG.md has a heading for the version", VERSION in headings[:2], f"{headings[:2]}")
    notes = must(["make", "-s", "release-notes"], ROOT)
    section = (ROOT / "CHANGELOG.md").read_text(encoding="utf-8").partition(f"## {VERSION}\n")[2].partition("\n## ")[0]
    cases.equal("make release-notes", notes.strip(), section.strip())
    cases.equal("tools/version --check", run(["tools/version", "--check"], ROOT), (0, ""))
    another_version(cases, room / "repository")
    (room / "tools").mkdir()
    for path in ("tools/version", "tools/changes.py", "tools/crates.py"):
        shutil.copy(ROOT / path, room / path)
    must(["git", "init", "-q", "."], room)
    history = [("0.1.0", 0, "a first commit", 0), ("0.1.0", 5, "the same version", 1), ("0.2.0", 10, "another version", 0),
               ("0.2.0", 12, "a commit two hours later", 0), ("0.2.0", 20, "a commit ten hours later", 1)]
    for number, (version, hour, name, status) in enumerate(history):
        (room / "VERSION").write_text(f"{version}\n")
        (room / "count").write_text(f"{number}\n")
        must(["git", "add", "-A"], room)
        commit(room, f"2026-01-01T{hour:02}:00:00Z")
        cases.equal(f"tools/version --changed: {name}", run(["tools/version", "--changed"], room), (status, ""))


def another_version(cases, repository):
    """Checks that one command writes a version into all files that have it, and that a file with another version is reported."""
    copy_of_repository(repository)
    found = lambda version: run(["git", "grep", "-lwF", version, "--", "VERSION", "*.md", "java", "crates/report", ":!CHANGELOG.md"], repository)
    _, before = found(VERSION)
    cases.equal("tools/version --set", run(["tools/version", "--set", "97.98.99"], repository), (0, ""))
    cases.equal("the files that have the new version", found("97.98.99"), (0, before))
    cases.equal("the files that have the old version", found(VERSION), (1, ""))
    cases.equal("tools/version --check after --set", run(["tools/version", "--check"], repository), (0, ""))
    pom = repository / "java/sizing-spring/pom.xml"
    pom.write_text(pom.read_text().replace("97.98.99", "97.98.0"))
    line = "java/sizing-spring/pom.xml has the version 97.98.0, and VERSION has 97.98.99: run `tools/version --set 97.98.99`\n"
    cases.equal("a pom of another version", run(["tools/version", "--check"], repository), (1, line))
    cases.true("tools/dist of two versions", f"dist: {line}" in run(["tools/dist"], repository)[1])
    cases.equal("tools/version --set of no version", run(["tools/version", "--set", "1.2"], repository)[0], 1)


if __name__ == "__main__":
    sys.exit(main())
