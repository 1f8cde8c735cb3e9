# The commands of this repository. They need the toolchain (rt), make, gcc and python3; `java` and `dist` also need a
# JDK and Maven.
PREFIX ?= /usr/local
PROGRAM = crates/sizing/out/sizing
READER = bench/plan_reader/out/plan_reader

# The sources of the programs. A program is proved again if one of its sources is newer.
PROGRAM_SOURCES := $(shell python3 tools/crates.py sizing)
READER_SOURCES := $(shell python3 tools/crates.py plan_reader)

.PHONY: help demo program install dist release-notes test gate gate-all rows mutants names examples quick-checks checks java bench plan_reader clean

# Prints each command with what it does.
help:
	@awk '/^#/ { said = said (said == "" ? "" : "\n                   ") substr($$0, 3) } \
	      /^[a-z_-]+:/ && said != "" { sub(/:.*/, ""); printf "make %-13s %s\n", $$0, said } \
	      !/^#/ { said = "" }' Makefile

# Runs `sizing ask` on the plans of README.md, without any proof: two to four minutes on a fresh machine.
demo:
	@examples/demo

# Proves and builds the program: 25 to 50 minutes on four cores. Does nothing if it is built and no source is newer.
program: $(PROGRAM)

$(PROGRAM): $(PROGRAM_SOURCES)
	@tools/build sizing

ifdef DIST
install:
	@room=$$(mktemp -d) && trap 'rm -rf "$$room"' EXIT && tar -xzf "$(DIST)" -C "$$room" && DESTDIR="$(DESTDIR)" "$$room"/*/install.sh $(PREFIX)
else
# Proves and builds the program, and installs it below PREFIX with its manual page, its completions for bash, zsh and
# fish, and the schema of plans. With DIST=FILE, installs a release.
install: program
	install -D -m 755 $(PROGRAM) $(DESTDIR)$(PREFIX)/bin/sizing
	@tools/man $(PROGRAM) $(dir $(PROGRAM))sizing.1
	install -D -m 644 $(dir $(PROGRAM))sizing.1 $(DESTDIR)$(PREFIX)/share/man/man1/sizing.1
	@tools/completions $(PROGRAM) $(dir $(PROGRAM))
	install -D -m 644 $(dir $(PROGRAM))sizing.bash $(DESTDIR)$(PREFIX)/share/bash-completion/completions/sizing
	install -D -m 644 $(dir $(PROGRAM))_sizing $(DESTDIR)$(PREFIX)/share/zsh/site-functions/_sizing
	install -D -m 644 $(dir $(PROGRAM))sizing.fish $(DESTDIR)$(PREFIX)/share/fish/vendor_completions.d/sizing.fish
	install -D -m 644 share/plan.schema.json $(DESTDIR)$(PREFIX)/share/sizing/plan.schema.json
	@echo "sizing is in $(DESTDIR)$(PREFIX)/bin"
endif

# Packs the program that `make gate` built and the jars of java/ into dist/sizing-VERSION-linux-x86_64.tar.gz: about a
# minute, and the same bytes each time. Needs what `make java` needs.
dist:
	@tools/dist

# Prints the section of CHANGELOG.md for the version in the file VERSION.
release-notes:
	@tools/version --notes

# Runs every test, every row except the long ones, and each stored run, without proofs: about 6 minutes on four cores.
test:
	@tools/test

# Proves the product from scratch in a copy, tries the mutants of must-fail/, and builds it with both compilers.
gate:
	@tools/gate

# Proves everything in place, including the test crates, with a plain `rt ci`.
gate-all:
	rt ci

# Runs the programs that `make gate` built on the rows, and compares their answers.
rows:
	@tools/rows

# Tries the mutants of the crates that changed, and writes mutants.lock. CRATE=NAME: of one crate; ALL=1: all, anew.
mutants:
	@tools/mutants $(if $(ALL),--all) $(CRATE)

# Prints the names of all definitions, promises, mutants and rows, by crate.
names:
	@tools/names

# Runs the built program on each example, and compares its answers.
examples: program
	python3 examples/check.py

# Runs the checks of checks/ that take minutes, as CI does if a crate or a check changed: about five minutes.
quick-checks: program
	@tools/quick_checks

# Tests the built program beyond its contracts: out of memory, the ends of its streams, termination of runs, sizes of
# `fit`. Tests a release, as root also in a fresh Debian, and with a JDK compares Java's own executors with the plans.
checks: program
	python3 checks/refused_growths.py
	python3 checks/ends_of_streams.py
	python3 checks/small_plans.py
	python3 checks/core_timeouts.py
	python3 checks/runs.py
	python3 checks/fit.py
	python3 checks/witnesses.py
	python3 checks/mistakes.py
	python3 checks/schema.py
	python3 checks/completions.py
	python3 checks/report_page.py
	python3 checks/forms.py
	python3 checks/dist.py
	python3 checks/fresh_system.py
	python3 checks/java/check.py
	python3 checks/java/jars.py

# Builds and tests the Java modules with Maven, offline, from the Debian packages of java/README.md: about a minute.
java:
	@tools/java

# Measures the commands, and compares them with simpler programs: with one that only reads the input, `fit` with
# `certify`, `run` with one that passes as many events through a lock, and four commands with a plain Rust program.
bench: program plan_reader
	@command -v valgrind > /dev/null || echo "no instructions are counted: valgrind is missing (apt-get install valgrind)"
	python3 bench/replay.py
	python3 bench/read.py
	python3 bench/check.py
	python3 bench/certify.py
	python3 bench/fit.py
	python3 bench/refute.py
	python3 bench/run.py
	python3 bench/recordings.py
	python3 bench/plain.py

# Proves and builds plan_reader, which only reads plans and certificates.
plan_reader: $(READER)

$(READER): $(READER_SOURCES)
	@tools/build plan_reader

# Removes the build outputs from the working tree. The proofs that rt caches on this machine stay.
clean:
	rm -rf dist out crates/*/out bench/*/out
