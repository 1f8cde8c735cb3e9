#!/usr/bin/env python3
"""Checks the completions for bash, zsh and fish that tools/completions writes.

    python3 checks/completions.py

- Each completion has each command, and each option in the help of the command.
- bash loads its file, and completes commands, options, files and the values of options.
- zsh and fish complete the same, if they are installed; otherwise a line says that they are not.

The program is crates/sizing/out/sizing, or the one that the environment variable SIZING names.

Exit status: 0 if all of this holds, 1 if not, 2 if there is no program.
"""

import os
import re
import shutil
import subprocess
import sys
import tempfile
from pathlib import Path

sys.dont_write_bytecode = True

ROOT = Path(__file__).resolve().parent.parent
sys.path.insert(0, str(ROOT / "tools"))

from asking import built_program
from help_texts import command_of, commands_of, help_of

FILES = ["shop.toml", "other.toml", "shop.json", "shop.recording", "shop.events"]
SECONDS = 60

# A command line, words that its completion must offer, and words that it must not.
CASES = [
    ("sizing ", ["ask", "fit", "learn", "help"], ["shop.toml"]),
    ("sizing a", ["ask"], ["fit"]),
    ("sizing help ", ["ask", "learn"], ["shop.toml"]),
    ("sizing ask --", ["--strict", "--format", "--json", "--certificate"], ["--workers"]),
    ("sizing ask --format ", ["text", "json", "dot", "html", "github", "sarif"], ["shop.toml", "--strict"]),
    ("sizing ask --format s", ["sarif"], ["json", "shop.toml"]),
    ("sizing ask --format json s", ["shop.toml"], ["sarif"]),
    ("sizing ask --st", ["--strict"], ["--json"]),
    ("sizing certify --", ["--workers"], ["--strict"]),
    ("sizing ask s", ["shop.toml"], ["strict"]),
    ("sizing ask --strict shop.toml s", ["shop.json"], ["strict"]),
    ("sizing ask --certificate shop.json s", ["shop.toml"], ["strict"]),
    ("sizing conform shop.toml s", ["shop.recording"], ["strict"]),
    ("sizing learn s", ["shop.recording"], ["strict"]),
    ("sizing certify --workers ", [], ["shop.toml", "--workers"]),
]
# Cases for bash alone, which does not offer files with another suffix. zsh and fish offer them last.
BASH_ONLY = [
    ("sizing ask ", ["other.toml", "shop.toml"], ["shop.json"]),
    ("sizing ask shop.toml ", ["shop.json"], ["shop.toml"]),
]

BASH = r"""
source "$1"
COMP_LINE=$2; COMP_POINT=${#2}
read -ra COMP_WORDS <<< "$2"
if [[ $2 == *' ' ]]; then COMP_WORDS+=(''); fi
COMP_CWORD=$((${#COMP_WORDS[@]} - 1))
_sizing sizing "${COMP_WORDS[COMP_CWORD]}" "${COMP_WORDS[COMP_CWORD - 1]}"
printf '%s\n' "${COMPREPLY[@]}"
"""
# zsh completes only on a terminal, so a second zsh runs on a pseudo-terminal, and prints each offer instead of completing the line.
# It prints READY_NOW when it has begun to edit a line: what is written sooner, the terminal would edit.
ZSH = r"""
zmodload zsh/zpty
zpty inner zsh -f -i
zpty -w inner "PS1='' PS2='' fpath=($1 \$fpath)"
zpty -w inner 'autoload -Uz compinit; compinit -u -D; unsetopt zle_bracketed_paste 2>/dev/null'
zpty -w inner 'compadd() { local -a _offers; builtin compadd -O _offers "$@"; print -rl -- "" "OFFER "$^_offers; builtin compadd "$@" }'
zpty -w inner 'bindkey "^I" complete-word; zle-line-init() { print READY"_"NOW }; zle -N zle-line-init'
zpty -r inner seen '*READY_NOW*'
zpty -n -w inner "$2"$'\t\x15print DONE"_"NOW\n'
zpty -r inner seen '*DONE_NOW*'
print -r -- "$seen"
zpty -d inner
"""


def bash_offers(folder, line):
    """Returns the words that bash offers for a command line."""
    return ran(["bash", "--norc", "-c", BASH, "bash", str(folder / "sizing.bash"), line], folder).splitlines()


def zsh_offers(folder, line):
    """Returns the words that zsh offers for a command line."""
    return re.findall(r"(?m)^OFFER (\S+)", ran(["zsh", "-f", "-c", ZSH, "zsh", str(folder), line], folder).replace("\r", ""))


def fish_offers(folder, line):
    """Returns the words that fish offers for a command line."""
    text = ran(["fish", "--no-config", "-c", f"source {folder}/sizing.fish; complete -C '{line}'"], folder)
    return [offer.split("\t")[0] for offer in text.splitlines()]


def ran(words, folder):
    """Runs a command in the folder of the files, and returns its output."""
    environment = {**os.environ, "HOME": str(folder), "TERM": "dumb", "PATH": f"{folder}/bin:{os.environ['PATH']}"}
    done = subprocess.run(words, cwd=folder / "work", env=environment, stdin=subprocess.DEVNULL, capture_output=True, timeout=SECONDS, check=False)
    return done.stdout.decode(errors="replace")


def missing(program, folder):
    """Yields a line for each command and option that a completion lacks."""
    for name in commands_of(help_of(program)):
        command = command_of(program, name)
        for option in command.options:
            long = option.long.removeprefix("--")
            wanted = {
                "sizing.bash": rf"(?m)^ *{name}:-\*\).*[ ']{option.long}[ ']",
                "_sizing": rf"(?ms)^        {name}\)(?:(?! ;;).)*{option.long}\b",
                "sizing.fish": rf"(?m)^complete -c sizing -n '__fish_seen_subcommand_from {name}' .*-l {long} ",
            }
            for file, pattern in wanted.items():
                if not re.search(pattern, (folder / file).read_text(encoding="utf-8")):
                    yield f"{file}: {name} has no {option.long}"


def wrong_offers(shell, offers, folder, cases):
    """Yields a line for each case in which a shell lacks an offer, or has one that it must not have."""
    for line, wanted, unwanted in cases:
        found = offers(folder, line)
        if lacking := [word for word in wanted if word not in found]:
            yield f"{shell}: {line!r} does not offer {' '.join(lacking)}, but {found}"
        if surplus := [word for word in unwanted if word in found]:
            yield f"{shell}: {line!r} offers {' '.join(surplus)}"


def main():
    if not (program := built_program()):
        return 2
    wrong, shells = [], []
    with tempfile.TemporaryDirectory(prefix="sizing-completions-") as name:
        folder = Path(name)
        (folder / "work").mkdir()
        (folder / "bin").mkdir()
        (folder / "bin" / "sizing").symlink_to(program)
        for file in FILES:
            (folder / "work" / file).touch()
        subprocess.run([ROOT / "tools" / "completions", program, folder], check=True)
        wrong += missing(program, folder)
        for shell, offers, cases in (("bash", bash_offers, CASES + BASH_ONLY), ("zsh", zsh_offers, CASES), ("fish", fish_offers, CASES)):
            if shutil.which(shell):
                shells.append(shell)
                wrong += wrong_offers(shell, offers, folder, cases)
            else:
                print(f"{shell} is not installed, so its completion was not tried")
    print(*wrong, sep="\n", end="\n" if wrong else "")
    print(f"{len(CASES)} command lines in {', '.join(shells)}: {len(wrong)} wrong")
    return 1 if wrong else 0


if __name__ == "__main__":
    sys.exit(main())
