"""The revision with which CI compares, and the files that changed since."""
import subprocess

from crates import ROOT

# The commits of one change are made within these hours.
HOURS = 4


def git(*words):
    """Returns what git prints, or nothing if it fails."""
    return subprocess.run(["git", *words], cwd=ROOT, capture_output=True, text=True, check=False).stdout.strip()


def base_revision():
    """Returns the last revision that is more than HOURS older than HEAD, or nothing if there is none."""
    head = int(git("log", "-1", "--format=%ct") or 0)
    return git("rev-list", "-1", "--first-parent", f"--before={head - HOURS * 3600}", "HEAD")


def changed_since(revision):
    """Returns the paths of the files that differ from this revision in the commits up to HEAD, or in the working tree."""
    return git("diff", "--name-only", "--no-renames", revision).splitlines()
