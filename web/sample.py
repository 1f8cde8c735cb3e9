#!/usr/bin/env python3
"""Writes the page of an answer, to try web/report.html without building the program again.

    sizing ask --format json PLAN.toml > answer.json
    python3 web/sample.py answer.json > page.html
"""

import json
import sys
from pathlib import Path

TEMPLATE = Path(__file__).resolve().parent / "report.html"
MARK = "@@ANSWER@@"


def page_of(answer):
    """Returns the page: the template with the answer in the place of its mark."""
    text = json.dumps(answer, ensure_ascii=False, separators=(",", ":"))
    return TEMPLATE.read_text(encoding="utf-8").replace(MARK, text.replace("<", "\\u003c"))


def main(file):
    sys.stdout.write(page_of(json.loads(Path(file).read_text(encoding="utf-8"))))


if __name__ == "__main__":
    sys.exit(main(*sys.argv[1:]) if len(sys.argv) == 2 else __doc__)
