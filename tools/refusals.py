#!/usr/bin/env python3
"""Writes what docs/USING.md says first of each refusal into the package that shows it, python/src/invar_tools/refusals.json.

Usage: tools/refusals.py           writes the file
       tools/refusals.py --check   tells whether the file is what the page says; the status is 1 where it isn't
"""
from __future__ import annotations

import argparse
import json
import re
import sys
from pathlib import Path

TOP = Path(__file__).resolve().parent.parent
PAGE, DATA = TOP / "docs/USING.md", TOP / "python/src/invar_tools/refusals.json"


def refusals(page: str) -> list[tuple[list[str], str]]:
    """The answers that a heading of the page has, with the first paragraph behind it."""
    rows = []
    for section in page.split("\n## ")[1:]:
        heading, _, body = section.partition("\n")
        answers = re.findall(r"`([^`]*)`", heading)
        if answers:
            rows.append((answers, body.strip().split("\n\n")[0].strip()))
    return rows


def main() -> int:
    parser = argparse.ArgumentParser(description="Writes what docs/USING.md says first of each refusal into the package that shows it.")
    parser.add_argument("--check", action="store_true", help="compare alone")
    is_check = parser.parse_args().check
    text = json.dumps(refusals(PAGE.read_text(encoding="utf-8")), indent=1, ensure_ascii=False) + "\n"
    if not is_check:
        DATA.write_text(text, encoding="utf-8")
    elif DATA.read_text(encoding="utf-8") != text:
        print(f"{DATA.relative_to(TOP)} isn't what docs/USING.md says; tools/refusals.py writes it")
        return 1
    return 0


if __name__ == "__main__":
    sys.exit(main())
