#!/usr/bin/env python3
"""Writes docs/CRATES.md: a row for each crate, by the bands of crates.txt, from the heads of the crates' root files.

Usage: tools/crates.py [--check | --changed REVISION]

The head of a root file, `src/lib.rt` or `src/main.rt`, is its lines that begin with `//!`. It has paragraphs, with an empty line between two:
the first says what the crate is; one that begins with `Proved:` says what its contracts promise to the crates above; one that begins with
`Notion:` names the notion of the field, and where it is told. Any others, as on the rows that a program reads, are left out of the page.

With --check nothing is written; where the page differs, the lines that do are told, and the status is 1. With --changed nothing is written either: the crates are told that the
commit changed since it left the revision, in their folders or in bench/edits, and those that stand on one whose sources it changed.
"""
import argparse
import difflib
import re
import subprocess
import sys
from dataclasses import dataclass
from pathlib import Path

TOP = Path(__file__).resolve().parent.parent
PAGE = TOP / "docs" / "CRATES.md"
HEAD = """\
# The crates

Written by `tools/crates.py` from crates.txt and the heads of the crates' root files (`src/lib.rt`, `src/main.rt`); change those, and not this page.

Lowest first: a crate stands on none below its row, and one of theory on theory alone. *Proved* sums up the contracts that the crates above use; they \
stand beside each function in `src/*.rt`, and docs/DEFINITIONS.md tells their words. Every call that takes memory may also end for want of it. A \
number like 2.7 is a chapter and section of Cox, Little and O'Shea, *Ideals, Varieties, and Algorithms* (fourth edition); the article is \
Rodríguez-Carbonell and Kapur, *Generating all polynomial invariants in simple loops* (2007).
"""


@dataclass
class Crate:
    """A line of crates.txt."""
    name: str
    band: str
    line: int
    below: list[str]


@dataclass
class Head:
    """What the head of a root file says of its crate."""
    what: str
    proved: str = ""
    notion: str = ""


def listed() -> dict[str, Crate]:
    """The crates of crates.txt in its order; a comment that is a line of its own, behind an empty line, begins a band."""
    crates, band, before = {}, "", None
    for number, line in enumerate((TOP / "crates.txt").read_text(encoding="utf-8").split("\n"), 1):
        if line.startswith("#") and before == "":
            band = line.strip("# ")
        name, colon, below = line.partition("#")[0].partition(":")
        if colon:
            crates[name.split()[0]] = Crate(name.split()[0], band, number, below.split())
        before = line
    return crates


def root_file(name: str) -> Path:
    library = TOP / "crates" / name / "src" / "lib.rt"
    return library if library.exists() else library.with_name("main.rt")


def head_of(name: str) -> Head:
    lines = re.findall(r"^//!(.*)$", root_file(name).read_text(encoding="utf-8"), re.M)
    what, *others = (" ".join(part.split()) for part in "\n".join(line.strip() for line in lines).split("\n\n"))
    head = Head(what)
    for part in others:
        kind, _, told = part.partition(": ")
        if kind == "Proved":
            head.proved = told
        elif kind == "Notion":
            head.notion = told
    return head


def sentence(text: str) -> str:
    return text[:1].upper() + text[1:]


def row(name: str) -> str:
    head = head_of(name)
    cells = (f"`{name}`", head.what, sentence(head.proved), sentence(head.notion))
    return "| " + " | ".join(cell.replace("|", "\\|") for cell in cells) + " |"


def page() -> str:
    crates = listed()
    parts = [HEAD]
    for band in dict.fromkeys(crate.band for crate in crates.values()):
        rows = [row(crate.name) for crate in crates.values() if crate.band == band]
        parts.append("\n".join([f"## {sentence(band)}", "", "| Crate | What it is | Proved | Notion |", "|---|---|---|---|", *rows]) + "\n")
    return "\n".join(parts)


def changed_since(revision: str) -> list[str]:
    """The crates with other sources or edits than where the commit left the revision, and those above other sources."""
    command = ["git", "-C", TOP, "diff", "--name-only", f"{revision}...HEAD"]
    paths = subprocess.run(command, check=True, capture_output=True, text=True).stdout.split("\n")
    crates = listed()
    with_sources = {path.split("/")[1] for path in paths if re.match(r"crates/\w+/(?:src|specs|proofs)/", path)}
    with_edits = {path.split("/")[2] for path in paths if path.startswith("bench/edits/")}
    for crate in crates.values():
        if with_sources & set(crate.below):
            with_sources.add(crate.name)
    return [name for name in crates if name in with_sources | with_edits]


def main() -> int:
    parser = argparse.ArgumentParser(description=__doc__, formatter_class=argparse.RawDescriptionHelpFormatter)
    parser.add_argument("--check", action="store_true")
    parser.add_argument("--changed", metavar="REVISION")
    arguments = parser.parse_args()
    if arguments.changed:
        print(*changed_since(arguments.changed), sep="\n")
        return 0
    if arguments.check:
        written = PAGE.read_text(encoding="utf-8") if PAGE.exists() else ""
        differ = list(difflib.unified_diff(written.splitlines(), page().splitlines(), "docs/CRATES.md", "the heads of the crates", lineterm="", n=0))
        for line in differ:
            print(line)
        return 1 if differ else 0
    PAGE.write_text(page(), encoding="utf-8")
    return 0


if __name__ == "__main__":
    sys.exit(main())
