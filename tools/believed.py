#!/usr/bin/env python3
"""Counts the lines of definitions that a reader has to believe to know what each clause of the top call says.

Usage: tools/believed.py [--check]

Each row is a clause of the table in docs/THEOREM.md, with the lines of all definitions of the repository that it names, that these name, and so on.
A definition that several name is counted once; comments, imports and the kit's definitions aren't counted. With --check the table's numbers are
compared: where one differs it is told, and the status is 1.

A definition is what stands between blank lines in a file of crates/*/specs. A name in it is that of another which the file has or imports, by itself
or behind the name of the other's file.
"""
from __future__ import annotations

import re
import sys
from collections.abc import Iterator
from dataclasses import dataclass, field
from functools import cache
from pathlib import Path

TOP = Path(__file__).resolve().parent.parent
PAGE, CALL = TOP / "docs/THEOREM.md", TOP / "crates/invar_app/src/lib.rt"
COMMENT = re.compile(r"^\s*(?:--|//).*\n?", re.M)
IMPORT = re.compile(r"^(?:ghost )?use Rattle\.(?P<crate>\w+)\.specs\.(?P<file>[\w.]+?)(?:\.\{(?P<names>[^}]*)\}| as (?P<other>\w+))?;?$", re.M)
SETTING = re.compile(r"^(?:module|mod|pub mod)\b.*\n?", re.M)
HEAD = re.compile(r"^ *(?:unfoldable )?(?:abbrev )?(?:pub )?(?:(?:record|data|abbrev) )?(?P<name>[^\s:(){}]+)(?=[ :])", re.M)
NAME = re.compile(r"[^\s(){}\[\],]+")
CLAUSE = re.compile(r"^    ensures (?P<name>\w+) \{(?P<says>.*?)\}\n(?=\n|\{)", re.M | re.S)
ROW = re.compile(r"^\|[^|]*\| `(?P<clause>\w+)` \|[^|]*\| (?P<lines>[\d,]+) \|$", re.M)


@dataclass
class Source:
    """The definitions of a file, and where the names stand that it takes from others."""

    path: Path
    parts: list[str] = field(default_factory=list)
    own: dict[str, int] = field(default_factory=dict)
    taken: dict[str, tuple[Path, str]] = field(default_factory=dict)
    files: dict[str, Path] = field(default_factory=dict)

    def definition(self, name: str) -> tuple[Path, int] | None:
        """Where the definition stands that a name means here, if it is the repository's."""
        if name in self.own:
            return self.path, self.own[name]
        if name in self.taken:
            path, other = self.taken[name]
            return source(path).definition(other)
        first, _, rest = name.partition(".")
        return source(self.files[first]).definition(rest) if rest and first in self.files else None

    def named(self, text: str) -> Iterator[tuple[Path, int]]:
        """The definitions that a text in the file names."""
        return (place for place in map(self.definition, NAME.findall(text)) if place is not None)


@cache
def source(path: Path) -> Source:
    """What a file has."""
    result = Source(path)
    text = COMMENT.sub("", path.read_text())
    for one in IMPORT.finditer(text):
        other = TOP / "crates" / one["crate"] / "specs" / (one["file"].replace(".", "/") + ".antt")
        if other.is_file():
            result.files[one["other"] or other.stem] = other
            for name in re.split(r",\s*", one["names"] or ""):
                wanted, _, here = name.partition(" as ")
                result.taken[here or wanted] = other, wanted
    if path.suffix == ".antt":
        result.parts = [part for part in re.split(r"\n\s*\n", SETTING.sub("", IMPORT.sub("", text))) if part.strip()]
        for place, part in enumerate(result.parts):
            for name in HEAD.findall(part):
                result.own.setdefault(name, place)
    return result


def lines_of(clause: str) -> int:
    """The lines of the definitions that a clause of the top call names, with those that these name."""
    waiting = list(source(CALL).named(clause))
    known = set(waiting)
    while waiting:
        path, place = waiting.pop()
        more = set(source(path).named(source(path).parts[place])) - known
        known |= more
        waiting += more
    return sum(len(source(path).parts[place].strip().splitlines()) for path, place in known)


def main() -> int:
    clauses = {one["name"]: one["says"] for one in CLAUSE.finditer(CALL.read_text())}
    rows = {row["clause"]: int(row["lines"].replace(",", "")) for row in ROW.finditer(PAGE.read_text())}
    counts = {name: lines_of(says) for name, says in clauses.items()}
    if sys.argv[1:] != ["--check"]:
        print("\n".join(f"{name}: {lines:,}" for name, lines in counts.items()))
        return 0
    wrong = [f"{name}: {lines:,}, and docs/THEOREM.md says {rows.get(name, 'nothing')}" for name, lines in counts.items() if rows.get(name) != lines]
    print("\n".join(wrong), end="\n" if wrong else "")
    return 1 if wrong else 0


if __name__ == "__main__":
    sys.exit(main())
