#!/usr/bin/env python3
"""Counts what the gate has to do: crates, must-fail edits, and lines of definitions, proofs and code.

Usage: tools/counts.py [--crates] [--chain]

With --crates, a line a crate; with --chain, the longest chain of crates, each of which stands on the one before.
"""
import argparse
import sys
from dataclasses import astuple, dataclass
from pathlib import Path

import crates

TOP = Path(__file__).resolve().parent.parent


@dataclass
class Count:
    edits: int = 0
    other_edits: int = 0
    definitions: int = 0
    proofs: int = 0
    code: int = 0

    def __add__(self, other: "Count") -> "Count":
        return Count(*(a + b for a, b in zip(astuple(self), astuple(other))))


def longest_chain(below: dict[str, list[str]]) -> list[str]:
    chains: dict[str, list[str]] = {}

    def chain(crate: str) -> list[str]:
        if crate not in chains:
            under = [chain(other) for other in below[crate] if other in below]
            chains[crate] = max(under, key=len, default=[]) + [crate]
        return chains[crate]

    return max((chain(crate) for crate in below), key=len)


def lines_in(folder: Path, pattern: str) -> int:
    return sum(file.read_text(encoding="utf-8").count("\n") for file in folder.rglob(pattern))


def count(crate: str) -> Count:
    folder = TOP / "crates" / crate
    return Count(
        edits=len(list(folder.glob("must-fail/*.edit"))),
        other_edits=len(list((TOP / "bench" / "edits" / crate).glob("*.edit"))),
        definitions=lines_in(folder / "specs", "*.antt"),
        proofs=lines_in(folder / "proofs", "*.antt"),
        code=lines_in(folder / "src", "*.rt"),
    )


def row(name: str, counted: Count) -> str:
    return f"{name:<20}" + "".join(f"{number:>9,}" for number in astuple(counted))


def main() -> int:
    parser = argparse.ArgumentParser(description=__doc__, formatter_class=argparse.RawDescriptionHelpFormatter)
    parser.add_argument("--crates", action="store_true")
    parser.add_argument("--chain", action="store_true")
    arguments = parser.parse_args()
    listed = crates.listed()
    counted = {name: count(name) for name in listed}
    print(f"{'':<20}" + "".join(f"{title:>9}" for title in ("edits", "beside", "specs", "proofs", "code")))
    if arguments.crates:
        for name, of_crate in counted.items():
            print(row(name, of_crate))
    print(row(f"{len(counted)} crates", sum(counted.values(), Count())))
    if arguments.chain:
        chain = longest_chain({name: crate.below for name, crate in listed.items()})
        print(f"{len(chain)} in a chain: " + ", ".join(chain))
    return 0


if __name__ == "__main__":
    sys.exit(main())
