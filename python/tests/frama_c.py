#!/usr/bin/env python3
"""Annotates each program of examples/c and has Frama-C verify it.

Usage: python/tests/frama_c.py [--seconds N] [FILE.c ..]

Each file is copied into a new folder and annotated there; Debian's frama-c then proves its goals, with Z3 through Why3 and at most N
seconds for a goal (60). A line a file tells how many loops have their equations and how many goals are proved, and which aren't; the
last line has the counts. The status is 0 where every goal is proved. It isn't a part of the gate, since Frama-C isn't on every machine.
"""
from __future__ import annotations

import argparse
import re
import shutil
import subprocess
import sys
import tempfile
from dataclasses import dataclass
from pathlib import Path

TOP = Path(__file__).resolve().parents[2]


@dataclass(frozen=True)
class Counts:
    """Loops with equations of all loops, and proved goals of all goals."""

    annotated: int = 0
    loops: int = 0
    proved: int = 0
    goals: int = 0

    def __add__(self, other: Counts) -> Counts:
        return Counts(
            self.annotated + other.annotated, self.loops + other.loops, self.proved + other.proved, self.goals + other.goals
        )

    def __str__(self) -> str:
        return f"{self.annotated} of {self.loops} loops with equations, {self.proved} of {self.goals} goals proved"


def annotated(file: Path, copy: Path) -> str:
    """Writes the annotated copy of a file, and tells what the annotation tells. What isn't taken stays as it is."""
    copy.write_text(file.read_text())
    done = subprocess.run([TOP / "python/bin/invar-c", copy], capture_output=True, text=True, check=False)
    return done.stderr


def verified(copy: Path, seconds: int) -> str:
    """What Frama-C prints of a file."""
    words = ["frama-c", "-wp", "-wp-split", "-wp-prover", "z3", "-wp-timeout", str(seconds), copy]
    return subprocess.run(words, capture_output=True, text=True, check=False).stdout


def loops_in(text: str) -> tuple[int, int]:
    """How many loops of an annotated text have equations, and how many have annotations: each of the programs has one."""
    notes = re.findall(r"/\*@ loop .*?\*/", text, re.DOTALL)
    return sum("loop invariant invar: " in note for note in notes), len(notes)


def counted(copy: Path, printed: str) -> Counts:
    goals = re.search(r"Proved goals:\s+(\d+) / (\d+)", printed)
    proved, all_goals = (int(goals[1]), int(goals[2])) if goals else (0, 0)
    return Counts(*loops_in(copy.read_text()), proved, all_goals)


def one(file: Path, folder: Path, seconds: int) -> Counts:
    """Annotates and verifies a file, and tells its line."""
    copy = folder / file.name
    told = annotated(file, copy)
    printed = verified(copy, seconds)
    counts = counted(copy, printed)
    print(f"{file.name}: {counts}", flush=True)
    for goal in re.findall(r"Goal (\S+) : (?!Valid)", printed):
        print(f"    not proved: {goal}")
    if counts.goals == 0:
        print(printed)
    sys.stderr.write(told)
    return counts


def main() -> int:
    parser = argparse.ArgumentParser(description="Annotates each program of examples/c and has Frama-C verify it.")
    parser.add_argument("files", nargs="*", type=Path, metavar="FILE.c")
    parser.add_argument("--seconds", type=int, default=60, metavar="N", help="the most seconds for a goal")
    asked = parser.parse_args()
    if shutil.which("frama-c") is None:
        sys.exit("frama-c isn't installed: docs/VERIFYING.md says what is needed")
    files = asked.files or sorted((TOP / "examples/c").glob("*.c"))
    with tempfile.TemporaryDirectory() as name:
        total = sum((one(file, Path(name), asked.seconds) for file in files), Counts())
    print(f"{len(files)} programs: {total}")
    return 0 if 0 < total.proved == total.goals else 1


if __name__ == "__main__":
    sys.exit(main())
