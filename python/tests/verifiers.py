#!/usr/bin/env python3
"""Writes the bases of loops into each program of examples/verifiers and has its verifier prove it.

Usage: python/tests/verifiers.py [FILE ..]

Each file is copied, `invar-print --write` writes the basis that it names into the copy, and Debian's dafny, boogie or why3 with
Z3 proves it. A line a file tells what its verifier says; the status is 0 where everything is proved. It isn't a part of the gate, since
these verifiers aren't on every machine.
"""
from __future__ import annotations

import argparse
import re
import shutil
import subprocess
import sys
import tempfile
from dataclasses import dataclass
from pathlib import Path

TOP = Path(__file__).resolve().parents[2]
EXAMPLES = TOP / "examples"


@dataclass(frozen=True)
class Verifier:
    """The words of its call, and what its answer has once for each proof, and for each failure."""

    words: list[str]
    proved: str
    failed: str


VERIFIERS = {
    ".dfy": Verifier(["dafny", "/compile:0"], r"finished with (\d+) verified", r"(\d+) error"),
    ".bpl": Verifier(["boogie"], r"finished with (\d+) verified", r"(\d+) error"),
    ".mlw": Verifier(["why3", "prove", "-P", "z3", "-t", "60", "-a", "split_vc"], r"Prover result is: Valid", r"Prover result is: (?!Valid)"),
}


def counted(pattern: str, printed: str) -> int:
    """The number in what a pattern finds, or how often it is found."""
    found = list(re.finditer(pattern, printed))
    return sum(int(one[1]) for one in found) if found and found[0].groups() else len(found)


def verified(file: Path, folder: Path) -> bool:
    """Has a copy of a file verified, and tells its line."""
    verifier = VERIFIERS[file.suffix]
    if shutil.which(verifier.words[0]) is None:
        print(f"{file.name}: {verifier.words[0]} isn't installed")
        return False
    copy = folder / file.name
    copy.write_text(file.read_text())
    subprocess.run([TOP / "python/bin/invar-print", "--write", "--loops", EXAMPLES, copy], check=True)
    done = subprocess.run([*verifier.words, copy], capture_output=True, text=True, check=False)
    proved, failed = (counted(pattern, done.stdout) for pattern in (verifier.proved, verifier.failed))
    print(f"{file.name}: {verifier.words[0]} has proved {proved}, and {failed} not", flush=True)
    if failed or not proved:
        print(done.stdout + done.stderr)
    return proved > 0 and failed == 0


def main() -> int:
    parser = argparse.ArgumentParser(description="Has each program of examples/verifiers verified with the bases of its loops.")
    parser.add_argument("files", nargs="*", type=Path, metavar="FILE")
    files = parser.parse_args().files or sorted(file for file in (EXAMPLES / "verifiers").iterdir() if file.suffix in VERIFIERS)
    with tempfile.TemporaryDirectory() as name:
        answers = [verified(file, Path(name)) for file in files]
    print(f"{sum(answers)} of {len(answers)} programs verified")
    return 0 if all(answers) else 1


if __name__ == "__main__":
    sys.exit(main())
