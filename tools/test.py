#!/usr/bin/env python3
"""Runs the tests that need no proof: what ./invar --test does.

Usage: ./invar --test [--long] [PART ..]        (all parts, where none is named)

Each part is told by a line with its time; of one that fails everything that it prints is shown: what it was given, what came and what should have
come. The program that answers ./invar is tested, which is built where it has to be. What a part needs besides Python and the kit, and isn't there, is
told with what to install, and what needs it is counted as skipped. The last line has the counts; the status is 1 where a part failed.
"""
from __future__ import annotations

import argparse
import os
import re
import signal
import subprocess
import sys
import time
from dataclasses import dataclass
from pathlib import Path

from kept import TOP
from pages import NEEDS, Need
from progress import told

MOST_SECONDS = 900
NOTHING_WORKED = 70
SKIPPED = re.compile(r"^skipped: (.*)$|^(test_\w+) .*skipped '(needs .*)'$", re.MULTILINE)


@dataclass(frozen=True)
class Part:
    """Something that is tested by a command: its words, and those that leave out what takes long; or it takes long itself."""

    name: str
    what: str
    words: tuple[str, ...]
    needs: tuple[Need, ...] = ()
    quick: tuple[str, ...] = ()
    is_long: bool = False

    def missing(self) -> list[Need]:
        return [need for need in self.needs if not need.is_met()]


LINTERS = tuple(Need("", name, f"apt-get install {name}") for name in ("mypy", "flake8"))
PARTS = (
    Part("layout", "the sources keep to the layout", ("tools/layout.py",)),
    Part("crates", "docs/CRATES.md is what the heads of the crates say", ("tools/crates.py", "--check")),
    Part("believed", "docs/THEOREM.md counts the definitions behind each clause", ("tools/believed.py", "--check")),
    Part("recursions", "functions that call themselves are those of the table", ("tools/recursions.py",)),
    Part("pages", "the commands of README.md and all other pages print what stands there", ("tools/pages.py",)),
    Part("rows", "worked rows of each command", ("bench/rows.sh",)),
    Part("stack", "the longest and deepest texts in 512 KB of stack", ("bench/small-stack.sh",)),
    Part("faults", "what ./invar shows of a fault", ("bench/faults.py",)),
    Part("install", "what ./invar --install puts where", ("bench/installation.py",)),
    Part("types", "types and style of the Python package", ("sh", "-c", "cd python && mypy && flake8"), LINTERS),
    Part("python", "the Python package, and its commands that read and show loops", ("python/tests/test_tools.py", "-v")),
    Part("texts", "the Python package reads texts as the program does", ("python/tests/test_texts.py", "-v"), quick=("--quick",)),
    Part("odd", "what the commands of the package tell of odd inputs", ("python/tests/test_odd.py", "-v"), quick=("--quick",)),
    Part("c", "loops of C programs", ("python/tests/test_c.py", "-v"), tuple(need for need in NEEDS if need.commands == "invar-c "), ("--quick",)),
    Part("hostile", "C that is written to mislead gets no wrong equation", ("python/tests/test_hostile.py", "-v"),
         (*(need for need in NEEDS if need.commands == "invar-c "), Need("", "gcc", "apt-get install gcc")), ("--quick",)),
    Part("kept", "what ./invar builds and keeps, by a stand-in for the kit", ("bench/kept.py",), is_long=True),
)


@dataclass
class Counts:
    """How the parts ended, and what was skipped and why."""

    passed: int
    failed: int
    skipped: list[str]


def run(words: list[str], environment: dict[str, str]) -> tuple[int, str]:
    """The status of a command and what it prints. It gets no input, and ends with all that it has started."""
    how = {"stdin": subprocess.DEVNULL, "stdout": subprocess.PIPE, "stderr": subprocess.STDOUT, "start_new_session": True}
    with subprocess.Popen(words, cwd=TOP, env=environment, text=True, errors="replace", **how) as command:
        try:
            said, _ = command.communicate(timeout=MOST_SECONDS)
        except BaseException as fault:
            os.killpg(command.pid, signal.SIGKILL)
            if not isinstance(fault, subprocess.TimeoutExpired):
                raise
            return 1, f"{command.communicate()[0]}it hasn't ended within {MOST_SECONDS} seconds\n"
    return command.returncode, said


def test(part: Part, takes_long: bool, environment: dict[str, str], counts: Counts) -> None:
    """Runs a part, tells its line, and counts it."""
    missing = part.missing()
    if missing:
        counts.skipped += [f"{part.name} needs {need.name} ({need.install})" for need in missing]
        print(f"{part.name:<11}{'skipped':>12}   {part.what}", flush=True)
        return
    begun = time.monotonic()
    status, said = run([*part.words, *(() if takes_long else part.quick)], environment)
    taken = told(time.monotonic() - begun)
    print(f"{part.name:<11}{taken:>12}   {part.what}{'' if status == 0 else ': FAILED'}", flush=True)
    if status == 0:
        counts.passed += 1
    else:
        counts.failed += 1
        print(said, flush=True)
    counts.skipped += [f"{part.name}: {row[0] or f'{row[1]} {row[2]}'}" for row in SKIPPED.findall(said)]


def main() -> int:
    names = ", ".join(part.name for part in PARTS)
    parser = argparse.ArgumentParser(prog="./invar --test", description=f"Runs the tests that need no proof. The parts are {names}.")
    parser.add_argument("parts", nargs="*", metavar="PART", help="all, where none is named")
    parser.add_argument("--long", action="store_true", help="also the part kept, those tests of C programs that take long, and more odd inputs")
    asked = parser.parse_args()
    for name in asked.parts:
        if name not in (part.name for part in PARTS):
            parser.error(f"there is no part {name}; the parts are {names}")
    # the scripts find the interpreter that runs this one
    environment = {**os.environ, "PATH": f"{Path(sys.executable).parent}:{os.environ['PATH']}"}
    built = subprocess.run([f"{TOP}/tools/program.py", "build"], stdin=subprocess.DEVNULL, stdout=subprocess.PIPE, text=True, check=False)
    program = built.stdout.strip()
    if built.returncode != 0 or not program:
        print("invar: there is no program to be tested", file=sys.stderr)
        return NOTHING_WORKED
    print(f"tested is {os.path.relpath(program, TOP)}, {run([program, '--version'], environment)[1].strip()}", flush=True)
    counts = Counts(0, 0, [])
    for part in PARTS:
        if part.name in asked.parts or not asked.parts and (asked.long or not part.is_long):
            test(part, asked.long, {**environment, "INVAR": program, "PYTHONPATH": f"{TOP}/python/src"}, counts)
    skipped = dict.fromkeys(counts.skipped)
    for row in skipped:
        print(f"skipped: {row}")
    print(f"{counts.passed} passed, {counts.failed} failed{f', {len(skipped)} skipped' if skipped else ''}")
    return 1 if counts.failed else 0


if __name__ == "__main__":
    sys.exit(main())
