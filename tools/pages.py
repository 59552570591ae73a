#!/usr/bin/env python3
"""Types the commands of pages, of each from top to bottom, and compares what they print with what stands there, where something does.

Usage: tools/pages.py [PAGE ..]        (all pages with commands, where none is named; the first call of ./invar builds the program)

What is typed runs in a folder of its own for each page, in which the files of the repository stand. Of a fault `./invar` shows something on standard
error, which may stand on the page too. A block of commands that need what isn't installed is skipped, which a line says with what to install.
"""
from __future__ import annotations

import importlib.util
import os
import re
import shutil
import subprocess
import sys
import tempfile
from collections.abc import Iterator
from dataclasses import dataclass
from pathlib import Path

TOP = Path(__file__).resolve().parent.parent
# what takes long, installs or isn't ours: it is run by itself
LEFT_OUT = re.compile(r"\./invar --(?:prove|test|install)\b|\.ci/run\b|apt-get |python3 -m venv |\S*pip install |why3 |frama-c ")
NOTE = re.compile(r"^invar: nothing has been proved here of .*\n", re.MULTILINE)


@dataclass(frozen=True)
class Need:
    """What commands of this kind stand on, and how to tell whether it is there."""

    commands: str
    name: str
    install: str
    is_module: bool = False

    def is_met(self) -> bool:
        return (importlib.util.find_spec(self.name) if self.is_module else shutil.which(self.name)) is not None


NEEDS = (
    Need("invar-certify ", "sympy", "apt-get install python3-sympy, or pip install sympy", is_module=True),
    Need("invar-c ", "pycparser", "apt-get install python3-pycparser, or pip install pycparser", is_module=True),
    Need("invar-c ", "cpp", "apt-get install cpp"),
    Need("coqc ", "coqc", "apt-get install coq"),
)


@dataclass(frozen=True)
class Command:
    """A command, whole, with what a page says that it prints."""

    typed: str
    wanted: str


def blocks(page: str) -> Iterator[list[Command]]:
    """The blocks of a page that have commands."""
    for block in re.findall(r"^```\n(.*?)^```$", page, re.M | re.S):
        commands = []
        for part in re.split(r"^\$ ", block, flags=re.M)[1:]:
            end = re.search(r"<<'(\w+)'", part)
            lines = part.splitlines(keepends=True)
            last = lines.index(f"{end[1]}\n") if end else 0
            commands.append(Command("".join(lines[: last + 1]), "".join(lines[last + 1 :])))
        if commands:
            yield commands


def missing(commands: list[Command]) -> list[Need]:
    return [need for need in NEEDS if any(need.commands in command.typed for command in commands) and not need.is_met()]


def is_as_told(command: Command, room: str) -> bool:
    """Whether a command prints what is wanted; else what it prints is told."""
    # the commands of the package are found, as pages say once that they are
    environment = {**os.environ, "PATH": f"{TOP}/python/bin:{os.environ['PATH']}"}
    how = {"stdin": subprocess.DEVNULL, "capture_output": True, "text": True, "check": False}
    made = subprocess.run(["sh", "-c", command.typed], cwd=room, env=environment, **how)
    shown = NOTE.sub("", made.stderr)
    # the last line of a file needn't end
    wanted = command.wanted.strip("\n")
    agrees = not wanted or wanted in (made.stdout.rstrip("\n"), (shown + made.stdout).rstrip("\n"))
    # a fault that stands on the page has a status of its own
    if agrees and (made.returncode in (0, 1) or wanted):
        return True
    print(f"$ {command.typed}prints, with status {made.returncode}\n{made.stdout}{shown}and not\n{command.wanted}")
    return False


def compared(page: Path) -> list[bool]:
    """Whether each command of a page that is typed prints what stands there."""
    agree = []
    with tempfile.TemporaryDirectory() as room:
        for entry in TOP.iterdir():
            if not entry.name.startswith(".git"):
                (Path(room) / entry.name).symlink_to(entry)
        for commands in blocks(page.read_text(encoding="utf-8")):
            needs = missing(commands)
            for need in needs:
                print(f"skipped: what {page.relative_to(TOP)} does with {need.commands.strip()}, which needs {need.name} ({need.install})")
            if not needs:
                agree += [is_as_told(command, room) for command in commands if not LEFT_OUT.match(command.typed)]
    return agree


def main() -> int:
    differ = count = 0
    pages = [Path(name).resolve() for name in sys.argv[1:]]
    for page in pages or sorted(page for page in TOP.rglob("*.md") if "out" not in page.parts):
        agree = compared(page)
        count, differ = count + len(agree), differ + agree.count(False)
        if agree:
            print(f"{page.relative_to(TOP)}: {agree.count(True)} commands print what it says, {agree.count(False)} differ")
    return 1 if differ or not count else 0


if __name__ == "__main__":
    sys.exit(main())
