"""The basis of a loop text with its certificate, and proofs of equations, by calls of `invar`; and what can be done about a refusal."""
from __future__ import annotations

import json
import re
from dataclasses import dataclass
from functools import cache
from importlib import resources
from pathlib import Path

from .. import client
from ..certificates import read_certificate
from ..client import Invar, read_chain
from ..polynomials import Polynomial, read_basis

MOST_SECONDS = 60
"""For an analysis: most take milliseconds, and the usual budget of one that grows may last for many minutes."""


NO = 1
"""The status of an answer `no`."""


class Refused(Exception):
    """What `invar` answers instead of what was asked; `names` are the variables that it speaks of."""

    def __init__(self, told: str, text: str, status: int | None = None) -> None:
        """Of a loop with this text. Where a branch is named, it is shown."""
        self.status = status
        branches = [line.removeprefix("branch ") for line in text.splitlines() if line.startswith("branch ")]
        number = re.match(r"branch (\d+):", told)
        named = re.match(r"branch \d+: (?:not solvable|eigenvalues|range: \d+|wide in splitting|wide in forms): (.*)", told)
        self.names = named[1].split(", ") if named else []
        self.told = told
        self.keys: list[str] = []
        """The variables without which the loop might be taken."""
        shown = [f"{number[0]} {branches[int(number[1]) - 1]}"] if number else []
        super().__init__("\n    ".join(filter(None, [f"invar says {told}", *shown, advice(told)])))


@dataclass(frozen=True)
class Files:
    """Where a loop text and its certificate are written."""

    loop: Path
    certificate: Path


@dataclass(frozen=True)
class Program:
    """The program `invar`, as loops of C programs are asked of it."""

    invar: Invar

    def answer(self, text: str, *words: str | Path) -> str:
        """What `invar` prints of a loop text; anything but the status 0, and no answer in time, is a refusal."""
        try:
            return self.invar.answer(*words)
        except client.Refused as refusal:
            raise Refused(refusal.told, text, refusal.answer_status) from refusal

    def basis(self, text: str, files: Files) -> list[Polynomial]:
        """The basis of a loop text. The text and its certificate stay in files, once `invar check` has found it valid."""
        files.loop.write_text(text)
        try:
            elements = read_basis(self.answer(text, "basis", files.loop))
            files.certificate.write_text(self.answer(text, "cert", files.loop))
            self.answer(text, "check", files.loop, files.certificate)
        except Refused:
            files.loop.unlink()
            files.certificate.unlink(missing_ok=True)
            raise
        return elements

    def bounded(self, text: str, degree: int, file: Path) -> list[Polynomial]:
        """The elements up to a degree of the basis of a loop text, which stays in a file."""
        file.write_text(text)
        try:
            return read_basis(self.answer(text, "basis", "--degree", str(degree), file))
        except Refused:
            file.unlink()
            raise

    def proof(self, text: str, files: Files, equation: Polynomial) -> list[Polynomial]:
        """An equation of a loop text and those that it needs, so that each turn keeps all of them. A `no` is a refusal with its run.

        The text and the certificate stay in files, once `invar check` has found it valid.
        """
        files.loop.write_text(text)
        try:
            files.certificate.write_text(self.answer(text, "prove", files.loop, f"{equation.flat()} = 0"))
            self.answer(text, "check", files.loop, files.certificate)
        except Refused:
            files.loop.unlink()
            files.certificate.unlink(missing_ok=True)
            raise
        return read_certificate(files.certificate.read_text()).basis

    def chain(self, text: str, file: Path) -> list[list[Polynomial]]:
        """The bases of the loops of a chain text, which stays in a file."""
        file.write_text(text)
        try:
            printed = self.answer(text, "chain", file)
        except Refused:
            file.unlink()
            raise
        return read_chain(printed)


@cache
def sections() -> list[tuple[list[str], str]]:
    """The refusals that have a section in docs/USING.md, with its first paragraph."""
    read: list[tuple[list[str], str]] = json.loads((resources.files("invar_tools") / "refusals.json").read_text(encoding="utf-8"))
    return read


def advice(refusal: str) -> str:
    """What docs/USING.md says first of a refusal."""
    return next((told for patterns, told in sections() if any(matches(pattern, refusal) for pattern in patterns)), "")


def matches(pattern: str, refusal: str) -> bool:
    """Whether a refusal is one of a heading, in which words of capitals stand for what varies."""
    literal = re.sub(r"\b(?:V, V|[A-Z]+)\b|\.\.", "\0", pattern)
    return re.fullmatch(".*".join(map(re.escape, literal.split("\0"))), refusal) is not None
