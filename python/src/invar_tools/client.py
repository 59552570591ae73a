"""Calls of the program `invar`."""
from __future__ import annotations

import os
import re
import shutil
import subprocess
import tempfile
from pathlib import Path

from .certificates import Certificate, read_certificate
from .faults import NO, Fault
from .polynomials import Polynomial, read_basis

CLONE = Path(__file__).resolve().parents[3]
"""The clone that this package stands in, where it isn't installed."""


class Refused(Fault):
    """What `invar` answers in place of what was asked, with its status, which there is none of where its time is over."""

    def __init__(self, told: str, answer_status: int | None = None) -> None:
        super().__init__(f"invar says {told}")
        self.told = told
        self.answer_status = answer_status


def found() -> Path:
    """The program that INVAR names, or that of the clone, or the one on the PATH."""
    if os.environ.get("INVAR"):
        return Path(os.environ["INVAR"])
    if (CLONE / "crates.txt").is_file() and (CLONE / "invar").is_file():
        return CLONE / "invar"
    installed = shutil.which("invar")
    if installed is None:
        raise Fault("there is no program invar: name it by --invar or INVAR, or have it on the PATH, where ./invar --install puts it")
    return Path(installed)


class Invar:
    """The program: the one that is named, or the one that is found. Its answers are those of docs/USING.md.

    A refusal, a fault of a text, and no answer within as many seconds, is an exception `Refused`.
    """

    def __init__(self, program: str | Path | None = None, seconds: float | None = None) -> None:
        self.program = Path(program).absolute() if program is not None else found()
        self.seconds = seconds
        self.is_ready = False

    def prepare(self) -> None:
        """The first call, by which a clone builds the program. What it says of itself on standard error is seen, this once."""
        if not self.is_ready:
            try:
                subprocess.run([self.program, "gen", "1"], stdin=subprocess.DEVNULL, stdout=subprocess.DEVNULL, check=True)
            except (OSError, subprocess.CalledProcessError) as fault:
                raise Fault(f"{self.program} can't be run, or isn't the program invar: {fault}") from fault
            self.is_ready = True

    def answer(self, *words: str | Path) -> str:
        """What the program prints of a call with the status 0."""
        self.prepare()
        try:
            done = subprocess.run(
                [self.program, *words],
                stdin=subprocess.DEVNULL, capture_output=True, text=True, check=False, timeout=self.seconds,
            )
        except subprocess.TimeoutExpired as fault:
            raise Refused(f"nothing within {self.seconds:g} seconds") from fault
        if done.returncode != 0:
            raise Refused((done.stdout or done.stderr).strip(), done.returncode)
        return done.stdout

    def of_text(self, command: str, text: str, *others: str, degree: int | None = None) -> str:
        """What a command prints of a text."""
        options = [] if degree is None else ["--degree", str(degree)]
        with tempfile.TemporaryDirectory() as folder:
            file = Path(folder) / "text"
            file.write_text(text)
            return self.answer(command, *options, file, *others)

    def basis(self, text: str, degree: int | None = None) -> list[Polynomial]:
        """The basis of all invariants of a loop; with a degree those of its elements up to it, of any loop."""
        return read_basis(self.of_text("basis", text, degree=degree))

    def certificate(self, text: str, degree: int | None = None) -> Certificate:
        """The basis with its cofactors."""
        return read_certificate(self.of_text("cert", text, degree=degree))

    def member(self, text: str, equation: str) -> list[Polynomial] | None:
        """The cofactors by which an equation follows from the basis; none where it doesn't always hold."""
        try:
            _, *cofactors = self.of_text("member", text, equation).splitlines()
        except Refused as refusal:
            if refusal.answer_status != NO:
                raise
            return None
        return [Polynomial.read(cofactor) for cofactor in cofactors]

    def proof(self, text: str, equation: str) -> Certificate | None:
        """A certificate that has an equation, of any loop; none where it doesn't always hold."""
        try:
            return read_certificate(self.of_text("prove", text, equation))
        except Refused as refusal:
            if refusal.answer_status != NO:
                raise
            return None

    def chain(self, text: str) -> list[list[Polynomial]]:
        """The bases of loops in sequence."""
        return read_chain(self.of_text("chain", text))

    def relations(self, text: str) -> list[Polynomial]:
        """The basis of all relations of sequences."""
        return read_basis(self.of_text("relations", text))

    def is_valid(self, text: str, certificate: str) -> bool:
        """Whether a certificate, which is given as its text, is one of this loop."""
        return self.judged("check", text, certificate) is not None

    def assertions(self, text: str, certificate: str) -> dict[str, bool] | None:
        """Whether a certificate shows each assertion of a program, by their places LINE:COLUMN; none where it isn't valid."""
        printed = self.judged("checkproof", text, certificate)
        if printed is None:
            return None
        return {place: told == "holds" for place, _, told in (line.rpartition(": ") for line in printed.splitlines()[1:])}

    def judged(self, command: str, text: str, certificate: str) -> str | None:
        """What a command prints of a text and a certificate that is valid; none where it isn't."""
        with tempfile.TemporaryDirectory() as folder:
            file = Path(folder) / "certificate"
            file.write_text(certificate)
            try:
                return self.of_text(command, text, str(file))
            except Refused as refusal:
                if refusal.answer_status != NO:
                    raise
                return None


def read_chain(printed: str) -> list[list[Polynomial]]:
    """The bases of the loops of a chain, as `invar chain` prints them."""
    return [read_basis(part.partition("\n")[2]) for part in re.split(r"^loop (?=\d+:$)", printed, flags=re.MULTILINE)[1:]]
