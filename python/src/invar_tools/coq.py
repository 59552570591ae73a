"""Theorems for Coq: each identity of a certificate, and by induction that its equations hold at each state that is reached."""
from __future__ import annotations

import re
from collections.abc import Iterable, Mapping

from .certificates import Certificate
from .loops import Loop
from .polynomials import Polynomial

WORDS = set(
    "as at by cofix else end exists exists2 fix for forall fun if in is IF let match mod open Prop return Set SProp struct Theorem then "
    "Type using where with Q H IH invariant reached".split()
)
OWN = re.compile(r"(?:e|start|branch|identity|h)_\d.*")


def spelled(name: str) -> str:
    """A name of a loop as Coq has it: with a prime, which no name of a loop has, where it means something else there."""
    return f"{name}'" if name in WORDS or OWN.fullmatch(name) else name


def written(value: Polynomial, images: Mapping[str, str] | None = None) -> str:
    """The text of a polynomial over fractions, with texts in the places of names."""

    def power(name: str, exponent: int) -> list[str]:
        return [(images or {}).get(name, spelled(name)) + (f"^{exponent}" if exponent > 1 else "")]

    return re.sub(r"\b(\d+)/(\d+)\b", r"(\1#\2)", value.written(power))


def quantified(names: Iterable[str]) -> str:
    variables = " ".join(map(spelled, names))
    return f"forall {variables} : Q, " if variables else ""


def applied(word: str, values: Iterable[str]) -> str:
    return " ".join([word, *(value if re.fullmatch(r"\w+'?", value) else f"({value})" for value in values)])


class Theory:
    """A loop with its certificate, as definitions and theorems."""

    def __init__(self, loop: Loop, certificate: Certificate) -> None:
        self.loop = loop
        self.basis = certificate.basis
        self.steps = certificate.steps
        self.names = [spelled(name) for name in loop.names]

    def at(self, state: Mapping[str, Polynomial]) -> list[str]:
        """The values of the variables in a state."""
        return [written(state[name]) for name in self.loop.names]

    def element(self, number: int, values: Iterable[str]) -> str:
        return applied(f"e_{number}", values)

    def definitions(self) -> list[str]:
        """The elements, and the states that are reached at the head of the loop."""
        binders = f" ({' '.join(self.names)} : Q)"
        made = [f"Definition e_{number}{binders} : Q := {written(element)}." for number, element in enumerate(self.basis, 1)]
        arrow = " -> ".join(["Q"] * len(self.names) + ["Prop"])
        cases = [f"| start : {quantified(self.loop.free())}{applied('reached', self.at(self.loop.start()))}"]
        before = applied("reached", self.names)
        for number, branch in enumerate(self.loop.branches, 1):
            cases.append(f"| branch_{number} : {quantified(self.loop.names)}{before} -> {applied('reached', self.at(branch))}")
        return [*made, f"Inductive reached : {arrow} :=\n" + "\n".join(cases) + "."]

    def unfolded(self) -> str:
        return f"unfold {', '.join(f'e_{number}' for number in range(1, len(self.basis) + 1))}"

    def identities(self) -> list[str]:
        """That each element is 0 at the start, and what its value behind a branch is."""
        proof = f"\nProof. intros. {self.unfolded()}. ring. Qed."
        start = self.at(self.loop.start())
        free = quantified(self.loop.free())
        made = [f"Lemma start_{number} : {free}{self.element(number, start)} == 0.{proof}" for number in range(1, len(self.basis) + 1)]
        for branch, (values, rows) in enumerate(zip(self.loop.branches, self.steps), 1):
            for number, row in enumerate(rows, 1):
                behind = self.element(number, self.at(values))
                claim = f"Lemma identity_{branch}_{number} : {quantified(self.loop.names).rstrip()}\n  {behind} == {self.combined(row)}."
                made.append(claim + proof)
        return made

    def combined(self, row: list[Polynomial]) -> str:
        """A combination of the elements."""
        parts = [
            f"({written(cofactor)}) * {self.element(number, self.names)}" for number, cofactor in enumerate(row, 1) if cofactor.terms
        ]
        return " + ".join(parts) or "0"

    def induction(self) -> str:
        """That all elements are 0 at each state that is reached."""
        count = len(self.basis)
        claim = " /\\ ".join(f"{self.element(number, self.names)} == 0" for number in range(1, count + 1))
        lines = [
            f"Theorem invariant : {quantified(self.loop.names)}{applied('reached', self.names)} ->\n  {claim}.",
            "Proof.",
            f"intros {' '.join(self.names)} H. induction H as [{' | '.join(self.cases())}].",
            f"- {conjoined([f'apply start_{number}' for number in range(1, count + 1)])}.",
        ]
        for branch, rows in enumerate(self.steps, 1):
            steps = [self.step(branch, number, row) for number, row in enumerate(rows, 1)]
            lines.append(f"- {parted(count)}.\n  {conjoined(steps)}.")
        return "\n".join([*lines, "Qed."])

    def cases(self) -> list[str]:
        """The names that each case of the induction brings."""
        return [" ".join(map(spelled, self.loop.free())), *[" ".join([*self.names, "H IH"])] * len(self.loop.branches)]

    def step(self, branch: int, number: int, row: list[Polynomial]) -> str:
        """The proof that a branch keeps an element."""
        zeros = "".join(f", h_{place}" for place, cofactor in enumerate(row, 1) if cofactor.terms)
        identity = applied(f"identity_{branch}_{number}", self.names)
        return f"rewrite ({identity}){zeros}; ring" if zeros else f"apply ({identity})"

    def text(self) -> str:
        head = "Require Import QArith.\nOpen Scope Q_scope."
        return "\n\n".join([head, *self.definitions(), *self.identities(), self.induction()]) + "\n"


def conjoined(proofs: list[str]) -> str:
    """The proof of a conjunction, by those of its parts."""
    first, *others = proofs
    return f"split; [ {first} | {conjoined(others)} ]" if others else first


def parted(count: int) -> str:
    """Takes apart what is known before the branch."""
    pattern = f"h_{count}"
    for number in range(count - 1, 0, -1):
        pattern = f"[h_{number} {pattern}]"
    return f"destruct IH as {pattern}" if count > 1 else f"rename IH into {pattern}"


def coq_text(loop: Loop, certificate: Certificate) -> str:
    """All theorems of a loop with a certificate, which has at least one element."""
    return Theory(loop, certificate).text()
