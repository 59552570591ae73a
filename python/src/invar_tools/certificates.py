"""Certificates of docs/FORMATS.md as polynomials."""
from __future__ import annotations

import json
from collections.abc import Callable, Sequence
from dataclasses import dataclass
from typing import Any

from .faults import Fault
from .polynomials import Polynomial


@dataclass(frozen=True)
class Certificate:
    """Polynomials that are always zero, and for each branch and each of them the cofactors of its value behind the branch."""

    basis: list[Polynomial]
    steps: list[list[list[Polynomial]]]

    def is_of(self, branches: int) -> bool:
        """Whether there are cofactors for each of so many branches, each element and each element of it."""
        count = len(self.basis)
        return len(self.steps) == branches and all(
            len(rows) == count and all(len(row) == count for row in rows) for rows in self.steps
        )


def read_certificate(text: str) -> Certificate:
    """The certificate of a text, of version 1 or 2."""
    try:
        read = json.loads(text)
        basis = [Polynomial.read(one) for one in read["basis"]]
        read_row = cofactors_of(read["version"], len(basis))
        return Certificate(basis, [[read_row(row) for row in rows] for rows in read["steps"]])
    except (ArithmeticError, AttributeError, LookupError, RecursionError, TypeError, ValueError) as fault:
        raise Fault(f"what is given isn't a certificate that docs/FORMATS.md has: {text[:60]!r}") from fault


def cofactors_of(version: int, count: int) -> Callable[[Sequence[Any]], list[Polynomial]]:
    """How a row of cofactors is read: version 2 leaves out those that are zero."""

    def sparse(cofactors: Sequence[Any]) -> list[Polynomial]:
        places = {place: Polynomial.read(one) for place, one in cofactors}
        return [places.get(place, Polynomial()) for place in range(count)]

    if version == 1:
        return lambda cofactors: [Polynomial.read(one) for one in cofactors]
    return sparse


def certificate_text(names: list[str], basis: list[str], steps: list[list[list[list[Any]]]]) -> str:
    """The text of a certificate of version 2, of texts of polynomials, with the places of those cofactors that aren't zero."""
    return json.dumps({"basis": basis, "steps": steps, "vars": names, "version": 2}, separators=(",", ":"))
