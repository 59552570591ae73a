"""Writes a certificate of version 2 with sympy, to be judged by `invar check`.

Usage: invar-certify LOOP POLYNOMIAL.. > CERT

Each polynomial is a claim: that it is always zero at the head of the loop. The cofactors are those of sympy's division, by the list
of the claims, of what a branch adds to the polynomial. Where a rest is left the claims don't follow from each other, and more of them
are needed. sympy is given exponents and numbers alone, and never a text.
"""
from __future__ import annotations

import sys
from collections.abc import Iterable, Iterator
from dataclasses import dataclass
from pathlib import Path

from .algebra import Division
from .certificates import certificate_text
from .commands import Parser, command
from .faults import NO, Fault
from .loops import Loop, read_equation, read_loop
from .polynomials import Monomial, Polynomial


class Unclaimed(Fault):
    """A claim is no invariant, or doesn't follow from the others."""

    status = NO


@dataclass(frozen=True)
class Claims:
    """A loop, and polynomials that are claimed to be zero at its head."""

    loop: Loop
    elements: list[Polynomial]

    def after(self, branch: dict[str, Polynomial]) -> Iterator[Polynomial]:
        """The values of the elements after a branch, in terms of the state before it."""
        return (element.substituted(branch) for element in self.elements)

    def certificate(self, steps: list[list[list[Polynomial]]]) -> str:
        """The text of the certificate with these cofactors: for each branch and each element one of each element."""
        names = self.loop.names
        rows = [[[[place, printed(one, names)] for place, one in enumerate(row) if one.terms] for row in block] for block in steps]
        basis = [printed(element, names) for element in self.elements]
        return certificate_text(names, basis, rows)


def read_claims(file: str, texts: Iterable[str]) -> Claims:
    """The loop in a file, and claims by their texts, which are zero at every start."""
    loop = read_loop(Path(file).read_text())
    elements = [read_equation(text, loop.names) for text in texts]
    for number, element in enumerate(elements, 1):
        if element.substituted(loop.start()).terms:
            raise Unclaimed(f"claim {number} isn't zero at every start")
    return Claims(loop, elements)


def printed(polynomial: Polynomial, names: list[str]) -> str:
    """The text of a polynomial, its terms in the order of the program: graded, and then reverse lexicographic."""

    def place(monomial: Monomial) -> tuple[int, list[int]]:
        exponents = dict(monomial)
        return sum(exponents.values()), [-exponents.get(name, 0) for name in reversed(names)]

    ordered = sorted(polynomial.terms, key=place, reverse=True)
    return Polynomial({monomial: polynomial.terms[monomial] for monomial in ordered}).flat()


def steps_of(claims: Claims) -> Iterator[list[list[Polynomial]]]:
    """For each branch, for each claim, the cofactors that combine to the claim after the branch."""
    division = Division(claims.elements, claims.loop.names)
    for branch, values in enumerate(claims.loop.branches, 1):
        rows = []
        for number, (claim, value) in enumerate(zip(claims.elements, claims.after(values)), 1):
            cofactors, rest = division.cofactors(value - claim)
            if rest.terms:
                raise Unclaimed(f"claim {number} after branch {branch} leaves {printed(rest, claims.loop.names)}")
            cofactors[number - 1] += Polynomial.constant(1)
            rows.append(cofactors)
        yield rows


def words(name: str, by: str) -> Claims:
    """The claims that a command is called with, which makes certificates by a system."""
    what = f"Writes a certificate of these claims with {by}, to be judged by invar check."
    parser = Parser(name, what, f"{name} examples/squares.loop '2*a - t + 1' 's = (a+1)^2' >squares.json")
    parser.add_argument("loop", metavar="LOOP", help="the file of a loop text")
    parser.add_argument("claims", nargs="+", metavar="POLYNOMIAL", help="what is claimed to be always zero, or an equation")
    asked = parser.parse_args()
    return read_claims(asked.loop, asked.claims)


@command
def main() -> int:
    claims = words("invar-certify", "sympy")
    print(claims.certificate(list(steps_of(claims))))
    return 0


if __name__ == "__main__":
    sys.exit(main())
