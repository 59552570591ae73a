"""Tells by induction why an equation always holds at the head of a loop, or that it doesn't.

Usage: invar-explain LOOP EQUATION
       invar-explain LOOP CERT

Each claim is that a polynomial is zero. It is looked at at the start; and where each branch adds to it only what other claims say to be
zero, it stays so. What else a branch adds has to be zero too, if the claim is to hold: it is the next claim. So the list that begins with
the equation grows until nothing new comes, or until a claim is false at the start. With a certificate the claims are those that it lists,
with its cofactors. The status is 0 where all claims hold, 1 where one doesn't, and 2 where the list gets too long.
"""
from __future__ import annotations

import math
import sys
from collections.abc import Iterable, Iterator
from dataclasses import dataclass
from fractions import Fraction
from pathlib import Path

from .algebra import divided, sum_of
from .certificates import Certificate, read_certificate
from .commands import Parser, command
from .faults import NO, NO_ANSWER, Fault
from .loops import Loop, read_equation, read_loop
from .polynomials import Polynomial

MOST_CLAIMS = 24
"""As many claims as are told."""


class Unfinished(Exception):
    """The list of claims gets too long."""


def whole(value: Polynomial) -> Polynomial:
    """The multiple with whole coefficients without a common factor."""
    scaled = value.scaled(value.denominator())
    common = math.gcd(*(int(size) for size in scaled.terms.values()))
    return scaled.scaled(Fraction(1, common)) if common else scaled


def sum_of_claims(cofactors: dict[int, Polynomial]) -> str:
    """The text of a combination of claims, each named by its number."""
    text = ""
    for place, cofactor in sorted(cofactors.items()):
        number = cofactor.value()
        negative = number is not None and number < 0
        size = cofactor.scaled(-1) if negative else cofactor
        factor = "" if size.value() == 1 else f"{size.flat()}*" if size.value() is not None or len(size.terms) == 1 else f"({size.flat()})*"
        sign = ("-" if negative else "") if not text else " - " if negative else " + "
        text += f"{sign}{factor}({place + 1})"
    return text


@dataclass
class Story:
    """The claims so far and the lines that are told."""

    loop: Loop
    claims: list[Polynomial]
    told: int = 0

    def lines(self) -> Iterator[str]:
        """Each claim at the start and behind each branch; ends early where one is false at the start."""
        place = 0
        while place < len(self.claims):
            claim = self.claims[place]
            at_start = claim.substituted(self.loop.start())
            yield f"({place + 1})  {claim.flat()} = 0.   At the start it is {at_start.flat()}."
            if at_start.terms:
                yield "     So it doesn't always hold, and neither does what needs it.  NO"
                return
            for number, branch in enumerate(self.loop.branches, 1):
                yield f"     Branch {number} {self.branch(claim, branch)}"
            place += 1
        yield "Each claim holds at the start, and each branch adds only what is 0 where the claims hold.  YES"

    def branch(self, claim: Polynomial, branch: dict[str, Polynomial]) -> str:
        added = claim.substituted(branch) - claim
        if not added.terms:
            return "leaves it as it is."
        rest, cofactors = divided(added, self.claims, self.loop.names)
        if not rest.terms:
            return f"adds {added.flat()}, which is {sum_of_claims(cofactors)}."
        if len(self.claims) == MOST_CLAIMS:
            raise Unfinished
        self.claims.append(whole(rest))
        rest, cofactors = divided(added, self.claims, self.loop.names)
        return f"adds {added.flat()}, which is {sum_of_claims(cofactors)}: is ({len(self.claims)}) always 0?"


def certified(loop: Loop, certificate: Certificate) -> Iterator[str]:
    """The claims of a certificate with its cofactors."""
    for place, claim in enumerate(certificate.basis):
        at_start = claim.substituted(loop.start())
        yield f"({place + 1})  {claim.flat()} = 0.   At the start it is {at_start.flat()}."
        if at_start.terms:
            yield "     So it doesn't always hold.  NO"
            return
        for number, (branch, rows) in enumerate(zip(loop.branches, certificate.steps), 1):
            behind = claim.substituted(branch)
            cofactors = {other: cofactor for other, cofactor in enumerate(rows[place]) if cofactor.terms}
            if sum_of(cofactors, certificate.basis) - behind != Polynomial():
                yield f"     Branch {number} makes {behind.flat()} of it, which isn't {sum_of_claims(cofactors) or '0'}.  NO"
                return
            yield f"     Branch {number} makes {behind.flat()} of it, which is {sum_of_claims(cofactors) or '0'}."
    yield "Each claim holds at the start, and behind each branch it is 0 where the claims hold before.  YES"


def told(lines: Iterable[str]) -> int:
    last = ""
    try:
        for last in lines:
            print(last)
    except Unfinished:
        print(f"     More than {MOST_CLAIMS} claims are needed: no answer.")
        return NO_ANSWER
    return 0 if last.endswith("YES") else NO


@command
def main() -> int:
    what = "Tells by induction why an equation always holds at the head of a loop, or that it doesn't."
    parser = Parser("invar-explain", what, "invar-explain examples/squares.loop 's = (a+1)^2'")
    parser.add_argument("loop", type=Path, metavar="LOOP", help="the file of a loop text")
    parser.add_argument("claim", metavar="EQUATION or CERT", help="an equation, or the file of a certificate")
    asked = parser.parse_args()
    loop = read_loop(asked.loop.read_text())
    if "=" not in asked.claim:
        certificate = read_certificate(Path(asked.claim).read_text())
        if not certificate.is_of(len(loop.branches)):
            raise Fault(f"{asked.claim}: the certificate has cofactors for other branches or elements than there are")
        return told(certified(loop, certificate))
    return told(Story(loop, [whole(read_equation(asked.claim, loop.names))]).lines())


if __name__ == "__main__":
    sys.exit(main())
