"""Polynomials with fractions as coefficients, read from the text that `invar` prints and written as other programs want them.

A polynomial keeps its terms in the order in which they were read or made.
"""
from __future__ import annotations

import math
import re
from collections.abc import Callable, Iterable, Mapping
from dataclasses import dataclass, field
from fractions import Fraction

Monomial = tuple[tuple[str, int], ...]
"""Names with their exponents, from 1, in alphabetical order. The empty one is 1."""

ONE: Monomial = ()

FACTOR = r"[A-Za-z]\w*(?:\^\d{1,5})?"
TERM = rf"(?:\d+(?:/\d+)?(?:\*{FACTOR})*|{FACTOR}(?:\*{FACTOR})*)"
PRINTED = re.compile(rf"\s*-?{TERM}(?:\s*[+-]\s*{TERM})*\s*", re.ASCII)


@dataclass(frozen=True)
class Polynomial:
    """A sum of terms: the coefficient of each monomial, none of them 0."""

    terms: Mapping[Monomial, Fraction] = field(default_factory=dict)

    @staticmethod
    def constant(value: int | Fraction) -> Polynomial:
        return collected([(ONE, Fraction(value))])

    @staticmethod
    def variable(name: str) -> Polynomial:
        return Polynomial({((name, 1),): Fraction(1)})

    @staticmethod
    def read(text: str) -> Polynomial:
        """The polynomial of a printed text, as `t^2 - 4*s + 1/2`. Another text is a `ValueError`."""
        if not PRINTED.fullmatch(text):
            raise ValueError(f"no printed polynomial: {text[:60]!r}")
        return collected(term(sign, body) for sign, body in re.findall(r"(^-?|[+-])\s*([^\s+-]+)", text))

    def __add__(self, other: Polynomial) -> Polynomial:
        return collected([*self.terms.items(), *other.terms.items()])

    def __sub__(self, other: Polynomial) -> Polynomial:
        return self + other.scaled(-1)

    def __mul__(self, other: Polynomial) -> Polynomial:
        return collected(
            (product(left, right), size * factor)
            for left, size in self.terms.items()
            for right, factor in other.terms.items()
        )

    def scaled(self, factor: int | Fraction) -> Polynomial:
        return collected((monomial, size * factor) for monomial, size in self.terms.items())

    def names(self) -> set[str]:
        return {name for monomial in self.terms for name, _ in monomial}

    def degree(self) -> int:
        return max((sum(exponent for _, exponent in monomial) for monomial in self.terms), default=0)

    def value(self) -> Fraction | None:
        """The number that this polynomial is, if it is one."""
        return self.terms.get(ONE, Fraction(0)) if not self.names() else None

    def substituted(self, images: Mapping[str, Polynomial]) -> Polynomial:
        """This polynomial with images in the places of names; a name without an image stays."""
        total = Polynomial()
        for monomial, size in self.terms.items():
            part = Polynomial.constant(size)
            for name, exponent in monomial:
                for _ in range(exponent):
                    part = part * images.get(name, Polynomial.variable(name))
            total = total + part
        return total

    def denominator(self) -> int:
        """The least common denominator of the coefficients."""
        return math.lcm(*(size.denominator for size in self.terms.values()))

    def flat(self) -> str:
        """The text with powers, as `invar` reads it."""
        return self.written(lambda name, exponent: [name if exponent == 1 else f"{name}^{exponent}"])

    def whole(self, spelling: Mapping[str, str]) -> str:
        """The text of a multiple with whole coefficients, powers written as products and names as `spelling` has them."""
        return self.scaled(self.denominator()).written(lambda name, exponent: [spelling.get(name, name)] * exponent)

    def written(self, power: Callable[[str, int], list[str]]) -> str:
        """The terms joined by their signs; `power` gives the factors that stand for a name with its exponent."""
        text = ""
        for monomial, size in self.terms.items():
            sign = "-" if size < 0 else "+" if text else ""
            factors = [part for name, exponent in monomial for part in power(name, exponent)]
            number = [str(abs(size))] if abs(size) != 1 or not factors else []
            text += (f" {sign} " if text else sign) + "*".join(number + factors)
        return text or "0"


def collected(terms: Iterable[tuple[Monomial, Fraction]]) -> Polynomial:
    """The sum of terms, in the order in which their monomials first stand."""
    total: dict[Monomial, Fraction] = {}
    for monomial, size in terms:
        total[monomial] = total.get(monomial, Fraction(0)) + size
    return Polynomial({monomial: size for monomial, size in total.items() if size})


def product(left: Monomial, right: Monomial) -> Monomial:
    exponents = dict(left)
    for name, exponent in right:
        exponents[name] = exponents.get(name, 0) + exponent
    return tuple(sorted(exponents.items()))


def term(sign: str, body: str) -> tuple[Monomial, Fraction]:
    """The monomial and the coefficient of a printed term with its sign."""
    first, *others = body.split("*")
    number = re.fullmatch(r"\d+(/\d+)?", first)
    size = Fraction(first) if number else Fraction(1)
    monomial = ONE
    for power in others if number else [first, *others]:
        name, _, exponent = power.partition("^")
        monomial = product(monomial, ((name, int(exponent or 1)),))
    return monomial, -size if sign == "-" else size


def read_basis(printed: str) -> list[Polynomial]:
    """The elements of a basis, as `invar basis` prints them: an equation a line, or `none`."""
    return [Polynomial.read(line.removesuffix(" = 0")) for line in printed.splitlines() if line != "none"]
