"""Division by polynomials, and combinations of them, by sympy where it is installed; it takes python-flint, where that is."""
from __future__ import annotations

from collections.abc import Iterable, Iterator
from fractions import Fraction
from importlib.util import find_spec
from itertools import combinations_with_replacement, islice
from typing import Any

from .faults import Fault
from .polynomials import ONE, Monomial, Polynomial, collected, product

NEEDS_SYMPY = "sympy isn't installed (apt-get install python3-sympy, or pip install sympy)"
MOST_PRODUCTS = 600
"""As many products of claims with monomials as are tried for a polynomial that may follow from the claims."""

MANY = 100
"""As many polynomials as are combined before sympy, which takes a moment to start, is worth it."""

Coefficients = dict[int, Fraction]
"""Those of polynomials in a combination, by their places."""


class Division:
    """sympy's division by elements in their order, by the graded reverse lexicographic order of the names."""

    def __init__(self, elements: list[Polynomial], names: list[str]) -> None:
        try:
            import sympy
            from sympy.polys.rings import ring
        except ImportError as fault:
            raise Fault(NEEDS_SYMPY) from fault

        self.names = names
        self.ring = ring(sympy.symbols(f"v:{len(self.names)}"), sympy.QQ, sympy.grevlex)[0]
        self.elements = [self.given(element) for element in elements]

    def given(self, polynomial: Polynomial) -> Any:
        """A polynomial as sympy has it: by exponents and numbers."""
        terms = {}
        for monomial, size in polynomial.terms.items():
            exponents = dict(monomial)
            terms[tuple(exponents.get(name, 0) for name in self.names)] = self.ring.domain(size.numerator, size.denominator)
        return self.ring.from_dict(terms)

    def taken(self, element: Any) -> Polynomial:
        """A polynomial of sympy as one with names."""

        def monomial(exponents: Iterable[int]) -> Monomial:
            return tuple(sorted((name, int(exponent)) for name, exponent in zip(self.names, exponents) if exponent))

        return collected(
            (monomial(exponents), Fraction(int(size.numerator), int(size.denominator))) for exponents, size in element.terms()
        )

    def cofactors(self, value: Polynomial) -> tuple[list[Polynomial], Polynomial]:
        """The cofactors of the elements in a value, and the rest that they leave."""
        if not value.terms:
            return [Polynomial() for _ in self.elements], value
        quotients, rest = self.given(value).div(self.elements)
        return [self.taken(quotient) for quotient in quotients], self.taken(rest)


def monomials(names: list[str], most: int) -> Iterator[Monomial]:
    """The monomials of a degree of at most this, the lower degrees first."""
    for size in range(most + 1):
        for choice in combinations_with_replacement(names, size):
            monomial = ONE
            for name in choice:
                monomial = product(monomial, ((name, 1),))
            yield monomial


def divided(value: Polynomial, claims: list[Polynomial], names: list[str]) -> tuple[Polynomial, dict[int, Polynomial]]:
    """What claims leave of a polynomial, and their cofactors: first numbers, then polynomials of the degrees that may be needed."""
    highest = value.degree()
    for most in (0, 1, highest):
        tried = (
            (place, Polynomial({monomial: Fraction(1)}))
            for place, claim in enumerate(claims)
            for monomial in monomials(names, min(most, max(0, highest - claim.degree())))
        )
        factors = list(islice(tried, MOST_PRODUCTS))
        cofactors: dict[int, Polynomial] = {}
        for number, size in combination([claims[place] * factor for place, factor in factors], value).items():
            place, factor = factors[number]
            cofactors[place] = cofactors.get(place, Polynomial()) + factor.scaled(size)
        rest = value - sum_of(cofactors, claims)
        if not rest.terms:
            break
    return rest, cofactors


def sum_of(cofactors: dict[int, Polynomial], claims: list[Polynomial]) -> Polynomial:
    total = Polynomial()
    for place, cofactor in cofactors.items():
        total = total + cofactor * claims[place]
    return total


def degree_of(monomial: Monomial) -> int:
    return sum(exponent for _, exponent in monomial)


def combination(parts: list[Polynomial], value: Polynomial) -> Coefficients:
    """The coefficients of polynomials in the combination that is to be taken off a value, so that least of it is left.

    Of monomials, those of higher degrees first, what is left has none that comes first in a combination of the polynomials. A polynomial that is
    a combination of those before it isn't taken.
    """
    known = dict.fromkeys(monomial for part in parts for monomial in part.terms)
    order = {monomial: place for place, monomial in enumerate(sorted(known, key=degree_of, reverse=True))}
    by = by_sympy if len(parts) >= MANY and find_spec("sympy") else by_rows
    return by(parts, value, order)


def by_rows(parts: list[Polynomial], value: Polynomial, order: dict[Monomial, int]) -> Coefficients:
    """The combination, by taking each polynomial as a row that those before it reduce."""
    rows: dict[Monomial, tuple[Polynomial, Coefficients]] = {}

    def reduced(rest: Polynomial) -> tuple[Polynomial, Coefficients]:
        taken: Coefficients = {}
        for lead, (row, coefficients) in rows.items():
            size = rest.terms.get(lead)
            if size:
                rest -= row.scaled(size)
                for place, coefficient in coefficients.items():
                    taken[place] = taken.get(place, Fraction(0)) + coefficient * size
        return rest, taken

    for place, part in enumerate(parts):
        rest, taken = reduced(part)
        if rest.terms:
            lead = min(rest.terms, key=order.__getitem__)
            size = rest.terms[lead]
            made = {other: -coefficient / size for other, coefficient in taken.items()} | {place: 1 / size}
            rows[lead] = rest.scaled(1 / size), made
    return {place: coefficient for place, coefficient in sorted(reduced(value)[1].items()) if coefficient}


def by_sympy(parts: list[Polynomial], value: Polynomial, order: dict[Monomial, int]) -> Coefficients:
    """The combination, by sympy's echelon forms: that of the polynomials has what is left, and that of a system the coefficients."""
    from sympy import QQ
    from sympy.polys import matrices

    sympy_matrix: Any = matrices.DomainMatrix

    def row(polynomial: Polynomial) -> dict[int, Any]:
        return {order[monomial]: QQ(size.numerator, size.denominator) for monomial, size in polynomial.terms.items() if monomial in order}

    def matrix(rows: list[dict[int, Any]]) -> Any:
        return sympy_matrix(dict(enumerate(rows)), (len(rows), len(order)), QQ)

    def sparse(made: Any) -> dict[int, dict[int, Any]]:
        return dict(made.to_sparse().rep.items())

    rows = [row(part) for part in parts]
    wanted = row(value)
    echelon, leads = matrix(rows).rref()
    reduced_rows = sparse(echelon)
    taken: dict[int, Any] = {}
    for number, lead in enumerate(leads):
        for place, size in reduced_rows[number].items():
            taken[place] = taken.get(place, QQ(0)) + wanted.get(lead, QQ(0)) * size
    solved, places = matrix([*rows, {place: size for place, size in taken.items() if size}]).transpose().rref()
    equations = sparse(solved)
    return {
        place: Fraction(int(size.numerator), int(size.denominator))
        for number, place in enumerate(places)
        if (size := equations[number].get(len(parts)))
    }
