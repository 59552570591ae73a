"""Theorems for Lean with Mathlib: of each identity of a certificate. They are written by its manual: Lean hasn't checked them here."""
from __future__ import annotations

from collections.abc import Mapping

from .certificates import Certificate
from .loops import Loop, read_equation
from .polynomials import Polynomial

HEAD = "-- Written by the manual of Lean: no Lean has checked this file.\nimport Mathlib.Tactic"

WORDS = set(
    "abbrev as at attribute axiom by calc class def deriving do else end example export extends for from fun have if import in inductive "
    "infix instance lemma let match mutual namespace notation open opaque partial private protected section show structure syntax then "
    "theorem this unless universe variable where with".split()
)


def lean_name(name: str) -> str:
    return f"«{name}»" if name in WORDS else name


def lean(value: Polynomial, images: Mapping[str, str] | None = None) -> str:
    """The text of a polynomial over fractions, with texts in the places of names."""

    def power(name: str, exponent: int) -> list[str]:
        return [(images or {}).get(name, lean_name(name)) + (f"^{exponent}" if exponent > 1 else "")]

    return value.written(power)


def theorem(name: str, variables: list[str], premises: list[str], claim: str, proof: str) -> str:
    free = f" ({' '.join(map(lean_name, variables))} : ℚ)" if variables else ""
    given = "".join(f"\n    ({premise})" for premise in premises)
    return f"theorem {name}{free}{given} :\n    {claim} := by\n  {proof}\n"


def combination(cofactors: list[Polynomial]) -> str:
    """The proof of a claim from the premises h1, h2, .. by their cofactors."""
    parts = [f"({lean(cofactor)}) * h{place}" for place, cofactor in enumerate(cofactors, 1) if cofactor.terms]
    return f"linear_combination {' + '.join(parts)}" if parts else "ring"


def theorems(loop: Loop, certificate: Certificate) -> list[str]:
    """That each element of a certificate is zero at the start, and after a branch where all are zero before."""
    made: list[str] = []
    holds = [f"h{place} : {lean(element)} = 0" for place, element in enumerate(certificate.basis, 1)]
    begins = {name: f"({lean(value)} : ℚ)" for name, value in loop.init.items()}
    for place, element in enumerate(certificate.basis, 1):
        made.append(theorem(f"start_{place}", loop.free(), [], f"{lean(element, begins)} = 0", "ring"))
    for number, (branch, rows) in enumerate(zip(loop.branches, certificate.steps), 1):
        becomes = {name: f"({lean(value)})" for name, value in branch.items() if value != Polynomial.variable(name)}
        for place, (element, row) in enumerate(zip(certificate.basis, rows), 1):
            made.append(theorem(f"turn_{number}_{place}", loop.names, holds, f"{lean(element, becomes)} = 0", combination(row)))
    return made


def member(names: list[str], elements: list[Polynomial], equation: str, cofactors: list[Polynomial]) -> str:
    """That an equation follows from those of a basis."""
    holds = [f"h{place} : {lean(element)} = 0" for place, element in enumerate(elements, 1)]
    return theorem("member", names, holds, f"{lean(read_equation(equation, names))} = 0", combination(cofactors))


def lean_text(loop: Loop, certificate: Certificate, equation: str | None, cofactors: list[Polynomial]) -> str:
    """All theorems of a loop with a certificate, and that an equation follows by cofactors."""
    made = [HEAD, *theorems(loop, certificate)]
    if equation is not None:
        made.append(member(loop.names, certificate.basis, equation, cofactors))
    return "\n".join(made)
