"""What was found at a loop, and which of it is written."""
from __future__ import annotations

from collections.abc import Container, Mapping
from dataclasses import dataclass, field
from fractions import Fraction
from typing import TypeAlias

from ..polynomials import Polynomial
from .statements import Turns
from .texts import LoopText, spelled

MOST_TERMS = 10
"""Of an equation that is written."""

ALWAYS = "holds at each turn whatever the tests say"
"""What is told of equations that there aren't: each path is taken at any turn."""

Terms: TypeAlias = frozenset[tuple[tuple[tuple[str, int], ...], Fraction]]
"""The terms of an equation in the words of ACSL, up to a factor: equations that say the same have the same."""


@dataclass(frozen=True)
class Found:
    """Equations in the names of a loop text, at a loop of it."""

    elements: list[Polynomial]
    text: LoopText
    first: bool
    """Whether values at the first arrival at the loop are those that the names in the text have."""
    asked: tuple[str, ...]
    """The variables of the text that change, by their keys."""
    refused: str = ""
    """Why `invar` took the loop only without some variables."""
    wrapping: frozenset[str] = frozenset()
    """The names in the text of variables that change and are unsigned, or get values of wider types."""

    @property
    def without(self) -> Mapping[str, str]:
        """Why other variables that the loop changes aren't in the text."""
        return self.text.without

    def equations(self, visible: Container[str], entries: bool) -> dict[Terms, str]:
        """The left sides over names that are visible; with entries also over values at the first arrival at the first loop."""
        names = self.text.names
        known = {text for text, key in names.base.items() if key in visible}
        if not (entries and self.first):
            known -= names.first_only
        written = [element for element in self.elements if element.names() <= known and not self.is_heavy(element)]
        return {self.terms(element): element.whole(names.spelling) for element in written}

    def terms(self, element: Polynomial) -> Terms:
        spelling = self.text.names.spelling
        own = {tuple(sorted((spelling[name], exponent) for name, exponent in one)): size for one, size in element.terms.items()}
        factor = own[min(own)] if own else Fraction(1)
        return frozenset((one, size / factor) for one, size in own.items())

    def is_heavy(self, element: Polynomial) -> bool:
        """Whether provers lose themselves in an equation: it is long, or a product has a variable that might be cut off or wrap around."""
        products = (term for term in element.terms if sum(exponent for _, exponent in term) > 1)
        return len(element.terms) > MOST_TERMS or any(name in self.wrapping for term in products for name, _ in term)

    def is_written(self, visible: Container[str]) -> bool:
        """Whether each element can be written where these variables are visible."""
        written = self.equations(visible, True)
        return all(self.terms(element) in written for element in self.elements)


@dataclass
class Result:
    """What was found at a loop: bases, and lists of equations that are kept together."""

    found: list[Found] = field(default_factory=list)
    proved: list[Found] = field(default_factory=list)
    fault: str = ""
    degree: int = 0
    """Up to which equations were asked for where the basis was refused."""
    has_some: bool = False
    """Whether there are equations up to this degree."""

    def equations(self, loop: Turns, entries: bool) -> tuple[str, ...]:
        """All equations. Values at the first arrival stand in those of bases only where there are no others, or where they are wanted."""
        parts = [] if entries else [found.equations(loop.visible, False) for found in self.found]
        if not any(parts):
            parts = [found.equations(loop.visible, True) for found in self.found]
        parts += [found.equations(loop.visible, True) for found in self.proved]
        written: dict[Terms, str] = {}
        for terms, text in (one for part in parts for one in part.items()):
            written.setdefault(terms, text)
        return tuple(written.values())


def left_out(found: Found) -> list[str]:
    return [spelled(key) for key in found.without]


def nothing(found: Found) -> str:
    """What is told of a loop for which `invar` finds no equation."""
    asked = ", ".join(dict.fromkeys(map(spelled, found.asked)))
    left = [f"{spelled(key)} ({why})" if why else spelled(key) for key, why in found.without.items()]
    said = "can be written here" if found.elements else ALWAYS
    return f"no equation between {asked} {said}" + (f"; any value: {', '.join(left)}" if left else "")
