"""Statements of C in a form without effects inside of expressions: what lowering.py makes, and the paths and starts are made of."""
from __future__ import annotations

from collections.abc import Callable, Iterable, Iterator, Mapping
from dataclasses import dataclass, field
from typing import TypeAlias

from ..polynomials import Polynomial
from .sources import Loop
from .whole import Whole


BEFORE = "@"
"""Behind the name of a parameter or of a global variable: its value where the function begins."""


@dataclass(frozen=True)
class Divides:
    """Has to be known of a quotient: that it leaves no rest."""

    value: Polynomial
    divisor: int
    reason: str


@dataclass(frozen=True)
class Within:
    """Has to be known of a value: that it is one of a type, so that nothing is cut off or wraps around."""

    value: Polynomial
    type: Whole
    reason: str


Need = Divides | Within


@dataclass(frozen=True)
class Term:
    """The value of an expression: a polynomial, where the needs are met, and any value of which nothing is known else."""

    value: Polynomial | None
    type: Whole | None
    needs: tuple[Need, ...] = ()
    settled: bool = True
    """Whether the polynomial is the value; else the value is what the type's width leaves of it."""
    reason: str = ""
    """Why the value may be any."""


@dataclass(frozen=True)
class Rest:
    """What a test says: a value leaves this rest where a modulus divides it."""

    value: Polynomial
    modulus: int
    rest: int
    needs: tuple[Need, ...] = ()


@dataclass(frozen=True)
class AtLeast:
    """What a test says: a value isn't negative."""

    value: Polynomial
    needs: tuple[Need, ...] = ()


@dataclass(frozen=True)
class Below:
    """What a test says: a value isn't the greatest of a type."""

    value: Polynomial
    type: Whole
    needs: tuple[Need, ...] = ()


Fact = Rest | AtLeast | Below


@dataclass(frozen=True)
class Test:
    """A test with its text, and what is known where it holds and where it fails."""

    text: str
    holds: tuple[Fact, ...] = ()
    fails: tuple[Fact, ...] = ()


@dataclass(frozen=True)
class Set:
    """An assignment."""

    key: str
    term: Term


@dataclass(frozen=True)
class Declared:
    """A variable comes into scope without a value."""

    key: str


@dataclass(frozen=True)
class Touch:
    """A call, or an assignment through a pointer: variables that are known elsewhere may have any value behind it."""

    keys: tuple[str, ...]
    reason: str


@dataclass(frozen=True, eq=False)
class Equation:
    """An equation that the author states, by a word of the annotation in a line: what is zero where it stands."""

    line: int
    word: str
    text: str
    value: Polynomial | None
    """Over variables by their keys, and values at the beginning of the function; None where the equation is none of polynomials in these."""


@dataclass(frozen=True)
class Claim:
    """What the author states at a place."""

    facts: tuple[Fact, ...] = ()
    equations: tuple[Equation, ...] = ()


@dataclass(frozen=True)
class Choice:
    test: Test
    yes: tuple[Statement, ...]
    no: tuple[Statement, ...]


@dataclass(frozen=True)
class Block:
    """Statements, and the variables that are declared in them."""

    items: tuple[Statement, ...]
    own: frozenset[str]


@dataclass(frozen=True)
class Cases:
    """A switch: for each case what comes from there on, up to a break."""

    entries: tuple[tuple[Statement, ...], ...]


@dataclass(frozen=True)
class Leave:
    """The end of a path through a block: `break`, `continue` or `return`."""

    word: str


@dataclass(frozen=True)
class Target:
    """A label: code from elsewhere may come here."""

    keys: frozenset[str]
    line: int
    word: str


@dataclass(frozen=True, eq=False)
class Turns:
    """A loop: what comes before its head, the part of a turn before `continue` comes, and that behind. A test that fails is a break."""

    node: Loop
    init: tuple[Statement, ...]
    body: tuple[Statement, ...]
    next: tuple[Statement, ...]
    own: frozenset[str]
    """The variables that `init` declares."""
    around: frozenset[str]
    """The variables in scope before the loop."""
    visible: Mapping[str, str] = field(default_factory=dict)
    """The variables at the head by their keys, with the names that they have there."""
    asked: tuple[Equation, ...] = ()
    """The equations that the author asks of the head."""


Statement = Set | Declared | Touch | Claim | Choice | Block | Cases | Leave | Target | Turns


Arm: TypeAlias = Callable[[], tuple[Statement, ...]]
"""Makes the statements of an arm of a choice."""


def once(make: Arm) -> Arm:
    """An arm that is made at most once."""
    made: list[tuple[Statement, ...]] = []

    def arm() -> tuple[Statement, ...]:
        if not made:
            made.append(make())
        return made[0]

    return arm


def inner(item: Statement) -> list[tuple[Statement, ...]]:
    """The lists of statements in a statement."""
    if isinstance(item, Choice):
        return [item.yes, item.no]
    if isinstance(item, Block):
        return [item.items]
    if isinstance(item, Cases):
        return list(item.entries)
    if isinstance(item, Turns):
        return [item.init, item.body, item.next]
    return []


def every(items: Iterable[Statement]) -> Iterator[Statement]:
    """All statements of a list, and those inside of them."""
    for item in items:
        yield item
        for part in inner(item):
            yield from every(part)


def turns_in(items: Iterable[Statement]) -> list[Turns]:
    """The loops of statements in the order of the text, each once."""
    return list(dict.fromkeys(item for item in every(items) if isinstance(item, Turns)))


def changed(items: Iterable[Statement]) -> list[str]:
    """The variables that statements may give new values."""
    keys: list[str] = []
    for item in every(items):
        if isinstance(item, Set):
            keys.append(item.key)
        elif isinstance(item, Touch):
            keys += item.keys
    return list(dict.fromkeys(keys))
