"""Equations that the author states behind a loop, as questions of its head."""
from __future__ import annotations

import contextlib
from collections import Counter
from collections.abc import Iterable, Iterator
from dataclasses import dataclass, field, replace

from ..algebra import divided
from ..polynomials import Polynomial
from .lowering import Function
from .paths import Outcome, Stage, State, Walk, is_unknown
from .results import Found
from .sources import Refusal
from .stated import RESULT
from .statements import BEFORE, AtLeast, Claim, Equation, Statement, Turns, inner

MOST_FORMS = 8
"""As many forms of an equation as are asked of a head: as it stands on several paths, and with tests at their bounds."""


@dataclass(frozen=True)
class Question:
    """An equation in the values at a head: what has to be zero there, and what isn't negative on the way to where it is stated."""

    equation: Equation
    value: Polynomial
    bounds: tuple[Polynomial, ...] = ()
    silent: str = ""
    """Why it isn't asked, if it isn't."""

    def at_bounds(self) -> Iterator[Polynomial]:
        """The equation as it stands, and with a test at its bound: behind `i < n` with i in the place of n, and with n in that of i."""
        pairs = [(bound, name) for bound in self.bounds for name in sorted(bound.names() & self.value.names())]
        images: list[dict[str, Polynomial]] = [{name: value} for bound, name in pairs if (value := solved(bound, name)) is not None]
        forms: list[dict[str, Polynomial]] = [{}, *images]
        yield from (self.value.substituted(image) for image in forms[:MOST_FORMS])


def solved(bound: Polynomial, name: str) -> Polynomial | None:
    """The value of a name where a polynomial is zero, if that is linear in it."""
    factor = bound.terms.get(((name, 1),))
    if factor is None:
        return None
    rest = bound - Polynomial.variable(name).scaled(factor)
    return None if name in rest.names() or any(map(is_unknown, rest.names())) else rest.scaled(-1 / factor)


@dataclass
class Behind(Walk):
    """The paths behind a loop, up to the next one, with what is stated on them."""

    questions: list[Question] = field(default_factory=list)

    def step(self, item: Statement, states: list[State]) -> Outcome:
        for equation in item.equations if isinstance(item, Claim) else ():
            self.questions += [question(equation, state) for state in states]
        return super().step(item, states)

    def loop(self, turns: Turns, states: list[State]) -> list[State]:
        """What is stated behind a further loop is asked of that one."""
        return []


def question(equation: Equation, state: State) -> Question:
    """An equation in the values at the head that a path began at."""
    value = state.composed(equation.value or Polynomial())
    lost = next((name for name in sorted(value.names()) if is_unknown(name) or name == RESULT), None)
    silent = "" if lost is None else f"it has a value of which nothing is known ({state.reasons.get(lost) or 'it is set elsewhere'})"
    return Question(equation, value, tuple(fact.value for fact in state.facts if isinstance(fact, AtLeast)), silent)


@dataclass(frozen=True)
class Rest:
    """The statements behind a loop, block by block, up to the end of a turn of the loop around it, or to that of the function."""

    parts: list[tuple[Statement, ...]]
    is_inside: bool = False
    """Whether another loop is around the first."""


def behind(items: tuple[Statement, ...], loop: Turns) -> Rest | None:
    """What comes behind a loop that stands in statements."""
    for place, item in enumerate(items):
        if item is loop:
            return Rest([items[place + 1 :]])
        for part in inner(item):
            rest = behind(part, loop)
            if rest is not None:
                return replace(rest, is_inside=True) if isinstance(item, Turns) or rest.is_inside else Rest([*rest.parts, items[place + 1 :]])
    return None


def questions_at(loop: Turns, walk: Walk, function: Function, start: State) -> list[Question]:
    """What the author asks of the head of a loop, and states behind it. At the first arrival at the walk's loops there is a start."""
    paths = Behind(function.types)
    states = walk.exits.get(loop, [])
    with contextlib.suppress(Refusal):
        rest = behind(function.items, loop)
        for part in rest.parts if rest is not None else []:
            states = paths.run(part, states).behind
    changed = {key for edge in walk.edges for key in edge.values}
    same = {key + BEFORE: Polynomial.variable(key) for key in start.of if key not in changed and start.of[key] == Polynomial.variable(key + BEFORE)}
    asked = [Question(equation, equation.value or Polynomial()) for equation in loop.asked]
    found: dict[tuple[Equation, str], Question] = {}
    for one in [*asked, *paths.questions]:
        one = replace(one, value=one.value.substituted(same))
        found.setdefault((one.equation, one.value.flat()), one)
    forms = Counter(equation for equation, _ in found)
    many = f"it has more than {MOST_FORMS} forms at the head of the loop"
    return [one if forms[one.equation] <= MOST_FORMS else replace(one, silent=one.silent or many) for one in found.values()]


def follows(question: Question, found: Found) -> bool:
    """Whether a question has the answer yes by equations that are found, as it stands or with a test at its bound."""
    known = {symbol for symbol, name in found.text.symbols.items() if name} | found.text.names.variables.keys()
    if not found.elements or not question.value.names() <= known:
        return False
    value = found.text.renamed(question.value)
    bounds = [found.text.renamed(bound) for bound in question.bounds if bound.names() <= known]
    solutions = [(name, solved(bound, name)) for bound in bounds for name in sorted(bound.names())]
    choices: list[dict[str, Polynomial]] = [{}, *({name: solution} for name, solution in solutions if solution is not None)]
    for images in choices:
        claims = [claim for element in found.elements if (claim := element.substituted(images)).terms]
        asked = value.substituted(images)
        names = sorted({name for one in [asked, *claims] for name in one.names()})
        if not asked.terms or claims and not divided(asked, claims, names)[0].terms:
            return True
    return False


def others(stage: Stage, names: Iterable[str]) -> frozenset[str] | None:
    """The variables that change and that these aren't computed from; None where none of these changes."""
    edges = stage.walk.edges
    moving = {key for edge in edges for key in edge.values}
    known = set(names)
    while True:
        more = {name for edge in edges for key in known if key in edge.values for name in edge.values[key].names()} - known
        if not more:
            break
        known |= more
    return frozenset(moving - known) if moving & known else None
