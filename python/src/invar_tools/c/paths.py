"""The paths of C code between the heads of its loops."""
from __future__ import annotations

import itertools
from collections.abc import Iterable, Iterator, Mapping
from dataclasses import dataclass, field, replace
from typing import TypeAlias

from ..polynomials import Polynomial
from .sources import Refusal
from .statements import (
    AtLeast, Below, Block, Cases, Choice, Claim, Declared, Divides, Fact, Leave, Need, Rest, Set, Statement, Target, Term, Touch, Turns,
    every,
)
from .whole import Whole

MOST_STATES = 256
"""As many paths side by side as are followed."""

Move: TypeAlias = tuple[Turns, Turns]
"""The loop at whose head a path begins, and that at whose head it ends."""


@dataclass(frozen=True)
class Step:
    """An assignment of a polynomial to a variable, in the values that variables have there."""

    name: str
    value: Polynomial


@dataclass(frozen=True)
class Edge:
    """A path from one head to the next: the new values of the variables that it changes, its assignments, and the tests on it."""

    values: dict[str, Polynomial]
    steps: tuple[Step, ...]
    guard: tuple[str, ...]
    reasons: dict[str, str] = field(default_factory=dict)
    """Why a variable has any value on the path, by the names of such values."""
    moves: frozenset[Move] = frozenset()
    """Between which heads a path leads that does this."""


def is_unknown(name: str) -> bool:
    """Whether a name stands for any value, or for a temporary of an expression."""
    return name.startswith("?")


@dataclass(frozen=True)
class State:
    """What a path from a head on has done: the values of variables in those at the head, and what is known of these."""

    of: Mapping[str, Polynomial]
    types: Mapping[str, Whole]
    facts: tuple[Fact, ...] = ()
    steps: tuple[Step, ...] = ()
    guard: tuple[str, ...] = ()
    reasons: Mapping[str, str] = field(default_factory=dict)
    symbols: Iterator[int] | None = None
    """Where names of unknown values come from, if they aren't counted from 1 on."""
    origins: frozenset[Turns] = frozenset()
    """The loops at whose heads such a path begins."""

    def composed(self, value: Polynomial) -> Polynomial:
        return value.substituted(self.of)

    def any_value(self, key: str, reason: str) -> State:
        """The state once a variable may have any value."""
        number = len(self.reasons) + 1 if self.symbols is None else next(self.symbols)
        name = f"?{number}"
        new = Polynomial.variable(name)
        return replace(self, of={**self.of, key: new}, steps=(*self.steps, Step(key, new)), reasons={**self.reasons, name: reason})

    def having(self, key: str, term: Term) -> State:
        """The state behind an assignment."""
        if term.value is None:
            return self.any_value(key, term.reason)
        unmet = next((need for need in term.needs if not self.meets(need)), None)
        if unmet is not None:
            return self.any_value(key, unmet.reason)
        return replace(self, of={**self.of, key: self.composed(term.value)}, steps=(*self.steps, Step(key, term.value)))

    def declaring(self, key: str) -> State:
        """The state where a variable has come into scope without a value: it has any."""
        return self.any_value(key, "it has no value at first")

    def leaving(self, keys: frozenset[str]) -> State:
        """The state behind the scope of variables."""
        return replace(self, of={key: value for key, value in self.of.items() if key not in keys})

    def tested(self, text: str, facts: tuple[Fact, ...]) -> State:
        """The state behind a test."""
        known = tuple(fact for fact in map(self.seen, facts) if fact is not None and fact not in self.facts)
        return replace(self, facts=self.facts + known, guard=self.guard + ((text,) if text else ()))

    def seen(self, fact: Fact) -> Fact | None:
        """A fact in the values at the head, if what it needs is known."""
        if not all(map(self.meets, fact.needs)):
            return None
        return replace(fact, value=self.composed(fact.value), needs=())

    def meets(self, need: Need) -> bool:
        value = self.composed(need.value)
        if isinstance(need, Divides):
            return is_multiple(value, need.divisor) or any(
                isinstance(fact, Rest) and divides(fact, value, need.divisor) for fact in self.facts
            )
        low, high = limits(need.type)
        return self.is_at_least(value - low) and self.is_at_least(high - value)

    def is_at_least(self, value: Polynomial) -> bool:
        """Whether it is seen that a value isn't negative: it is a sum of at most two that aren't, and of a number."""
        known = [fact.value for fact in self.facts if isinstance(fact, AtLeast)]
        known += [limits(fact.type)[1] - fact.value - Polynomial.constant(1) for fact in self.facts if isinstance(fact, Below)]
        for name in sorted(value.names() | {name for one in known for name in one.names()}):
            if name in self.types and not is_unknown(name):
                low, high = limits(self.types[name], True)
                known += [Polynomial.variable(name) - low, high - Polynomial.variable(name)]
        sums = [Polynomial(), *known, *(one + other for one, other in itertools.combinations_with_replacement(known, 2))]
        rests = ((value - total).value() for total in sums)
        return any(rest is not None and rest >= 0 for rest in rests)

    def edge(self) -> Edge:
        """What the path has changed."""
        changed = {key: value for key, value in self.of.items() if not is_unknown(key) and value != Polynomial.variable(key)}
        return Edge(changed, self.steps, self.guard, dict(self.reasons))


def limits(kind: Whole, most: bool = False) -> tuple[Polynomial, Polynomial]:
    """The least and the greatest value of a type; one that depends on the machine has a name. `most` asks for a range that has all of them."""
    low, high = kind.most() if most else kind.least()
    named = kind.bits != kind.most_bits and not kind.signed
    return Polynomial.constant(low), Polynomial.variable(f"?greatest {kind.name}") if named else Polynomial.constant(high)


def is_multiple(value: Polynomial, divisor: int) -> bool:
    """Whether each coefficient is a whole multiple of a divisor."""
    return all((size / divisor).denominator == 1 for size in value.terms.values())


def divides(fact: Rest, value: Polynomial, divisor: int) -> bool:
    """Whether a fact makes a divisor divide a value."""
    known = fact.value - Polynomial.constant(fact.rest)
    return fact.modulus % divisor == 0 and any(is_multiple(value - known.scaled(factor), divisor) for factor in range(divisor))


def fresh(keys: Iterable[str], types: Mapping[str, Whole]) -> State:
    """The state at a head: each variable has its value."""
    return State({key: Polynomial.variable(key) for key in keys if not is_unknown(key)}, types)


def merged(states: Iterable[State]) -> list[State]:
    """States without those that have the same values as another; what only one of them knows isn't known, and their tests go."""
    result: dict[tuple[object, ...], State] = {}
    for state in states:
        key = tuple((name, tuple(value.terms.items())) for name, value in state.of.items())
        other = result.get(key)
        if other is not None:
            both = tuple(fact for fact in other.facts if fact in state.facts)
            guard = tuple(one for one in other.guard if one in state.guard)
            state = replace(other, facts=both, guard=guard, origins=other.origins | state.origins)
        result[key] = state
    return list(result.values())


@dataclass
class Outcome:
    """The states behind statements, and those that leave them by `break` and by `continue`."""

    behind: list[State] = field(default_factory=list)
    broken: list[State] = field(default_factory=list)
    continued: list[State] = field(default_factory=list)


@dataclass
class Walk:
    """Loops with those inside them: their heads, all paths between these, and the variables in scope at a head."""

    types: Mapping[str, Whole]
    heads: list[Turns] = field(default_factory=list)
    edges: list[Edge] = field(default_factory=list)
    scope: dict[str, None] = field(default_factory=dict)
    exits: dict[Turns, list[State]] = field(default_factory=dict)
    silent: set[Move] = field(default_factory=set)
    """Between which heads paths lead that change nothing."""

    def run(self, items: Iterable[Statement], states: list[State]) -> Outcome:
        """Takes states through statements."""
        result, waiting = Outcome(states), [*items]
        for place, item in enumerate(waiting):
            if not result.behind:
                refuse_targets(waiting[place:])
                break
            outcome = self.step(item, result.behind)
            result.behind = merged(outcome.behind)
            result.broken += outcome.broken
            result.continued += outcome.continued
            if len(result.behind) > MOST_STATES:
                raise Refusal(0, f"a loop of more than {MOST_STATES} paths")
        return result

    def step(self, item: Statement, states: list[State]) -> Outcome:
        if isinstance(item, Set):
            return Outcome([state.having(item.key, item.term) for state in states])
        if isinstance(item, Declared):
            return Outcome([state.declaring(item.key) for state in states])
        if isinstance(item, Touch):
            for key in item.keys:
                states = [state.any_value(key, item.reason) if key in state.of else state for state in states]
            return Outcome(states)
        if isinstance(item, Claim):
            return Outcome([state.tested("", item.facts) for state in states])
        if isinstance(item, Choice):
            test = item.test
            yes = self.run(item.yes, [state.tested(test.text, test.holds) for state in states])
            no = self.run(item.no, [state.tested(f"!({test.text})", test.fails) for state in states])
            return Outcome(yes.behind + no.behind, yes.broken + no.broken, yes.continued + no.continued)
        if isinstance(item, Block):
            inside = self.run(item.items, states)
            return Outcome(*([state.leaving(item.own) for state in part] for part in (inside.behind, inside.broken, inside.continued)))
        if isinstance(item, Cases):
            parts = [self.run(entry, states) for entry in item.entries]
            return Outcome(
                [state for part in parts for state in part.behind + part.broken], [], [state for part in parts for state in part.continued]
            )
        if isinstance(item, Leave):
            return Outcome([], states if item.word == "break" else [], states if item.word == "continue" else [])
        if isinstance(item, Target):
            raise Refusal(item.line, item.word)
        return Outcome(self.loop(item, states))

    def loop(self, turns: Turns, states: list[State]) -> list[State]:
        """Ends paths at a head. Those behind the loop begin at it."""
        arriving = self.run(turns.init, states).behind
        for state in arriving:
            self.end(state, turns)
        if arriving and turns not in self.exits:
            self.head(turns, arriving[0].of)
        return self.exits.get(turns, [])

    def head(self, turns: Turns, keys: Iterable[str]) -> None:
        """Takes the paths of a loop's turns."""
        self.exits[turns] = []
        self.heads.append(turns)
        start = replace(fresh(keys, self.types), origins=frozenset({turns}))
        self.scope.update(dict.fromkeys(start.of))
        turn = self.run(turns.body, [start])
        following = self.run(turns.next, merged(turn.behind + turn.continued))
        for state in following.behind:
            self.end(state, turns)
        self.exits[turns] = merged(state.leaving(turns.own) for state in turn.broken + following.broken)

    def end(self, state: State, turns: Turns) -> None:
        """Keeps a path to a head that changes something. Of two with the same effect one stays, without its tests."""
        edge = replace(state.edge(), moves=frozenset((origin, turns) for origin in state.origins))
        if not edge.values:
            self.silent |= edge.moves
            return
        for place, other in enumerate(self.edges):
            if other.values == edge.values:
                self.edges[place] = replace(other, guard=(), moves=other.moves | edge.moves)
                return
        self.edges.append(edge)


def refuse_targets(items: list[Statement]) -> None:
    """Refuses statements that no path comes to from before, but that a jump may come to."""
    for item in every(items):
        if isinstance(item, Target):
            raise Refusal(item.line, item.word)


@dataclass(frozen=True)
class Stage:
    """A loop of a sequence: the code between the loop before and its head, and its walk."""

    code: Edge
    walk: Walk


def walk(loop: Turns, keys: Iterable[str], types: Mapping[str, Whole]) -> Walk:
    """The paths of a loop, over the variables that are in scope at its head."""
    result = Walk(types)
    result.head(loop, keys)
    return result


def stages(items: tuple[Statement, ...], first: Iterable[str], scope: Iterable[str], types: Mapping[str, Whole]) -> list[Stage]:
    """The loops of a sequence with the straight code between them, over the variables in scope at the first head and before it."""
    begin = next(item for item in items if isinstance(item, Turns))
    result = [Stage(Edge({}, (), ()), walk(begin, first, types))]
    state = fresh(scope, types)
    for before, item in itertools.pairwise(items):
        if isinstance(before, Turns):
            state = behind(before, result[-1].walk, scope)
        if isinstance(item, Turns):
            code = straight(item.init, state, types)
            result.append(Stage(code.edge(), walk(item, code.of, types)))
            scope = [key for key in code.of if key not in item.own]
        else:
            state = straight((item,), state, types)
    return result


def behind(loop: Turns, walk: Walk, scope: Iterable[str]) -> State:
    """The state behind a loop, in one at its head: the same where each way out changes nothing, or what a turn changes as well."""
    exits = walk.exits[loop]
    if all(any(does(edge, state) for edge in [Edge({}, (), ()), *walk.edges]) for state in exits):
        return fresh(scope, walk.types)
    return single(exits)


def does(edge: Edge, state: State) -> bool:
    """Whether a path changes the variables of a state as the state does."""
    return all(edge.values.get(key, Polynomial.variable(key)) == value for key, value in state.of.items())


def straight(items: tuple[Statement, ...], state: State, types: Mapping[str, Whole]) -> State:
    """The state behind code without a choice."""
    return single(Walk(types).run(items, [state]).behind)


def single(states: list[State]) -> State:
    if len(states) != 1:
        raise Refusal(0, "code between loops that branches")
    return states[0]
