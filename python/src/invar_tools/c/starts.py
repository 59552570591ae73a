"""What the variables of a function are where a loop begins, as far as the code before it tells."""
from __future__ import annotations

import itertools
from collections.abc import Callable, Iterable, Iterator
from dataclasses import dataclass, field, replace

from .lowering import Function
from .paths import State
from ..polynomials import Polynomial
from .statements import BEFORE, Block, Cases, Choice, Claim, Declared, Leave, Set, Statement, Target, Touch, Turns, changed

STRAIGHT = (Set, Declared, Touch, Claim)


@dataclass(frozen=True)
class Sequence:
    """Loops of one block, with the straight code between them, and the variables in scope before the first."""

    items: tuple[Statement, ...]
    scope: frozenset[str]

    def loops(self) -> list[Turns]:
        return [item for item in self.items if isinstance(item, Turns)]

    def first(self) -> Turns:
        """The loop with which it begins."""
        return self.loops()[0]

    def parts(self) -> list[Sequence]:
        """Each loop for itself."""
        return [Sequence((loop,), self.scope) for loop in self.loops()]


@dataclass
class Starts:
    """For each loop of a function the values at its first arrival, and the sequences of loops outside and inside of it."""

    function: Function
    is_framed: Callable[[Turns], bool] = lambda loop: True
    """Whether the verifier is told what a loop assigns: behind any other loop nothing is known."""
    at: dict[Turns, State] = field(default_factory=dict)
    sequences: dict[Turns | None, list[Sequence]] = field(default_factory=dict)
    symbols: Iterator[int] = field(default_factory=lambda: itertools.count(1))

    def unknown(self, state: State, keys: Iterable[str]) -> State:
        """The state once code that isn't followed may have changed these variables."""
        for key in dict.fromkeys(keys):
            if key in state.of:
                state = state.any_value(key, "")
        return state

    def anything(self, keys: Iterable[str]) -> State:
        """A state of which nothing is known."""
        return self.unknown(State({key: Polynomial() for key in keys}, self.function.types, symbols=self.symbols), keys)

    def through(self, items: tuple[Statement, ...], state: State | None, owner: Turns | None) -> State | None:
        """Goes through statements; None where their end isn't reached."""
        run: list[Statement] = []
        scope: frozenset[str] = frozenset()
        for item in items:
            if isinstance(item, Turns) and not run:
                scope = frozenset(state.of) if state is not None else item.around
            if isinstance(item, Turns) or run and isinstance(item, STRAIGHT):
                run.append(item)
            else:
                self.keep(run, scope, owner)
                run = []
            state = self.after(item, state, owner)
        self.keep(run, scope, owner)
        return state

    def keep(self, run: list[Statement], scope: frozenset[str], owner: Turns | None) -> None:
        """Keeps a sequence of loops without the code behind the last of them."""
        while run and not isinstance(run[-1], Turns):
            run = run[:-1]
        sequence = Sequence(tuple(run), scope)
        if run and sequence not in self.sequences.setdefault(owner, []):
            self.sequences[owner].append(sequence)

    def after(self, item: Statement, state: State | None, owner: Turns | None) -> State | None:
        """Goes through a statement. What can't be reached is gone through as well, for the loops in it."""
        if isinstance(item, Target):
            return self.anything(item.keys)
        if isinstance(item, Turns):
            return self.after_loop(item, state)
        if isinstance(item, Block):
            inside = self.through(item.items, state, owner)
            return None if inside is None else inside.leaving(item.own)
        if isinstance(item, Choice):
            test = item.test
            yes = self.through(item.yes, None if state is None else state.tested("", test.holds), owner)
            no = self.through(item.no, None if state is None else state.tested("", test.fails), owner)
            return self.joined(yes, no)
        if isinstance(item, Cases):
            for entry in item.entries:
                self.through(entry, state, owner)
            return None if state is None else self.unknown(state, changed([item]))
        if isinstance(item, Leave) or state is None:
            return None
        if isinstance(item, Set):
            return state.having(item.key, item.term)
        if isinstance(item, Declared):
            return state.declaring(item.key)
        if isinstance(item, Touch):
            return self.unknown(state, item.keys)
        return state.tested("", item.facts)

    def joined(self, one: State | None, other: State | None) -> State | None:
        """What two states have in common."""
        if one is None or other is None:
            return one or other
        facts = tuple(fact for fact in one.facts if fact in other.facts)
        both = {key: value for key, value in one.of.items() if key in other.of}
        return self.unknown(replace(one, of=both, facts=facts), [key for key in both if one.of[key] != other.of[key]])

    def after_loop(self, loop: Turns, state: State | None) -> State:
        if state is None:
            state = self.anything(loop.around)
        scope = frozenset(state.of)
        state = self.through(loop.init, state, loop) or state
        self.at[loop] = self.joined(self.at.get(loop), state) or state
        state = self.unknown(state, changed([*loop.body, *loop.next]))
        following = self.through(loop.body, state, loop)
        self.through(loop.next, following, loop)
        behind = state if self.is_framed(loop) else self.unknown(state, state.of)
        return behind.leaving(frozenset(state.of) - scope)


def starts_of(function: Function, is_framed: Callable[[Turns], bool]) -> Starts:
    """The starts of a function's loops; its parameters and the global variables have their values before."""
    result = Starts(function, is_framed)
    values = {key: Polynomial.variable(name + BEFORE) for key, name in function.begins.items()}
    result.through(function.items, State(values, function.types, symbols=result.symbols), None)
    return result
