"""Loops, chains of loops, and equations of docs/LANGUAGE.md as polynomials in names."""
from __future__ import annotations

from dataclasses import dataclass
from itertools import count

from .polynomials import Polynomial
from .reader import Reader, State


@dataclass(frozen=True)
class Loop:
    """The names of the variables, what `init` says of some, and the new values of each branch."""

    names: list[str]
    init: State
    branches: list[State]

    def start(self) -> State:
        """The values at the start, in the free variables."""
        return {name: self.init.get(name, Polynomial.variable(name)) for name in self.names}

    def free(self) -> list[str]:
        return [name for name in self.names if name not in self.init]

    def moving(self) -> list[str]:
        """The variables that some branch changes."""
        return [name for name in self.names if any(branch[name] != Polynomial.variable(name) for branch in self.branches)]


@dataclass(frozen=True)
class FurtherLoop:
    """A loop behind another, with its variables: the values behind the code between the two, and the new values of each branch."""

    code: State
    branches: list[State]


@dataclass(frozen=True)
class Chain:
    """Loops one after another."""

    first: Loop
    others: list[FurtherLoop]


class LoopReader(Reader):
    """Reads a loop or a chain; its body begins at the first branch."""

    def __init__(self, text: str) -> None:
        super().__init__(text)
        self.variables: list[str] = []
        self.local_names: list[str] = []
        self.body = 0

    def init(self) -> State:
        """What is set, each by what isn't."""
        init: State = {}
        state = unchanged(self.variables)
        while True:
            name = self.name()
            self.must(name in self.variables and name not in init)
            self.expect("=")
            init[name] = self.side(state)
            if self.expect(",", ";") == ";":
                break
        self.must(not any(value.names() & init.keys() for value in init.values()))
        return init

    def branch(self) -> State:
        """The values of the variables behind a branch."""
        self.expect("branch")
        if self.is_taken("when"):
            self.guard()
        return self.code()

    def branches(self) -> list[State]:
        branches = [self.branch()]
        while self.is_next("branch"):
            branches.append(self.branch())
        return branches

    def code(self) -> State:
        """The values of the variables behind statements in braces."""
        self.expect("{")
        state = unchanged(self.variables)
        while not self.is_taken("}"):
            targets = self.targets()
            self.must(set(targets) <= {*self.variables, *self.local_names})
            self.expect("=")
            state |= zip(targets, self.values(len(targets), state))
        return {name: state[name] for name in self.variables}

    def loop(self) -> Loop:
        self.expect("vars")
        self.variables = self.names()
        self.local_names = self.names() if self.is_taken("locals") else []
        self.must(len({*self.variables, *self.local_names}) == len(self.variables) + len(self.local_names))
        init = self.init() if self.is_taken("init") else {}
        self.body = self.next().at
        return Loop(self.variables, init, self.branches())

    def further_loop(self) -> FurtherLoop:
        self.expect("then")
        code = self.code() if self.is_taken("do") else unchanged(self.variables)
        return FurtherLoop(code, self.branches())

    def chain(self) -> Chain:
        first, others = self.loop(), []
        while self.is_next("then"):
            others.append(self.further_loop())
        return Chain(first, others)


def unchanged(names: list[str]) -> State:
    """Each name as its own value."""
    return {name: Polynomial.variable(name) for name in names}


def read_whole(text: str) -> tuple[LoopReader, Loop]:
    reader = LoopReader(text)
    loop = reader.loop()
    reader.must(reader.is_end())
    return reader, loop


def read_loop(text: str) -> Loop:
    """The loop of a text. It is the one that the program reads, for which numbers may be too wide."""
    return read_whole(text)[1]


def read_chain(text: str) -> Chain:
    """The loops of a text, one after another: the first, and those behind `then`."""
    reader = LoopReader(text)
    chain = reader.chain()
    reader.must(reader.is_end())
    return chain


def read_equation(text: str, names: list[str]) -> Polynomial:
    """The left side minus the right side of an equation."""
    reader = Reader(text)
    state = unchanged(names)
    value = reader.side(state)
    if reader.is_taken("="):
        value -= reader.side(state)
    reader.must(reader.is_end())
    return value


def with_entries(text: str) -> tuple[str, dict[str, str]]:
    """A loop text with a copy of each value at the start that `init` doesn't give and that changes, and whose copies these are."""
    reader, loop = read_whole(text)
    moving = [name for name in loop.moving() if name not in loop.init]
    used = {*loop.names, *reader.local_names}
    copies = {next(f"{name}_{number}" for number in count() if f"{name}_{number}" not in used): name for name in moving}
    values = {name: Polynomial.variable(copy) for copy, name in copies.items()}
    init = {name: value.substituted(values) for name, value in loop.init.items()} | values
    lists = {"vars": [*copies, *loop.names], "locals": reader.local_names, "init": [f"{name}={value.flat()}" for name, value in init.items()]}
    head = "".join(f"{word} {', '.join(items)};\n" for word, items in lists.items() if items)
    return head + reader.text[reader.body :], copies
