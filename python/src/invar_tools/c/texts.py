"""Loop texts and chain texts: the paths of walks as branches, and what is known at the beginning as `init`."""
from __future__ import annotations

import re
from collections.abc import Iterable, Mapping
from dataclasses import dataclass, field, replace

from .paths import Edge, Move, Stage, State, Step, Walk
from ..polynomials import Polynomial
from .sources import Refusal
from .statements import BEFORE, Touch, Turns, every

MOST_VARIABLES = 12
MOST_BRANCHES = 6
MOST_STATEMENTS = 64
MOST_LOCALS = 12
"""As many variables, branches of a loop, statements and local names as a text may have."""

KEYWORDS = {"vars", "locals", "init", "branch", "when", "then", "do"}


def is_any(name: str) -> bool:
    """Whether a name in a value stands for any value."""
    return re.fullmatch(r"\?\d+", name) is not None


def spelled(key: str) -> str:
    """The name of a variable in C, by its key."""
    return key.partition("'")[0]


@dataclass
class Names:
    """The names of a loop text, and what each is in ACSL."""

    variables: dict[str, str] = field(default_factory=dict)
    """The name in the text of each variable of the C code."""
    spelling: dict[str, str] = field(default_factory=dict)
    """The ACSL term of each name in the text."""
    base: dict[str, str] = field(default_factory=dict)
    """The variable that the ACSL term of a name in the text speaks of."""
    locals: dict[str, str] = field(default_factory=dict)
    """The local name in the text of each temporary."""
    first_only: set[str] = field(default_factory=set)
    """The names in the text whose ACSL terms mean what they should at the first loop alone."""
    any: list[str] = field(default_factory=list)
    """The names in the text of any values: each has a branch of its own that makes it another."""

    def add(self, wish: str, term: str, base: str | None = None) -> str:
        """A new name in the text: the wished one where it may stand there and isn't taken."""
        name = wish if re.fullmatch(r"[A-Za-z]\w{0,31}", wish, re.ASCII) and wish not in KEYWORDS else "v"
        candidates = (name, *(f"{name[:28]}_{number}" for number in range(1000)))
        chosen = next(candidate for candidate in candidates if candidate not in self.spelling)
        self.spelling[chosen] = term
        if base is not None:
            self.base[chosen] = base
        return chosen

    def variable(self, key: str) -> str:
        """The name in the text of a variable of the C code."""
        if key not in self.variables:
            self.variables[key] = self.add(spelled(key), spelled(key), key)
        return self.variables[key]

    def local(self, key: str) -> str:
        """The name in the text of a temporary."""
        if key not in self.locals:
            self.locals[key] = self.add(spelled(key), spelled(key))
        return self.locals[key]

    def place(self, key: str) -> str:
        """The name in the text of a variable or of a temporary that has a name there."""
        return self.locals.get(key) or self.variable(key)

    def any_value(self, place: int) -> str:
        """The name in the text of the any value at a place in the list of those of a branch."""
        while len(self.any) <= place:
            self.any.append(self.add("any", ""))
        return self.any[place]

    def renamed(self, value: Polynomial, order: list[str]) -> Polynomial:
        """A value over names in the text; `order` has the any values of its branch."""
        order += [name for name in sorted(value.names()) if is_any(name) and name not in order]
        images = {name: self.any_value(order.index(name)) if is_any(name) else self.place(name) for name in value.names()}
        return value.substituted({name: Polynomial.variable(image) for name, image in images.items()})


@dataclass(frozen=True)
class Order:
    """In what order C code takes the branches of a loop text, its tests aside."""

    first: Turns
    moves: tuple[frozenset[Move], ...]
    """Of each branch that is a path: between which heads such a path leads. Branches behind these make an unknown value another."""
    silent: frozenset[Move]
    """Between which heads a path leads that changes nothing in the text."""

    def takes(self, word: Iterable[int], head: Turns) -> bool:
        """Whether the paths of a word lead from the first head to this one."""
        at = self.reached({self.first})
        for letter in word:
            if letter <= len(self.moves):
                at = self.reached({target for origin, target in self.moves[letter - 1] if origin in at})
        return head in at

    def reached(self, heads: set[Turns]) -> set[Turns]:
        """The heads that paths lead to that change nothing."""
        while more := {target for origin, target in self.silent if origin in heads} - heads:
            heads = heads | more
        return heads


@dataclass(frozen=True)
class LoopText:
    """A loop in the language of `invar`, with the names that it has, and the variables that have no part in it."""

    text: str
    names: Names
    without: dict[str, str]
    """Why a variable that the loop changes isn't in the text."""
    symbols: Mapping[str, str | None] = field(default_factory=dict)
    """The name in the text of each value before the loop, if it has one."""
    order: Order | None = None
    """Of the first loop."""

    def renamed(self, value: Polynomial) -> Polynomial:
        """A polynomial in variables and in values at the beginning of the function, in the names of the text."""
        images = {name: self.symbols.get(name) or self.names.variables[name] for name in value.names()}
        return value.substituted({name: Polynomial.variable(image) for name, image in images.items()})


def is_sink(key: str, kept: Iterable[str], edges: Iterable[Edge]) -> str | None:
    """Why a variable has any value on some path, where nothing else is computed from it or from that value."""
    reason = None
    for edge in edges:
        others = {name for other in kept if other != key and other in edge.values for name in edge.values[other].names()}
        if key in others:
            return None
        for monomial in edge.values[key].terms if key in edge.values else ():
            alone = len(monomial) == 1 and monomial[0][1] == 1 and is_any(monomial[0][0]) and monomial[0][0] not in others
            if alone and sum(name == monomial[0][0] for term in edge.values[key].terms for name, _ in term) == 1:
                reason = edge.reasons.get(monomial[0][0], "")
    return reason


def variables_of(stages: list[Stage], out: Iterable[str]) -> tuple[list[str], dict[str, str]]:
    """The variables of a chain without some, and without those that are computed from these or have any value.

    Also why each that isn't in the text isn't.
    """
    edges = [edge for stage in stages for edge in [stage.code, *stage.walk.edges]]
    scope = {name: None for stage in stages for name in stage.walk.scope}
    moving = dict.fromkeys(name for edge in edges for name in edge.values if name in scope)
    without = dict.fromkeys(out, "")
    while True:
        kept = [name for name in moving if name not in without]
        more = {name: why for name in kept if (why := is_sink(name, kept, edges)) is not None}
        users = [name for name in kept for edge in edges if name in edge.values and edge.values[name].names() & without.keys()]
        if not more and not users:
            break
        without.update(more or dict.fromkeys(users, ""))
    read = dict.fromkeys(name for edge in edges for key in kept if key in edge.values for name in sorted(edge.values[key].names()))
    constants = [name for name in read if name in scope and name not in moving]
    return [*constants, *kept], {name: why for name, why in without.items() if name in moving}


def idle(stages: list[Stage], start: State) -> frozenset[str]:
    """Variables of which nothing is known at the beginning, that are overwritten on each path, and that no other is computed from."""
    edges = [edge for stage in stages for edge in [stage.code, *stage.walk.edges]]
    moving = dict.fromkeys(name for edge in edges for name in edge.values)
    found = set()
    for name in moving:
        unknown = start.of.get(name) is not None and any(map(is_any, start.of[name].names()))
        used = any(name in value.names() for edge in edges for value in edge.values.values())
        kept = any(name not in edge.values for stage in stages for edge in stage.walk.edges)
        if unknown and not used and not kept:
            found.add(name)
    return frozenset(found)


def needed(edge: Edge, known: set[str]) -> list[Step] | None:
    """The assignments of a path that known variables have their values from; None where one reads what no known variable has."""
    wanted, steps = set(known), []
    for step in reversed(edge.steps):
        if step.name in wanted:
            steps.append(step)
            wanted = wanted - {step.name} | set(step.value.names())
    return steps[::-1] if {name for name in wanted if not is_any(name)} <= known else None


@dataclass
class Writer:
    """Makes the text of loops, one after another, that begin with given values."""

    stages: list[Stage]
    start: State
    out: frozenset[str] = frozenset()
    """Variables that are to be left out, with all that is computed from them."""
    wanted: frozenset[str] = frozenset()
    """Variables, and values at the beginning of the function, that have to be in the text."""
    names: Names = field(default_factory=Names)

    def __post_init__(self) -> None:
        kept, self.without = variables_of(self.stages, self.out)
        declared = list(self.start.of)
        kept += [name for name in declared if name in self.wanted and name not in kept and name not in self.without]
        self.kept = [name for name in declared if name in kept] + [name for name in kept if name not in declared]
        changed = {name for stage in self.stages for edge in [stage.code, *stage.walk.edges] for name in edge.values}
        self.constants = [name for name in declared if name not in changed]
        self.moving = [name for name in self.kept if name in changed]
        self.symbols: dict[str, str | None] = {}
        self.order: Order | None = None
        self.in_steps = self.has_room()

    def has_room(self) -> bool:
        """Whether a text can have the assignments of each path as they stand, with local names for temporaries."""
        paths = [self.steps(edge) for stage in self.stages for edge in [stage.code, *stage.walk.edges]]
        known = [path for path in paths if path is not None]
        steps = [step for path in known for step in path]
        return len(known) == len(paths) and len(steps) <= MOST_STATEMENTS and len({step.name for step in steps} - {*self.kept}) <= MOST_LOCALS

    def steps(self, edge: Edge) -> list[Step] | None:
        return needed(edge, {*self.kept})

    def holder(self, symbol: str, among: list[str]) -> str | None:
        """A variable that has the value of a symbol at the beginning."""
        wanted = Polynomial.variable(symbol)
        preferred = [name for name in among if name in self.kept or name + BEFORE == symbol]
        return next((name for name in [*preferred, *among] if self.start.of.get(name) == wanted), None)

    def symbol(self, symbol: str) -> str | None:
        """The name in the text of a value before the loop, if there is an ACSL term for it."""
        if symbol not in self.symbols:
            self.symbols[symbol] = self.new_symbol(symbol)
        return self.symbols[symbol]

    def new_symbol(self, symbol: str) -> str | None:
        constant = self.holder(symbol, self.constants)
        if constant is not None:
            return self.names.variable(constant)
        if symbol.endswith(BEFORE):
            key = symbol.removesuffix(BEFORE)
            return self.names.add(f"{spelled(key)}_0", f"\\at({spelled(key)}, Pre)", key)
        moving = self.holder(symbol, self.moving)
        return None if moving is None else self.entry(moving)

    def entry(self, key: str) -> str:
        """A name in the text for the value of a variable at the first arrival."""
        added = self.names.add(f"{spelled(key)}_0", f"\\at({spelled(key)}, LoopEntry)", key)
        self.names.first_only.add(added)
        return added

    def begins(self, name: str) -> Polynomial | None:
        """What `init` says of a variable, over names in the text; nothing of a constant that is its own name.

        A variable that is declared inside has no value here: each path sets it before it reads it, so 0 is as good as any.
        """
        value = self.start.of.get(name)
        if value is None:
            return Polynomial.constant(0) if name in self.moving else None
        images = {symbol: image for symbol in sorted(value.names()) if (image := self.symbol(symbol)) is not None}
        if images.keys() == {*value.names()}:
            written = value.substituted({symbol: Polynomial.variable(image) for symbol, image in images.items()})
            return None if written == Polynomial.variable(self.names.variable(name)) else written
        return Polynomial.variable(self.entry(name)) if name in self.moving else None

    def statements(self, edge: Edge) -> str:
        """The assignments of a path in braces."""
        if not self.in_steps:
            return self.statement(edge)
        order: list[str] = []
        steps = self.steps(edge) or []
        for step in steps:
            if step.name not in self.kept:
                self.names.local(step.name)
        said = [f"{self.names.place(step.name)} = {self.names.renamed(step.value, order).flat()};" for step in steps]
        return f"{{ {' '.join(said)} }}" if said else "{ }"

    def statement(self, edge: Edge) -> str:
        """All new values of a path at once, in braces."""
        order: list[str] = []
        changes = {
            self.names.variable(name): self.names.renamed(edge.values[name], order).flat()
            for name in self.kept
            if name in edge.values
        }
        left, right = ", ".join(changes), ", ".join(changes.values())
        return f"{{ ({left}) = ({right}); }}" if len(changes) > 1 else f"{{ {left} = {right}; }}" if changes else "{ }"

    def branch(self, edge: Edge) -> str:
        """A path as a branch."""
        guard = " && ".join(f"({test})" if len(edge.guard) > 1 else test for test in edge.guard)
        readable = guard and re.fullmatch(r"[ -~]+", guard) and not re.search(r"[{};#]", guard)
        return f"branch {f'when {guard} ' if readable else ''}{self.statements(edge)}"

    def different(self, edges: Iterable[Edge]) -> list[Edge]:
        """Paths that change something in the text; of those with the same effect one, without its tests."""
        result: dict[tuple[object, ...], Edge] = {}
        for edge in edges:
            order: list[str] = []
            for name in self.kept:
                order += [one for one in sorted(edge.values[name].names()) if is_any(one) and one not in order] if name in edge.values else []
            own = {name: Polynomial.variable(f"?{place}") for place, name in enumerate(order, 1)}
            values = {name: edge.values[name].substituted(own) for name in self.kept if name in edge.values}
            key = tuple((name, frozenset(value.terms.items())) for name, value in values.items())
            other = result.get(key)
            result[key] = edge if other is None else replace(edge, guard=(), moves=edge.moves | other.moves)
        return [edge for key, edge in result.items() if key]

    def branches(self, stage: Stage) -> dict[str, frozenset[Move]]:
        """The branches of a loop, with the heads that their paths lead between."""
        result: dict[str, frozenset[Move]] = {}
        for edge in self.different(stage.walk.edges):
            text = self.branch(edge)
            result[text] = edge.moves | result.get(text, frozenset())
        return result or {"branch { }": frozenset()}

    def ordered(self, walk: Walk, branches: dict[str, frozenset[Move]]) -> Order:
        """In what order the code takes the branches of a loop."""
        silent = (edge.moves for edge in walk.edges if not edge.values.keys() & {*self.kept})
        return Order(walk.heads[0], tuple(branches.values()), frozenset(walk.silent).union(*silent))

    def loop(self, stage: Stage) -> list[str]:
        """The branches of a loop; behind the first loop what comes between."""
        branches = self.branches(stage)
        if stage is self.stages[0]:
            self.order = self.ordered(stage.walk, branches)
            return list(branches)
        code = self.statements(stage.code)
        return ["then" if code == "{ }" else f"then do {code}", *branches]

    def nothing(self) -> str:
        """Why no variable changes here."""
        turns = [head for stage in self.stages for head in stage.walk.heads]
        told = (item.reason for turn in turns for item in every([*turn.body, *turn.next]) if isinstance(item, Touch))
        return next(told, "nothing that changes")

    def written(self, title: str) -> LoopText:
        for name in sorted(self.wanted & self.without.keys()):
            raise Refusal(0, f"{spelled(name)} may have any value{f' ({self.without[name]})' if self.without[name] else ''}")
        if not self.moving:
            raise Refusal(0, next(filter(None, self.without.values()), self.nothing()))
        for name in self.kept:
            if name not in self.moving:
                self.names.variable(name)
        beginnings = {name: self.begins(name) for name in self.kept}
        for name in sorted(self.wanted):
            if name.endswith(BEFORE):
                self.symbol(name)
        parts = [self.loop(stage) for stage in self.stages]
        other = [f"branch {{ {name} = {name} + 1; }}" for name in self.names.any]
        if max(len([line for line in part if line.startswith("branch")]) + len(other) for part in parts) > MOST_BRANCHES:
            raise Refusal(0, f"a loop of more than {MOST_BRANCHES} paths{' and unknown values' if other else ''}")
        loops = [line for part in parts for line in [*part, *other]]
        starts = [f"{self.names.variable(name)} = {value.flat()}" for name, value in beginnings.items() if value is not None]
        own = [self.names.variables[name] for name in [*self.constants, *self.moving] if name in self.names.variables]
        own += [name for name in self.names.variables.values() if name not in own]
        temporaries = list(self.names.locals.values())
        order = [name for name in self.names.spelling if name not in own and name not in temporaries] + own
        known = [f"locals {', '.join(temporaries)};"] if temporaries else []
        init = [f"init {', '.join(starts)};"] if starts else []
        lines = [f"# {title}", f"vars {', '.join(order)};", *known, *init, *loops]
        if len(order) > MOST_VARIABLES:
            raise Refusal(0, f"a loop of more than {MOST_VARIABLES} variables")
        return LoopText("\n".join(lines) + "\n", self.names, self.without, self.symbols, self.order)


def loop_text(
    stages: list[Stage], start: State, title: str, out: frozenset[str] = frozenset(), wanted: frozenset[str] = frozenset()
) -> LoopText:
    """The text of loops, one after another, that begin with given values: a loop text where there is one."""
    return Writer(stages, start, out, wanted).written(title)
