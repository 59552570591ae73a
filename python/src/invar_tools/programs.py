"""Programs of docs/LANGUAGE.md as statements over polynomials in names."""
from __future__ import annotations

import re
from dataclasses import dataclass

from .loops import unchanged
from .polynomials import Polynomial
from .reader import KEYWORDS, Large, Reader, State, Unread

MOST_BLOCKS, MOST_STATEMENTS, MOST_PARTS_WITHIN = 16, 256, 64
RECIPROCAL = re.compile(r"any\d+", re.ASCII)


@dataclass(frozen=True)
class Comparison:
    """That a polynomial is 0, or that it isn't."""

    value: Polynomial
    is_equal: bool


@dataclass(frozen=True)
class Guard:
    """The text of a guard, the comparisons that its parts say, and whether it has one part alone."""

    text: str
    comparisons: list[Comparison]
    is_single: bool

    def lets_in(self) -> list[Comparison]:
        """What is true of each state that it lets in."""
        return self.comparisons

    def lets_past(self) -> list[Comparison]:
        """What is true of each state that it lets past."""
        return [Comparison(one.value, not one.is_equal) for one in self.comparisons if self.is_single]


@dataclass(frozen=True)
class Assignment:
    """Values for variables, all of the state before it. In values and divisors `any1` is one over the first divisor, and so on; a divisor has
    those before it alone. From a state where a divisor is 0 the program goes nowhere."""

    targets: list[str]
    values: list[Polynomial]
    divisors: list[Polynomial]


@dataclass(frozen=True)
class Unknown:
    """A variable gets a value of which nothing is known."""

    target: str


@dataclass(frozen=True)
class Assumption:
    """Nothing goes on where a comparison is false."""

    comparison: Comparison


@dataclass(frozen=True)
class Assertion:
    """A polynomial that is to be 0 at a place of the text, LINE:COLUMN."""

    place: str
    claim: Polynomial


@dataclass(frozen=True)
class Choice:
    """An `if`; without `else` the second block is empty."""

    guard: Guard
    block: Block
    other: Block


@dataclass(frozen=True)
class While:
    """A loop whose head is at a place of the text, LINE:COLUMN."""

    place: str
    guard: Guard
    block: Block


@dataclass(frozen=True)
class For:
    """A loop with a counter from its first value up to a bound, which is computed anew in each turn."""

    place: str
    counter: str
    first: Polynomial
    bound: Polynomial
    block: Block


Statement = Assignment | Unknown | Assumption | Assertion | Choice | While | For
Block = list[Statement]


@dataclass(frozen=True)
class Program:
    """The names of the variables, and the statements."""

    names: list[str]
    block: Block


class ProgramReader(Reader):
    """Reads a program. Inside of an assignment any factor may divide, and there are divisors."""

    keywords = KEYWORDS | {"if", "else", "while", "for", "assume", "assert", "any"}

    def __init__(self, text: str) -> None:
        super().__init__(text)
        self.state: State = {}
        self.divisors: list[Polynomial] | None = None
        self.blocks = 0
        self.statements = 0

    def is_keyword(self, word: str) -> bool:
        return super().is_keyword(word) or bool(RECIPROCAL.fullmatch(word))

    def place(self, at: int) -> str:
        """The line and the column of a place in the text, both from 1; columns count bytes."""
        before = self.source[:at]
        return f"{before.count(chr(10)) + 1}:{len(before.rpartition(chr(10))[2].encode()) + 1}"

    def reciprocal(self, state: State) -> Polynomial:
        """One over a divisor: a number, or where there are divisors one more of them."""
        if self.divisors is None or self.next().is_number():
            return super().reciprocal(state)
        divisor = self.factor(state)
        self.divisors.append(divisor)
        return Polynomial.variable(f"any{len(self.divisors)}")

    def program(self) -> Program:
        self.expect("vars")
        names = self.names()
        self.must(len(set(names)) == len(names))
        self.state = unchanged(names)
        block: Block = []
        while not self.is_end():
            block.append(self.statement())
        return Program(names, block)

    def block(self) -> Block:
        self.expect("{")
        self.blocks += 1
        self.must(self.blocks <= MOST_BLOCKS)
        block: Block = []
        while not self.is_taken("}"):
            block.append(self.statement())
        self.blocks -= 1
        return block

    def begin_statement(self) -> None:
        self.statements += 1
        self.must(self.statements <= MOST_STATEMENTS)

    def statement(self) -> Statement:
        self.begin_statement()
        at = self.next().at
        if self.is_taken("if"):
            return self.choice()
        if self.is_taken("while"):
            return While(self.place(at), self.read_guard(), self.block())
        if self.is_taken("for"):
            return self.counted(at)
        if self.is_taken("assume"):
            return Assumption(self.ended_comparison("=", "==", "!="))
        if self.is_taken("assert"):
            return Assertion(self.place(at), self.ended_comparison("=", "==").value)
        return self.assignment()

    def choice(self) -> Choice:
        """What is behind `if`; that of `else if` stands in its `else`."""
        cases = [(self.read_guard(), self.block())]
        other: Block = []
        while self.is_taken("else"):
            if not self.is_taken("if"):
                other = self.block()
                break
            self.begin_statement()
            cases.append((self.read_guard(), self.block()))
        for guard, block in cases[:0:-1]:
            other = [Choice(guard, block, other)]
        return Choice(*cases[0], other)

    def counted(self, at: int) -> For:
        """What is behind `for`."""
        counter = self.variable()
        self.expect("=")
        first = self.side(self.state)
        self.expect("..")
        bound = self.side(self.state)
        return For(self.place(at), counter, first, bound, self.block())

    def variable(self) -> str:
        name = self.name()
        self.must(name in self.state)
        return name

    def assignment(self) -> Assignment | Unknown:
        targets = self.targets()
        self.must(set(targets) <= set(self.state))
        self.expect("=")
        if len(targets) == 1 and self.is_taken("any"):
            self.expect(";")
            return Unknown(targets[0])
        divisors: list[Polynomial] = []
        self.divisors = divisors
        values = self.values(len(targets), self.state)
        self.divisors = None
        return Assignment(targets, values, divisors)

    def comparison(self, *signs: str) -> Comparison:
        left = self.side(self.state)
        sign = self.expect(*signs)
        return Comparison(left - self.side(self.state), sign != "!=")

    def ended_comparison(self, *signs: str) -> Comparison:
        comparison = self.comparison(*signs)
        self.expect(";")
        return comparison

    def read_guard(self) -> Guard:
        text = self.guard()
        parts = parts_of(text)
        said = [self.said(part) for part in parts]
        return Guard(text, [one for one in said if one], len(parts) == 1)

    def said(self, part: str) -> Comparison | None:
        """The comparison that a part of a guard says, if it says one."""
        reader = ProgramReader(part)
        reader.state = self.state
        try:
            comparison = reader.comparison("=", "==", "!=")
            reader.must(reader.is_end())
        except Large as fault:
            raise Large(self.source) from fault
        except Unread:
            return None
        return comparison


def parts_of(guard: str, within: int = 0) -> list[str]:
    """What stands between the `&&` outside of parentheses. A pair of parentheses around it all is no part, and what is in it has parts again."""
    guard = guard.strip(" \t\r\n")
    cuts = cuts_of(guard)
    if within == MOST_PARTS_WITHIN:
        return [guard]
    if cuts:
        pieces = zip([0, *(cut + 2 for cut in cuts)], [*cuts, len(guard)])
        return [part for begin, end in pieces for part in parts_of(guard[begin:end], within + 1)]
    return parts_of(guard[1:-1], within + 1) if is_wrapped(guard) else [guard]


def cuts_of(guard: str) -> list[int]:
    """Where an `&&` stands before which as many parentheses were closed as were opened."""
    cuts: list[int] = []
    depth = 0
    for at, sign in enumerate(guard):
        depth += (sign == "(") - (sign == ")")
        if depth == 0 and guard.startswith("&&", at) and not (cuts and at < cuts[-1] + 2):
            cuts.append(at)
    return cuts


def is_wrapped(guard: str) -> bool:
    """Whether its first parenthesis is closed by its last byte."""
    depth = 0
    for at, sign in enumerate(guard):
        depth += (sign == "(") - (sign == ")")
        if depth == 0:
            return sign == ")" and at == len(guard) - 1
    return False


def read_program(text: str) -> Program:
    """The program of a text. It is the one that `invar` reads, for which numbers or degrees may be too large.

    A text with a side that has by itself a degree above 64 or more than 4,096 terms isn't read.
    """
    return ProgramReader(text).program()
