"""What the languages of docs/LANGUAGE.md share: tokens, sums and guards."""
from __future__ import annotations

import re
from collections.abc import Callable
from dataclasses import dataclass
from fractions import Fraction

from .faults import Fault
from .polynomials import Polynomial

TOKEN = re.compile(r"[A-Za-z]\w*|\d+|==|!=|\.\.|[^ \t\r\n]", re.ASCII)
COMMENT = re.compile(r"#[^\n]*")
NO_ITEM = re.compile(r"[^\x21-\x7e \t\r\n]|[};]")
KEYWORDS = {"vars", "init", "branch", "when"}
MOST_NAME, MOST_OPERATORS, MOST_EXPONENT, MOST_DEGREE, MOST_DEPTH, MOST_TERMS, MOST_NUMBER = 32, 1_024, 16, 64, 64, 4_096, 2**127 - 1

State = dict[str, Polynomial]
"""A value for each name."""


class Unread(Fault):
    """A text is none of the language."""

    def __init__(self, text: str) -> None:
        super().__init__(f"what is given isn't of the language that docs/LANGUAGE.md has: {text[:60]!r}")


class Large(Unread):
    """A product of it has too high a degree, or too many terms."""


@dataclass(frozen=True)
class Token:
    """A token, which is empty at the end, and its place in the text."""

    text: str
    at: int

    def is_number(self) -> bool:
        return self.text.isascii() and self.text.isdecimal()

    def is_word(self) -> bool:
        return self.text.isascii() and self.text[:1].isalpha()


class Reader:
    """What is left of a text, token by token. Comments are blanks."""

    keywords = KEYWORDS

    def __init__(self, text: str) -> None:
        self.source = text
        self.text = COMMENT.sub(lambda comment: " " * len(comment[0]), text)
        self.tokens = [Token("", len(text)), *[Token(found[0], found.start()) for found in TOKEN.finditer(self.text)][::-1]]
        self.depth = 0
        self.operators = 0

    def next(self) -> Token:
        return self.tokens[-1]

    def is_next(self, *texts: str) -> bool:
        return self.next().text in texts

    def is_end(self) -> bool:
        return self.is_next("")

    def taken(self) -> Token:
        token = self.next()
        self.must(token.text != "")
        return self.tokens.pop()

    def must(self, holds: bool) -> None:
        if not holds:
            raise Unread(self.source)

    def expect(self, *texts: str) -> str:
        token = self.taken()
        self.must(token.text in texts)
        return token.text

    def is_taken(self, text: str) -> bool:
        """Takes the next token if it is this one."""
        is_next = self.is_next(text)
        if is_next:
            self.taken()
        return is_next

    def is_keyword(self, word: str) -> bool:
        return word in self.keywords

    def name(self) -> str:
        token = self.taken()
        self.must(token.is_word() and len(token.text) <= MOST_NAME and not self.is_keyword(token.text))
        return token.text

    def number(self, most: int = MOST_NUMBER) -> int:
        token = self.taken()
        digits = token.text.lstrip("0") or "0"
        self.must(token.is_number() and len(digits) <= len(str(MOST_NUMBER)) and int(digits) <= most)
        return int(digits)

    def names(self) -> list[str]:
        """The names of a list up to its semicolon."""
        names = [self.name()]
        while self.expect(",", ";") == ",":
            names.append(self.name())
        return names

    def listed(self, read: Callable[[], Polynomial]) -> list[Polynomial]:
        """What stands in parentheses, with commas between."""
        self.expect("(")
        values = [read()]
        while self.expect(",", ")") == ",":
            values.append(read())
        return values

    def side(self, state: State) -> Polynomial:
        """A whole right side, or one side of a comparison, by the values of its names."""
        self.operators = 0
        return self.sum(state)

    def sum(self, state: State) -> Polynomial:
        value = self.product(state)
        while self.is_next("+", "-"):
            value = value + self.product(state) if self.operator() == "+" else value - self.product(state)
        return value

    def operator(self) -> str:
        self.operators += 1
        self.must(self.operators <= MOST_OPERATORS)
        return self.taken().text

    def product(self, state: State) -> Polynomial:
        value = self.factor(state)
        while self.is_next("*", "/"):
            value = self.times(value, self.factor(state) if self.operator() == "*" else self.reciprocal(state))
        return value

    def reciprocal(self, state: State) -> Polynomial:
        """One over a divisor, which is a number."""
        divisor = self.number()
        self.must(divisor != 0)
        return Polynomial.constant(Fraction(1, divisor))

    def factor(self, state: State) -> Polynomial:
        if self.is_next("-"):
            self.operator()
            return self.inner(self.factor, state).scaled(-1)
        value = self.atom(state)
        if not self.is_next("^"):
            return value
        self.operator()
        power = Polynomial.constant(1)
        for _ in range(self.number(MOST_EXPONENT)):
            power = self.times(power, value)
        return power

    def atom(self, state: State) -> Polynomial:
        if self.is_taken("("):
            value = self.inner(self.sum, state)
            self.expect(")")
            return value
        if self.next().is_number():
            return Polynomial.constant(self.number())
        name = self.taken().text
        self.must(name in state)
        return state[name]

    def inner(self, read: Callable[[State], Polynomial], state: State) -> Polynomial:
        """What is read one deeper."""
        self.depth += 1
        self.must(self.depth <= MOST_DEPTH)
        value = read(state)
        self.depth -= 1
        return value

    def times(self, left: Polynomial, right: Polynomial) -> Polynomial:
        if left.terms and right.terms and left.degree() + right.degree() > MOST_DEGREE:
            raise Large(self.source)
        value = left * right
        if len(value.terms) > MOST_TERMS:
            raise Large(self.source)
        return value

    def targets(self) -> list[str]:
        """The left side of a statement: a name, or a list of at least two in parentheses, none of which stands twice."""
        if not self.is_taken("("):
            return [self.name()]
        names = [self.name()]
        while self.expect(",", ")") == ",":
            names.append(self.name())
        self.must(len(set(names)) == len(names) > 1)
        return names

    def values(self, count: int, state: State) -> list[Polynomial]:
        """As many right sides as there are targets, up to the semicolon."""
        values = [self.side(state)] if count == 1 else self.listed(lambda: self.side(state))
        self.must(len(values) == count)
        self.expect(";")
        return values

    def guard(self) -> str:
        """The text of a guard, up to its brace."""
        begin = self.next().at
        while not self.is_next("{"):
            self.taken()
        guard = self.text[begin : self.next().at]
        self.must(bool(guard.strip()) and not NO_ITEM.search(guard))
        return guard.rstrip()
