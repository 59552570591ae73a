#!/usr/bin/env python3
"""Shows the parts of a program's guards that look as if they said an equation, and say nothing.

Usage: tools/guards.py PROGRAM

A part with a sign `=`, `==` or `!=` that can't be read as a comparison of two sums over the names of `vars` says nothing to `invar` (docs/LANGUAGE.md).
Each such part is shown with its line and column and why; other parts, such as `r >= y`, are for people, and nobody takes them for more.

./invar calls this beside a command that takes a program. The program's answer stays as it is.
"""
import re
import sys
from collections.abc import Iterator
from dataclasses import dataclass

from explain import marked

TOKEN = re.compile(r"[A-Za-z]\w*|\d+|[=!<>]=|&&|\|\||\S", re.A)
NAME = re.compile(r"[A-Za-z]\w*", re.A)
SIGNS = {"=", "==", "!="}
MOST_EXPONENT, MOST_NUMBER, MOST_PARTS_WITHIN = 16, 2**127 - 1, 64
SAYS_NOTHING = "this part of the guard says nothing"


@dataclass(frozen=True)
class Token:
    text: str
    at: int


class Silent(Exception):
    """Why a part says nothing."""


class Sides:
    """Reads a part as a comparison of two sums."""

    def __init__(self, part: list[Token], names: set[str]) -> None:
        self.left, self.names = [token.text for token in part][::-1], names

    def next(self) -> str:
        return self.left[-1] if self.left else ""

    def taken(self) -> str:
        if not self.left:
            raise Silent("it ends too soon")
        return self.left.pop()

    def comparison(self) -> None:
        self.sum()
        if self.taken() not in SIGNS:
            raise Silent("it is no comparison of two sums")
        self.sum()
        if self.left:
            raise Silent("it is no comparison of two sums")

    def sum(self) -> None:
        self.product()
        while self.next() in ("+", "-"):
            self.taken()
            self.product()

    def product(self) -> None:
        self.factor()
        while self.next() in ("*", "/"):
            if self.taken() == "*":
                self.factor()
            elif not self.number():
                raise Silent("a divisor is a number other than 0 here")

    def factor(self) -> None:
        while self.next() == "-":
            self.taken()
        if self.next() == "(":
            self.taken()
            self.sum()
            if self.taken() != ")":
                raise Silent("it is no comparison of two sums")
        elif self.next().isdigit():
            self.number()
        else:
            self.name()
        if self.next() == "^":
            self.taken()
            if self.number() > MOST_EXPONENT:
                raise Silent(f"an exponent is above {MOST_EXPONENT}")

    def number(self) -> int:
        token = self.taken()
        if not token.isdigit():
            raise Silent("a divisor is a number other than 0 here" if NAME.fullmatch(token) or token == "(" else "it is no comparison of two sums")
        if len(token) > len(str(MOST_NUMBER)) or int(token) > MOST_NUMBER:
            raise Silent("a number in it is too wide")
        return int(token)

    def name(self) -> None:
        token = self.taken()
        if not NAME.fullmatch(token):
            raise Silent("it is no comparison of two sums")
        if token not in self.names:
            raise Silent(f"`{token}` isn't declared")


def tokens_of(text: str) -> list[Token]:
    without_comments = re.sub(r"#[^\n]*", lambda found: " " * len(found[0]), text)
    return [Token(found[0], found.start()) for found in TOKEN.finditer(without_comments)]


def names_of(tokens: list[Token]) -> set[str]:
    """What stands behind `vars`."""
    heads = [token.text for token in tokens[: next((i for i, token in enumerate(tokens) if token.text == ";"), 0)]]
    return set(heads[1:]) - {","} if heads[:1] == ["vars"] else set()


def guards(tokens: list[Token]) -> Iterator[list[Token]]:
    """What stands between `if` or `while` and the brace behind it."""
    place = 0
    while place < len(tokens):
        begin = place + 1
        if tokens[place].text in ("if", "while"):
            while place < len(tokens) and tokens[place].text != "{":
                place += 1
            yield tokens[begin:place]
        place += 1


def depths(guard: list[Token]) -> Iterator[int]:
    """How many parentheses are open behind each token."""
    depth = 0
    for token in guard:
        depth += (token.text == "(") - (token.text == ")")
        yield depth


def parts(guard: list[Token], within: int = 0) -> list[list[Token]]:
    """What stands between the `&&` outside of parentheses. A pair of parentheses around a part is no part, and what is in it has parts again."""
    behind = list(depths(guard))
    cuts = [place for place, token in enumerate(guard) if token.text == "&&" and behind[place] == 0]
    if cuts:
        pieces = [guard[begin:end] for begin, end in zip([0, *(cut + 1 for cut in cuts)], [*cuts, len(guard)])]
        return [part for piece in pieces for part in parts(piece, within)]
    is_wrapped = len(guard) > 1 and guard[0].text == "(" and behind[-1] == 0 and all(behind[:-1])
    return parts(guard[1:-1], within + 1) if is_wrapped and within < MOST_PARTS_WITHIN else [guard]


def why_silent(part: list[Token], names: set[str]) -> str:
    """Why the part says nothing though a comparison stands in it; nothing where it says one, or none stands there."""
    words = {token.text for token in part}
    if not words & SIGNS:
        return ""
    if "||" in words:
        return "a comparison inside of `||` says nothing: write an `if` for each case"
    if "&&" in words:
        return "a comparison inside of parentheses that are not around the whole part says nothing"
    if "!" in words:
        return "a comparison inside of `!( )` says nothing: write `!=` for `=`"
    try:
        Sides(part, names).comparison()
    except Silent as why:
        return str(why)
    except RecursionError:
        return "it is too deep"
    return ""


def notes(name: str, text: str) -> Iterator[str]:
    tokens = tokens_of(text)
    names = names_of(tokens)
    for guard in guards(tokens):
        for part in parts(guard):
            if why := why_silent(part, names):
                end = part[-1].at + len(part[-1].text)
                yield marked(name, text[: part[0].at], text[part[0].at :], end - part[0].at, SAYS_NOTHING, why)


def main(words: list[str]) -> None:
    try:
        with open(words[0], "rb") as content:
            text = content.read().decode(errors="replace")
    except OSError:
        # the program tells it
        return
    sys.stdout.reconfigure(errors="backslashreplace")
    for note in notes(words[0], text):
        sys.stdout.write(note)


if __name__ == "__main__":
    main(sys.argv[1:])
