"""Sequences of docs/LANGUAGE.md, given by recurrences."""
from __future__ import annotations

import re
from dataclasses import dataclass
from fractions import Fraction

from .loops import Loop, unchanged
from .polynomials import Polynomial
from .reader import KEYWORDS, Reader, State

SEQUENCE_NAME = re.compile(r"[A-Za-z][A-Za-z\d]{0,23}")


@dataclass(frozen=True)
class Sequence:
    """A name, the first values, and the value behind as many values as these, in terms of those before it: g_i is g i indices on."""

    name: str
    first: list[Fraction]
    next: Polynomial

    def variables(self) -> list[str]:
        """The names of as many values in turn as the first are."""
        return variables(self.name, len(self.first))


def variables(name: str, order: int) -> list[str]:
    return [name, *(f"{name}_{place}" for place in range(1, order))]


class SequenceReader(Reader):
    keywords = KEYWORDS | {"sequences"}

    def first(self) -> tuple[str, list[Fraction]]:
        """A name and the first values."""
        name = self.name()
        self.must(bool(SEQUENCE_NAME.fullmatch(name)))
        self.expect("=")
        return name, [number for value in self.listed(lambda: self.side({})) if (number := value.value()) is not None]

    def sequences(self) -> list[Sequence]:
        self.expect("sequences")
        firsts = [self.first()]
        while self.expect(",", ";") == ",":
            firsts.append(self.first())
        self.must(len(dict(firsts)) == len(firsts))
        state = unchanged([variable for name, values in firsts for variable in variables(name, len(values))])
        found = []
        for name, values in firsts:
            self.must(self.name() == name)
            self.expect("=")
            found.append(Sequence(name, values, self.side(state)))
            self.expect(";")
        self.must(self.is_end())
        return found


def read_sequences(text: str) -> list[Sequence]:
    """The sequences of a text. They are those that the program reads, for which there may be too many or numbers too wide."""
    return SequenceReader(text).sequences()


def loop_of(sequences: list[Sequence]) -> Loop:
    """The loop that moves all sequences on by an index: its variables are as many values in turn of each as the first are."""
    init: State = {}
    branch: State = {}
    for sequence in sequences:
        names = sequence.variables()
        init |= {name: Polynomial.constant(value) for name, value in zip(names, sequence.first)}
        branch |= {name: Polynomial.variable(later) for name, later in zip(names, names[1:])} | {names[-1]: sequence.next}
    return Loop(list(init), init, [branch])
