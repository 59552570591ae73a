"""The types of C for whole numbers: which values they have on every machine, and which they may have."""
from __future__ import annotations

from dataclasses import dataclass


@dataclass(frozen=True)
class Whole:
    """A type for whole numbers. Its width may depend on the machine: it is at least `bits` and at most `most_bits`."""

    name: str
    bits: int
    most_bits: int
    signed: bool
    either: bool = False
    """Whether the machine says if the type is signed, as of char."""

    def least(self) -> tuple[int, int]:
        """The range of values that the type has on every machine."""
        if self.either:
            return 0, (1 << self.bits - 1) - 1
        return bounds(self.bits, self.signed)

    def most(self) -> tuple[int, int]:
        """A range in which the values of the type are on every machine."""
        low, high = bounds(self.most_bits, self.signed)
        return (low, (1 << self.most_bits) - 1) if self.either else (low, high)

    def holds(self, other: Whole) -> bool:
        """Whether each value of another type is one of this type, on every machine."""
        return self == other or self.least()[0] <= other.most()[0] and other.most()[1] <= self.least()[1]

    def has(self, number: int) -> bool:
        """Whether a number is a value of this type on every machine."""
        return self.least()[0] <= number <= self.least()[1]

    def promoted(self) -> Whole:
        """The type in which C computes with values of this type."""
        return INT if self.bits < INT.bits else self


def bounds(bits: int, signed: bool) -> tuple[int, int]:
    return (-(1 << bits - 1), (1 << bits - 1) - 1) if signed else (0, (1 << bits) - 1)


CHAR = Whole("char", 8, 8, True, True)
INT = Whole("int", 32, 32, True)
UNSIGNED = Whole("unsigned int", 32, 32, False)
LONG = Whole("long", 32, 64, True)
UNSIGNED_LONG = Whole("unsigned long", 32, 64, False)
LONG_LONG = Whole("long long", 64, 64, True)
UNSIGNED_LONG_LONG = Whole("unsigned long long", 64, 64, False)
RANKS = [[INT, UNSIGNED], [LONG, UNSIGNED_LONG], [LONG_LONG, UNSIGNED_LONG_LONG]]

NAMED = {
    ("char",): CHAR,
    ("char", "signed"): Whole("signed char", 8, 8, True),
    ("char", "unsigned"): Whole("unsigned char", 8, 8, False),
    ("short",): Whole("short", 16, 16, True),
    ("short", "unsigned"): Whole("unsigned short", 16, 16, False),
    (): INT,
    ("unsigned",): UNSIGNED,
    ("long",): LONG,
    ("long", "unsigned"): UNSIGNED_LONG,
    ("long", "long"): LONG_LONG,
    ("long", "long", "unsigned"): UNSIGNED_LONG_LONG,
}
"""The types by their words in alphabetical order, without `int`, and without `signed` but of char."""


def named(words: list[str]) -> Whole | None:
    """The type that words name, as `unsigned long`, if it is one for whole numbers."""
    if not {*words} <= {"char", "int", "long", "short", "signed", "unsigned"}:
        return None
    return NAMED.get(tuple(sorted(word for word in words if word != "int" and (word != "signed" or "char" in words))))


def common(left: Whole, right: Whole) -> Whole:
    """The type in which C computes with two values."""
    left, right = left.promoted(), right.promoted()
    ranks = [place for place, pair in enumerate(RANKS) for one in (left, right) if one in pair]
    higher = RANKS[max(ranks)]
    unsigned = next((one for one in (left, right) if not one.signed), None)
    if unsigned is None:
        return higher[0]
    return higher[0] if unsigned not in higher and higher[0].holds(unsigned) else higher[1]
