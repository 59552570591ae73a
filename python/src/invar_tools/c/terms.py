"""Values of expressions with their types: what C computes from them, and what has to be known for that."""
from __future__ import annotations

import re
from dataclasses import replace

from pycparser import c_ast

from ..polynomials import Polynomial
from .sources import line_of
from .statements import AtLeast, Below, Divides, Fact, Need, Term, Within
from .whole import INT, NAMED, Whole, common


def unknown(reason: str) -> Term:
    return Term(None, None, reason=reason)


def constant(number: int, kind: Whole = INT) -> Term:
    return Term(Polynomial.constant(number), kind)


def literal(node: c_ast.Constant) -> Term:
    """The value of a constant."""
    strange = unknown(f"{node.value}, which is no whole number, in line {line_of(node)}")
    if node.type == "char":
        number = character(node.value)
        return strange if number is None else constant(number)
    if "int" not in node.type:
        return strange
    digits = node.value.rstrip("uUlL")
    suffix = node.value[len(digits) :].lower()
    try:
        number = int(digits, 8) if digits.startswith("0") and digits.isdigit() else int(digits, 0)
    except ValueError:
        return strange
    decimal = not digits.startswith("0")
    words = [["long"] * count for count in range(3) if count >= suffix.count("l")]
    for long in words:
        signed: list[list[str]] = [] if "u" in suffix else [[]]
        for sign in signed + ([["unsigned"]] if "u" in suffix or not decimal else []):
            kind = NAMED[tuple(long + sign)]
            if kind.has(number):
                return constant(number, kind)
    return strange


ESCAPES = {"n": 10, "t": 9, "r": 13, "\\": 92, "'": 39, '"': 34, "a": 7, "b": 8, "f": 12, "v": 11, "?": 63}


def character(text: str) -> int | None:
    """The value of a constant of one ASCII character."""
    inside = text[1:-1]
    if len(inside) == 1 and inside.isascii():
        return ord(inside)
    number = re.fullmatch(r"\\(?:([0-7]{1,3})|x([0-9A-Fa-f]+))", inside)
    if number:
        value = int(number[1], 8) if number[1] else int(number[2], 16)
        return value if value < 128 else None
    return ESCAPES.get(inside[1:]) if inside.startswith("\\") else None


def settled(term: Term, reason: str = "") -> Term:
    """A term whose polynomial is the value where its needs are met."""
    if term.settled or term.value is None or term.type is None:
        return term
    return replace(term, needs=(*term.needs, Within(term.value, term.type, reason)), settled=True)


def converted(term: Term, kind: Whole | None, reason: str) -> Term:
    """A value as one of another type."""
    if term.value is None:
        return term
    if kind is None or term.type is None:
        return unknown(reason or "a conversion")
    number = term.value.value()
    if number is not None and number.denominator == 1 and term.settled and not term.needs and kind.has(int(number)):
        return Term(term.value, kind)
    if kind == term.type:
        return term
    if not kind.signed and not kind.either and (term.type.signed and term.settled or not term.settled and kind.most_bits <= term.type.bits):
        return replace(term, type=kind, settled=False)
    sure = settled(term, reason)
    if sure.value is None or sure.type is None or kind.holds(sure.type):
        return replace(sure, type=kind)
    return replace(sure, type=kind, needs=(*sure.needs, Within(sure.value, kind, reason)))


def combined(sign: str, left: Term, right: Term) -> Term:
    """A sum, a difference or a product of values that are promoted to one type here."""
    if left.value is None or left.type is None:
        return left
    if right.value is None or right.type is None:
        return right
    kind = common(left.type, right.type)
    left, right = converted(left, kind, ""), converted(right, kind, "")
    if left.value is None or right.value is None:
        return left if left.value is None else right
    if sign == "*":
        value = left.value * right.value
    else:
        value = left.value + right.value if sign == "+" else left.value - right.value
    return Term(value, kind, left.needs + right.needs, kind.signed)


def quotient(sign: str, left: Term, right: Term, kind: Whole, line: int) -> Term:
    """An exact quotient, or of two numbers the one of C and its rest."""
    if left.value is None or right.value is None:
        return left if left.value is None else right
    above, below = left.value.value(), right.value.value()
    what = "a division" if sign == "/" else "a remainder"
    if not below or left.needs + right.needs and above is not None:
        return unknown(f"{what} in line {line}")
    if above is not None:
        whole = abs(int(above)) // abs(int(below)) * (1 if (above < 0) == (below < 0) else -1)
        return constant(whole if sign == "/" else int(above) - whole * int(below), kind)
    if sign == "%":
        return unknown(f"a remainder in line {line}")
    reason = f"a division by {abs(int(below))} on a path without the test that makes it exact in line {line}"
    need: tuple[Need, ...] = (Divides(left.value, abs(int(below)), reason),)
    return Term(left.value.scaled(1 / below), kind, left.needs + right.needs + need)


def bits(sign: str, left: Term, right: Term, line: int) -> Term:
    """An operator on bits, of two numbers alone."""
    one, other = (None if term.value is None else term.value.value() for term in (left, right))
    strange = unknown(f"the operator {sign} in line {line}")
    if one is None or other is None or one < 0 or other < 0 or left.needs + right.needs or left.type is None or right.type is None:
        return strange
    kind = left.type.promoted() if sign in ("<<", ">>") else common(left.type, right.type)
    left_bits, right_bits = int(one), int(other)
    if sign in ("<<", ">>"):
        if right_bits >= kind.bits:
            return strange
        number = left_bits << right_bits if sign == "<<" else left_bits >> right_bits
    else:
        number = {"&": left_bits & right_bits, "|": left_bits | right_bits, "^": left_bits ^ right_bits}[sign]
    return constant(number, kind) if kind.has(number) else strange


def below(term: Term, kind: Whole) -> tuple[Fact, ...]:
    """What it says that a value is less than another one of its type: where that is unsigned, one more fits."""
    return () if kind.signed or term.value is None else (Below(term.value, kind, term.needs),)


def compared(sign: str, left: Term, right: Term) -> tuple[tuple[Fact, ...], tuple[Fact, ...]]:
    """What it says that a comparison holds, and that it fails."""
    if left.value is None or right.value is None or left.type is None or right.type is None:
        return (), ()
    kind = common(left.type, right.type)
    left, right = settled(converted(left, kind, "")), settled(converted(right, kind, ""))
    if left.value is None or right.value is None:
        return (), ()
    needs = left.needs + right.needs

    def at_least(difference: Polynomial) -> AtLeast:
        return AtLeast(difference, needs)

    one = Polynomial.constant(1)
    over, under = left.value - right.value, right.value - left.value
    less, more = (at_least(under - one), *below(left, kind)), (at_least(over - one), *below(right, kind))
    up_to, from_there = (at_least(under),), (at_least(over),)
    apart = more if not kind.signed and right.value.value() == 0 else ()
    table = {
        "<": (less, from_there), ">": (more, up_to), "<=": (up_to, more), ">=": (from_there, less),
        "==": (up_to + from_there, apart), "!=": (apart, up_to + from_there),
    }
    return table[sign]
