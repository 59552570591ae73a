"""Draws the states of a run of a loop as points, and the curve of an equation, as an SVG.

Usage: invar-picture [--turns N] [--word 1,2,..] [--start x=2,y=3] [--output FILE.svg] LOOP EQUATION

The equation has two variables that change, the first of the loop's list to the right and the other upwards; others in it have to stay as
they are. Without a word the run takes the branches in turn, N times one of them (8). A variable that `init` leaves free starts at 1 or at
what --start says. The points have the numbers of the turns behind which they are reached; where the equation always holds they lie on
the curve. The picture goes to FILE.svg, or to standard output.
"""
from __future__ import annotations

import math
import sys
from argparse import Namespace
from collections.abc import Callable, Iterator
from dataclasses import dataclass
from fractions import Fraction
from pathlib import Path

from .commands import Parser, command
from .faults import Fault
from .loops import Loop, read_equation, read_loop
from .polynomials import Polynomial

SIZE, EDGE, CELLS = 480, 56, 240
"""The side of the picture and its edge, in points, and the cells of a row in which the curve is sought."""

MOST_TURNS = 1_000

State = dict[str, Fraction]
Point = tuple[float, float]


def value_at(value: Polynomial, state: State) -> Fraction:
    total = Fraction(0)
    for monomial, size in value.terms.items():
        for name, exponent in monomial:
            size = size * state[name] ** exponent
        total += size
    return total


def run(loop: Loop, word: list[int], start: State) -> list[State]:
    """The states of a run, the start first."""
    free = {name: start.get(name, Fraction(1)) for name in loop.free()}
    state = {name: value_at(value, free) for name, value in loop.start().items()}
    states = [state]
    for letter in word:
        state = {name: value_at(value, state) for name, value in loop.branches[letter - 1].items()}
        states.append(state)
    return states


@dataclass(frozen=True)
class Axis:
    """A range of values along a side of the picture."""

    low: float
    high: float

    @staticmethod
    def around(values: list[float]) -> Axis:
        low, high = min(values), max(values)
        edge = 0.12 * (high - low) or 1.0
        return Axis(low - edge, high + edge)

    def size(self) -> float:
        return self.high - self.low

    def widened(self, size: float) -> Axis:
        middle = (self.low + self.high) / 2
        return Axis(middle - size / 2, middle + size / 2)

    def place(self, value: float) -> float:
        return EDGE + SIZE * (value - self.low) / self.size()

    def marks(self) -> list[float]:
        """Round values, four to nine of them."""
        power = 10.0 ** (math.floor(math.log10(self.size())) - 1)
        step = next(power * factor for factor in (1, 2, 5, 10, 20, 50) if self.size() / (power * factor) <= 9)
        first = math.ceil(self.low / step)
        return [number * step for number in range(first, math.floor(self.high / step) + 1)]


def segments(f: Callable[[float, float], float], across: Axis, up: Axis) -> Iterator[tuple[Point, Point]]:
    """Pieces of the curve where a function is 0: in each cell of a grid between the sides on which it changes its sign."""
    xs = [across.low + across.size() * place / CELLS for place in range(CELLS + 1)]
    ys = [up.low + up.size() * place / CELLS for place in range(CELLS + 1)]
    grid = [[f(x, y) for y in ys] for x in xs]
    for i in range(CELLS):
        for j in range(CELLS):
            corners = [(i, j), (i + 1, j), (i + 1, j + 1), (i, j + 1)]
            crossed = []
            for (a, b), (c, d) in zip(corners, corners[1:] + corners[:1]):
                before, behind = grid[a][b], grid[c][d]
                if (before < 0) != (behind < 0):
                    part = before / (before - behind)
                    crossed.append((xs[a] + part * (xs[c] - xs[a]), ys[b] + part * (ys[d] - ys[b])))
            yield from zip(crossed[::2], crossed[1::2])


def drawn(points: list[Point], curve: Callable[[float, float], float], names: tuple[str, str], title: str) -> str:
    """The picture of points and of a curve. Both axes have one scale where their ranges are alike."""
    across, up = (Axis.around([point[side] for point in points]) for side in (0, 1))
    if 1 / 3 < across.size() / up.size() < 3:
        larger = max(across.size(), up.size())
        across, up = across.widened(larger), up.widened(larger)
    whole = SIZE + 2 * EDGE

    def at(point: Point) -> tuple[float, float]:
        return across.place(point[0]), whole - up.place(point[1])

    lines = [f'<svg xmlns="http://www.w3.org/2000/svg" width="{whole}" height="{whole}" font-family="sans-serif">']
    lines.append('<rect width="100%" height="100%" fill="white"/>')
    for value in across.marks():
        x, _ = at((value, up.low))
        lines.append(f'<path d="M{x:.1f} {EDGE}V{EDGE + SIZE}" stroke="#ddd"/>')
        lines.append(f'<text x="{x:.1f}" y="{EDGE + SIZE + 16}" font-size="11" text-anchor="middle">{value:g}</text>')
    for value in up.marks():
        _, y = at((across.low, value))
        lines.append(f'<path d="M{EDGE} {y:.1f}H{EDGE + SIZE}" stroke="#ddd"/>')
        lines.append(f'<text x="{EDGE - 6}" y="{y + 4:.1f}" font-size="11" text-anchor="end">{value:g}</text>')
    path = "".join("M{:.1f} {:.1f}L{:.1f} {:.1f}".format(*at(one), *at(other)) for one, other in segments(curve, across, up))
    lines.append(f'<path d="{path}" stroke="#36c" stroke-width="2" fill="none"/>')
    halo = 'paint-order="stroke" stroke="white" stroke-width="3"'
    for number, point in enumerate(points):
        x, y = at(point)
        lines.append(f'<circle cx="{x:.1f}" cy="{y:.1f}" r="4" fill="#c33"/>')
        lines.append(f'<text x="{x + 7:.1f}" y="{y - 7:.1f}" font-size="12" fill="#c33" {halo}>{number}</text>')
    lines.append(f'<text x="{EDGE}" y="{EDGE - 24}" font-size="16">{escaped(title)}</text>')
    lines.append(f'<text x="{EDGE + SIZE}" y="{EDGE + SIZE + 36}" font-size="13" text-anchor="end">{names[0]} to the right, {names[1]} upwards</text>')
    return "\n".join([*lines, "</svg>", ""])


def escaped(text: str) -> str:
    return text.replace("&", "&amp;").replace("<", "&lt;")


def axes_of(loop: Loop, value: Polynomial) -> tuple[str, str]:
    """The two variables of an equation that change."""
    names = [name for name in loop.moving() if name in value.names()]
    if len(names) != 2:
        raise Fault(f"the equation has {len(names)} variables that change ({', '.join(names)}), and a picture has two")
    return names[0], names[1]


def words() -> Namespace:
    what = "Draws the states of a run of a loop as points, and the curve of an equation, as an SVG."
    parser = Parser("invar-picture", what, "invar-picture --turns 6 --output squares.svg examples/squares.loop 's = (a+1)^2'")
    parser.add_argument("loop", type=Path, metavar="LOOP", help="the file of a loop text")
    parser.add_argument("equation", metavar="EQUATION", help="an equation with two variables that change")
    parser.add_argument("--turns", type=int, default=8, metavar="N", help="how many turns, the branches one after another (8)")
    parser.add_argument("--word", metavar="1,2,..", help="the branches of the run")
    parser.add_argument("--start", default="", metavar="x=2,y=3", help="the values of free variables")
    parser.add_argument("--output", type=Path, metavar="FILE.svg")
    return parser.parse_args()


def word_of(asked: Namespace, loop: Loop) -> list[int]:
    """The branches of the run that is asked for."""
    count = len(loop.branches)
    if not 0 <= asked.turns <= MOST_TURNS:
        raise Fault(f"a picture has 0 to {MOST_TURNS} turns")
    if not asked.word:
        return [1 + turn % count for turn in range(asked.turns)]
    letters = asked.word.split(",")
    if not all(letter.isdecimal() and 1 <= int(letter) <= count for letter in letters):
        raise Fault(f"a word has numbers from 1 to {count} with commas between, and this is {asked.word!r}")
    return [int(letter) for letter in letters]


def start_of(asked: Namespace, loop: Loop) -> State:
    """The values of free variables that are asked for."""
    start: State = {}
    parts: list[str] = [part for part in asked.start.split(",") if part]
    for part in parts:
        name, _, number = part.partition("=")
        try:
            start[name] = Fraction(number)
        except (ValueError, ZeroDivisionError) as fault:
            raise Fault(f"a start is like x=2,y=1/2, and this is {asked.start!r}") from fault
        if name not in loop.free():
            raise Fault(f"{name!r} is no free variable of this loop")
    return start


def number_of(value: Fraction) -> float:
    try:
        return float(value)
    except OverflowError as fault:
        raise Fault("the run has numbers that are too large to be drawn") from fault


@command
def main() -> int:
    asked = words()
    loop = read_loop(asked.loop.read_text())
    value = read_equation(asked.equation, loop.names)
    names = axes_of(loop, value)
    states = run(loop, word_of(asked, loop), start_of(asked, loop))
    known = {name: Polynomial.constant(number) for name, number in states[0].items() if name not in names}
    terms = [(number_of(size), dict(monomial)) for monomial, size in value.substituted(known).terms.items()]

    def curve(x: float, y: float) -> float:
        return sum(size * x ** powers.get(names[0], 0) * y ** powers.get(names[1], 0) for size, powers in terms)

    points = [(number_of(state[names[0]]), number_of(state[names[1]])) for state in states]
    try:
        picture = drawn(points, curve, names, asked.equation)
    except ArithmeticError as fault:
        raise Fault("the curve has numbers that are too large to be drawn") from fault
    if asked.output:
        asked.output.write_text(picture)
    else:
        sys.stdout.write(picture)
    return 0


if __name__ == "__main__":
    sys.exit(main())
