#!/usr/bin/env python3
"""`gen` beside Singular: the counts over the family's loops, found in another way, and the times of both.

Usage: bench/gen.py   (after .ci/run, or `rt run` in crates/invar, has built the program; needs Singular, Debian package `singular`, and sympy)

The loops are written anew by their rule (docs/FORMATS.md). Singular does what the program does with each, in one process, with the closed forms
given to it (bench/loops.py); its time is that of its own clock for all loops together, without its start. The program's is from start to end.
"""
import pathlib
import re
import sys
import time

from loop_forms import Reader, form_of
from loops import PROGRAM, Spent, basis_text, singular_backward, singular

GOALS = {64: 0.3, 128: 0.7}
TRIES = 10


def loop_text(j):
    i, k, c = 1 + (j - 1) % 8, 1 + (j - 1) // 8 % 8, 2 + (j - 1) // 64
    return f"vars x, y, z, w; init x=1, y=1, z=0, w=0; branch {{ x={c}^{i}*x; y={c}^{k}*y; w=w+z; z=z+1; }}"


def in_singular(count):
    programs = []
    for j in range(1, count + 1):
        names, starts, maps = Reader(loop_text(j)).loop()
        programs.append(singular_backward(names, starts, maps, [form_of(images, len(names)) for images in maps], 1))
    said = singular('"loop";\n'.join([""] + programs)).said.split("loop\n")[1:]
    ticks = sum(int(line.split()[1]) for text in said for line in text.splitlines() if line.startswith("ticks"))
    return [basis_text(names, text) for text in said], ticks / 1000000


def degree(element):
    """The degree of a printed element: the greatest sum of exponents of a term."""
    terms = re.split(r" [+-] ", element.removesuffix(" = 0").removeprefix("-"))
    return max(sum(int(power or 1) for power in re.findall(r"[a-z](?:\^(\d+))?", term)) for term in terms)


def main():
    good = True
    for count, goal in GOALS.items():
        bases, theirs = in_singular(count)
        elements = [element for basis in bases for element in basis.split("; ")]
        wanted = f"loops {count}, elements {len(elements)}, greatest degree {max(map(degree, elements))}\n"
        runs = []
        for _ in range(TRIES):
            begin = time.perf_counter()
            answer = Spent([PROGRAM, "gen", str(count)])
            runs.append(time.perf_counter() - begin)
            if answer.said != wanted:
                good = False
                print(f"gen {count}: DIFFERENT\n    program {answer.said}    wanted {wanted}")
        late = min(runs) > goal
        print(f"gen {count}: {wanted.strip()}; {min(runs) * 1000:.1f} ms (goal {goal * 1000:.0f}), Singular {theirs * 1000:.1f} ms", "MISSED" if late else "")
        good = good and not late
    sys.exit(0 if good else 1)


if __name__ == "__main__":
    main()
