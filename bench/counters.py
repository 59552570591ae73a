#!/usr/bin/env python3
"""Counter-runs in another way, and how long they take.

Usage: bench/counters.py rows      compares the rows of `counter` in crates/acceptance/data/rows.txt that tell a run, or that there is none
       bench/counters.py compare   compares what the program answers to equations that are false by one coefficient
       bench/counters.py times     times the program on them, and on six branches with words of six letters; fails above its goals

(after .ci/run, or `rt run` in crates/invar, has built the program.) The equations are elements of the bases in crates/acceptance/data/loops.txt of
the loops of bench/loops.txt, the last coefficient of each one greater by 1.

Nothing is done as the program does it: the state at the end of a word is computed forward, from the start on, as polynomials in the values of the
variables that `init` doesn't set, and the equation is composed with it once. The first start is looked for among whole numbers from 0.
"""
import os
import pathlib
import statistics
import subprocess
import sys
import tempfile
import time

from loop_forms import LOOPS, TOP, Reader, composed, constant, loops_in, plus, scaled, value, variable

PROGRAM = pathlib.Path(os.environ.get("INVAR") or TOP / "crates/invar/out/invar").resolve()
TIMES = 5
MOST_MILLISECONDS = 20
SIX = "vars x, y; init x=0, y=0; " + " ".join(
    f"branch {{ {body} }}"
    for body in ("x=x+1; y=y+2;", "x=x+y; y=3*y;", "x=x-1; y=y-2;", "x=2*x; y=2*y;", "x=3*x; y=3*y;", "x=x+2; y=y+4;")
)
SIX_GOALS = [("y - 2*x = 0", 0.2), ("(y-2*x)^6*(x+y+7) = 0", 3)]


def equation_in(text, names):
    reader = Reader(text)
    reader.names = names
    m = len(names)
    free = [variable(m, i) for i in range(m)]
    left = reader.sum(free, m)
    reader.take("=")
    return plus(left, scaled(reader.sum(free, m), -1))


def number(q):
    return str(q.numerator) if q.denominator == 1 else f"{q.numerator}/{q.denominator}"


def first_point(image, fixed, m):
    """The first whole numbers at which the image isn't zero, 0 for each variable that `init` sets."""
    point = []
    for i in range(m):
        n = 0
        while True:
            images = [constant(m, x) for x in point + [n]] + [variable(m, j) for j in range(i + 1, m)]
            if composed(image, images, m):
                break
            assert i not in fixed
            n += 1
        point.append(n)
    return point


def counter(text, equation, most):
    """What is answered: the text, and the status."""
    reader = Reader(text)
    names, differences, maps = reader.loop()
    m = len(names)
    fixed = {}
    for difference in differences:
        # the variable less its value
        for i in range(m):
            value_of = plus(variable(m, i), scaled(difference, -1))
            if difference.get(tuple(int(j == i) for j in range(m))) == 1 and all(e[i] == 0 for e in value_of) and i not in fixed:
                fixed[i] = value_of
                break
    start = [fixed.get(i, variable(m, i)) for i in range(m)]
    p = equation_in(equation, names)
    layer = [((), start)]
    for length in range(most + 1):
        for word, state in layer:
            image = composed(p, state, m)
            if image:
                point = first_point(image, fixed, m)
                numbers = [value(q, point) for q in start]
                states = [numbers]
                for letter in word:
                    states.append([value(q, states[-1]) for q in maps[letter - 1]])
                lines = ["word" + "".join(f" {letter}" for letter in word)]
                lines += [", ".join(f"{name} = {number(x)}" for name, x in zip(names, s)) for s in states]
                lines.append(f"value {number(value(p, states[-1]))}")
                return "\n".join(lines) + "\n", 1
        if length < most:
            layer = [
                (word + (b + 1,), [composed(q, state, m) for q in branch])
                for word, state in layer
                for b, branch in enumerate(maps)
            ]
    return f"none up to {most}\n", 0


def rows():
    loop, failed, count = "", 0, 0
    for line in (TOP / "crates/acceptance/data/rows.txt").read_text().splitlines():
        columns = line.split("\t")
        if columns[0] == "LOOP":
            loop = columns[1].replace("~", "\n")
        if columns[:2] != ["call", "counter"] or columns[-1][0] not in "01":
            continue
        words = columns[2:-1]
        most = 4
        if words[0] == "--length":
            most, words = int(words[1]), words[2:]
        text, status = counter(loop, words[1], most)
        count += 1
        if f"{status} {text}".replace("\n", "~") != columns[-1]:
            failed += 1
            print("another answer:", columns, text)
    print(count, "rows,", failed, "differ")
    return failed


def false_equations():
    """A loop's text and an equation, for each loop whose basis has an element."""
    bases = {}
    for line in (TOP / "crates/acceptance/data/loops.txt").read_text().splitlines():
        columns = line.split("\t")
        if columns[0] == "basis" and columns[-1].startswith("0 ") and "= 0" in columns[-1]:
            bases[columns[2]] = columns[-1][2:].split("; ")[0].removesuffix(" = 0")
    for listed in loops_in(LOOPS):
        element = bases.get(listed.text)
        if element:
            last = element.split(" ")[-1].lstrip("-")
            monomial = "*".join(part for part in last.split("*") if not part[0].isdigit()) or "1"
            yield listed, f"{element} + {monomial} = 0"


def answer_of(folder, text, *words):
    (folder / "LOOP").write_text(text)
    before = time.perf_counter()
    run = subprocess.run([PROGRAM, "counter", *words], cwd=folder, capture_output=True, text=True)
    return run.stdout, run.returncode, time.perf_counter() - before


def compare(folder):
    failed = count = 0
    for listed, equation in false_equations():
        text, status, _ = answer_of(folder, listed.text, "LOOP", equation)
        count += 1
        if status < 2 and (text, status) != counter(listed.text, equation, 4):
            failed += 1
            print("another answer:", listed.name, equation, text)
    print(count, "equations,", failed, "differ")
    return failed


def times(folder):
    failed, all_times = 0, []
    for listed, equation in false_equations():
        seconds = min(answer_of(folder, listed.text, "LOOP", equation)[2] for _ in range(TIMES))
        all_times.append(1000 * seconds)
        if 1000 * seconds > MOST_MILLISECONDS:
            failed += 1
            print(f"{listed.name}: {1000 * seconds:.1f} ms")
    print(f"{len(all_times)} equations: mean {statistics.mean(all_times):.1f} ms, most {max(all_times):.1f} ms")
    for equation, goal in SIX_GOALS:
        text, status, seconds = answer_of(folder, SIX, "--length", "6", "LOOP", equation)
        print(f"six branches, length 6, {equation}: {seconds:.2f} s, {text.strip()!r}, status {status}")
        failed += seconds > goal
    return failed


if __name__ == "__main__":
    with tempfile.TemporaryDirectory() as name:
        folder = pathlib.Path(name)
        call = {"rows": rows, "compare": lambda: compare(folder), "times": lambda: times(folder)}[sys.argv[1]]
        sys.exit(1 if call() else 0)
