#!/usr/bin/env python3
"""Judges what `decide` and `prove` answer to random loops and equations, and times `decide` beside Singular.

Usage: bench/decide.py rows            compares the rows of `decide` in crates/acceptance/data/rows.txt that tell yes or no
       bench/decide.py compare [COUNT] judges the answers to so many random loops with a true and a false equation (2,000)
       bench/decide.py hoped FOLDER    those to the equations of the file hoped.txt of a folder of loops, NAME.loop each: a line NAME: EQUATION each
       bench/decide.py times           times the program and Singular (Debian package `singular`) on the loops of LOOPS

(after .ci/run, or `rt run` in crates/invar, has built the program.)

No answer is taken on trust, and nothing is done as the program does it. A no is compared with the first counter-run that bench/counters.py finds,
forward from the start. A yes is judged by its list: the equation's polynomial is divided by it, and so is each element composed with each branch; all
that is left has to be 0, and each element has to be 0 at the start. So the equation holds at the end of each run. A true equation that is
answered no, or a false one that is answered yes, is found by that. What `prove` writes has to list the equation's polynomial and then that list, and
each identity of it is added up; then `check` has to call it valid. What Singular is asked is the same closure, of which the lists are compared.
"""
import json
import os
import pathlib
import random
import re
import subprocess
import sys
import tempfile
import time

from counters import counter, equation_in
from loop_forms import TOP, Reader, composed, plus, scaled, times, variable

PROGRAM = pathlib.Path(os.environ.get("INVAR") or TOP / "crates/invar/out/invar").resolve()
COUNT, SEED, MOST_SECONDS, TURNS = 2000, 57, 1.0, 1000
# A name, a loop and an equation: solvable or not, of one branch or more.
LOOPS = (
    ("squares", "vars a, s, t; init a=0, s=1, t=1; branch { a=a+1; t=t+2; s=s+t; }", "s = (a+1)^2"),
    ("Fibonacci", "vars a, b, s; init a=1, b=1, s=1; branch { (a, b) = (b, a+b); s=-s; }", "b^2 - a*b - a^2 = -s"),
    ("geometric sum", "vars x, y, z; init x=1, y=1; branch { x=x*z+1; y=y*z; }", "x*(z-1) = y*z - 1"),
    ("squaring", "vars x, y, z; init z=x*y; branch { x=x*x; y=y*y; z=z*z; }", "z = x*y"),
    ("leapfrog", "vars x, v, h, e; init e=x^2+v^2-h*x*v; branch { v=v-h*x; x=x+h*v; }", "x^2+v^2-h*x*v = e"),
    ("rotation", "vars x, y; init x=1, y=0; branch { (x, y) = (3/5*x-4/5*y, 4/5*x+3/5*y); }", "x^2+y^2 = 1"),
    ("two ways", "vars x, y, z, w; init z=x^2+y, w=x*y; branch { (x, y) = (x*y, y+1); z=x^2+y; w=x*y; } branch { (x, y) = (y, x); z=x^2+y; w=x*y; }",
     "(z - x^2 - y)*(w + 1) + (w - x*y)^2 = 0"),
)


# ---- polynomials by their greatest terms


def rank(exponents):
    """Graded reverse lexicographic."""
    return (sum(exponents), tuple(-k for k in reversed(exponents)))


def lead(p):
    return max(p, key=rank)


def rest_of(p, elements):
    """What is left of p by elements whose leads have the number 1."""
    leads = [lead(g) for g in elements]
    left = {}
    while p:
        top = lead(p)
        for g, e in zip(elements, leads):
            if all(i <= j for i, j in zip(e, top)):
                factor = {tuple(j - i for i, j in zip(e, top)): -p[top]}
                p = plus(p, times(factor, g))
                break
        else:
            left[top] = p[top]
            p = {e: c for e, c in p.items() if e != top}
    return left


# ---- what is answered


def answer_of(folder, text, equation, command="decide"):
    (folder / "LOOP").write_text(text)
    before = time.perf_counter()
    run = subprocess.run([PROGRAM, command, "LOOP", equation], cwd=folder, capture_output=True, text=True)
    return run.stdout, run.returncode, time.perf_counter() - before


def loop_of(text):
    """The names, the values at the start, and the values after each branch."""
    reader = Reader(text)
    names, differences, maps = reader.loop()
    m = len(names)
    start = [variable(m, i) for i in range(m)]
    for i in range(m):
        for difference in differences:
            value = plus(variable(m, i), scaled(difference, -1))
            if difference.get(tuple(int(j == i) for j in range(m))) == 1 and all(e[i] == 0 for e in value):
                start[i] = value
                break
    return names, start, maps


def fault_of_yes(text, equation, lines):
    """Why the list doesn't show that the equation holds, or None."""
    names, start, maps = loop_of(text)
    m = len(names)
    p = equation_in(equation, names)
    elements = [] if lines == ["none"] else [equation_in(line, names) for line in lines]
    for g in elements:
        if g[lead(g)] != 1:
            return f"{g} isn't monic"
        if composed(g, start, m):
            return f"{g} isn't 0 at the start"
        if rest_of(g, [h for h in elements if h is not g]) != g:
            return f"{g} isn't reduced"
    if rest_of(p, elements):
        return "the equation doesn't follow"
    for images in maps:
        for g in elements:
            if rest_of(composed(g, images, m), elements):
                return f"{g} isn't kept"
    return None


def fault_of_proof(folder, text, equation, lines):
    """Why what `prove` writes of an equation with this closure is no certificate of it, or None."""
    said, status, _ = answer_of(folder, text, equation, "prove")
    if status != 0:
        return None if status == 4 else f"prove: {said.strip()}"
    names, start, maps = loop_of(text)
    m = len(names)
    certificate = json.loads(said)
    p = equation_in(equation, names)
    elements = [equation_in(f"{element} = 0", names) for element in certificate["basis"]]
    closure = [] if lines == ["none"] else [equation_in(line, names) for line in lines]
    if elements != [p] + [g for g in closure if g != p]:
        return "another list is certified"
    if any(composed(g, start, m) for g in elements):
        return "an element isn't 0 at the start"
    for images, rows in zip(maps, certificate["steps"], strict=True):
        for g, row in zip(elements, rows, strict=True):
            left = composed(g, images, m)
            for place, cofactor in row:
                left = plus(left, scaled(times(equation_in(f"{cofactor} = 0", names), elements[place]), -1))
            if left:
                return f"an identity of {g} fails"
    (folder / "CERT").write_text(said)
    judged = subprocess.run([PROGRAM, "check", "LOOP", "CERT"], cwd=folder, capture_output=True, text=True).stdout
    return None if judged == "valid\n" or judged.startswith("wide") else f"check: {judged.strip()}"


def fault(text, equation, said, status):
    """Why this is no answer to the equation, or None; and whether it is yes."""
    lines = said.splitlines()
    if status == 0 and lines[:1] == ["yes"]:
        return fault_of_yes(text, equation, lines[1:])
    if status == 1 and lines[:1] == ["no"]:
        word = lines[1].split()[1:]
        wanted = counter(text, equation, len(word))[0]
        return None if said == "no\n" + wanted else "another run: " + wanted
    return "no yes and no no"


# ---- random loops


def polynomial_text(rng, names, degree):
    terms = []
    for _ in range(rng.randint(1, 3)):
        factors = [rng.choice(names) for _ in range(rng.randint(0, degree))]
        terms.append("*".join([str(rng.choice([1, 1, 2, 3]))] + factors))
    return re.sub(r"\+ -", "- ", " + ".join(terms))


def random_loop(rng):
    """A loop, an equation that holds and one that (most often) doesn't.

    Some variables go on as they like; others are kept equal to polynomials in these, so the equations between them hold, and so do
    products and sums of these.
    """
    free = ["x", "y", "z"][:rng.randint(1, 3)]
    told = ["u", "v"][:rng.randint(1, 2)]
    meant = {name: polynomial_text(rng, free, 2) for name in told}
    start = {name: str(rng.randint(0, 3)) for name in free if rng.random() < 0.6}
    inits = [f"{name}={value}" for name, value in start.items()]
    inits += [f"{name}={re.sub('[xyz]', lambda n: '(' + start.get(n.group(), n.group()) + ')', text)}" for name, text in meant.items()]
    branches = []
    for _ in range(rng.randint(1, 3)):
        body = ""
        degree = rng.choice([1, 1, 2])
        for name in free:
            if rng.random() < 0.8:
                body += f" {name} = {polynomial_text(rng, free, degree)};"
        body += "".join(f" {name} = {text};" for name, text in meant.items())
        branches.append(f"branch {{{body} }}")
    loop = f"vars {', '.join(free + told)}; init {', '.join(inits)}; {' '.join(branches)}"
    parts = [f"({name} - ({text}))" for name, text in meant.items()]
    true = " + ".join(f"{part}*({polynomial_text(rng, free + told, 1)})" for part in parts)
    if rng.random() < 0.3:
        true = f"{rng.choice(parts)}^2"
    return loop, f"{true} = 0", f"{true} = {rng.choice(free + told)} - {rng.randint(0, 3)}"


def compare(folder, count):
    rng = random.Random(SEED)
    failed, told = 0, {}
    for _ in range(count):
        loop, true, other = random_loop(rng)
        for equation in (true, other):
            said, status, _ = answer_of(folder, loop, equation)
            told[status] = told.get(status, 0) + 1
            why = fault(loop, equation, said, status) if status < 2 else None
            if status == 0:
                why = why or fault_of_proof(folder, loop, equation, said.splitlines()[1:])
            if why or (equation is true and status == 1):
                failed += 1
                print("differs:", loop, "|", equation, "|", said.strip(), "|", why)
    print(f"{count} loops, {2 * count} equations: statuses {dict(sorted(told.items()))}, {failed} differ")
    return failed


def rows(folder):
    loop, failed, count = "", 0, 0
    for line in (TOP / "crates/acceptance/data/rows.txt").read_text().splitlines():
        columns = line.split("\t")
        if columns[0] == "LOOP":
            loop = columns[1].replace("~", "\n")
        if columns[:2] != ["call", "decide"] or columns[-1][0] not in "01":
            continue
        status, text = columns[-1].split(" ", 1)
        why = fault(loop, columns[-2], text.replace("~", "\n"), int(status))
        count += 1
        if why:
            failed += 1
            print("differs:", columns, why)
    print(count, "rows,", failed, "differ")
    return failed


def hoped(folder, loops):
    failed, slowest, told = 0, 0.0, {}
    for line in (loops / "hoped.txt").read_text().splitlines():
        if line.startswith("#") or ":" not in line:
            continue
        name, equation = line.split(": ", 1)
        said, status, seconds = answer_of(folder, (loops / f"{name}.loop").read_text(), equation)
        told[status] = told.get(status, 0) + 1
        slowest = max(slowest, seconds)
        if status > 1 or seconds > MOST_SECONDS:
            failed += 1
            print(f"{name}: {equation}: status {status}, {seconds:.2f} s: {said.strip()[:100]}")
    print(f"statuses {dict(sorted(told.items()))}, at most {slowest:.3f} s, {failed} not decided in {MOST_SECONDS} s")
    return failed


# ---- Singular


def singular_polynomial(p, names):
    return "+".join(
        f"({c.numerator}/{c.denominator})" + "".join(f"*{name}^{k}" for name, k in zip(names, e) if k) for e, c in p.items()
    ) or "0"


def singular_closure(text, equation):
    """The closure's reduced basis by Singular, and the seconds that it takes."""
    names, _, maps = loop_of(text)
    p = equation_in(equation, names)
    script = f'system("--ticks-per-sec", 1000000); option(redSB); ring r = 0, ({",".join(names)}), dp; short = 0;\n'
    script += "\n".join(f"map b{i} = r, {', '.join(singular_polynomial(q, names) for q in images)};" for i, images in enumerate(maps))
    script += f"""
ideal B; ideal level; ideal next; poly q; int i; int k; int ticks = timer;
for (k = 1; k <= {TURNS}; k++) {{ B = ideal(0); level = {singular_polynomial(p, names)};
while (size(level) > 0) {{ next = ideal(0); for (i = 1; i <= ncols(level); i++) {{ q = reduce(level[i], B); if (q != 0) {{ B = std(B + ideal(q));
{' '.join(f'next = next + ideal(b{i}(q));' for i in range(len(maps)))} }} }} level = next; }} }}
ticks = timer - ticks; ticks; B; quit;
"""
    said = subprocess.run(["Singular", "-q"], input=script, capture_output=True, text=True, check=True).stdout.splitlines()
    at = next(i for i, line in enumerate(said) if line.strip().isdigit())
    return [line.split("=")[1] for line in said[at + 1:] if "=" in line], int(said[at]) / 1e6 / TURNS


def by_ones(elements):
    return sorted((sorted((e, c / g[lead(g)]) for e, c in g.items()) for g in elements), key=str)


def timed(folder):
    failed = 0
    print("| Loop | Elements | `decide`, whole | Singular, the closure alone |\n|---|---|---|---|")
    for name, text, equation in LOOPS:
        said, status, _ = answer_of(folder, text, equation)
        seconds = min(answer_of(folder, text, equation)[2] for _ in range(5))
        names = loop_of(text)[0]
        found = [] if "none" in said else [equation_in(line, names) for line in said.splitlines()[1:]]
        theirs, ticks = singular_closure(text, equation)
        wanted = [equation_in(f"{line} = 0", names) for line in theirs if line != "0"]
        failed += status != 0 or by_ones(found) != by_ones(wanted)
        print(f"| {name} | {len(found)} | {1000 * seconds:.1f} ms | {1000 * ticks:.2f} ms |")
    return failed


if __name__ == "__main__":
    with tempfile.TemporaryDirectory() as name:
        folder, words = pathlib.Path(name), sys.argv[2:]
        call = {
            "rows": lambda: rows(folder),
            "compare": lambda: compare(folder, int(words[0]) if words else COUNT),
            "hoped": lambda: hoped(folder, pathlib.Path(words[0])),
            "times": lambda: timed(folder),
        }[sys.argv[1]]
        sys.exit(1 if call() else 0)
