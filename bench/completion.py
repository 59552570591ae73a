#!/usr/bin/env python3
"""Times reduced Gröbner bases beside Singular, or sympy, and sees that all find the same.

Usage: bench/completion.py [SYSTEM ..]         times the systems of bench/systems.py, or those that are named, beside Singular
       bench/completion.py sympy [SYSTEM ..]   times cyclic-4 to 6 and katsura-4 to 6, or those that are named, beside sympy
       bench/completion.py memory              has the peak of the memory of a completion of more than a million units

(after .ci/run, or `rt run` in crates/computation_rows, has built the program; needs Singular, Debian package `singular`, and sympy.)

Beside Singular each system is taken over the remainders modulo 65,521 and over fractions, in graded reverse lexicographic order and in
lexicographic order. What is timed is a process that computes the system many times over, by the processor time that it spends outside the system's
calls, less that of a process that only reads: the program reads the system as many times, and divides 0 by it, Singular reads it once. Of each the least
of several times counts. The program's has printing the basis in it, Singular's is `std` with `option(redSB)` alone. A system is left out, by its name,
where its numbers are too wide for the program, and where one computation takes one of both longer than LIMIT.
"""
import fractions
import math
import os
import pathlib
import re
import resource
import subprocess
import sys
import tempfile
import time

from systems import SYSTEMS

PROGRAM = pathlib.Path(os.environ.get("COMPUTATION_ROWS") or pathlib.Path(__file__).resolve().parent.parent / "crates/computation_rows/out/computation_rows").resolve()
PRIME = 65521
MOST_UNITS = 1 << 28
LIMIT = 5
RUNS = 3
SECONDS = 0.3
TICK = 0.001
MOST_TIMES = 20_000
GOALS = {("gf", "grevlex"): 1.5, ("frac", "grevlex"): 1.6}
SMALL = ("cyclic-4", "cyclic-5", "cyclic-6", "katsura-4", "katsura-5", "katsura-6")
GOAL = 20
GOAL_MEGABYTES = 100


class LeftOut(Exception):
    """Why a system is left out."""


# ---- systems and bases


def flat(text, names):
    """The polynomial of a text of bench/systems.py, as a sum of terms. sympy evaluates the text, so none that anyone else writes."""
    import sympy

    terms = sympy.Poly(text.replace("^", "**"), *sympy.symbols(names)).terms()
    powers = lambda exponents: [f"{name}^{e}" if e > 1 else name for name, e in zip(names, exponents) if e]
    return " + ".join("*".join([str(c), *powers(exponents)]) for exponents, c in terms).replace("+ -", "- ")


def key(order):
    """What monomials are compared by, as exponents."""
    return (lambda m: m) if order == "lex" else (lambda m: (sum(m), [-e for e in reversed(m)]))


def polynomial(text, names, numbers, order):
    """A printed polynomial, made monic, as the set of its exponents with their coefficients."""
    terms = {}
    for sign, item in re.findall(r"([+-]?)([^+-]+)", text.replace(" ", "")):
        coefficient, exponents = fractions.Fraction(1), dict.fromkeys(names, 0)
        for factor in item.split("*"):
            name, _, exponent = factor.partition("^")
            if name in exponents:
                exponents[name] += int(exponent or 1)
            else:
                coefficient *= fractions.Fraction(factor)
        terms[tuple(exponents.values())] = -coefficient if sign == "-" else coefficient
    lead = terms[max(terms, key=key(order))]
    monic = {m: c / lead for m, c in terms.items()}
    if numbers == "gf":
        monic = {m: c.numerator * pow(c.denominator, -1, PRIME) % PRIME for m, c in monic.items()}
    return frozenset(monic.items())


def basis(texts, names, numbers, order):
    return {polynomial(text, names, numbers, order) for text in texts}


# ---- processes


def spent(command, folder=None, text="", seconds=None):
    """What a process says, the processor time in seconds that it spends outside the system's calls, and its peak memory in megabytes."""
    limit = (lambda: resource.setrlimit(resource.RLIMIT_CPU, (seconds, seconds + 1))) if seconds else None
    with tempfile.TemporaryFile("w+") as words:
        words.write(text)
        words.seek(0)
        child = subprocess.Popen(command, stdin=words, stdout=subprocess.PIPE, text=True, cwd=folder, preexec_fn=limit)
        said = child.stdout.read()
        _, status, usage = os.wait4(child.pid, 0)
    if os.WIFSIGNALED(status):
        raise LeftOut(f"{pathlib.Path(command[0]).name} takes more than {seconds} s")
    assert os.WEXITSTATUS(status) in (0, 1), said
    return said, usage.ru_utime, usage.ru_maxrss / 1024


def timed(run, read):
    """What a run of one computation says, and the time of one in a process that computes for SECONDS at least, less what it takes to read as much."""
    said, _, _ = run(1, LIMIT)
    least = lambda do, times: min(do(times)[1] for _ in range(RUNS))
    taken_by = lambda times: max(least(run, times) - least(read, times), TICK)
    times, taken = 1, taken_by(1)
    while taken < SECONDS and times < MOST_TIMES:
        times = min(MOST_TIMES, times * max(2, min(20, math.ceil(1.2 * SECONDS / taken))))
        taken = taken_by(times)
    return said, taken / times


# ---- the three programs


def row(call, numbers, order, names, *values):
    """A row of the program without a wanted answer, so that it tells its own."""
    return "\t".join((call, str(MOST_UNITS), numbers, order, ",".join(names), *values, "?")) + "\n"


def of_rows(line):
    """A run of the program on a line many times over."""

    def run(times, seconds=None):
        with tempfile.TemporaryDirectory() as folder:
            pathlib.Path(folder, "rows.txt").write_text(line * times)
            said, taken, memory = spent([PROGRAM], folder, seconds=seconds)
        answers = re.findall(r"^    answers (.*) in (\d+) units$", said, re.MULTILINE)
        assert len(answers) == times, said
        return answers, taken, memory

    return run


def of_program(numbers, order, names, system):
    """The time, the basis and the units."""
    polynomials = "; ".join(flat(p, names) for p in system)
    line = lambda call, *values: of_rows(row(call, numbers, order, names, *values))
    ((text, units), *_), taken = timed(line("reduced_basis", polynomials), line("divide", "0", polynomials))
    if text == "wide":
        raise LeftOut(f"wide behind {int(units):,} units")
    return taken, basis(text.split("; "), names, numbers, order), int(units)


def of_singular(numbers, order, names, system):
    """The time and the basis."""
    given = (f'option(redSB); int the_time; ring the_ring = {PRIME if numbers == "gf" else 0}, ({",".join(names)}), '
             f'{"lp" if order == "lex" else "dp"};\nideal the_system = {", ".join(system)}; ideal the_basis; short = 0;\n')

    def run(times, seconds=None):
        loop = f"for (the_time = 1; the_time <= {times}; the_time++) {{ the_basis = std(the_system); }}\n"
        return spent(["Singular", "-q"], text=given + loop + ("the_basis;\n" if times == 1 else "") + "quit;\n", seconds=seconds)

    said, taken = timed(run, lambda _: run(0))
    return taken, basis((line.split("=")[1] for line in said.split("\n") if "=" in line), names, numbers, order)


def of_sympy(numbers, names, system):
    """The time and the basis, in graded reverse lexicographic order."""
    from sympy import GF, QQ, grevlex
    from sympy.polys.groebnertools import groebner
    from sympy.polys.rings import ring

    polynomials, *variables = ring(names, GF(PRIME) if numbers == "gf" else QQ, grevlex)
    # formulas of bench/systems.py, and no text that anyone else writes
    elements = [eval(text.replace("^", "**"), {}, dict(zip(names, variables))) for text in system]
    start = time.process_time()
    found = groebner(elements, polynomials)
    taken = time.process_time() - start
    number = (lambda c: int(c) % PRIME) if numbers == "gf" else (lambda c: fractions.Fraction(int(c.numerator), int(c.denominator)))
    return taken, {frozenset((m, number(c)) for m, c in element.items()) for element in found}


# ---- tables


def geometric_mean(ratios):
    return math.exp(sum(map(math.log, ratios)) / len(ratios))


def beside_singular(chosen):
    """A table for each kind of numbers and each order; whether a goal is missed."""
    missed = False
    for numbers, order in (("gf", "grevlex"), ("frac", "grevlex"), ("gf", "lex"), ("frac", "lex")):
        print(f"\nover `{numbers.capitalize()}`, {order}\n\n| System | Units | Program | Singular | Ratio |\n|---|---|---|---|---|")
        ratios, left_out = [], []
        for name in chosen or SYSTEMS:
            names, system = SYSTEMS[name]()
            try:
                ours, found, units = of_program(numbers, order, names, system)
                theirs, wanted = of_singular(numbers, order, names, system)
            except LeftOut as why:
                left_out.append(f"{name} ({why})")
                continue
            assert found == wanted, f"{name} over {numbers} by {order}: another basis than Singular's"
            ratios.append(ours / theirs)
            print(f"| {name} | {units:,} | {ours * 1000:,.2f} ms | {theirs * 1000:,.2f} ms | {ratios[-1]:.2f} |", flush=True)
        if ratios:
            mean, goal = geometric_mean(ratios), GOALS.get((numbers, order))
            miss = goal is not None and mean > goal
            missed |= miss
            print(f"\ngeometric mean of {len(ratios)}: {mean:.2f}" + (f" (goal: at most {goal})" if goal else "") + (" MISSED" if miss else ""))
        print(f"left out: {'; '.join(left_out) or 'none'}", flush=True)
    return missed


def beside_sympy(chosen):
    print("| System | Program | sympy | Times faster |\n|---|---|---|---|")
    faster = []
    for numbers in ("gf", "frac"):
        for name in chosen or SMALL:
            names, system = SYSTEMS[name]()
            try:
                ours, found, _ = of_program(numbers, "grevlex", names, system)
            except LeftOut as why:
                print(f"| {name} over `{numbers.capitalize()}` | {why} |", flush=True)
                continue
            theirs, wanted = of_sympy(numbers, names, system)
            assert found == wanted, f"{name} over {numbers}: another basis than sympy's"
            faster.append(theirs / ours)
            print(f"| {name} over `{numbers.capitalize()}` | {ours * 1000:.2f} ms | {theirs * 1000:,.0f} ms | {faster[-1]:.0f} |", flush=True)
    mean = geometric_mean(faster)
    print(f"geometric mean: {mean:.0f} times faster than sympy (goal: {GOAL}){' MISSED' if mean < GOAL else ''}")
    return mean < GOAL


def million():
    """The units and the peak memory of a completion in which a polynomial of 16 terms is cancelled step by step."""
    dense = " + ".join(f"x^65535*y^{exponent}" for exponent in range(15, 0, -1)) + " + x^65535"
    ((_, units),), _, memory = of_rows(row("complete", "gf", "grevlex", ("x", "y"), f"x - 1; {dense}"))(1)
    units = int(units)
    missed = units < 1_000_000 or memory >= GOAL_MEGABYTES
    print(f"a journal of {units:,} units: peak {memory:.0f} MB (goal: below {GOAL_MEGABYTES}){' MISSED' if missed else ''}")
    return missed


def main():
    match sys.argv[1:]:
        case ["memory"]:
            missed = million()
        case ["sympy", *chosen]:
            missed = beside_sympy(chosen)
        case chosen:
            missed = beside_singular(chosen)
    sys.exit(1 if missed else 0)


if __name__ == "__main__":
    main()
