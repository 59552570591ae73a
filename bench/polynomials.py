#!/usr/bin/env python3
"""Times products and sums of dense polynomials in three variables, beside the same work in sympy.

Usage: bench/polynomials.py        (after .ci/run, or `rt run` in crates/computation_rows, has built the program; needs sympy)

Products are of two polynomials with 1,000 terms each, over fractions and over the remainders modulo 65,521; sums are of two with
100,000 terms each. The coefficients are products of three fractions from 1 to 19 over 1 to a greatest denominator. Both do their
work several times over, and the mean counts: the time of sympy varies by a half, with its collection of garbage. The program's runs
are timed whole, so what it takes to start and to make the polynomials is taken off. Memory is the peak of a run that does the work
once, and so has both polynomials and the result.
"""
import os
import pathlib
import subprocess
import sys
import tempfile
import time

PROGRAM = pathlib.Path(os.environ.get("COMPUTATION_ROWS") or pathlib.Path(__file__).resolve().parent.parent / "crates/computation_rows/out/computation_rows")
DENOMINATORS = (3, 9, 97, 997)
RUNS = 3
GOAL = 20
GOAL_BYTES = 200


def run(what, numbers, sides, times):
    """The processor time in seconds and the peak memory in bytes of one run of the program, and how many terms its result has."""
    with tempfile.NamedTemporaryFile("w") as rows:
        print("dense", what, numbers, ",".join(map(str, sides)), times, "?", sep="\t", file=rows, flush=True)
        child = subprocess.Popen([PROGRAM, "print", rows.name], stdout=subprocess.PIPE, text=True)
        terms = int(child.stdout.read().split()[0])
        _, status, usage = os.wait4(child.pid, 0)
    assert status == 0, (what, numbers, sides)
    return usage.ru_utime + usage.ru_stime, usage.ru_maxrss * 1024, terms


def of_program(what, numbers, sides, times):
    once = min(run(what, numbers, sides, 1) for _ in range(RUNS))
    more = min(run(what, numbers, sides, times + 1) for _ in range(RUNS))
    return (more[0] - once[0]) / times, once[1], once[2]


def of_sympy(what, numbers, sides):
    """The same work on the same polynomials, which crates/computation_rows/src/dense.rt makes."""
    # Imported here, since a child's peak memory is at least what its parent had.
    from sympy import GF, QQ
    from sympy.polys.rings import ring

    domain = GF(65521) if numbers == "gf" else QQ
    generators, *variables = ring("x,y,z", domain)

    def sample(place):
        return domain(place % 61 * 997 + 1) if numbers == "gf" else domain(place % 19 + 1, place % numbers + 1)

    def line(variable, side, seed):
        return sum((variable ** (side - place) * sample(place * seed) for place in range(1, side + 1)), generators.zero)

    def dense(seed):
        x, y, z = (line(variable, side, seed) for variable, side in zip(variables, sides))
        return x * y * z

    left, right = dense(1), dense(5)
    times = 10 if what == "add" else 2
    start = time.process_time()
    for _ in range(times):
        result = left + right if what == "add" else left * right
    return (time.process_time() - start) / times, len(left) + len(right) + len(result), len(result)


def main():
    products, sums = ((10, 10, 10), 10), ((100, 100, 10), 20)
    rows = [("mul", denominators, *products) for denominators in DENOMINATORS] + [("mul", "gf", *products)] + [("add", denominators, *sums) for denominators in DENOMINATORS]
    ours = [of_program(*row) for row in rows]
    missed = False
    for (what, numbers, sides, _), (taken, memory, count) in zip(rows, ours):
        theirs, terms, wanted = of_sympy(what, numbers, sides)
        assert count == wanted, f"{what} over {numbers}: {count} terms, sympy has {wanted}"
        ratio = theirs / taken
        missed |= ratio < GOAL
        over = "remainders" if numbers == "gf" else f"fractions, denominators to {numbers}"
        print(f"{what} of two with {sides[0] * sides[1] * sides[2]} terms over {over}: {taken * 1000:.1f} ms, sympy {theirs * 1000:.1f} ms: "
              f"{ratio:.0f} times faster (goal: {GOAL}){'' if ratio >= GOAL else ' MISSED'}; peak {memory / 2**20:.1f} MB", end="")
        print(f", {memory / terms:.0f} bytes a term (goal: {GOAL_BYTES})" if what == "add" else "")
    sys.exit(1 if missed else 0)


if __name__ == "__main__":
    main()
