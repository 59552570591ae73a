#!/usr/bin/env python3
"""Times eliminations and intersections of ideals beside Singular and, where it is installed, Macaulay2, and sees that all find the same.

Usage: bench/ideals.py        (after .ci/run, or `rt run` in crates/computation_rows, has built the program; needs Singular, Debian package `singular`)

The ideals are of the size that loops make: the equations of curves and surfaces that are given by polynomials in one or two parameters, and
intersections of two and three of them, over fractions. Each system computes an answer several times over, and the mean processor time counts.
The program's runs are timed whole, so what it takes to start is taken off; reading and printing are counted in.
"""
import shutil
import subprocess
import sys

from completion import MOST_UNITS, RUNS, basis, geometric_mean, run

# A name, the parameters, the coordinates, and what is zero.
GIVEN = (
    ("twisted cubic", "t", "x,y,z", "x - t; y - t^2; z - t^3"),
    ("nodal cubic", "t", "x,y", "x - t^2 + 1; y - t^3 + t"),
    ("rational quartic", "t", "x,y,z", "x - t^3 + t; y - t^2; z - t^4"),
    ("sums of numbers and of squares", "n", "x,y", "2*x - n^2 - n; 6*y - 2*n^3 - 3*n^2 - n"),
    ("cubes by differences", "n", "x,y,z", "x - n^3; y - 3*n^2 - 3*n - 1; z - 6*n - 6"),
    ("powers of two and four", "u,v", "x,y", "u*v - 1; x - u; y - u^2"),
    ("Whitney umbrella", "u,v", "x,y,z", "x - u*v; y - v; z - u^2"),
    ("cone", "u,v", "x,y,z", "x - u*v; y - u^2; z - v^2"),
    ("tangents of the twisted cubic", "t,u", "x,y,z", "x - t - u; y - t^2 - 2*t*u; z - t^3 - 3*t^2*u"),
    ("power sums of two numbers", "u,v", "x,y,z", "x - u - v; y - u^2 - v^2; z - u^3 - v^3"),
)
# Intersections of what those with these names give, one after another.
MET = (
    ("twisted cubic", "cubes by differences"),
    ("Whitney umbrella", "cone"),
    ("twisted cubic", "tangents of the twisted cubic"),
    ("twisted cubic", "Whitney umbrella", "cone"),
    ("Whitney umbrella", "cone", "power sums of two numbers"),
)
TIMES = 200


def row(call, order, names, *values):
    """A row of the program without a wanted answer, so that it tells its own."""
    return "\t".join((call, str(MOST_UNITS), "frac", order, ",".join(names), *values, "?"))


def of_program(call, order, names, *values):
    """The processor time of one call in seconds, and the texts of its answer."""
    line = row(call, order, names, *values)
    taken = min(run([line] * TIMES)[0] for _ in range(RUNS)) - min(run([])[0] for _ in range(RUNS))
    (text, _), = run([line])[2]
    return taken / TIMES, text.split("; ")


def singular(names, setup, work):
    times = TIMES * 5
    script = (f'LIB "elim.lib"; system("--ticks-per-sec", 1000000); option(redSB); int k; ring r = 0, ({",".join(names)}), dp; {setup} ideal g;\n'
              f'int ticks = timer; for (k = 1; k <= {times}; k++) {{ g = {work}; }} ticks = timer - ticks;\nshort = 0; ticks; g; quit;\n')
    said = subprocess.run(["Singular", "-q"], input=script, capture_output=True, text=True, check=True).stdout.split("\n")
    start = next(i for i, line in enumerate(said) if line.strip().isdigit())
    return int(said[start]) / 1e6 / times, [line.split("=")[1] for line in said[start + 1:] if "=" in line]


def macaulay(names, setup, work):
    if not shutil.which("M2"):
        return None
    script = (f'R = QQ[{",".join(names)}, MonomialOrder => GRevLex];\n{setup}\n'
              f'began = cpuTime(); for k from 1 to {TIMES} do (result = {work}); taken = (cpuTime() - began) / {TIMES};\n'
              'stdio << "time " << taken << endl; scan(flatten entries gens result, p -> stdio << "element " << toString p << endl);\n')
    said = subprocess.run(["M2", "--script", "/dev/stdin"], input=script, capture_output=True, text=True, check=True).stdout.split("\n")
    times = [line.split()[1] for line in said if line.startswith("time ")]
    return float(times[0]), [line[len("element "):] for line in said if line.startswith("element ")]


def compared(title, names, ours, theirs, others):
    taken, found = ours
    wanted = basis(theirs[1], names, "frac")
    assert basis(found, names, "frac") == wanted, f"{title}: another basis than Singular's"
    if others:
        assert basis(others[1], names, "frac") == wanted, f"{title}: Macaulay2 has another basis than Singular"
    third = f"{others[0] * 1000:.2f} ms" if others else "-"
    print(f"| {title} | {len(found)} | {taken * 1000:.2f} ms | {theirs[0] * 1000:.2f} ms | {third} | {taken / theirs[0]:.1f} |", flush=True)
    return taken / theirs[0]


def main():
    print("| Ideal | Elements | Program | Singular | Macaulay2 | Program to Singular |\n|---|---|---|---|---|---|")
    found, ratios = {}, []
    for title, parameters, coordinates, system in GIVEN:
        first, names = parameters.split(","), coordinates.split(",")
        comma = system.replace(";", ",")
        ours = of_program("eliminate", f"blocks {len(first)}", first + names, system)
        theirs = singular(first + names, f"ideal i = {comma};", f'std(eliminate(i, {"*".join(first)}))')
        others = macaulay(first + names, f"I = ideal({comma});", f'ideal gens gb eliminate(ideal(I_*), {{{",".join(first)}}})')
        found[title] = (names, ours[1])
        ratios.append(compared(f"eliminate: {title}", names, ours, theirs, others))
    for titles in MET:
        names, so_far = found[titles[0]]
        for title in titles[1:]:
            left, right = ", ".join(so_far), ", ".join(found[title][1])
            ours = of_program("meet", "grevlex", names, "; ".join(so_far), "; ".join(found[title][1]))
            theirs = singular(names, f"ideal a = {left}; ideal b = {right};", "std(intersect(a, b))")
            others = macaulay(names, f"I = ideal({left}); J = ideal({right});", "ideal gens gb intersect(ideal(I_*), ideal(J_*))")
            so_far = ours[1]
        ratios.append(compared("meet: " + ", ".join(titles), names, ours, theirs, others))
    print(f"geometric mean: {geometric_mean(ratios):.1f} times Singular's time")


if __name__ == "__main__":
    sys.exit(main())
