#!/usr/bin/env python3
"""Judges what `basis --degree` and `cert --degree` answer, by exact runs and linear algebra, and times them.

Usage: bench/degree.py compare [FOLDER]  judges the answers to the loops of bench/loops.txt, and of a folder of loops, NAME.loop each, up to degrees 1 to 3
       bench/degree.py hoped FOLDER      those to a folder, and whether each equation of the file hoped.txt follows that `decide` says yes to: a line
                                         NAME: EQUATION each
       bench/degree.py sizes             times loops without invariants by variables and degree, up to 1,001 monomials; fails above its goals

(after .ci/run, or `rt run` in crates/invar, has built the program.)

No answer is taken on trust, and nothing is done as the program does it. Runs are made with Python's own fractions, more of them than there are
monomials; each element that is printed has to be 0 at the end of each run. What is 0 at the ends of all these runs is a space, whose dimension is
counted modulo a prime that the program doesn't use. None is missing where the leads of what is printed divide as many monomials. Where `basis`
answers too, its elements up to the degree have to be the same lines. What `cert` writes has to list them first, and each of its identities is added
up.
"""
import json
import math
import os
import pathlib
import random
import re
import resource
import subprocess
import sys
import tempfile
from fractions import Fraction

from counters import equation_in
from decide import lead, rest_of
from loop_forms import LOOPS, TOP, Reader, composed, loops_in, plus, scaled, times, value, variable

PROGRAM = pathlib.Path(os.environ.get("INVAR") or TOP / "crates/invar/out/invar").resolve()
DEGREES, SEED, PRIME, MOST_BITS, MORE = (1, 2, 3), 58, 2**61 - 1, 4000, 30
# Variables and degrees of the loops that are timed. No number of monomials of up to 12 variables lies between 1,001 and 1,024.
SIZES = ((2, 16), (3, 8), (3, 16), (4, 6), (4, 10), (6, 4), (6, 6), (7, 4), (9, 4), (10, 2), (10, 3), (10, 4), (12, 2), (12, 3))
# Of some of them the most seconds and the most megabytes: the goals.
GOALS = {(4, 10): (60, 200), (6, 4): (2, 200), (10, 2): (2, 200), (10, 4): (60, 200)}
# A process counts the memory of the one that started it, so the program is started by a small one of its own.
START = """
import os, sys
_, status, used = os.wait4(os.posix_spawn(sys.argv[1], sys.argv[1:], os.environ), 0)
sys.stderr.write(f"{used.ru_utime + used.ru_stime} {used.ru_maxrss}")
sys.exit(os.waitstatus_to_exitcode(status))
"""


# ---- loops


def loop_in(text):
    """The names, the values at the start, and the values after each branch."""
    names, differences, maps = Reader(text).loop()
    m = len(names)
    start = [variable(m, i) for i in range(m)]
    init = re.search(r"\binit\b(.*?);", re.sub("#.*", "", text), re.S)
    told = sorted(names.index(name) for name in re.findall(r"(\w+)\s*=", init[1])) if init else []
    for i, difference in zip(told, differences, strict=True):
        start[i] = plus(variable(m, i), scaled(difference, -1))
    return names, start, maps


# ---- runs


def monomials_up_to(m, degree):
    """All exponents of m variables with a sum of at most the degree."""
    if m == 0:
        return [()]
    return [rest + (k,) for k in range(degree + 1) for rest in monomials_up_to(m - 1, degree - k)]


def bits(state):
    return max(x.numerator.bit_length() + x.denominator.bit_length() for x in state)


def ends_of(text, count):
    """The states at the ends of so many runs, each as long as its numbers let it be."""
    rng = random.Random(SEED)
    names, start, maps = loop_in(text)
    m = len(names)
    ends = []
    for turns in range(count):
        point = [Fraction(rng.randint(-999, 999), rng.randint(1, 9)) for _ in range(m)]
        state = [value(image, point) for image in start]
        for _ in range(rng.randint(0, min(turns, 40))):
            state = [value(image, state) for image in rng.choice(maps)]
            if bits(state) > MOST_BITS:
                break
        ends.append(state)
    return ends


def rank_of(rows):
    """The rank of rows of numbers modulo the prime."""
    led = {}
    for row in rows:
        row = list(row)
        for column in range(len(row)):
            if not row[column]:
                continue
            if column not in led:
                inverse = pow(row[column], -1, PRIME)
                led[column] = [x * inverse % PRIME for x in row]
                break
            factor = row[column]
            row = [(x - factor * y) % PRIME for x, y in zip(row, led[column])]
    return len(led)


def residue(x):
    return x.numerator * pow(x.denominator, -1, PRIME) % PRIME


def zero_dimension(ends, exponents):
    """The dimension of the polynomials of these monomials that are 0 at all the ends, modulo the prime."""
    rows = []
    for state in ends:
        point = [residue(x) for x in state]
        rows.append([math.prod(pow(x, k, PRIME) for x, k in zip(point, e)) % PRIME for e in exponents])
    return len(exponents) - rank_of(rows)


# ---- what is answered


def answer_of(folder, text, command, *options):
    """What is said, the status, the seconds of processor time, and the peak of memory in kilobytes."""
    (folder / "LOOP").write_text(text)
    words = [sys.executable, "-I", "-S", "-c", START, PROGRAM, command, *options, "LOOP"]
    done = subprocess.run(words, cwd=folder, capture_output=True, text=True)
    seconds, kilobytes = done.stderr.split()
    return done.stdout, done.returncode, float(seconds), int(kilobytes)


def elements_in(said, names):
    return [] if said == "none\n" else [equation_in(line, names) for line in said.splitlines()]


def fault_of_list(text, degree, elements):
    """Why this isn't the part up to the degree of the basis of all invariants, or None."""
    names, _, _ = loop_in(text)
    exponents = monomials_up_to(len(names), degree)
    leads = [lead(g) for g in elements]
    for g in elements:
        if g[lead(g)] != 1 or sum(lead(g)) > degree:
            return f"{g} isn't monic, or its degree is too high"
        if rest_of(g, [h for h in elements if h is not g]) != g:
            return f"{g} isn't reduced"
    led = sum(any(all(i <= j for i, j in zip(e, monomial)) for e in leads) for monomial in exponents)
    for more in (MORE, len(exponents) + 4 * MORE):
        ends = ends_of(text, len(exponents) + more)
        if any(value(g, state) for g in elements for state in ends):
            return "an element isn't 0 at the end of a run"
        left = zero_dimension(ends, exponents)
        if left == led:
            return None
    return f"{left} are 0 at the ends of all runs, {led} are told"


def fault_of_certificate(folder, text, elements, said):
    """Why this certificate doesn't list the elements first, or isn't valid, or None."""
    names, start, maps = loop_in(text)
    m = len(names)
    certificate = json.loads(said)
    listed = [equation_in(f"{element} = 0", names) for element in certificate["basis"]]
    if listed[:len(elements)] != elements:
        return "other elements are listed first"
    if any(composed(g, start, m) for g in listed):
        return "an element isn't 0 at the start"
    for images, rows in zip(maps, certificate["steps"], strict=True):
        for g, row in zip(listed, rows, strict=True):
            left = composed(g, images, m)
            for place, cofactor in row:
                left = plus(left, scaled(times(equation_in(f"{cofactor} = 0", names), listed[place]), -1))
            if left:
                return f"an identity of {g} fails"
    (folder / "CERT").write_text(said)
    judged = subprocess.run([PROGRAM, "check", "LOOP", "CERT"], cwd=folder, capture_output=True, text=True).stdout
    return None if judged == "valid\n" or judged.startswith("wide") else f"check: {judged.strip()}"


def fault_beside_basis(folder, text, names, degree, said):
    """Why `basis` says something else up to the degree, or None; and whether it answers."""
    whole, status, _, _ = answer_of(folder, text, "basis")
    if status:
        return None, False
    low = [g for g in elements_in(whole, names) if sum(lead(g)) <= degree]
    return (None if low == elements_in(said, names) else "basis says otherwise"), True


def judged(folder, text, degree):
    """Why the answer up to the degree is none, or None; the elements, where there are some; whether `basis` answers; seconds and kilobytes."""
    names = loop_in(text)[0]
    said, status, seconds, size = answer_of(folder, text, "basis", "--degree", str(degree))
    if status:
        return f"status {status}: {said.strip()}", None, False, seconds, size
    elements = elements_in(said, names)
    why, beside = fault_beside_basis(folder, text, names, degree, said)
    why = why or fault_of_list(text, degree, elements)
    written, status, _, _ = answer_of(folder, text, "cert", "--degree", str(degree))
    if status == 0:
        why = why or fault_of_certificate(folder, text, elements, written)
    return why, elements, beside, seconds, size


# ---- files of loops


def always_holds(folder, text, equation):
    (folder / "LOOP").write_text(text)
    return subprocess.run([PROGRAM, "decide", "LOOP", equation], cwd=folder, capture_output=True).returncode == 0


def hoped_in(loops):
    wanted = {}
    file = loops / "hoped.txt"
    for line in file.read_text().splitlines() if file.exists() else ():
        if not line.startswith("#") and ":" in line:
            name, equation = line.split(": ", 1)
            wanted.setdefault(name, []).append(equation)
    return wanted


def texts_of(loops):
    for listed in loops_in(LOOPS) if loops is None else ():
        yield listed.name, listed.text
    for file in sorted(loops.glob("*.loop")) if loops else ():
        yield file.stem, file.read_text()


def compare(folder, loops, wanted):
    failed, table, followed = 0, {}, {}
    for name, text in texts_of(loops):
        names = loop_in(text)[0]
        for degree in DEGREES:
            why, elements, beside, seconds, size = judged(folder, text, degree)
            row = table.setdefault((len(names), degree), [0, 0, 0, 0.0, 0])
            row[0] += 1
            row[1] += elements is not None
            row[2] += beside
            row[3], row[4] = max(row[3], seconds), max(row[4], size)
            if why:
                failed += elements is not None
                print("differs:" if elements is not None else "none:", name, "degree", degree, "|", why)
            for equation in wanted.get(name, ()) if elements is not None else ():
                p = equation_in(equation, names)
                if p and sum(lead(p)) <= degree and always_holds(folder, text, equation):
                    told = followed.setdefault(degree, [0, 0])
                    told[0] += 1
                    told[1] += not rest_of(p, elements)
                    if rest_of(p, elements):
                        failed += 1
                        print("doesn't follow:", name, "degree", degree, "|", equation)
    print("| Variables | Degree | Loops | Answered | By `basis` too | Seconds, at most | MB, at most |\n|---|---|---|---|---|---|---|")
    for (m, degree), (count, answers, both, seconds, size) in sorted(table.items()):
        print(f"| {m} | {degree} | {count} | {answers} | {both} | {seconds:.3f} | {size / 1000:.1f} |")
    for degree, (count, told) in sorted(followed.items()):
        print(f"degree {degree}: {told} of {count} hoped-for equations follow")
    print(failed, "differ")
    return failed


def sizes(folder):
    failed = 0
    print("| Variables | Degree | Monomials | Status | Seconds | MB |\n|---|---|---|---|---|---|")
    for m, degree in SIZES:
        names = [f"x{i}" for i in range(m)]
        body = " ".join(f"{name}={name}*{names[(i + 1) % m]}+{i + 1};" for i, name in enumerate(names))
        text = f"vars {', '.join(names)}; branch {{ {body} }}"
        said, status, seconds, size = answer_of(folder, text, "basis", "--degree", str(degree))
        most_seconds, most_megabytes = GOALS.get((m, degree), (math.inf, math.inf))
        failed += status != 0 or seconds >= most_seconds or size / 1000 >= most_megabytes
        print(f"| {m} | {degree} | {math.comb(m + degree, degree)} | {status} | {seconds:.2f} | {size / 1000:.1f} |")
    return failed


if __name__ == "__main__":
    resource.setrlimit(resource.RLIMIT_CORE, (0, 0))
    with tempfile.TemporaryDirectory() as name:
        folder, words = pathlib.Path(name), [pathlib.Path(word) for word in sys.argv[2:]]
        call = {
            "compare": lambda: compare(folder, None, {}) + (compare(folder, words[0], {}) if words else 0),
            "hoped": lambda: compare(folder, words[0], hoped_in(words[0])),
            "sizes": lambda: sizes(folder),
        }[sys.argv[1]]
        sys.exit(1 if call() else 0)
