#!/usr/bin/env python3
"""Bases of random loops that overwrite variables, judged by runs alone: no element is wrong, and up to degree 3 no invariant is missing.

Usage: bench/overwrites.py [COUNT] [SEED]        the bases that the program answers (after .ci/run, or `rt run` in crates/acceptance, has built it)
       bench/overwrites.py rules [COUNT] [SEED]  those of bench/journals.py, by the rules (without the program; needs sympy)

COUNT is 600 if it isn't given. A loop has two to five variables and one to three branches of resets, copies and delays, temporaries, exchanges,
classes with matrices that have the eigenvalue 0 among others, counters, sums and multiples; some branch begins late. A loop whose analysis takes
more than MOST_UNITS units or is too wide is left out and counted, and another one is made in its place.

Runs are done modulo a prime of 61 bits: random words, half of them short, from random values of the variables that `init` doesn't set. Each element
of the basis has to be zero at the end of each run. The values of the monomials up to degree 3 at these ends are rows of a matrix. Each
invariant is in its kernel; so where the kernel has no more dimensions than the basis has polynomials up to degree 3, which its leads tell, none
is missing. Runs are added, up to MOST_RUNS, as long as the kernel has more.
"""
import itertools
import random
import re
import sys

import journals
import loop_forms as forms

PRIME = 2**61 - 1
DEGREE, MOST_UNITS, MOST_RUNS = 3, 300, 4000


# ---- random loops


def number(rng):
    return rng.choice([-2, -1, 1, 2, 3])


def sum_of(rng, names):
    """A linear expression in some of the names, with a constant at times."""
    parts = [f"{number(rng)}*{name}" for name in rng.sample(names, rng.randint(1, min(2, len(names))))]
    if rng.random() < 0.3:
        parts.append(str(number(rng)))
    return "+".join(parts).replace("+-", "-")


def singular_class(rng, names):
    """A statement that multiplies two or three variables by a matrix of rank 1."""
    chosen = rng.sample(names, min(len(names), rng.choice([2, 2, 3])))
    column, row = [number(rng) for _ in chosen], [number(rng) for _ in chosen]
    if rng.random() < 0.3:  # nilpotent: the row times the column is 0
        row[-1], column[-1] = -sum(a * b for a, b in zip(row[:-1], column[:-1])), 1
    sides = ["+".join(f"{c * r}*{name}" for r, name in zip(row, chosen)).replace("+-", "-") for c in column]
    return f"({', '.join(chosen)}) = ({', '.join(sides)});"


def overwriting(rng, names):
    kind = rng.random()
    some = rng.sample(names, len(names))
    if kind < 0.25:
        return f"{some[0]}={rng.randint(-1, 3)};"
    if kind < 0.45:
        return "".join(f"{late}={early};" for late, early in zip(some[: rng.randint(1, len(names) - 1)], some[1:]))
    if kind < 0.6 and len(names) > 2:
        return f"{some[0]}={some[1]}; {some[1]}={some[2]}; {some[2]}={some[0]};"
    if kind < 0.75:
        return f"{some[0]}={sum_of(rng, some[1:])}; {some[1]}={some[0]};"
    if kind < 0.85 and len(names) > 2:
        return f"{some[0]}={some[1]}*{some[2]};"
    return singular_class(rng, names)


def going_on(rng, names):
    kind, (one, *others) = rng.random(), rng.sample(names, len(names))
    if kind < 0.35:
        return f"{one}={one}+{number(rng)};".replace("+-", "-")
    if kind < 0.6:
        return f"{one}={one}+{others[0]};"
    if kind < 0.7:
        return f"{one}={one}+{others[0]}^2;"
    return f"{one}={rng.choice(['2*', '-', '3*', '-2*'])}{one};" if kind < 0.9 else f"{one}={one}/2;"


def loop(rng):
    names = list("xyzwv"[: rng.randint(2, 5)])
    starts = [f"{name}={rng.choice([str(rng.randint(-2, 3)), 'a'])}" for name in names if rng.random() < 0.8]
    free = ["a"] if any(start.endswith("=a") for start in starts) else []
    branches = []
    for _ in range(rng.choice([1, 1, 1, 2, 2, 3])):
        statements = [going_on(rng, names) for _ in range(rng.randint(0, 2))] + [overwriting(rng, names) for _ in range(rng.randint(0, 2))]
        rng.shuffle(statements)
        branches.append(f"branch {{ {' '.join(statements)} }}")
    return f"vars {', '.join(free + names)}; {f'init {chr(44).join(starts)}; ' if starts else ''}{' '.join(branches)}"


# ---- runs, modulo the prime


def modulo(p):
    """A polynomial as pairs of exponents and a number."""
    return [(e, c.numerator * pow(c.denominator, -1, PRIME) % PRIME) for e, c in p.items()]


def value(p, state):
    total = 0
    for e, c in p:
        for x, k in zip(state, e):
            for _ in range(k):
                c = c * x % PRIME
        total += c
    return total % PRIME


class Runs:
    def __init__(self, text, rng):
        self.names, starts, maps = forms.Reader(text).loop()
        self.m, self.rng = len(self.names), rng
        self.starts, self.maps = [modulo(p) for p in starts], [[modulo(p) for p in images] for images in maps]
        unit = [tuple(int(i == j) for j in range(self.m)) for i in range(self.m)]
        # in an equation the variable that it sets stands alone, with the number 1, and in no other monomial
        self.set = [next(i for i in range(self.m) if dict(p).get(unit[i]) == 1 and not any(e[i] for e, _ in p if e != unit[i])) for p in self.starts]

    def start(self):
        state = [self.rng.randrange(PRIME) for _ in range(self.m)]
        for i, p in zip(self.set, self.starts):
            state[i] = (state[i] - value(p, state)) % PRIME
        return state

    def end(self, word):
        state = self.start()
        for letter in word:
            state = [value(image, state) for image in self.maps[letter]]
        return state

    def words(self):
        """Random words without end, half of them of at most three letters, the others of up to twelve in constant pieces."""
        letters = range(len(self.maps))
        while True:
            if self.rng.random() < 0.5:
                yield [self.rng.choice(letters) for _ in range(self.rng.randint(0, 3))]
            else:
                word = [letter for letter in self.rng.choices(letters, k=6) for _ in range(self.rng.randint(1, 6))]
                yield word[: self.rng.randint(1, 12)]


# ---- polynomials up to the degree


def monomials(m):
    return [e for e in itertools.product(range(DEGREE + 1), repeat=m) if sum(e) <= DEGREE]


class Rows:
    """Rows in echelon form, modulo the prime."""

    def __init__(self):
        self.rows = {}

    def add(self, row):
        for i, x in enumerate(row):
            if row[i]:
                if i not in self.rows:
                    inverse = pow(row[i], -1, PRIME)
                    self.rows[i] = [y * inverse % PRIME for y in row]
                    return
                x = row[i]
                row = [(y - x * z) % PRIME for y, z in zip(row, self.rows[i])]


def judged(text, basis, rng):
    """What is wrong with a basis; None where nothing is."""
    runs = Runs(text, rng)
    state = [forms.variable(runs.m, i) for i in range(runs.m)]
    polys = []
    for element in filter(None, basis.replace("none", "").split("; ")):
        reader = forms.Reader(element.removesuffix(" = 0"))
        reader.names = runs.names
        polys.append(reader.sum(state, runs.m))
    leads = [max(p, key=forms.grevlex) for p in polys]
    polys, mons, rows = [modulo(p) for p in polys], monomials(runs.m), Rows()
    known = sum(any(all(a >= b for a, b in zip(e, lead)) for lead in leads) for e in mons)
    for count, word in enumerate(runs.words()):
        end = runs.end(word)
        wrong = [p for p in polys if value(p, end)]
        if wrong:
            return f"an element isn't zero behind the word {word}"
        rows.add([value([(e, 1)], end) for e in mons])
        if count > 100 and len(mons) - len(rows.rows) == known:
            return None
        if count == MOST_RUNS:
            return f"up to degree {DEGREE} runs allow {len(mons) - len(rows.rows)} dimensions, and the basis has {known}"


# ---- the bases


def bases_by_rules(texts):
    for text in texts:
        analysis = journals.Analysis(text, MOST_UNITS)
        yield journals.answer(analysis, MOST_UNITS)


def bases_by_program(texts):
    for _, answer in forms.answers_of(texts, MOST_UNITS):
        yield answer


def candidates(rng):
    """Random loops of which each branch has a closed form, and some a late one."""
    seen = set()
    while True:
        text = loop(rng)
        names, _, maps = forms.Reader(text).loop()
        found = [] if text in seen else [forms.late_form(images, len(names)) for images in maps]
        seen.add(text)
        if found and None not in found and any(since for since, _ in found):
            yield text, max(since for since, _ in found)


def main():
    words = sys.argv[1:]
    by_rules = words[:1] == ["rules"]
    words = words[by_rules:]
    count = int(words[0]) if words else 600
    rng = random.Random(words[1] if len(words) > 1 else "overwrites")
    loops, judged_so_far, bad, left_out, begins, sizes = candidates(rng), 0, 0, 0, {}, {}
    while judged_so_far < count:
        batch = list(itertools.islice(loops, 1 if by_rules else min(100, count - judged_so_far)))
        answers = (bases_by_rules if by_rules else bases_by_program)([text for text, _ in batch])
        for (text, since), answer in zip(batch, answers):
            if not answer.startswith("0 "):
                assert re.match("5 budget|4 wide|4 branch", answer), (text, answer)
                left_out += 1
                continue
            judged_so_far += 1
            if by_rules and judged_so_far % 25 == 0:
                print(f"{judged_so_far} judged, {bad} bad", flush=True)
            begins[since] = begins.get(since, 0) + 1
            size = 0 if answer == "0 none" else answer.count(" = 0")
            sizes[size] = sizes.get(size, 0) + 1
            found = judged(text, answer[2:], rng)
            if found:
                bad += 1
                print(f"{text}\n    {answer}\n    {found}", flush=True)
    print(f"{judged_so_far - bad} bases are right and have all invariants up to degree {DEGREE}, {bad} don't; {left_out} loops are left out")
    print(f"loops by the greatest number at which a branch begins: {dict(sorted(begins.items()))}; by elements: {dict(sorted(sizes.items()))}")
    return bad != 0


if __name__ == "__main__":
    sys.exit(main())
