#!/usr/bin/env python3
"""Sees whether the rows of bases, exponential polynomials and closed forms in crates/computation_rows/data/branches.txt are right, and tells each that isn't.

Usage: bench/branch_rows.py [FILE]

It shares nothing with the program. A base comes from prime factors, a solution from linear equations for its values, and a closed form is the
one whose next one is the map of it and that is the state after as many turns as it says that it begins at, none where it says nothing, and not
after fewer. Polynomials are dictionaries from exponents to numbers. Refusals of closed forms, and rows of other calls, are left out.
"""
import fractions
import itertools
import math
import pathlib
import re
import sys

ROWS = pathlib.Path(__file__).resolve().parent.parent / "crates/computation_rows/data/branches.txt"
MOST = 2**127 - 1
Fraction = fractions.Fraction


class Wide(Exception):
    pass


# ---- polynomials
def collected(terms):
    p = {}
    for m, c in terms:
        p[m] = p.get(m, 0) + c
    return {m: c for m, c in p.items() if c}


def plus(p, q):
    return collected(itertools.chain(p.items(), q.items()))


def times(p, q):
    return collected((tuple(a + b for a, b in zip(m, n)), c * d) for m, c in p.items() for n, d in q.items())


def constant(c, width):
    return collected([((0,) * width, Fraction(c))])


def composed(p, images, width):
    result = {}
    for m, c in p.items():
        term = constant(c, width)
        for image, e in zip(images, m):
            for _ in range(e):
                term = times(term, image)
        result = plus(result, term)
    return result


def read(text, names):
    terms = []
    for sign, item in re.findall(r"(^-?|[+-] )([^ ]+)", text):
        coefficient, m = Fraction(-1 if "-" in sign else 1), [0] * len(names)
        for factor in item.split("*"):
            name, _, e = factor.partition("^")
            if name in names:
                m[names.index(name)] += int(e or 1)
            else:
                coefficient *= Fraction(factor)
        terms.append((tuple(m), coefficient))
    return collected(terms)


def printed(p, names):
    text = ""
    for m in sorted(p, key=lambda m: (sum(m), [-e for e in reversed(m)]), reverse=True):
        c = p[m]
        if max(abs(c.numerator), c.denominator) > MOST or max(m, default=0) > 65535:
            raise Wide
        factors = [name + (f"^{e}" if e > 1 else "") for name, e in zip(names, m) if e]
        if abs(c) != 1 or not factors:
            factors.insert(0, str(abs(c)))
        text += (" - " if c < 0 else " + ") + "*".join(factors)
    return "0" if not text else text[3:] if text.startswith(" +") else "-" + text[3:]


# ---- bases
def primes(n):
    found, p = {}, 2
    while p * p <= n and p < 2**16:
        while n % p == 0:
            found[p] = found.get(p, 0) + 1
            n //= p
        p += 1
    if n > 1:
        assert p * p > n or all(pow(a, n - 1, n) == 1 for a in (2, 3, 5, 7, 11, 13)), n  # a prime, as far as this tells
        found[n] = 1
    return found


def coarsest(numbers):
    """Primes are in one number of the base where their exponents in all numbers of the list are in proportion."""
    factored = [primes(n) for n in numbers]
    found = {}
    for p in set().union(*factored):
        exponents = [f.get(p, 0) for f in factored]
        common = math.gcd(*exponents)
        direction = tuple(e // common for e in exponents)
        found[direction] = found.get(direction, 1) * p**common
    return sorted(found.values())


def exponents(base, value):
    """The exponents, or none."""
    found = []
    for b in base:
        (p, e), *_ = primes(b).items()
        times_over, left = divmod(primes(value.numerator).get(p, 0) - primes(value.denominator).get(p, 0), e)
        found.append(times_over)
        if left:
            return None
    return found if math.prod(Fraction(b) ** e for b, e in zip(base, found)) == value else None


# ---- exponential polynomials: of n, s, the u, the v, and the variables
def normal(p, base):
    r = len(base)

    def key(m):
        u, v = m[2:2 + r], m[2 + r:2 + 2 * r]
        both = [min(a, b) for a, b in zip(u, v)]
        return (m[0], m[1] % 2, *(a - b for a, b in zip(u, both)), *(a - b for a, b in zip(v, both)), *m[2 + 2 * r:])

    return collected((key(m), c) for m, c in p.items())


def shifted(p, base, width):
    r = len(base)
    factors = [-1, *base, *(Fraction(1, b) for b in base)]
    result = {}
    for m, c in p.items():
        c *= math.prod(Fraction(f) ** e for f, e in zip(factors, m[1:2 + 2 * r]))
        for k in range(m[0] + 1):
            result = plus(result, {(k, *m[1:]): c * math.comb(m[0], k)})
    return result


def backward(p, base):
    r = len(base)
    return {(m[0], m[1], *m[2 + r:2 + 2 * r], *m[2:2 + r], *m[2 + 2 * r:]): c * (-1) ** m[0] for m, c in p.items()}


def before(p, base):
    r = len(base)
    factors = [-1, *(Fraction(1, b) for b in base), *base]
    result = {}
    for m, c in p.items():
        c *= math.prod(Fraction(f) ** e for f, e in zip(factors, m[1:2 + 2 * r]))
        for k in range(m[0] + 1):
            result = plus(result, {(k, *m[1:]): c * math.comb(m[0], k) * (-1) ** (m[0] - k)})
    return result


def at_turn(p, base, turns):
    numbers = [Fraction(turns), Fraction(-1) ** turns, *(Fraction(b) ** turns for b in base), *(Fraction(1, b) ** turns for b in base)]
    return collected((m[len(numbers):], c * math.prod(number**e for number, e in zip(numbers, m))) for m, c in p.items())


def solved(rows):
    """The one solution of linear equations, the right side last in each row."""
    rows = [list(row) for row in rows]
    size = len(rows[0]) - 1
    for i in range(size):
        k = next(k for k in range(i, len(rows)) if rows[k][i])
        rows[i], rows[k] = rows[k], rows[i]
        rows[i] = [c / rows[i][i] for c in rows[i]]
        rows = [row if k == i else [a - row[i] * b for a, b in zip(row, rows[i])] for k, row in enumerate(rows)]
    assert not any(row[size] for row in rows[size:])
    return [row[size] for row in rows[:size]]


def power(text, base):
    """The number of a power, and the exponents of its n-th power as a monomial behind n."""
    sign, *numbers = text.split(" ")
    e = [int(number) for number in numbers]
    number = math.prod((Fraction(b) ** k for b, k in zip(base, e)), start=Fraction(-1 if sign == "-" else 1))
    return number, (int(sign == "-"), *(max(k, 0) for k in e), *(max(-k, 0) for k in e))


def solution(degree, source, own, base, count):
    (sigma, up), (own_number, down) = power(source, base), power(own, base)
    parts = [(i, sigma, up) for i in range(degree + 1)] + [(0, own_number, down)]
    if sigma == own_number:
        parts = [(i, sigma, up) for i in range(degree + 2)]
    values = [Fraction(0)]
    for n in range(len(parts)):
        values.append(own_number * values[n] + Fraction(n) ** degree * sigma**n)
    found = solved([[Fraction(n) ** i * number**n for i, number, _ in parts] + [y] for n, y in enumerate(values)])
    return collected(((i, *e, *(0,) * count), c) for c, (i, _, e) in zip(found, parts))


def values_of(matrix):
    """The fractions that are eigenvalues: whole numbers over the common denominator."""
    size = len(matrix)
    den = math.lcm(*(c.denominator for row in matrix for c in row))
    most = max(sum(abs(row[j]) for row in matrix) for j in range(size))
    return [x for x in (Fraction(p, den) for p in range(math.floor(-most * den), math.ceil(most * den) + 1))
            if not determinant([[matrix[i][j] - x * (i == j) for j in range(size)] for i in range(size)])]


def determinant(rows):
    if not rows:
        return Fraction(1)
    return sum((-1) ** j * c * determinant([row[:j] + row[j + 1:] for row in rows[1:]]) for j, c in enumerate(rows[0]) if c)


# ---- rows
def exponential(call, values):
    front, variables, numbers, *values = values
    front, variables = (text.split(",") if text else [] for text in (front, variables))
    names = front + variables
    base = coarsest([int(number) for number in numbers.split(",")] if numbers else [])
    assert len(front) == 2 + 2 * len(base), (front, base)
    if call == "solve_term":
        return printed(solution(int(values[0]), *values[1:], base, len(variables)), names)
    turns = {"at_zero": ["0"], "at_turn": values[1:]}.get(call, [])
    ps = [normal(read(value, names), base) for value in (values[:1] if turns else values)]
    [printed(p, names) for p in ps]
    if call in ("at_zero", "at_turn"):
        return printed(at_turn(ps[0], base, *(int(value) for value in turns)), variables)
    calls = {
        "normal": lambda p: p,
        "add": plus,
        "mul": lambda p, q: normal(times(p, q), base),
        "shift_n": lambda p: shifted(p, base, len(names)),
        "backward": lambda p: backward(p, base),
        "before": lambda p: before(p, base),
    }
    return printed(calls[call](*ps), names)


def is_closed_form(values, wanted):
    front, variables, images = values
    front, variables = front.split(","), variables.split(",")
    names, count = front + variables, len(variables)
    images = [read(image, variables) for image in images.split("; ")]
    said, *forms = wanted.split("; ")
    since = int(forms.pop(0).removeprefix("since ")) if forms[0].startswith("since ") else 0
    units = [tuple(int(i == j) for i in range(count)) for j in range(count)]
    values = values_of([[image.get(unit, Fraction(0)) for unit in units] for image in images])
    base = coarsest([part for value in values if value for part in (abs(value.numerator), value.denominator)])
    width = len(names)
    ps = [read(form, names) for form in forms]
    states = [[{unit: Fraction(1)} for unit in units]]
    while len(states) <= since:
        states.append([composed(image, states[-1], count) for image in images])
    return (
        said == "base " + (",".join(map(str, base)) or "none")
        and len(front) == 2 + 2 * len(base) and len(ps) == count
        and all(printed(p, names) == form and normal(p, base) == p for p, form in zip(ps, forms))
        and [[at_turn(p, base, n) for p in ps] == state for n, state in enumerate(states)] == [False] * since + [True]
        and all(shifted(p, base, width) == normal(composed(image, ps, width), base) for p, image in zip(ps, images))
    )


def is_right(call, values, wanted):
    if call == "base":
        return wanted == (",".join(map(str, coarsest([int(n) for n in values[0].split(",")] if values[0] else []))) or "none")
    if call == "exponents":
        found = exponents(coarsest([int(n) for n in values[0].split(",")] if values[0] else []), Fraction(values[1]))
        return wanted == ("not in the base" if found is None else ",".join(map(str, found)) or "none")
    if call == "forms":
        return is_closed_form(values, wanted)
    try:
        return wanted == exponential(call, values)
    except Wide:
        return wanted == "wide"


def main():
    calls = ["base", "exponents", "normal", "add", "mul", "shift_n", "backward", "before", "at_zero", "at_turn", "solve_term", "forms"]
    right = wrong = 0
    for line in pathlib.Path(sys.argv[1] if len(sys.argv) > 1 else ROWS).read_text().splitlines():
        call, *values, wanted = line.split("\t") if "\t" in line else [line, ""]
        if call not in calls or (call == "forms" and not wanted.startswith("base ")):
            continue
        if is_right(call, values, wanted):
            right += 1
        else:
            wrong += 1
            print(line)
    print(f"{right} rows are right, {wrong} are not")
    return wrong != 0


if __name__ == "__main__":
    sys.exit(main())
