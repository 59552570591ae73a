"""Loops as polynomials, for bench/loops.py and bench/journals.py: their texts, their maps, and closed forms found from first states.

A loop's closed forms are found from its states: the least linear recurrence of each variable's values at a point of large numbers, its roots, and
the polynomials that stand at their powers, by a system of linear equations. This is not how the program does it.
"""
import math
import os
import pathlib
import subprocess
import tempfile
from fractions import Fraction as Q
from functools import reduce

import sympy

TOP = pathlib.Path(__file__).resolve().parent.parent
LOOPS = TOP / "bench/loops.txt"
ACCEPTANCE = pathlib.Path(os.environ.get("ACCEPTANCE") or TOP / "crates/acceptance/out/acceptance").resolve()


# ---- files of loops


class Listed:
    """A line of a file of loops: its name and its text, with the heading that it stands under."""

    def __init__(self, heading, line):
        self.heading = heading
        self.name, self.text = line.split("\t")


def loops_in(file):
    """The loops of a file: a heading behind `# `, or a name and a text with a tab between, a line."""
    loops, heading = [], ""
    for line in pathlib.Path(file).read_text().splitlines():
        if line.startswith("#"):
            heading = line.lstrip("# ")
        elif "\t" in line:
            loops.append(Listed(heading, line))
    return loops


def rows_of(texts, budget):
    """The rows that ask `acceptance` for the bases of these loops, and the units that they take."""
    return "".join(f"units\tbasis\t{budget}\t{text}\t\n" for text in texts)


def answers_of(texts, budget=200000):
    """What the program `acceptance` answers to each text: units, and a status with a text."""
    with tempfile.NamedTemporaryFile("w", suffix=".txt") as rows:
        rows.write(rows_of(texts, budget))
        rows.flush()
        printed_lines = subprocess.run([ACCEPTANCE, "print", rows.name], capture_output=True, text=True, check=True).stdout.splitlines()
    assert len(printed_lines) == len(texts), printed_lines
    return [(int(units), answer) for units, answer in (line.split(" units, ", 1) for line in printed_lines)]


# ---- polynomials: dictionaries from exponents to fractions


def plus(p, q):
    r = dict(p)
    for e, c in q.items():
        r[e] = r.get(e, 0) + c
        if r[e] == 0:
            del r[e]
    return r


def scaled(p, c):
    return {e: c * d for e, d in p.items()} if c else {}


def times(p, q):
    r = {}
    for e, c in p.items():
        for f, d in q.items():
            g = tuple(i + j for i, j in zip(e, f))
            r[g] = r.get(g, 0) + c * d
    return {e: c for e, c in r.items() if c}


def constant(m, c):
    return {(0,) * m: Q(c)} if c else {}


def variable(m, i):
    return {tuple(int(j == i) for j in range(m)): Q(1)}


def power(p, n, m):
    r = constant(m, 1)
    for _ in range(n):
        r = times(r, p)
    return r


def composed(p, images, m):
    r = {}
    for e, c in p.items():
        t = constant(m, c)
        for i, k in enumerate(e):
            if k:
                t = times(t, power(images[i], k, m))
        r = plus(r, t)
    return r


def value(p, point):
    total = Q(0)
    for e, c in p.items():
        for i, k in enumerate(e):
            c = c * point[i] ** k
        total += c
    return total


# ---- the loop language


class Reader:
    def __init__(self, text):
        self.tokens = []
        i = 0
        while i < len(text):
            c = text[i]
            if c == "#":
                while i < len(text) and text[i] != "\n":
                    i += 1
            elif c.isspace():
                i += 1
            elif c.isalpha():
                j = i
                while j < len(text) and (text[j].isalnum() or text[j] == "_"):
                    j += 1
                self.tokens.append(text[i:j])
                i = j
                if self.tokens[-1] == "when":
                    while text[i] != "{":
                        i += 1
                    self.tokens.pop()
            elif c.isdigit():
                j = i
                while j < len(text) and text[j].isdigit():
                    j += 1
                self.tokens.append(text[i:j])
                i = j
            else:
                self.tokens.append(c)
                i += 1
        self.at = 0

    def peek(self):
        return self.tokens[self.at] if self.at < len(self.tokens) else ""

    def take(self, wanted=None):
        token = self.tokens[self.at]
        assert wanted is None or token == wanted, (token, wanted)
        self.at += 1
        return token

    def sum(self, state, m):
        r = self.product(state, m)
        while self.peek() in "+-" and self.peek():
            sign = self.take()
            r = plus(r, scaled(self.product(state, m), 1 if sign == "+" else -1))
        return r

    def product(self, state, m):
        r = self.factor(state, m)
        while self.peek() in "*/" and self.peek():
            if self.take() == "*":
                r = times(r, self.factor(state, m))
            else:
                r = scaled(r, Q(1, int(self.take())))
        return r

    def factor(self, state, m):
        if self.peek() == "-":
            self.take()
            return scaled(self.factor(state, m), -1)
        if self.peek() == "(":
            self.take()
            r = self.sum(state, m)
            self.take(")")
        else:
            token = self.take()
            r = constant(m, int(token)) if token.isdigit() else state[self.names.index(token)]
        if self.peek() == "^":
            self.take()
            r = power(r, int(self.take()), m)
        return r

    def name_list(self):
        found = [self.take()]
        while self.peek() == ",":
            self.take()
            found.append(self.take())
        self.take(";")
        return found

    def loop(self):
        """The variables, for each equation of `init` its variable less its value, in declared order, and the map of each branch."""
        self.take("vars")
        variables = self.name_list()
        own = []
        if self.peek() == "locals":
            self.take()
            own = self.name_list()
        self.names = variables + own
        m = len(variables)
        free = [variable(m, i) for i in range(m)]
        starts = {}
        if self.peek() == "init":
            self.take()
            while True:
                name = self.names.index(self.take())
                self.take("=")
                starts[name] = plus(free[name], scaled(self.sum(free, m), -1))
                if self.take() == ";":
                    break
        return variables, [starts[name] for name in sorted(starts)], self.branches(m)

    def branches(self, m):
        """The map of each branch, as long as one comes."""
        maps = []
        while self.peek() == "branch":
            self.take()
            self.take("{")
            state = [variable(m, i) for i in range(m)] + [None] * (len(self.names) - m)
            while self.peek() != "}":
                self.statement(state, m)
            self.take("}")
            maps.append(state[:m])
        return maps

    def statement(self, state, m):
        if self.peek() == "(":
            targets, values = [], []
            while self.take() in "(,":
                targets.append(self.names.index(self.take()))
            self.take("=")
            while self.take() in "(,":
                values.append(self.sum(state, m))
        else:
            targets = [self.names.index(self.take())]
            self.take("=")
            values = [self.sum(state, m)]
        self.take(";")
        for target, new in zip(targets, values):
            state[target] = new


# ---- closed forms


def recurrence(values):
    """The least linear recurrence of a list, by Berlekamp and Massey: c with c[0] = 1 and a sum of c[i] values[n-i] that is 0."""
    c, b, length, shift, last = [Q(1)], [Q(1)], 0, 1, Q(1)
    for n, _ in enumerate(values):
        gap = sum(c[i] * values[n - i] for i in range(min(len(c), n + 1)))
        if gap == 0:
            shift += 1
            continue
        old = list(c)
        factor = gap / last
        c = c + [Q(0)] * (len(b) + shift - len(c))
        for i, d in enumerate(b):
            c[i + shift] -= factor * d
        if 2 * length <= n:
            length, b, last, shift = n + 1 - length, old, gap, 1
        else:
            shift += 1
    return c[: length + 1] + [Q(0)] * (length + 1 - len(c))


def roots(c):
    """Its roots with multiplicities; None where one isn't rational."""
    x = sympy.Symbol("x")
    poly = sum(sympy.Rational(d.numerator, d.denominator) * x ** (len(c) - 1 - i) for i, d in enumerate(c))
    found = []
    for factor, times_ in sympy.factor_list(poly, x)[1]:
        factor = sympy.Poly(factor, x)
        if factor.degree() > 1:
            return None
        if factor.degree() == 1:
            a, b = factor.all_coeffs()
            root = -b / a
            found.append((Q(int(root.p), int(root.q)), times_))
    return found


def solved(rows, right):
    """The solution of a square system whose right sides are polynomials."""
    rows = [list(r) for r in rows]
    right = list(right)
    n = len(rows)
    for i in range(n):
        pivot = next(k for k in range(i, n) if rows[k][i])
        rows[i], rows[pivot] = rows[pivot], rows[i]
        right[i], right[pivot] = right[pivot], right[i]
        inverse = 1 / rows[i][i]
        rows[i] = [c * inverse for c in rows[i]]
        right[i] = scaled(right[i], inverse)
        for k in range(n):
            if k != i and rows[k][i]:
                factor = rows[k][i]
                rows[k] = [a - factor * b for a, b in zip(rows[k], rows[i])]
                right[k] = plus(right[k], scaled(right[i], -factor))
    return right


def recurrences(images, m):
    """The least linear recurrence of each variable's values at a point, from as few values as tell it; None where there is none of 40 numbers."""
    values = [[Q(1009 + 211 * i * i + 37 * i, 1 + i % 3) for i in range(m)]]
    for most in (10, 40):
        while len(values) <= 2 * most:
            values.append([value(f, values[-1]) for f in images])
            if any(abs(v.numerator) > 10 ** 3000 for v in values[-1]):
                return None
        found = [recurrence([v[i] for v in values]) for i in range(m)]
        if all(len(c) - 1 <= most - 2 for c in found):
            return found
    return None


def late_form(images, m):
    """A number of turns, the least from which on there is a closed form, and for each variable a list of (root, degree in n, polynomial).

    The root 0 of a variable's least recurrence says of as many turns as it stands there that they have no part in the form. None where a root
    isn't rational, or where the recurrence at the point isn't one of the states.
    """
    least = recurrences(images, m)
    if least is None:
        return None
    states = [[variable(m, i) for i in range(m)]]
    form, since = [], 0
    for i in range(m):
        found = roots(least[i])
        if found is None:
            return None
        first = sum(count for root, count in found if root == 0)
        pairs = [(root, k) for root, count in found if root for k in range(count)]
        end = first + len(pairs) + 3
        while len(states) < end:
            states.append([composed(f, states[-1], m) for f in images])
        rows = [[root ** n * Q(n) ** k for root, k in pairs] for n in range(first, first + len(pairs))]
        parts = solved(rows, [states[n][i] for n in range(first, first + len(pairs))])
        for n in range(max(first - 1, 0), end):
            total = reduce(plus, (scaled(p, root ** n * Q(n) ** k) for (root, k), p in zip(pairs, parts)), {})
            if n >= first and total != states[n][i]:
                return None
            assert n >= first or total != states[n][i]
        since = max(since, first)
        form.append([(root, k, p) for (root, k), p in zip(pairs, parts) if p])
    return since, form


def closed_form(images, m):
    """The parts of the closed form of a branch that has one from the start on; None where it has none, or begins later."""
    found = late_form(images, m)
    return found[1] if found and found[0] == 0 else None


# ---- closed forms over a coprime base


def coprime_base(numbers):
    base = [n for n in numbers if n > 1]
    while True:
        for i, a in enumerate(base):
            for j in range(i + 1, len(base)):
                g = math.gcd(a, base[j])
                if g > 1:
                    base = [n for k, n in enumerate(base) if k not in (i, j)] + [n for n in (a // g, base[j] // g, g) if n > 1]
                    break
            else:
                continue
            break
        else:
            return sorted(base)


def eigenvalues(images, m):
    x = sympy.Symbol("x")
    unit = [tuple(int(i == j) for i in range(m)) for j in range(m)]
    rational = lambda c: sympy.Rational(c.numerator, c.denominator)
    linear = sympy.Matrix(m, m, lambda i, j: rational(Q(images[i].get(unit[j], 0))))
    return [Q(int(root.p), int(root.q)) for root in sympy.roots(linear.charpoly(x).as_expr(), x)]


def exponents(number, base):
    """The exponents of a natural number over the base."""
    found = []
    for b in base:
        e = 0
        while number % b == 0:
            number, e = number // b, e + 1
        found.append(e)
    assert number == 1
    return found


class Form:
    """The closed form of a branch: from `since` turns on, and from no fewer, `forward` is the state after n turns, and `backward` that before.

    Both are polynomials in n, s, the u, the v and the variables. A variable passes where `forward` at n = 0 isn't the variable.
    """

    def __init__(self, images, m, since, parts):
        self.since, self.m = since, m
        self.base = coprime_base([n for root in eigenvalues(images, m) if root for n in (abs(root.numerator), root.denominator)])
        self.forward = [self.poly(p, False) for p in parts]
        self.backward = [self.poly(p, True) for p in parts]
        self.passes = [self.at(p, 0) != variable(m, i) for i, p in enumerate(self.forward)]
        assert any(self.passes) == (since > 0)

    def poly(self, parts, back):
        p = {}
        for root, degree, q in parts:
            up = [a - b for a, b in zip(exponents(abs(root.numerator), self.base), exponents(root.denominator, self.base))]
            if back:
                up = [-e for e in up]
            front = (degree, int(root < 0), *(max(e, 0) for e in up), *(max(-e, 0) for e in up))
            p = plus(p, {front + e: c * (-1) ** (degree if back else 0) for e, c in q.items()})
        return p

    def at(self, p, turns):
        """A polynomial in n, s, u, v and the variables at a number of turns."""
        powers = [Q(turns), Q(-1) ** turns, *(Q(b) ** turns for b in self.base), *(Q(b) ** -turns for b in self.base)]
        return composed(p, [constant(self.m, c) for c in powers] + [variable(self.m, i) for i in range(self.m)], self.m)

    def one_before(self, i):
        """The variable's polynomial backward at one turn."""
        return self.at(self.backward[i], 1)


def form_of(images, m):
    """The closed form of a branch; None where it has none."""
    found = late_form(images, m)
    return found and Form(images, m, *found)


# ---- printed polynomials


def grevlex(e):
    return (sum(e), [-k for k in reversed(e)])


def printed(p, names):
    if not p:
        return "0"
    out = ""
    for e in sorted(p, key=grevlex, reverse=True):
        c = p[e]
        factors = [name if k == 1 else f"{name}^{k}" for name, k in zip(names, e) if k]
        size = abs(c)
        if size != 1 or not factors:
            factors.insert(0, str(size))
        sign = ("-" if c < 0 else "") if not out else (" - " if c < 0 else " + ")
        out += sign + "*".join(factors)
    return out
