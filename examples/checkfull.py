#!/usr/bin/env python3
"""Judges a full certificate without invar.

Usage: examples/checkfull.py LOOP CERT

It stands on docs/LANGUAGE.md and docs/FORMATS.md alone, takes no line of the program, and needs nothing but Python. It prints what `invar
checkfull` prints, with the same status: `complete` (0) where the listed polynomials generate all invariants of the loop, else the first
part that doesn't hold (1), or why the file is no full certificate of this loop (3). Numbers may have any size, so nothing is too wide here.
LOOP is taken to be a loop without faults.

Polynomials are dictionaries from exponents to numbers other than 0, which are whole where they can be and else fractions.
"""
import itertools
import json
import math
import operator
import re
import sys
from fractions import Fraction

MOST, MOST_EXPONENT, MOST_BASES = 2**127 - 1, 65_535, 1_024


def number(over, under=1):
    value = Fraction(over, under)
    return value.numerator if value.denominator == 1 else value


# ---- polynomials


def constant(value, width):
    return {(0,) * width: value} if value else {}


def variable(place, width):
    return {tuple(int(i == place) for i in range(width)): 1}


def combination(cofactors, elements):
    """The sum of the products of the cofactors with the elements."""
    total = {}
    for p, q in zip(cofactors, elements, strict=True):
        for d, a in p.items():
            for e, b in q.items():
                exponents = tuple(map(operator.add, d, e))
                total[exponents] = total.get(exponents, 0) + a * b
    return {e: a for e, a in total.items() if a}


def less(p, q, width):
    return combination([constant(1, width), constant(-1, width)], [p, q])


def composed(p, values, width):
    """The polynomial with the values put for its variables."""
    powers = [[constant(1, width)] for _ in values]
    terms = []
    for exponents, a in p.items():
        product = constant(a, width)
        for known, value, e in zip(powers, values, exponents, strict=True):
            while len(known) <= e:
                known.append(combination([known[-1]], [value]))
            product = combination([product], [known[e]])
        terms.append(product)
    return combination([constant(1, width)] * len(terms), terms)


def graded(exponents):
    """By degree, and then reverse lexicographically."""
    return sum(exponents), tuple(-e for e in reversed(exponents))


def order_of(front):
    """The order that compares so many variables in front first."""
    return lambda e: (graded(e[:front]), graded(e[front:]))


def moved(p, d):
    return {tuple(map(operator.add, d, e)): a for e, a in p.items()}


def is_free(p, front):
    return not any(any(e[:front]) for e in p)


# ---- loops


class Loop:
    """The names of the variables, the values at the start, the places that `init` sets, and the values after each branch."""

    def __init__(self, text):
        text = re.sub(r"\bwhen\b[^{]*", "", re.sub(r"#[^\n]*", "", text))
        self.tokens = re.findall(r"[A-Za-z]\w*|\d+|\S", text, re.ASCII) + [""]
        self.names = self.listed()
        self.width = len(self.names)
        if self.tokens[0] == "locals":
            self.listed()
        self.state = dict(zip(self.names, (variable(i, self.width) for i in range(self.width))))
        equations, before = {}, self.state
        if self.tokens[0] == "init":
            while self.taken() != ";":
                name, _ = self.taken(), self.taken()
                equations[name] = self.sum()
        self.start = [equations.get(name, before[name]) for name in self.names]
        self.places = [i for i, name in enumerate(self.names) if name in equations]
        self.images = []
        while self.tokens[0] == "branch":
            self.tokens[:2], self.state = [], dict(before)
            while self.tokens[0] != "}":
                self.statement()
            self.taken()
            self.images.append([self.state[name] for name in self.names])

    def taken(self):
        return self.tokens.pop(0)

    def listed(self):
        names = []
        while self.taken() != ";":
            names.append(self.taken())
        return names

    def statement(self):
        names, values = [], []
        while (token := self.taken()) != "=":
            names += [token] if token not in "(,)" else []
        if len(names) == 1:
            values.append(self.sum())
        else:
            while self.taken() != ")":
                values.append(self.sum())
        self.taken()
        self.state.update(zip(names, values))

    def sum(self):
        value = self.product()
        while self.tokens[0] in ("+", "-"):
            sign = 1 if self.taken() == "+" else -1
            value = combination([constant(1, self.width), constant(sign, self.width)], [value, self.product()])
        return value

    def product(self):
        value = self.factor()
        while self.tokens[0] in ("*", "/"):
            by = self.factor() if self.taken() == "*" else constant(number(1, int(self.taken())), self.width)
            value = combination([value], [by])
        return value

    def factor(self):
        token = self.taken()
        if token == "-":
            return combination([constant(-1, self.width)], [self.factor()])
        if token == "(":
            value = self.sum()
            self.taken()
        else:
            value = constant(int(token), self.width) if token.isdigit() else self.state[token]
        if self.tokens[0] != "^":
            return value
        self.taken()
        return combination([constant(1, self.width)], [composed({(int(self.taken()),): 1}, [value], self.width)])


# ---- reading, in the order of the format


class Answer(Exception):
    """What is told of a certificate, and the status."""


def shape(holds, path):
    if not holds:
        raise Answer(f"certificate: shape at {path}", 3)


def whole(text):
    return -0.0 if text == "-0" else int(text)


def finite(text):
    if math.isinf(value := float(text)):
        raise ValueError(text)
    return value


def no_number(text):
    raise ValueError(text)


def polynomial(width):
    """The reader of a polynomial in so many variables."""

    def is_term(term):
        if not (isinstance(term, list) and len(term) == 2 and isinstance(term[0], str) and isinstance(term[1], list)):
            return False
        return re.fullmatch(r"-?[0-9]+(/[0-9]+)?", term[0]) and all(type(e) in (int, float) for e in term[1])

    def read(value, path):
        shape(isinstance(value, list) and all(map(is_term, value)), path)
        p = {}
        for text, exponents in value:
            digits = [int(part) for part in re.findall("[0-9]+", text)]
            fits = all(0 < part <= MOST for part in digits) and len(exponents) == width
            if not fits or any(type(e) is float or not 0 <= e <= MOST_EXPONENT for e in exponents) or tuple(exponents) in p:
                raise Answer(f"certificate: polynomial at {path}", 3)
            p[tuple(exponents)] = number(*digits) * (-1 if text[0] == "-" else 1)
        return p

    return read


def base_number(value, path):
    shape(isinstance(value, str) and re.fullmatch("[0-9]+", value) and int(value) <= MOST, path)
    return int(value)


def listed(read, count=None, most=math.inf):
    """The reader of a list of what `read` reads."""

    def read_list(value, path):
        shape(isinstance(value, list) and count in (None, len(value)) and len(value) <= most, path)
        return [read(entry, f"{path}/{place}") for place, entry in enumerate(value)]

    return read_list


def member(value, name, path, read):
    return read(value.get(name), f"{path}/{name}")


def tagged(value, path):
    shape(isinstance(value, dict), path)
    return value


class Certificate:
    def __init__(self, loop, data):
        try:
            value = json.loads(data.decode(), parse_int=whole, parse_float=finite, parse_constant=no_number)
        except (ValueError, RecursionError):
            raise Answer("certificate: not json", 3) from None
        shape(isinstance(value, dict), "/")
        shape(type(value.get("version")) is int and value["version"] == 1, "/version")
        shape(value.get("kind") == "full", "/kind")
        shape(value.get("vars") == loop.names, "/vars")
        self.loop, branches, self.flat = loop, len(loop.images), polynomial(loop.width)
        self.basis = member(value, "basis", "", listed(self.flat))
        row = listed(self.flat, len(self.basis))
        self.steps = member(value, "steps", "", listed(listed(row, len(self.basis)), branches))
        self.forms = member(value, "forms", "", listed(self.form, branches))
        start = member(value, "start", "", tagged)
        self.out = member(start, "out", "/start", listed(self.flat))
        self.links = member(start, "links", "/start", listed(listed(self.flat, len(self.out)), len(loop.places)))
        self.last = len(self.out)
        self.rounds = member(value, "rounds", "", listed(self.round))

    def form(self, value, path):
        tagged(value, path)
        base = member(value, "base", path, listed(base_number, most=MOST_BASES))
        width = 2 + 2 * len(base) + self.loop.width
        return base, member(value, "polys", path, listed(polynomial(width), self.loop.width))

    def round(self, value, path):
        """The stages of each branch. `last` is the length of the last list before."""
        shape(isinstance(value, list) and len(value) == len(self.forms), path)
        before, branches = self.last, []
        for b, (entry, (base, _)) in enumerate(zip(value, self.forms)):
            here = f"{path}/{b}"
            tagged(entry, here)
            stages = [member(entry, "orbit", here, self.stage(2 + 2 * len(base), before + 1 + len(base)))]
            if b:
                stages.append(member(entry, "meet", here, self.stage(1, self.last + len(stages[0]["out"]))))
            self.last = len(stages[-1]["out"])
            branches.append(stages)
        return branches

    def stage(self, front, starting):
        def read(value, path):
            tagged(value, path)
            full = polynomial(front + self.loop.width)
            elements = member(value, "list", path, listed(full))
            row, count = listed(full, len(elements)), len(elements)
            gens = member(value, "gens", path, listed(row, starting))
            pairs = member(value, "pairs", path, listed(row, count * (count - 1) // 2))
            out = member(value, "out", path, listed(self.flat))
            free = sum(is_free(p, front) for p in elements)
            links = member(value, "links", path, listed(listed(self.flat, len(out)), free))
            return {"list": elements, "gens": gens, "pairs": pairs, "out": out, "links": links}

        return read


# ---- judging


def part(holds, path):
    if not holds:
        raise Answer(f"fails: {path}", 1)


def normal(p, bases):
    """With s s and each u v replaced by 1."""
    terms = {}
    for e, a in p.items():
        e = list(e)
        e[1] %= 2
        for u in range(2, 2 + bases):
            both = min(e[u], e[u + bases])
            e[u], e[u + bases] = e[u] - both, e[u + bases] - both
        terms[tuple(e)] = terms.get(tuple(e), 0) + a
    return {e: a for e, a in terms.items() if a}


def judge_form(loop, images, base, polys, path):
    part(base == sorted(base) and all(b > 1 for b in base), path)
    part(all(math.gcd(a, b) == 1 for a, b in itertools.combinations(base, 2)), path)
    part(all(normal(p, len(base)) == p for p in polys), path)
    width, front = loop.width + 2 + 2 * len(base), 2 + 2 * len(base)
    variables = [variable(i, width) for i in range(width)]
    first = [constant(int(i > 0), width) for i in range(front)] + variables[front:]
    part([composed(p, first, width) for p in polys] == variables[front:], path)
    factors = [-1, *base, *(number(1, b) for b in base)]
    after = [less(variables[0], constant(-1, width), width)]
    after += [combination([constant(a, width)], [x]) for a, x in zip(factors, variables[1:])] + variables[front:]
    values = [normal(composed(image, polys, width), len(base)) for image in images]
    part(values == [composed(p, after, width) for p in polys], path)


def orbit_start(before, base, polys, width):
    """The list before the round with the form backward for the variables, and the relations of s, u and v."""
    bases, x = len(base), [variable(i, width) for i in range(width)]
    us, vs = x[2 : 2 + bases], x[2 + bases : 2 + 2 * bases]
    turned = [combination([constant(-1, width)], [x[0]]), x[1], *vs, *us, *x[2 + 2 * bases :]]
    back = [composed(p, turned, width) for p in polys]
    starting = [normal(composed(p, back, width), bases) for p in before]
    return starting + [less(combination([y], [z]), constant(1, width), width) for y, z in zip([x[1], *us], [x[1], *vs])]


def meet_start(so_far, out):
    """t times the one list, and 1 - t times the other."""
    with_t = [{(1, *e): a for e, a in p.items()} for p in so_far]
    return with_t + [{(0, *e): a for e, a in p.items()} | {(1, *e): -a for e, a in p.items()} for p in out]


def judge_stage(stage, starting, front, path):
    elements, order = stage["list"], order_of(front)
    for i, p in enumerate(elements):
        part(p and p[max(p, key=order)] == 1, f"{path}/list/{i}")
    for i, (p, row) in enumerate(zip(starting, stage["gens"], strict=True)):
        part(combination(row, elements) == p, f"{path}/gens/{i}")
    leads = [max(p, key=order) for p in elements]
    for i, ((a, b), row) in enumerate(zip(itertools.combinations(range(len(elements)), 2), stage["pairs"], strict=True)):
        both = tuple(map(max, leads[a], leads[b]))
        up = [moved(elements[c], tuple(map(operator.sub, both, leads[c]))) for c in (a, b)]
        part(combination(row, elements) == less(*up, len(both)), f"{path}/pairs/{i}")
        tops = [tuple(map(operator.add, max(c, key=order), d)) for c, d in zip(row, leads) if c]
        part(all(order(e) < order(both) for e in tops), f"{path}/pairs/{i}")
    free = [{e[front:]: a for e, a in p.items()} for p in elements if is_free(p, front)]
    for i, (p, row) in enumerate(zip(free, stage["links"], strict=True)):
        part(combination(row, stage["out"]) == p, f"{path}/links/{i}")
    return stage["out"]


def judge(loop, cert):
    for e, p in enumerate(cert.basis):
        part(not composed(p, loop.start, loop.width), f"/basis/{e}")
    for b, images in enumerate(loop.images):
        for e, p in enumerate(cert.basis):
            part(composed(p, images, loop.width) == combination(cert.steps[b][e], cert.basis), f"/steps/{b}/{e}")
    for b, images in enumerate(loop.images):
        judge_form(loop, images, *cert.forms[b], f"/forms/{b}")
    for i, place in enumerate(loop.places):
        equation = less(variable(place, loop.width), loop.start[place], loop.width)
        part(equation == combination(cert.links[i], cert.out), f"/start/links/{i}")
    so_far = cert.out
    for r, stages in enumerate(cert.rounds):
        before = so_far
        for b, (base, polys) in enumerate(cert.forms):
            path, front = f"/rounds/{r}/{b}", 2 + 2 * len(base)
            starting = orbit_start(before, base, polys, front + loop.width)
            out = judge_stage(stages[b][0], starting, front, f"{path}/orbit")
            so_far = judge_stage(stages[b][1], meet_start(so_far, out), 1, f"{path}/meet") if b else out
    part(so_far == cert.basis, "/basis")
    raise Answer("complete", 0)


def main():
    with open(sys.argv[1]) as text, open(sys.argv[2], "rb") as data:
        loop = Loop(text.read())
        try:
            judge(loop, Certificate(loop, data.read()))
        except Answer as answer:
            said, status = answer.args
    print(said)
    sys.exit(status)


if __name__ == "__main__":
    main()
