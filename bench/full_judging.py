"""Full certificates read and judged by the rules of docs/FORMATS.md, for bench/full_certificates.py, over Python's own fractions."""
import json
import math
from fractions import Fraction as Q
from itertools import combinations

import loop_forms as forms
from full_making import blocks, is_free, lead, meet_start, normal, orbit_start, s_polynomial, stepped

MOST = 2**127 - 1
MOST_BYTES = 16_777_216
MOST_BASES = 1024
MOST_EXPONENT = 65_535


# ---- certificates read


class Fault(Exception):
    """What is told of a certificate that isn't one."""


class NoWhole:
    """A number of JSON that isn't whole, or is written with a sign before 0."""


def shape(path):
    return Fault(f"certificate: shape at {path}")


def polynomial(path):
    return Fault(f"certificate: polynomial at {path}")


def whole_number(text):
    return NoWhole() if text == "-0" else int(text)


def other_number(text):
    if abs(float(text)) == float("inf"):
        raise ValueError(text)
    return NoWhole()


def no_constant(text):
    raise ValueError(text)


def document(data):
    try:
        return json.loads(data.decode(), parse_int=whole_number, parse_float=other_number, parse_constant=no_constant)
    except (ValueError, RecursionError):
        raise Fault("certificate: not json") from None


def is_whole(value):
    return isinstance(value, int) and not isinstance(value, bool)


def is_number(value):
    return is_whole(value) or isinstance(value, NoWhole)


def is_number_text(text):
    if not isinstance(text, str):
        return False
    up, slash, down = text.removeprefix("-").partition("/")
    digits = lambda s: s != "" and all(c in "0123456789" for c in s)
    return digits(up) and (not slash or digits(down))


def member(value, name):
    return value.get(name) if isinstance(value, dict) else None


class Reader:
    """Reads a full certificate of a loop with these names, so many equations of `init` and branches, in the order of docs/FORMATS.md."""

    def __init__(self, names, equations, branches):
        self.names, self.equations, self.branches = names, equations, branches
        self.m = len(names)

    def raw(self, path, value, m):
        form = lambda t: isinstance(t, list) and len(t) == 2 and is_number_text(t[0]) and isinstance(t[1], list) and all(map(is_number, t[1]))
        if not isinstance(value, list) or not all(map(form, value)):
            raise shape(path)
        p = {}
        for text, exponents in value:
            sign = -1 if text.startswith("-") else 1
            up, _, down = text.removeprefix("-").partition("/")
            up, down = int(up), int(down or "1")
            whole = all(is_whole(e) and 0 <= e <= MOST_EXPONENT for e in exponents)
            if not 0 < up <= MOST or not 0 < down <= MOST or not whole or len(exponents) != m or tuple(exponents) in p:
                raise polynomial(path)
            p[tuple(exponents)] = sign * Q(up, down)
        return p

    def items(self, path, value, count, one):
        if not isinstance(value, list) or count is not None and len(value) != count:
            raise shape(path)
        return [one(f"{path}/{i}", v) for i, v in enumerate(value)]

    def row(self, path, value, count, m):
        return self.items(path, value, count, lambda p, v: self.raw(p, v, m))

    def table(self, path, value, rows, count, m):
        return self.items(path, value, rows, lambda p, v: self.row(p, v, count, m))

    def object(self, path, value):
        if not isinstance(value, dict):
            raise shape(path)

    def base_number(self, path, value):
        if not isinstance(value, str) or not is_number_text(value) or "-" in value or "/" in value or int(value) > MOST:
            raise shape(path)
        return int(value)

    def form(self, path, value):
        self.object(path, value)
        base = member(value, "base")
        if not isinstance(base, list) or len(base) > MOST_BASES:
            raise shape(f"{path}/base")
        base = self.items(f"{path}/base", base, None, self.base_number)
        return base, self.row(f"{path}/polys", member(value, "polys"), self.m, 2 + 2 * len(base) + self.m)

    def stage(self, path, value, front, gens):
        self.object(path, value)
        width = front + self.m
        s = {"list": self.row(f"{path}/list", member(value, "list"), None, width)}
        n = len(s["list"])
        s["gens"] = self.table(f"{path}/gens", member(value, "gens"), gens, n, width)
        s["pairs"] = self.table(f"{path}/pairs", member(value, "pairs"), n * (n - 1) // 2, n, width)
        s["out"] = self.row(f"{path}/out", member(value, "out"), None, self.m)
        free = sum(is_free(p, front) for p in s["list"])
        s["links"] = self.table(f"{path}/links", member(value, "links"), free, len(s["out"]), self.m)
        return s

    def round(self, path, value):
        if not isinstance(value, list) or len(value) != self.branches:
            raise shape(path)
        row, so_far = [], None
        for b, v in enumerate(value):
            here = f"{path}/{b}"
            self.object(here, v)
            base, _ = self.forms[b]
            orbit = self.stage(f"{here}/orbit", member(v, "orbit"), 2 + 2 * len(base), self.before + 1 + len(base))
            branch = {"orbit": orbit}
            so_far = len(orbit["out"]) if b == 0 else so_far
            if b:
                branch["meet"] = self.stage(f"{here}/meet", member(v, "meet"), 1, so_far + len(orbit["out"]))
                so_far = len(branch["meet"]["out"])
            row.append(branch)
        self.before = so_far if row else self.before
        return row

    def full(self, data):
        value = document(data)
        if not isinstance(value, dict):
            raise shape("/")
        if not is_whole(member(value, "version")) or value["version"] != 1:
            raise shape("/version")
        if member(value, "kind") != "full":
            raise shape("/kind")
        if member(value, "vars") != self.names:
            raise shape("/vars")
        c = {"basis": self.row("/basis", member(value, "basis"), None, self.m)}
        n = len(c["basis"])
        c["steps"] = self.items("/steps", member(value, "steps"), self.branches, lambda p, v: self.table(p, v, n, n, self.m))
        c["forms"] = self.forms = self.items("/forms", member(value, "forms"), self.branches, self.form)
        start = member(value, "start")
        self.object("/start", start)
        out = self.row("/start/out", member(start, "out"), None, self.m)
        c["out"], c["links"] = out, self.table("/start/links", member(start, "links"), self.equations, len(out), self.m)
        self.before = len(out)
        c["rounds"] = self.items("/rounds", member(value, "rounds"), None, self.round)
        return c


# ---- certificates judged


def combination(cofactors, elements):
    total = {}
    for p, q in zip(cofactors, elements):
        total = forms.plus(total, forms.times(p, q))
    return total


def form_holds(base, polys, images, m):
    r = len(base)
    width = 2 + 2 * r + m
    if any(b <= 1 for b in base) or base != sorted(set(base)):
        return False
    if any(math.gcd(a, b) > 1 for a, b in combinations(base, 2)):
        return False
    if any(e[1] > 1 or any(e[2 + j] and e[2 + r + j] for j in range(r)) for p in polys for e in p):
        return False
    for i, p in enumerate(polys):
        at_start = {}
        for e, c in p.items():
            if e[0] == 0:
                at_start = forms.plus(at_start, {e[2 + 2 * r :]: c})
        if at_start != forms.variable(m, i):
            return False
    return all(normal(forms.composed(image, polys, width), r) == stepped(p, base) for image, p in zip(images, polys))


def stage_parts(path, s, gens, front):
    """Each part of a stage, with whether it holds."""
    key = blocks(front)
    for i, p in enumerate(s["list"]):
        yield f"{path}/list/{i}", p != {} and p[lead(p, key)] == 1
    for i, (p, row) in enumerate(zip(gens, s["gens"])):
        yield f"{path}/gens/{i}", p == combination(row, s["list"])
    for i, ((f, g), row) in enumerate(zip(combinations(s["list"], 2), s["pairs"])):
        wanted, both = s_polynomial(f, g, key)
        products = [forms.times(p, q) for p, q in zip(row, s["list"])]
        below = all(key(lead(p, key)) < key(both) for p in products if p)
        yield f"{path}/pairs/{i}", below and combination(row, s["list"]) == wanted
    free = [{e[front:]: c for e, c in p.items()} for p in s["list"] if is_free(p, front)]
    for i, (p, row) in enumerate(zip(free, s["links"])):
        yield f"{path}/links/{i}", p == combination(row, s["out"])


def parts(c, starts, maps, m):
    """Each part of a certificate in order, with whether it holds."""
    values = None
    for e, p in enumerate(c["basis"]):
        # the elements at the start: with the values of init for its variables
        if values is None:
            values = start_values(starts, m)
        yield f"/basis/{e}", forms.composed(p, values, m) == {}
    for b, images in enumerate(maps):
        for e, p in enumerate(c["basis"]):
            yield f"/steps/{b}/{e}", forms.composed(p, images, m) == combination(c["steps"][b][e], c["basis"])
    for b, images in enumerate(maps):
        yield f"/forms/{b}", form_holds(*c["forms"][b], images, m)
    for i, (p, row) in enumerate(zip(starts, c["links"])):
        yield f"/start/links/{i}", p == combination(row, c["out"])
    before = c["out"]
    for r, row in enumerate(c["rounds"]):
        for b, branch in enumerate(row):
            base, polys = c["forms"][b]
            here = f"/rounds/{r}/{b}"
            yield from stage_parts(f"{here}/orbit", branch["orbit"], orbit_start(before, base, polys, m), 2 + 2 * len(base))
            out = branch["orbit"]["out"]
            if b:
                yield from stage_parts(f"{here}/meet", branch["meet"], meet_start(so_far, out), 1)
            so_far = branch["meet"]["out"] if b else out
        before = so_far if row else before
    yield "/basis", before == c["basis"]


def start_values(starts, m):
    """The values of the variables at the start: those of init from its equations, the others themselves."""
    values = [forms.variable(m, i) for i in range(m)]
    for p in starts:
        i = next(i for i in range(m) if p.get(next(iter(forms.variable(m, i)))) == 1 and not any(e[i] for e in p if sum(e) != 1 or not e[i]))
        values[i] = forms.plus(forms.variable(m, i), forms.scaled(p, -1))
    return values


class Judge:
    def __init__(self, text):
        self.names, self.starts, self.maps = forms.Reader(text).loop()

    def read(self, data):
        return Reader(self.names, len(self.starts), len(self.maps)).full(data)

    def verdict(self, data):
        """What `checkfull` should answer, and the certificate, if it is one."""
        if len(data) > MOST_BYTES:
            return "certificate: too long", None
        try:
            c = self.read(data)
        except Fault as fault:
            return str(fault), None
        for path, holds in parts(c, self.starts, self.maps, len(self.names)):
            if not holds:
                return f"fails: {path}", c
        return "complete", c
