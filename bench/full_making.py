"""Full certificates made, for bench/full_certificates.py: closed forms from first states (bench/loop_forms.py), Groebner bases by S-polynomials
over Python's own fractions, and the cofactors of divisions. A polynomial is a dictionary from exponents to fractions."""
import json
from fractions import Fraction as Q
from itertools import combinations

import loop_forms as forms


# ---- orders, divisions, bases


def grevlex(e):
    return (sum(e), tuple(-i for i in reversed(e)))


def blocks(front):
    return lambda e: (grevlex(e[:front]), grevlex(e[front:]))


def lead(p, key):
    return max(p, key=key)


def monic(p, key):
    return forms.scaled(p, 1 / p[lead(p, key)])


def divides(d, e):
    return all(i <= j for i, j in zip(d, e))


def divided(p, elements, key):
    """The cofactors and the rest of a division."""
    leads = [lead(g, key) for g in elements]
    cofactors, rest, p = [{} for _ in elements], {}, dict(p)
    while p:
        e = lead(p, key)
        for g, d, cofactor in zip(elements, leads, cofactors):
            if divides(d, e):
                term = {tuple(i - j for i, j in zip(e, d)): p[e] / g[d]}
                cofactor.update(term)
                p = forms.plus(p, forms.scaled(forms.times(term, g), -1))
                break
        else:
            rest[e] = p.pop(e)
    return cofactors, rest


def multiple(d, e):
    return tuple(max(i, j) for i, j in zip(d, e))


def s_polynomial(f, g, key):
    d, e = lead(f, key), lead(g, key)
    both = multiple(d, e)
    up = lambda x: {tuple(i - j for i, j in zip(both, x)): Q(1)}
    return forms.plus(forms.times(up(d), monic(f, key)), forms.scaled(forms.times(up(e), monic(g, key)), -1)), both


def completed(gens, key):
    """A Groebner basis that begins with these polynomials."""
    elements = [monic(p, key) for p in gens if p]
    waiting = list(combinations(range(len(elements)), 2))
    while waiting:
        waiting.sort(key=lambda ij: key(multiple(lead(elements[ij[0]], key), lead(elements[ij[1]], key))))
        i, j = waiting.pop(0)
        d, e = lead(elements[i], key), lead(elements[j], key)
        if not any(min(a, b) for a, b in zip(d, e)):
            continue
        both = multiple(d, e)
        if any(
            k not in (i, j) and divides(lead(g, key), both) and all(tuple(sorted((k, x))) not in waiting for x in (i, j))
            for k, g in enumerate(elements)
        ):
            continue
        _, rest = divided(s_polynomial(elements[i], elements[j], key)[0], elements, key)
        if rest:
            waiting += [(k, len(elements)) for k in range(len(elements))]
            elements.append(monic(rest, key))
    return elements


def reduced(elements, key):
    """The reduced basis, from a Groebner basis."""
    least = []
    for g in sorted(elements, key=lambda g: key(lead(g, key))):
        if not any(divides(lead(h, key), lead(g, key)) for h in least):
            least.append(g)
    found = []
    for g in least:
        top = lead(g, key)
        _, rest = divided({e: c for e, c in g.items() if e != top}, least, key)
        found.append(monic(forms.plus({top: g[top]}, rest), key))
    return found


# ---- the forms of branches, forward, backward and normal


def normal(p, r):
    out = {}
    for e, c in p.items():
        e = list(e)
        e[1] %= 2
        for j in range(r):
            both = min(e[2 + j], e[2 + r + j])
            e[2 + j] -= both
            e[2 + r + j] -= both
        out[tuple(e)] = out.get(tuple(e), 0) + c
    return {e: c for e, c in out.items() if c}


def turned(p, r):
    """With -n for n, and u and v exchanged."""
    return {(e[0], e[1], *e[2 + r : 2 + 2 * r], *e[2 : 2 + r], *e[2 + 2 * r :]): c * (-1) ** e[0] for e, c in p.items()}


def stepped(p, base):
    """With n + 1 for n, -s for s, b u for u and v/b for v."""
    r = len(base)
    width = len(next(iter(p), ()))
    total = {}
    for e, c in p.items():
        c *= (-1) ** e[1]
        for j, b in enumerate(base):
            c *= Q(b) ** (e[2 + j] - e[2 + r + j])
        front = {(0, *e[1:]): c}
        n = forms.plus(forms.variable(width, 0), forms.constant(width, 1))
        total = forms.plus(total, forms.times(front, forms.power(n, e[0], width)))
    return total


def form_of(images, m):
    """A base, and the form forward; None where there is none."""
    parts = forms.closed_form(images, m)
    if parts is None:
        return None
    roots = {root for row in parts for root, _, _ in row}
    base = forms.coprime_base([n for root in roots for n in (abs(root.numerator), root.denominator)])
    polys = []
    for row in parts:
        p = {}
        for root, degree, q in row:
            up = [a - b for a, b in zip(forms.exponents(abs(root.numerator), base), forms.exponents(root.denominator, base))]
            front = (degree, int(root < 0), *(max(e, 0) for e in up), *(max(-e, 0) for e in up))
            p = forms.plus(p, {front + e: c for e, c in q.items()})
        polys.append(p)
    return base, polys


def orbit_start(before, base, polys, m):
    r = len(base)
    width = 2 + 2 * r + m
    back = [turned(p, r) for p in polys]
    gens = [normal(forms.composed(g, back, width), r) for g in before]
    for i, j in [(1, 1)] + [(2 + j, 2 + r + j) for j in range(r)]:
        gens.append(forms.plus(forms.times(forms.variable(width, i), forms.variable(width, j)), forms.constant(width, -1)))
    return gens


def meet_start(so_far, out):
    return [{(1, *e): c for e, c in p.items()} for p in so_far] + [forms.plus({(0, *e): c for e, c in p.items()}, {(1, *e): -c for e, c in p.items()}) for p in out]


def is_free(p, front):
    return all(not any(e[:front]) for e in p)


# ---- certificates made


def raw(p, key):
    return [[str(p[e]), list(e)] for e in sorted(p, key=key, reverse=True)]


def raws(row, key):
    return [raw(p, key) for p in row]


def stage(gens, front):
    key = blocks(front)
    elements = completed(gens, key)
    free = [{e[front:]: c for e, c in p.items()} for p in elements if is_free(p, front)]
    out = reduced(free, grevlex)
    pairs = [divided(s_polynomial(f, g, key)[0], elements, key)[0] for f, g in combinations(elements, 2)]
    made = {
        "list": raws(elements, key),
        "gens": [raws(divided(p, elements, key)[0], key) for p in gens],
        "pairs": [raws(row, key) for row in pairs],
        "out": raws(out, grevlex),
        "links": [raws(divided(p, out, grevlex)[0], grevlex) for p in free],
    }
    return made, out


def round_of(gs, branch_forms, m):
    """What a round has of each branch, and the list behind it."""
    row = []
    for b, (base, polys) in enumerate(branch_forms):
        orbit, out = stage(orbit_start(gs, base, polys, m), 2 + 2 * len(base))
        if b == 0:
            row.append({"orbit": orbit})
            so_far = out
        else:
            meet, so_far = stage(meet_start(so_far, out), 1)
            row.append({"orbit": orbit, "meet": meet})
    return row, so_far


def made(text, one_more=False):
    """A full certificate of the loop, and the polynomials of its basis; None where a branch has no closed form. With one round more, if it's asked for, which can be repeated."""
    names, starts, maps = forms.Reader(text).loop()
    m = len(names)
    branch_forms = [form_of(images, m) for images in maps]
    if None in branch_forms:
        return None
    gs = reduced(completed(starts, grevlex), grevlex)
    start = {"out": raws(gs, grevlex), "links": [raws(divided(p, gs, grevlex)[0], grevlex) for p in starts]}
    rounds = []
    while any(divided(forms.composed(g, images, m), gs, grevlex)[1] for g in gs for images in maps):
        row, gs = round_of(gs, branch_forms, m)
        rounds.append(row)
    if one_more:
        row, gs = round_of(gs, branch_forms, m)
        rounds.append(row)
    steps = [[raws(divided(forms.composed(g, images, m), gs, grevlex)[0], grevlex) for g in gs] for images in maps]
    certificate = {
        "version": 1,
        "kind": "full",
        "vars": names,
        "basis": raws(gs, grevlex),
        "steps": steps,
        "forms": [{"base": [str(b) for b in base], "polys": raws(polys, grevlex)} for base, polys in branch_forms],
        "start": start,
        "rounds": rounds,
    }
    return certificate, gs


def written(value):
    return json.dumps(value, sort_keys=True, separators=(",", ":")).encode()
