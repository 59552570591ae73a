#!/usr/bin/env python3
"""The bases of loops beside Singular: the same bases found in another way, and the times of the same computation.

Usage: bench/loops.py rows [LOOPS]     writes a row of crates/acceptance/data/loops.txt for each loop of the file LOOPS
       bench/loops.py compare [LOOPS]  compares the bases with what the program answers
       bench/loops.py times [LOOPS]    times the program beside Singular, and fails where a basis is another

(after .ci/run, or `rt run` in crates/invar and crates/acceptance, has built the programs; needs Singular, Debian package `singular`, and sympy.)
LOOPS is bench/loops.txt, if it isn't given: a name and a loop's text a line, with a tab between. Closed forms are found by bench/loop_forms.py.

For `rows` and `compare` nothing is done as the program does it. What is reached after any number of turns is found forward, by the ideal of
y = form(n, x) with the list for x, without n, x and the powers; powers are told by primes. Of a branch that begins late each number of turns
before that is looked at by itself, in the same way.

For `times` Singular does what the program does, in one process and with the closed forms given to it: each element with the form backward for the
variables, s s - 1 and u v - 1 over the same coprime base, `std` in an order by blocks, `intersect`, `std`, and `reduce` at the end of a round.
Two times of each are taken, as processor time with the system's: the computation alone, by Singular's own clock for many in one process, and by
`acceptance` on many equal rows, with the reading of the row, the closed forms and the printing; and the whole process, from start to end.
"""
import math
import os
import pathlib
import subprocess
import sys
import tempfile
from fractions import Fraction as Q

import sympy

from loop_forms import (
    ACCEPTANCE, LOOPS, TOP, Reader, answers_of, composed, form_of, grevlex, late_form, loops_in, plus, printed, rows_of, scaled, variable,
)

PROGRAM = pathlib.Path(os.environ.get("INVAR") or TOP / "crates/invar/out/invar").resolve()
SECONDS = 0.3
PROCESSES = 20
GOAL_MEAN, GOAL_MOST = 1, 5


# ---- what Singular is given


def singular_poly(p, names):
    if not p:
        return "0"
    terms = []
    for e, c in p.items():
        factors = [f"({c.numerator}/{c.denominator})"]
        factors += [f"{name}^{k}" for name, k in zip(names, e) if k]
        terms.append("*".join(factors))
    return "+".join(terms)


def list_text(polys, names):
    return ",".join(singular_poly(p, names) for p in polys) or "0"


def primes_of(form):
    found = set()
    for variable_ in form:
        for root, _, _ in variable_:
            found |= set(sympy.factorint(abs(root.numerator))) | set(sympy.factorint(root.denominator))
    return sorted(found)


def power_text(root, primes):
    factors = ["S"] if root < 0 else []
    up, down = sympy.factorint(abs(root.numerator)), sympy.factorint(root.denominator)
    for i, p in enumerate(primes):
        if p in up:
            factors.append(f"U({i + 1})^{up[p]}")
        if p in down:
            factors.append(f"V({i + 1})^{down[p]}")
    return factors


def front_text(r):
    return "N,S" + (f",U(1..{r}),V(1..{r})" if r else "")


def relations(r):
    return "S^2-1" + "".join(f",U({i + 1})*V({i + 1})-1" for i in range(r))


HEAD = "option(redSB); option(noredefine);"
TAIL = '"rounds", k; for (i = 1; i <= size(G); i++) { "element", string(G[i]); } "end";'


def form_texts(parts, xs):
    """The primes of a form and, for each variable, what it is after n turns."""
    primes = primes_of(parts)
    texts = []
    for found in parts:
        texts.append("+".join("*".join([f"N^{n}"] + power_text(root, primes) + [f"({singular_poly(p, xs)})"]) for root, n, p in found) or "0")
    return primes, texts


def images_after(images, turns, m):
    """The map of so many turns."""
    state = [variable(m, i) for i in range(m)]
    for _ in range(turns):
        state = [composed(p, state, m) for p in images]
    return state


def singular_forward(names, starts, maps, forms):
    """The bases found forward; a form is that of `late_form`, and each number of turns before it begins is looked at by itself."""
    m = len(names)
    xs = [f"x({i + 1})" for i in range(m)]
    ys = [f"y({i + 1})" for i in range(m)]
    lines = [HEAD, f"ring R = 0,(x(1..{m})),dp; short = 0;"]
    lines.append(f'ideal G = {list_text(starts, xs)}; G = simplify(std(G), 3); attrib(G, "isSB", 1);')
    for b, images in enumerate(maps):
        lines.append(f"map M{b} = R,{list_text(images, xs)};")
    lines += ["int k = 0; int closed = 0; int i; ideal A, H, T;", "while (closed == 0) {", "  closed = 1;"]
    for b in range(len(maps)):
        lines.append(f"  T = M{b}(G); T = reduce(T, G); if (size(T) > 0) {{ closed = 0; }}")
    lines += ["  if (closed == 0) {", "    k = k + 1;"]
    for b, (images, (since, parts)) in enumerate(zip(maps, forms)):
        turns = [images_after(images, n, m) for n in range(since)]
        pieces = [([], [singular_poly(p, xs) for p in turn]) for turn in turns] + [form_texts(parts, xs)]
        for j, (primes, texts) in enumerate(pieces):
            r = len(primes)
            width = 2 + 2 * r + m
            lines.append(f"    ring E = 0,({front_text(r)},x(1..{m}),y(1..{m})),(dp({width}),dp({m}));")
            lines.append(f"    ideal J = imap(R, G),{relations(r)}")
            lines += [f"      , {y}-({text})" for y, text in zip(ys, texts)]
            eliminated = "*".join(["N", "S"] + [f"U({i + 1})*V({i + 1})" for i in range(r)] + xs)
            lines.append(f"    ; J = eliminate(J, {eliminated});")
            lines.append(f"    ring P = 0,({front_text(r)},x(1..{m}),z(1..{m})),dp; map C = E," + ",".join(["0"] * width + xs) + "; ideal K = C(J);")
            lines.append("    setring R; H = imap(P, K); H = std(H);")
            lines.append("    A = H;" if b == j == 0 else "    A = intersect(A, H); A = std(A);")
            lines.append("    kill E, P;")
    lines += ['    G = simplify(std(A), 3); attrib(G, "isSB", 1);', "  }", "}", TAIL]
    return "\n".join(lines) + "\n"


FIRST_SUM = "proc first_sum(intvec v, int w) { int t; int j; for (j = 1; j <= w; j++) { t = t + v[j]; } return (t); }"


def elimination(m, hidden):
    """What is set up once, and what is done each time, to eliminate the variables at these places from the ideal G."""
    order = hidden + [i for i in range(m) if i not in hidden]
    h, s = len(hidden), m - len(hidden)
    blocks = f"(dp({h}),dp({s}))" if h else "dp"
    there = ",".join(f"w({order.index(i) + 1})" for i in range(m))
    back = ",".join(["0"] * h + [f"x({i + 1})" for i in range(s)])
    once = [f"ring W = 0,(w(1..{m})),{blocks}; short = 0; map P = R,{there}; ideal L; ideal LK; setring R; map Z = W,{back};"]
    each = ["setring W; L = P(G); L = std(L); LK = 0;"]
    each.append(f"for (i = 1; i <= size(L); i++) {{ if (first_sum(leadexp(L[i]), {h}) == 0) {{ LK = LK, L[i]; }} }}")
    each.append("LK = simplify(LK, 2); setring R;")
    return once, each


def kept(b, ring, k, to):
    """Of the completed list of a branch in a ring, what has none of the first k variables."""
    return [
        f"    {ring}J{b} = std({ring}J{b}); {ring}K{b} = 0;",
        f"    for (i = 1; i <= size({ring}J{b}); i++) {{ if (first_sum(leadexp({ring}J{b}[i]), {k}) == 0) {{ {ring}K{b} = {ring}K{b}, {ring}J{b}[i]; }} }}",
        f"    setring R; {to} = imap({ring}{b}, {ring}K{b}); {to} = simplify({to}, 2);",
    ]


def less_images(images, was, width):
    """Each variable, the last ones of so many, less its image of what was."""
    m = len(images)
    return [plus(variable(width, width - m + i), scaled(composed(p, was, width), -1)) for i, p in enumerate(images)]


def orbit_rings(b, images, form, xs):
    """The ring of a branch's orbit, and where it begins later that of one turn, with what is done once: E and T, the maps F and B, the lists Q and D."""
    m, r = len(xs), len(form.base)
    copies = [i for i, passes in enumerate(form.passes) if passes]
    k = len(copies)
    cs = [f"c({place + 1})" for place in range(k)]
    front = ["N", "S"] + [f"{letter}({i + 1})" for letter in "UV" for i in range(r)]
    names, width = front + cs + xs, len(front) + k + m
    was = [{e[:len(front)] + (0,) * k + e[len(front):]: c for e, c in p.items()} for p in form.backward]
    before = [{(0,) * k + e: c for e, c in form.one_before(i).items()} for i in range(m)]
    for place, i in enumerate(copies):
        was[i], before[i] = variable(width, len(front) + place), variable(k + m, place)
    cs_text = f",c(1..{k})" if k else ""
    lines = [f"ring E{b} = 0,({front_text(r)}{cs_text},x(1..{m})),(dp({len(front) + k}),dp({m})); short = 0;"]
    lines.append(f"map F{b} = R,{list_text(was, names)}; ideal EJ{b}; ideal EK{b};")
    differences = less_images(form.forward, [variable(width, i) for i in range(len(front))] + was, width) if k else []
    lines.append(f"ideal Q{b} = {list_text(differences, names)},{relations(r)}; setring R;")
    if form.since > 1:
        lines.append(f"ring T{b} = 0,(c(1..{k}),x(1..{m})),(dp({k}),dp({m})); short = 0;")
        lines.append(f"map B{b} = R,{list_text(before, cs + xs)}; ideal TJ{b}; ideal TK{b};")
        lines.append(f"ideal D{b} = {list_text(less_images(images, before, k + m), cs + xs)}; setring R;")
    return lines, len(front) + k, k


def singular_backward(names, starts, maps, forms, count, hidden=None):
    """The program's computation, done so many times over and timed by Singular's own clock; with places that are hidden, these are eliminated behind it."""
    m = len(names)
    once, each = ([], []) if hidden is None else elimination(m, hidden)
    xs = [f"x({i + 1})" for i in range(m)]
    lines = [FIRST_SUM, HEAD, f"ring R = 0,(x(1..{m})),dp; short = 0;", f"ideal I0 = {list_text(starts, xs)};"]
    fronts = []
    for b, (images, form) in enumerate(zip(maps, forms)):
        lines.append(f"map M{b} = R,{list_text(images, xs)};")
        rings, *front = orbit_rings(b, images, form, xs)
        lines += rings
        fronts.append(front)
    lines += once
    lines.append('system("--ticks-per-sec", 1000000); int k; int closed; int i; int turn; ideal A, H, T, G, Y; int begin = timer;')
    lines.append(f"for (turn = 1; turn <= {count}; turn++) {{")
    lines.append('k = 0; closed = 0; G = simplify(std(I0), 3); attrib(G, "isSB", 1);')
    lines += ["while (closed == 0) {", "  closed = 1;"]
    for b in range(len(maps)):
        lines.append(f"  if (closed) {{ T = M{b}(G); T = reduce(T, G); if (size(T) > 0) {{ closed = 0; }} }}")
    lines += ["  if (closed == 0) {", "    k = k + 1;"]
    for b, (form, (front, k)) in enumerate(zip(forms, fronts)):
        if form.since and b == 0:
            lines.append("    A = G;")
        for turn in range(1, form.since):
            lines.append(f"    {'Y = G; ' if turn == 1 else ''}setring T{b}; TJ{b} = B{b}(Y), D{b};")
            lines += kept(b, "T", k, "Y")
            lines.append("    A = intersect(A, Y);")
        lines.append(f"    setring E{b}; EJ{b} = F{b}(G), Q{b};")
        lines += kept(b, "E", front, "H")
        lines.append("    A = H;" if b == form.since == 0 else "    A = intersect(A, H);")
    lines += ['    G = simplify(std(A), 3); attrib(G, "isSB", 1);', "  }", "}", *each, "}", '"ticks", timer - begin;']
    lines += ([] if hidden is None else ["G = Z(LK);"]) + [TAIL]
    return "\n".join(lines) + "\n"


# ---- what Singular says


def read_singular(text, m):
    p = {}
    for term in filter(None, text.replace("-", "+-").split("+")):
        c, e = Q(1), [0] * m
        if term.startswith("-"):
            c, term = -c, term[1:]
        for factor in term.split("*"):
            if factor.startswith("x("):
                name, _, k = factor.partition("^")
                e[int(name[2:-1]) - 1] += int(k or 1)
            else:
                c *= Q(factor)
        p[tuple(e)] = p.get(tuple(e), 0) + c
    return p


def basis_text(names, said):
    """The basis as the program prints it, its lines joined by `; `."""
    monic = []
    for line in said.splitlines():
        p = read_singular(line[8:].strip(), len(names)) if line.startswith("element") else {}
        if p := {e: c for e, c in p.items() if c}:
            lead = max(p, key=grevlex)
            monic.append((grevlex(lead), printed(scaled(p, 1 / p[lead]), names) + " = 0"))
    return "; ".join(text for _, text in sorted(monic)) or "none"


def number_of(word, said):
    return next(int(line.split()[1]) for line in said.splitlines() if line.startswith(word))


class Spent:
    """What one process took, from start to end, and what it said."""

    def __init__(self, words, given=""):
        with tempfile.TemporaryFile("w+") as to, tempfile.TemporaryFile("w+") as said:
            to.write(given)
            to.seek(0)
            child = subprocess.Popen(words, stdin=to, stdout=said, stderr=subprocess.DEVNULL)
            _, code, usage = os.wait4(child.pid, 0)
            child.returncode = self.status = os.waitstatus_to_exitcode(code)
            self.seconds = usage.ru_utime + usage.ru_stime
            said.seek(0)
            self.said = said.read()


def singular(program):
    spent = Spent(["Singular", "-q"], program + "quit;\n")
    assert "end" in spent.said and "error" not in spent.said, spent.said
    return spent


def basis_of(text):
    """The basis and its rounds, found forward; None where there is no closed form."""
    names, starts, maps = Reader(text).loop()
    forms = [late_form(images, len(names)) for images in maps]
    if None in forms:
        return None
    said = singular(singular_forward(names, starts, maps, forms)).said
    return basis_text(names, said), number_of("rounds", said)


# ---- times


class Singulars:
    """Singular's times of one loop, and its basis; with places that are hidden, that over the names shown."""

    def __init__(self, names, starts, maps, forms, hidden=None, shown=None):
        self.process = min(singular(singular_backward(names, starts, maps, forms, 1, hidden)).seconds for _ in range(3))
        for count in (1, 10, 100, 1000, 10000):
            said = singular(singular_backward(names, starts, maps, forms, count, hidden)).said
            ticks = number_of("ticks", said)
            if ticks > SECONDS * 1000000:
                break
        self.seconds = ticks / 1000000 / count
        self.basis, self.rounds = basis_text(shown or names, said), number_of("rounds", said)


class Programs:
    """The program's times of one loop, and its answer."""

    command = "basis"

    def __init__(self, text):
        with tempfile.NamedTemporaryFile("w", suffix=".loop") as file:
            file.write(text)
            file.flush()
            runs = [Spent([PROGRAM, self.command, file.name]) for _ in range(PROCESSES)]
        self.process = min(run.seconds for run in runs)
        self.status, self.answer = runs[0].status, "; ".join(runs[0].said.splitlines())
        once, count = self.of_rows(text, 1), 1
        while True:
            count *= 10
            many = self.of_rows(text, count)
            if many > SECONDS or count == 10000:
                break
        self.seconds = max(many - once, 0) / (count - 1)

    @staticmethod
    def of_rows(text, count):
        with tempfile.NamedTemporaryFile("w", suffix=".txt") as rows:
            rows.write(rows_of([text] * count, 200000))
            rows.flush()
            return Spent([ACCEPTANCE, "print", rows.name]).seconds


def mean(ratios):
    return math.exp(sum(map(math.log, ratios)) / len(ratios))


def told(what, ratios):
    missed = [] if mean(ratios) <= GOAL_MEAN else [f"mean above {GOAL_MEAN}"]
    above = sum(ratio > GOAL_MOST for ratio in ratios)
    missed += [f"{above} above {GOAL_MOST}"] if above else []
    print(f"    {what}: geometric mean {mean(ratios):.2f}, most {max(ratios):.2f}", *(f"MISSED: {text}" for text in missed))


def times_of(loops):
    good, by_heading = True, {}
    print("| Loop | Rounds | Program, computation | Singular, computation | Ratio | Program, process | Singular, process | Ratio |")
    print("|---|---|---|---|---|---|---|---|", flush=True)
    for loop in loops:
        names, starts, maps = Reader(loop.text).loop()
        forms = [form_of(images, len(names)) for images in maps]
        if None in forms:
            print(f"{loop.name}: no closed form", flush=True)
            continue
        mine = Programs(loop.text)
        if mine.status != 0:
            print(f"{loop.name}: {mine.answer}", flush=True)
            continue
        theirs = Singulars(names, starts, maps, forms)
        if mine.answer != theirs.basis:
            good = False
            print(f"{loop.name}: DIFFERENT\n    program {mine.answer}\n    Singular {theirs.basis}")
        ratios = mine.seconds / theirs.seconds, mine.process / theirs.process, mine.process / theirs.seconds
        by_heading.setdefault(loop.heading, []).append(ratios)
        print(f"| {loop.name} | {theirs.rounds} | {mine.seconds * 1000:.3f} ms | {theirs.seconds * 1000:.3f} ms | {ratios[0]:.2f} "
              f"| {mine.process * 1000:.1f} ms | {theirs.process * 1000:.0f} ms | {ratios[1]:.3f} |", flush=True)
    by_heading["All"] = [ratios for group in by_heading.values() for ratios in group]
    for heading, group in by_heading.items():
        print(f"{heading}: {len(group)} loops, bases {'equal' if good else 'DIFFERENT'}")
        for what, ratios in zip(("computation to computation", "process to process", "program's process to Singular's computation"), zip(*group)):
            told(what, ratios)
    sys.exit(0 if good else 1)


# ---- rows


def rows(loops):
    for loop in loops:
        found = basis_of(loop.text)
        print(f"basis\t200000\t{loop.text}\t0 {found[0]}" if found else f"# {loop.name}: no closed form", flush=True)


def compare(loops):
    differ = skipped = 0
    for loop, (_, mine) in zip(loops, answers_of([loop.text for loop in loops])):
        found = basis_of(loop.text)
        if found is None:
            skipped += 1
        elif mine != "0 " + found[0]:
            differ += 1
            print(f"{loop.name}: {loop.text}\n   here {found[0]}\n   program {mine}", flush=True)
    print(f"{len(loops) - differ - skipped} loops agree, {differ} differ, {skipped} have no closed form")
    sys.exit(1 if differ else 0)


def main():
    loops = loops_in(sys.argv[2] if len(sys.argv) > 2 else LOOPS)
    {"rows": rows, "compare": compare, "times": times_of}[sys.argv[1]](loops)


if __name__ == "__main__":
    main()
