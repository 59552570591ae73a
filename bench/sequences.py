#!/usr/bin/env python3
"""The relations of sequences, found in another way: from their values alone.

Usage: bench/sequences.py rows [FILE..]      writes the reduced basis of the relations of each file, a row each
       bench/sequences.py times [LIST]       times the program beside Singular, and fails where a basis is another

(FILE..: examples/sequences/*.seqs, if none is given. LIST: bench/sequences.txt, if it isn't given; a name and a text a line, with a tab between. For
`times` .ci/run, or `rt run` in crates/invar and crates/acceptance, has built the programs; it needs Singular and sympy.)

It takes the values at the indices from 0 on, and goes through the monomials in ascending order: one whose values are a combination of those of smaller
ones is a lead, and its combination a relation; no multiple of a lead is looked at again (Buchberger and Moeller's way). It looks at monomials up to the
degree DEGREE, at as many indices as there are monomials and MORE, so it knows of nothing above.

For `times` Singular does what the program does, as in bench/loops.py, with the closed forms given to it; and then `std` in an order by blocks, of
whose elements those without the hidden variables are the basis.
"""
import itertools
import pathlib
import re
import sys
from fractions import Fraction as Q

TOP = pathlib.Path(__file__).resolve().parent.parent
DEGREE, MORE = 6, 40


class Reader:
    """Sums of a text of sequences, as values at a point."""

    def __init__(self, text):
        self.tokens = re.findall(r"[A-Za-z][A-Za-z0-9_]*|\d+|\S", re.sub(r"#.*", "", text))
        self.at = 0

    def peek(self):
        return self.tokens[self.at] if self.at < len(self.tokens) else None

    def take(self, want=None):
        token = self.tokens[self.at]
        assert want is None or token == want, (token, want)
        self.at += 1
        return token

    def sum(self):
        value = self.product()
        while self.peek() in ("+", "-"):
            sign, other = self.take(), self.product()
            value = (lambda a, b, s: lambda e: a(e) + b(e) if s == "+" else a(e) - b(e))(value, other, sign)
        return value

    def product(self):
        value = self.factor()
        while self.peek() in ("*", "/"):
            if self.take() == "*":
                value = (lambda a, b: lambda e: a(e) * b(e))(value, self.factor())
            else:
                value = (lambda a, n: lambda e: a(e) / n)(value, Q(int(self.take())))
        return value

    def factor(self):
        if self.peek() == "-":
            self.take()
            return (lambda a: lambda e: -a(e))(self.factor())
        if self.peek() == "(":
            self.take()
            value = self.sum()
            self.take(")")
        else:
            token = self.take()
            value = (lambda n: lambda e: n)(Q(int(token))) if token.isdigit() else (lambda w: lambda e: e[w])(token)
        if self.peek() == "^":
            self.take()
            value = (lambda a, n: lambda e: a(e) ** n)(value, int(self.take()))
        return value


def sequences_in(text):
    """Names, given values and recurrences."""
    reader = Reader(text)
    reader.take("sequences")
    names, given, nexts = [], [], []
    while True:
        names.append(reader.take())
        reader.take("=")
        reader.take("(")
        given.append([reader.sum()({})])
        while reader.peek() == ",":
            reader.take()
            given[-1].append(reader.sum()({}))
        reader.take(")")
        if reader.take() == ";":
            break
    for name in names:
        reader.take(name)
        reader.take("=")
        nexts.append(reader.sum())
        reader.take(";")
    return names, given, nexts


def values_of(names, given, nexts, count):
    """The values of the sequences at so many indices."""
    window = [list(vs) for vs in given]
    found = []
    for _ in range(count):
        found.append([vs[0] for vs in window])
        at = {name if i == 0 else f"{name}_{i}": v for name, vs in zip(names, window) for i, v in enumerate(vs)}
        window = [vs[1:] + [next_(at)] for vs, next_ in zip(window, nexts)]
    return found


# ---- monomials in graded reverse lexicographic order


def rank(e):
    return (sum(e), [-k for k in reversed(e)])


def monomials(count, degree):
    found = [e for e in itertools.product(range(degree + 1), repeat=count) if sum(e) <= degree]
    return sorted(found, key=rank)


def relations_of(names, given, nexts):
    all_ = monomials(len(names), DEGREE)
    points = values_of(names, given, nexts, len(all_) + MORE)
    rows, leads, basis = [], [], []
    for e in all_:
        if any(all(a <= b for a, b in zip(lead, e)) for lead in leads):
            continue
        row = []
        for point in points:
            value = Q(1)
            for v, k in zip(point, e):
                value *= v**k
            row.append(value)
        combination = {e: Q(1)}
        for pivot, other, made in rows:
            if row[pivot]:
                by = row[pivot] / other[pivot]
                row = [a - by * b for a, b in zip(row, other)]
                for f, c in made.items():
                    combination[f] = combination.get(f, Q(0)) - by * c
        pivot = next((i for i, a in enumerate(row) if a), None)
        if pivot is None:
            leads.append(e)
            basis.append({f: c for f, c in combination.items() if c})
        else:
            rows.append((pivot, row, combination))
    return sorted(basis, key=lambda p: rank(max(p, key=rank)))


def printed(p, names):
    text = ""
    for i, e in enumerate(sorted(p, key=rank, reverse=True)):
        c = p[e]
        factors = [name + (f"^{k}" if k > 1 else "") for name, k in zip(names, e) if k]
        size = str(abs(c))
        parts = ([size] if size != "1" or not factors else []) + factors
        sign = ("-" if c < 0 else "") if i == 0 else (" - " if c < 0 else " + ")
        text += sign + "*".join(parts)
    return text + " = 0"


def files_of(words):
    return [pathlib.Path(w) for w in words] or sorted((TOP / "examples/sequences").glob("*.seqs"))


def rows(words):
    for path in files_of(words):
        names, given, nexts = sequences_in(path.read_text())
        basis = relations_of(names, given, nexts)
        print(path.stem, "~".join(printed(p, names) for p in basis) or "none", sep="\t")


# ---- times


def loop_of(text):
    """The text's loop, as a text, and the places of the variables that are no sequences."""
    firsts, *nexts = text.removeprefix("sequences").strip().rstrip(";").split(";")
    given = [(name, values.split(",")) for name, values in re.findall(r"(\w+)\s*=\s*\(([^()]*)\)", firsts)]
    names = [[name] + [f"{name}_{i}" for i in range(1, len(values))] for name, values in given]
    flat = sum(names, [])
    init = ", ".join(f"{v} = {value.strip()}" for vs, (_, values) in zip(names, given) for v, value in zip(vs, values))
    turn = [right for vs, next_ in zip(names, nexts) for right in vs[1:] + [next_.split("=", 1)[1].strip()]]
    body = f"({', '.join(flat)}) = ({', '.join(turn)});" if len(flat) > 1 else f"{flat[0]} = {turn[0]};"
    return f"vars {', '.join(flat)}; init {init}; branch {{ {body} }}", [i for i, v in enumerate(flat) if "_" in v]


def times(words):
    import loops

    class Relations(loops.Programs):
        command = "relations"

        @staticmethod
        def of_rows(text, count):
            with loops.tempfile.NamedTemporaryFile("w", suffix=".txt") as made:
                made.write(f"LOOP\t{text}\n" + "call\trelations\tLOOP\t\n" * count)
                made.flush()
                return loops.Spent([loops.ACCEPTANCE, "print", made.name]).seconds

    good, all_ = True, []
    print("| Sequences | Variables | Program, computation | Singular, computation | Ratio | Program, process | Singular, process | Ratio |")
    print("|---|---|---|---|---|---|---|---|", flush=True)
    for one in loops.loops_in(words[0] if words else TOP / "bench/sequences.txt"):
        text, hidden = loop_of(one.text)
        names, starts, maps = loops.Reader(text).loop()
        forms = [loops.form_of(images, len(names)) for images in maps]
        shown = [name for i, name in enumerate(names) if i not in hidden]
        mine = Relations(one.text)
        if mine.status != 0:
            print(f"{one.name}: {mine.answer}", flush=True)
            continue
        theirs = loops.Singulars(names, starts, maps, forms, hidden, shown)
        if mine.answer != theirs.basis:
            good = False
            print(f"{one.name}: DIFFERENT\n    program {mine.answer}\n    Singular {theirs.basis}")
        ratios = mine.seconds / theirs.seconds, mine.process / theirs.process
        all_.append(ratios)
        print(f"| {one.name} | {len(names)} | {mine.seconds * 1000:.3f} ms | {theirs.seconds * 1000:.3f} ms | {ratios[0]:.2f} "
              f"| {mine.process * 1000:.1f} ms | {theirs.process * 1000:.0f} ms | {ratios[1]:.3f} |", flush=True)
    print(f"{len(all_)} texts, bases {'equal' if good else 'DIFFERENT'}")
    for what, ratios in zip(("computation to computation", "process to process"), zip(*all_)):
        loops.told(what, ratios)
    sys.exit(0 if good else 1)


if __name__ == "__main__":
    if len(sys.argv) < 2 or sys.argv[1] not in ("rows", "times"):
        sys.exit(__doc__)
    {"rows": rows, "times": times}[sys.argv[1]](sys.argv[2:])
