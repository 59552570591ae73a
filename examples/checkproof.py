#!/usr/bin/env python3
"""Judges a certificate of a program without invar.

Usage: examples/checkproof.py PROGRAM CERT

It takes no line of the program `invar`, and needs nothing but Python. It prints `valid` and for each assert of the program `LINE:COLUMN: holds` or
`open` (status 0), else the first part that doesn't hold (1), or why the file is no certificate of this program (3). Where it is valid, each listed
polynomial is 0 at every state that is seen at its point, whatever is chosen for unknown values. Numbers may have any size, and nothing is too long
here. PROGRAM is taken to be a program without faults.

A program is made into transitions, which have unknowns, zeros and a map. A certificate is valid where what a map makes of each polynomial of the
point that it leads to is a combination of the polynomials of the point that it comes from and of the zeros.

Polynomials are dictionaries from exponents to fractions other than 0. While a path is followed the exponents are those of the variables, and behind
them those of as many unknowns as a path may have; in a transition the unknowns come first.
"""
import json
import operator
import re
import sys
from dataclasses import dataclass
from fractions import Fraction

MOST_UNKNOWNS, MOST_ENTRIES, MOST, MOST_EXPONENT, MOST_FLAT_EXPONENT, MOST_DEPTH = 16, 512, 2**127 - 1, 16, 65_535, 64


class Fault(Exception):
    """Why a text is no comparison, or a file no certificate."""


# ---- polynomials


def constant(value, width):
    return {(0,) * width: Fraction(value)} if value else {}


def variable(place, width):
    return {tuple(int(i == place) for i in range(width)): Fraction(1)}


def combination(cofactors, elements):
    """The sum of the products of the cofactors with the elements."""
    total = {}
    for p, q in zip(cofactors, elements, strict=True):
        for d, a in p.items():
            for e, b in q.items():
                exponents = tuple(map(operator.add, d, e))
                total[exponents] = total.get(exponents, 0) + a * b
    return {e: a for e, a in total.items() if a}


def times(p, q):
    return combination([p], [q])


def less(p, q, width):
    return combination([constant(1, width), constant(-1, width)], [p, q])


def power(p, exponent, width):
    product = constant(1, width)
    for _ in range(exponent):
        product = times(product, p)
    return product


def composed(p, values, width):
    """The polynomial with the values put for its variables."""
    terms = []
    for exponents, a in p.items():
        product = constant(a, width)
        for value, e in zip(values, exponents, strict=True):
            product = times(product, power(value, e, width))
        terms.append(product)
    return combination([constant(1, width)] * len(terms), terms)


# ---- texts

TOKEN = re.compile(r"[A-Za-z][A-Za-z0-9_]*|[0-9]+|==|!=|\.\.|\S", re.ASCII)
KEYWORDS = {"vars", "init", "branch", "when", "if", "else", "while", "for", "assume", "assert", "any"}


def is_name(token):
    return bool(re.fullmatch(r"[A-Za-z]\w*", token, re.ASCII)) and token not in KEYWORDS and not re.fullmatch(r"any[0-9]+", token)


@dataclass
class Comparison:
    left: object
    right: object
    is_equal: bool


@dataclass
class Guard:
    """The comparisons that the parts of a guard say, and whether it has one part alone."""

    says: list
    alone: bool


class Text:
    """The tokens of a text, read from left to right. An expression is a number, the place of a variable in a list of one, or a tuple that begins
    with the sign of its operator."""

    def __init__(self, text, names, start=0):
        self.text, self.names = text, names
        self.tokens = [(m.group(), m.start() + start) for m in TOKEN.finditer(text)] + [("", len(text) + start)]
        self.at = 0

    def next(self):
        return self.tokens[self.at][0]

    def taken(self):
        self.at += 1
        return self.tokens[self.at - 1]

    def expect(self, token):
        if self.next() != token:
            raise Fault(f"{token} is missing")
        self.at += 1

    def name(self):
        token, _ = self.taken()
        if token not in self.names:
            raise Fault(f"{token} isn't declared")
        return self.names.index(token)

    def sum(self, depth=0):
        total = self.product(depth)
        while self.next() in ("+", "-"):
            sign, _ = self.taken()
            total = (sign, total, self.product(depth))
        return total

    def product(self, depth):
        total = self.factor(depth)
        while self.next() in ("*", "/"):
            sign, _ = self.taken()
            if sign == "/" and self.next().isdigit():
                total = ("over", total, self.number())
                if not total[2]:
                    raise Fault("a divisor is 0")
            else:
                total = (sign, total, self.factor(depth))
        return total

    def factor(self, depth):
        if depth > MOST_DEPTH:
            raise Fault("too deep")
        token = self.next()
        if token == "-":
            self.taken()
            return ("-", 0, self.factor(depth + 1))
        if token == "(":
            self.taken()
            atom = self.sum(depth + 1)
            self.expect(")")
        elif token.isdigit():
            atom = self.number()
        else:
            atom = [self.name()]
        if self.next() == "^":
            self.taken()
            exponent = self.number()
            if exponent > MOST_EXPONENT:
                raise Fault("an exponent is too large")
            atom = ("^", atom, exponent)
        return atom

    def number(self):
        token, _ = self.taken()
        if not token.isdigit() or int(token) > MOST:
            raise Fault(f"{token} is no number")
        return int(token)

    def comparison(self):
        left = self.sum()
        sign, _ = self.taken()
        if sign not in ("=", "==", "!="):
            raise Fault("no comparison")
        return Comparison(left, self.sum(), sign != "!=")


def divides(expression):
    return isinstance(expression, tuple) and (expression[0] == "/" or any(map(divides, expression[1:])))


def said(part, names):
    """The comparison that the part of a guard says, or none."""
    try:
        text = Text(part, names)
        comparison = text.comparison()
        text.expect("")
    except (Fault, RecursionError):
        return None
    return None if divides(comparison.left) or divides(comparison.right) else comparison


def parts_of(text):
    """The parts of a guard: what stands between its && outside of parentheses; a pair of parentheses around it all, or around a part, is no part,
    and what is in it has parts again."""
    text = text.strip()
    depth, cuts, wraps = 0, [], text.startswith("(") and text.endswith(")")
    for i, c in enumerate(text):
        depth += (c == "(") - (c == ")")
        if depth == 0 and i < len(text) - 1:
            wraps = False
        if depth == 0 and text[i : i + 2] == "&&" and not (cuts and i < cuts[-1] + 2):
            cuts.append(i)
    if cuts:
        return [part for a, b in zip([0] + [c + 2 for c in cuts], cuts + [len(text)], strict=True) for part in parts_of(text[a:b])]
    return parts_of(text[1:-1]) if wraps and depth == 0 else [text]


class Program(Text):
    """The names and the statements of a text. Statements are tuples that begin with a word."""

    def __init__(self, text):
        text = re.sub(r"#[^\n]*", lambda m: " " * len(m.group()), text)
        super().__init__(text, [])
        self.expect("vars")
        while True:
            self.names.append(self.taken()[0])
            if self.taken()[0] == ";":
                break
        self.body = []
        while self.next():
            self.body += self.statement()

    def place(self, at):
        """LINE:COLUMN of an offset, both from 1; columns count bytes."""
        before = self.text[:at]
        return f"{before.count(chr(10)) + 1}:{len(before) - before.rfind(chr(10))}"

    def block(self):
        self.expect("{")
        body = []
        while self.next() != "}":
            body += self.statement()
        self.taken()
        return body

    def guard(self):
        first = self.tokens[self.at][1]
        while self.next() != "{":
            self.taken()
        parts = parts_of(self.text[first : self.tokens[self.at][1]])
        return Guard([c for c in (said(part, self.names) for part in parts) if c], len(parts) == 1)

    def statement(self):
        token, at = self.tokens[self.at]
        if token == "if":
            self.taken()
            guard, inner, other = self.guard(), self.block(), []
            if self.next() == "else":
                self.taken()
                other = self.statement() if self.next() == "if" else self.block()
            return [("if", guard, inner, other)]
        if token == "while":
            self.taken()
            guard = self.guard()
            return [("while", at, guard, self.block())]
        if token == "for":
            self.taken()
            counter = self.name()
            self.expect("=")
            first = self.sum()
            self.expect("..")
            bound = self.sum()
            step = ("set", [counter], [("+", [counter], 1)])
            guard = Guard([Comparison([counter], bound, False)], True)
            return [("set", [counter], [first]), ("while", at, guard, self.block() + [step])]
        if token in ("assume", "assert"):
            self.taken()
            comparison = self.comparison()
            self.expect(";")
            return [(token, at, comparison)]
        targets = self.listed(self.name)
        self.expect("=")
        if len(targets) == 1 and self.next() == "any":
            self.taken()
            self.expect(";")
            return [("any", targets[0])]
        values = self.listed(self.sum) if len(targets) > 1 else [self.sum()]
        self.expect(";")
        return [("set", targets, values)]

    def listed(self, read):
        """What stands in parentheses with commas between; or one alone, without parentheses."""
        if self.next() != "(":
            return [read()]
        self.taken()
        items = [read()]
        while self.next() == ",":
            self.taken()
            items.append(read())
        self.expect(")")
        return items


# ---- transitions


@dataclass
class Path:
    """A transition whose end isn't known yet."""

    source: int
    unknowns: int
    zeros: list
    images: list

    def copy(self):
        return Path(self.source, self.unknowns, list(self.zeros), list(self.images))


@dataclass
class Transition:
    source: int
    target: int
    unknowns: int
    zeros: list
    images: list


class Graph:
    """The transitions of a program, the offset of each point, and the polynomial of each assert by its node."""

    def __init__(self, program):
        self.size = len(program.names)
        self.width = self.size + MOST_UNKNOWNS
        self.points, self.goals, self.transitions = [], {}, []
        self.close(self.through(program.body, [self.start(0)]), len(self.points) + 1)

    def start(self, node):
        return Path(node, 0, [], [variable(i, self.width) for i in range(self.size)])

    def node(self, at):
        self.points.append(at)
        return len(self.points)

    def turned(self, p, unknowns):
        """The polynomial with so many unknowns in front."""
        return {e[self.size : self.size + unknowns] + e[: self.size]: a for e, a in p.items()}

    def close(self, paths, node):
        for path in paths:
            turned = [[self.turned(p, path.unknowns) for p in ps] for ps in (path.zeros, path.images)]
            self.transitions.append(Transition(path.source, node, path.unknowns, *turned))

    def unknown(self, path):
        path.unknowns += 1
        return variable(self.size + path.unknowns - 1, self.width)

    def inverse(self, path, h):
        y = self.unknown(path)
        path.zeros.append(less(times(y, h), constant(1, self.width), self.width))
        return y

    def value(self, expression, path):
        """The polynomial of an expression; a division by what is no number adds an unknown."""
        if isinstance(expression, int):
            return constant(expression, self.width)
        if isinstance(expression, list):
            return path.images[expression[0]]
        sign, left, right = expression
        p = self.value(left, path)
        if sign == "over":
            return times(p, constant(Fraction(1, right), self.width))
        if sign == "^":
            return power(p, right, self.width)
        q = self.value(right, path)
        if sign == "/":
            return times(p, self.inverse(path, q))
        if sign == "*":
            return times(p, q)
        signs = [constant(1, self.width), constant(1 if sign == "+" else -1, self.width)]
        return combination(signs, [p, q])

    def suppose(self, path, comparison, is_true):
        """The path on which the comparison is true, or is false."""
        path = path.copy()
        p = less(self.value(comparison.left, path), self.value(comparison.right, path), self.width)
        if comparison.is_equal == is_true:
            path.zeros.append(p)
        else:
            self.inverse(path, p)
        return path

    def entering(self, path, guard):
        for comparison in guard.says:
            path = self.suppose(path, comparison, True)
        return path.copy()

    def passing(self, path, guard):
        return self.suppose(path, guard.says[0], False) if guard.alone and guard.says else path.copy()

    def through(self, body, paths):
        for statement in body:
            paths = getattr(self, f"through_{statement[0]}")(paths, *statement[1:])
        return paths

    def through_set(self, paths, targets, values):
        for path in paths:
            found = [self.value(value, path) for value in values]
            for target, p in zip(targets, found, strict=True):
                path.images[target] = p
        return paths

    def through_any(self, paths, target):
        for path in paths:
            path.images[target] = self.unknown(path)
        return paths

    def through_assume(self, paths, _, comparison):
        return [self.suppose(path, comparison, True) for path in paths]

    def through_assert(self, paths, at, comparison):
        node, here = self.node(at), self.start(0)
        self.goals[node] = less(self.value(comparison.left, here), self.value(comparison.right, here), self.width)
        self.close(paths, node)
        return paths

    def through_if(self, paths, guard, inner, other):
        entered = self.through(inner, [self.entering(path, guard) for path in paths])
        return entered + self.through(other, [self.passing(path, guard) for path in paths])

    def through_while(self, paths, at, guard, body):
        node = self.node(at)
        self.close(paths, node)
        self.close(self.through(body, [self.entering(self.start(node), guard)]), node)
        return [self.passing(self.start(node), guard)]


# ---- certificates

FLAT_TERM = re.compile(r"(?:(\d+)(?:/(\d+))?(?:\*(?=[A-Za-z]))?)?((?:[A-Za-z]\w*(?:\^\d+)?)(?:\*[A-Za-z]\w*(?:\^\d+)?)*)?", re.ASCII)


def is_whole(value):
    return isinstance(value, int) and not isinstance(value, bool)


def shape(path):
    return Fault(f"certificate: shape at {path}")


def flat(text, names, path):
    """The polynomial that a text is, as certificates write them."""
    if not isinstance(text, str):
        raise shape(path)
    try:
        return flat_of(text, names)
    except (Fault, ValueError):
        raise Fault(f"certificate: polynomial at {path}") from None


def flat_of(text, names):
    words = re.sub(r"[ \t\r\n]+", " ", re.sub(r"#[^\n]*", " ", text)).strip()
    pieces = re.split(r" ?([+-]) ?", words)
    signs = ["+"]
    if pieces[0] == "" and len(pieces) > 1:
        signs, pieces = [pieces[1]], pieces[2:]
        if signs == ["+"]:
            raise Fault("a sign without a term")
    signs += pieces[1::2]
    total, last = {}, set()
    for sign, piece in zip(signs, pieces[0::2], strict=True):
        exponents, a = term_of(re.sub(r" ?([*/^]) ?", r"\1", piece), names)
        if exponents in last:
            raise Fault("a monomial twice")
        last.add(exponents)
        if a:
            total[exponents] = -a if sign == "-" else a
    return total


def term_of(piece, names):
    match = FLAT_TERM.fullmatch(piece)
    if not piece or not match:
        raise Fault("no term")
    over, under, factors = match.groups()
    exponents = [0] * len(names)
    for factor in factors.split("*") if factors else ():
        name, _, exponent = factor.partition("^")
        place = names.index(name)
        if exponents[place] or int(exponent or 1) > MOST_FLAT_EXPONENT or exponent == "0":
            raise Fault("no exponent")
        exponents[place] = int(exponent or 1)
    if max(int(over or 0), int(under or 0)) > MOST or under is not None and int(under) == 0:
        raise Fault("no coefficient")
    return tuple(exponents), Fraction(int(over or 1), int(under or 1))


def rows_of(value, names, width, path):
    """The pairs of a position below `width` and a cofactor in a list."""
    if not isinstance(value, list):
        raise shape(path)
    pairs, least = [], 0
    for i, pair in enumerate(value):
        here = f"{path}/{i}"
        if not isinstance(pair, list) or len(pair) != 2 or not is_whole(pair[0]) or not least <= pair[0] < width:
            raise shape(here)
        pairs.append((pair[0], flat(pair[1], names, here)))
        least = pair[0] + 1
    return pairs


def certificate_of(text, names, graph):
    """The lists by node, that of the start empty, and the pairs of each transition and element."""
    try:
        value = json.loads(text)
    except (ValueError, RecursionError):
        raise Fault("certificate: not json") from None
    if not isinstance(value, dict):
        raise shape("/")
    checks = {"version": lambda v: is_whole(v) and v == 1, "kind": lambda v: v == "program", "vars": lambda v: v == names}
    for member, check in checks.items():
        if member not in value or not check(value[member]):
            raise shape(f"/{member}")
    given = value.get("lists")
    if not isinstance(given, list) or len(given) != len(graph.points) + 1:
        raise shape("/lists")
    if sum(len(entry) for entry in given if isinstance(entry, list)) > MOST_ENTRIES:
        raise shape("/lists")
    lists = [[]]
    for v, entry in enumerate(given):
        if not isinstance(entry, list):
            raise shape(f"/lists/{v}")
        lists.append([flat(p, names, f"/lists/{v}/{e}") for e, p in enumerate(entry)])
    given = value.get("steps")
    if not isinstance(given, list) or len(given) != len(graph.transitions):
        raise shape("/steps")
    steps = []
    for t, (entry, transition) in enumerate(zip(given, graph.transitions, strict=True)):
        if not isinstance(entry, list) or len(entry) != len(lists[transition.target]):
            raise shape(f"/steps/{t}")
        known = [f"any{i + 1}" for i in range(transition.unknowns)] + names
        width = len(lists[transition.source]) + len(transition.zeros)
        steps.append([rows_of(row, known, width, f"/steps/{t}/{e}") for e, row in enumerate(entry)])
    return lists, steps


def first_failing(graph, lists, steps):
    """The path of the first identity that doesn't hold, or none."""
    for t, (transition, rows) in enumerate(zip(graph.transitions, steps, strict=True)):
        width = transition.unknowns + graph.size
        front = (0,) * transition.unknowns
        generators = [{front + e: a for e, a in p.items()} for p in lists[transition.source]] + transition.zeros
        for e, (p, row) in enumerate(zip(lists[transition.target], rows, strict=True)):
            total = combination([cofactor for _, cofactor in row], [generators[position] for position, _ in row])
            if composed(p, transition.images, width) != total:
                return f"/steps/{t}/{e}"
    return None


def judge(program_text, certificate_text):
    """The status and the text of the answer."""
    program = Program(program_text)
    graph = Graph(program)
    try:
        lists, steps = certificate_of(certificate_text, program.names, graph)
    except Fault as fault:
        return 3, f"{fault}\n"
    failing = first_failing(graph, lists, steps)
    if failing:
        return 1, f"fails: {failing}\n"
    lines = ["valid"]
    for node, goal in graph.goals.items():
        goal = {e[: graph.size]: a for e, a in goal.items()}
        lines.append(f"{program.place(graph.points[node - 1])}: {'holds' if goal in lists[node] else 'open'}")
    return 0, "\n".join(lines) + "\n"


def main():
    if len(sys.argv) != 3:
        print(__doc__.split("\n\n")[1], file=sys.stderr)
        return 2
    sys.setrecursionlimit(10_000)
    with open(sys.argv[1], encoding="latin-1", newline="") as program, open(sys.argv[2], encoding="utf-8", errors="surrogateescape") as certificate:
        status, text = judge(program.read(), certificate.read())
    print(text, end="")
    return status


if __name__ == "__main__":
    sys.exit(main())
