"""Reads programs and forms their transitions up to the first fault, by docs/TEXTS.md, with nothing of `invar`.

`fault_of(text)` is the first fault of a text, or the first refusal of its transitions, as `invar` tells it behind `program: `; none where there is
none. Numbers have any size while transitions are formed, so a number that doesn't fit there is no fault here.

Polynomials are dictionaries from exponents, those of the variables and behind them those of the unknowns, to fractions other than 0.
"""
from fractions import Fraction

MOST_NUMBER, MOST_EXPONENT, MOST_DEGREE, MOST_TERMS = 2**127 - 1, 16, 64, 4096
MOST_NAMES, MOST_NAME_BYTES, MOST_STATEMENTS, MOST_BLOCKS, MOST_DEPTH, MOST_OPERATORS = 16, 32, 256, 16, 64, 1024
MOST_PATHS, MOST_PATHS_BEFORE, MOST_UNKNOWNS, MOST_TRANSITIONS = 64, 32, 16, 256

BLANKS = b" \t\n\r"
SIGNS = (b"==", b"!=", b"..", *(bytes([sign]) for sign in b",;=(){}+-*/^"))
KEYWORDS = {b"vars", b"init", b"branch", b"when", b"if", b"else", b"while", b"for", b"assume", b"assert", b"any"}
BEGIN_STATEMENTS = {b"if", b"while", b"for", b"assume", b"assert"}


class Fault(Exception):
    def __init__(self, reason, at):
        super().__init__(f"{reason} at {at}")


# ---- tokens


def is_letter(byte):
    return 65 <= byte <= 90 or 97 <= byte <= 122


def is_digit(byte):
    return 48 <= byte <= 57


def behind_blanks(text, at):
    """The offset of the next byte that is neither blank nor in a comment."""
    while at < len(text):
        if text[at] in BLANKS:
            at += 1
        elif text[at] == ord("#"):
            end = text.find(b"\n", at)
            at = len(text) if end < 0 else end
        else:
            break
    return at


def along(text, at, fits):
    while at < len(text) and fits(text[at]):
        at += 1
    return at


class Token:
    """A word, a number, a sign, a byte that begins no token, or the end."""

    def __init__(self, text, from_offset):
        self.at = at = behind_blanks(text, from_offset)
        self.kind, self.end = "end", at
        if at < len(text):
            sign = next((sign for sign in SIGNS if text.startswith(sign, at)), None)
            if is_letter(text[at]):
                self.kind, self.end = "word", along(text, at, lambda byte: is_letter(byte) or is_digit(byte) or byte == ord("_"))
            elif is_digit(text[at]):
                self.kind, self.end = "number", along(text, at, is_digit)
            else:
                self.kind, self.end = ("sign", at + len(sign)) if sign else ("odd", at + 1)
        self.text = text[at : self.end]

    def is_sign(self, *signs):
        return self.kind == "sign" and self.text in signs

    def is_word(self, *words):
        return self.kind == "word" and self.text in words

    def is_name(self):
        is_unknown = self.text.startswith(b"any") and all(map(is_digit, self.text[3:]))
        return self.kind == "word" and self.text not in KEYWORDS and not is_unknown


# ---- sums and comparisons; an expression is a number, a list with the place of a variable, or a tuple: an operator, its offset, what it joins


class Sums:
    def __init__(self, text, names, from_offset=0):
        self.text, self.names = text, names
        self.token = Token(text, from_offset)
        self.operators, self.divides_freely = 0, False

    def next(self):
        self.token = Token(self.text, self.token.end)

    def syntax(self):
        raise Fault("syntax", self.token.at)

    def take_sign(self, sign):
        if not self.token.is_sign(sign):
            self.syntax()
        self.next()

    def place(self):
        """The place of the variable whose name comes next."""
        if not self.token.is_name():
            self.syntax()
        if len(self.token.text) > MOST_NAME_BYTES:
            raise Fault("limit", self.token.at)
        if self.token.text not in self.names:
            raise Fault("unknown", self.token.at)
        return self.names.index(self.token.text)

    def count_operator(self):
        self.operators += 1
        if self.operators > MOST_OPERATORS:
            raise Fault("limit", self.token.at)

    def deeper(self, depth):
        if depth + 1 > MOST_DEPTH:
            raise Fault("limit", self.token.at)
        return depth + 1

    def number(self):
        value = int(self.token.text)
        if value > MOST_NUMBER:
            raise Fault("wide", self.token.at)
        return value

    def side(self, divides_freely=False):
        self.operators, self.divides_freely = 0, divides_freely
        return self.sum(0)

    def sum(self, depth):
        left = self.product(depth)
        while self.token.is_sign(b"+", b"-"):
            self.count_operator()
            operator, at = self.token.text.decode(), self.token.at
            self.next()
            left = (operator, at, left, self.product(depth))
        return left

    def product(self, depth):
        left = self.factor(depth)
        while self.token.is_sign(b"*", b"/"):
            self.count_operator()
            operator, at = self.token.text.decode(), self.token.at
            self.next()
            if operator == "/" and self.token.kind == "number":
                left = ("over", at, left, self.divisor())
            elif operator == "/" and not self.divides_freely:
                self.divisor_at_fault(depth)
            else:
                left = (operator, at, left, self.factor(depth))
        return left

    def divisor(self):
        value = self.number()
        if value == 0:
            raise Fault("divisor", self.token.at)
        self.next()
        return value

    def divisor_at_fault(self, depth):
        at = self.token.at
        if self.token.is_name():
            self.place()
            raise Fault("divisor", at)
        if self.token.is_sign(b"-"):
            self.count_operator()
        if self.token.is_sign(b"-", b"("):
            self.deeper(depth)
            raise Fault("divisor", at)
        self.syntax()

    def factor(self, depth):
        if self.token.is_sign(b"-"):
            at = self.token.at
            self.count_operator()
            inner = self.deeper(depth)
            self.next()
            return ("negative", at, self.factor(inner))
        atom = self.atom(depth)
        if self.token.is_sign(b"^"):
            self.count_operator()
            at = self.token.at
            self.next()
            if self.token.kind != "number":
                self.syntax()
            exponent = int(self.token.text)
            if exponent > MOST_EXPONENT:
                raise Fault("limit", self.token.at)
            self.next()
            atom = ("^", at, atom, exponent)
        return atom

    def atom(self, depth):
        if self.token.is_sign(b"("):
            inner = self.deeper(depth)
            self.next()
            atom = self.sum(inner)
            self.take_sign(b")")
        elif self.token.kind == "number":
            atom = self.number()
            self.next()
        else:
            atom = [self.place()]
            self.next()
        return atom

    def comparison(self, *signs):
        """Whether the sides have to be equal, the sides, and the offset of the sign."""
        left = self.side()
        sign = self.token
        if not sign.is_sign(*signs):
            self.syntax()
        self.next()
        return sign.text != b"!=", left, self.side(), sign.at


# ---- guards


def without_comments(text):
    at, clean = 0, bytearray(text)
    while at < len(clean):
        if clean[at] == ord("#"):
            end = clean.find(b"\n", at)
            end = len(clean) if end < 0 else end
            clean[at:end] = b" " * (end - at)
            at = end
        at += 1
    return bytes(clean)


def parts(text, begin, end):
    """Where the parts of a guard begin and end: what stands between its && outside of parentheses; a pair around it all, or around a part, is none."""
    while begin < end and text[begin] in BLANKS:
        begin += 1
    while begin < end and text[end - 1] in BLANKS:
        end -= 1
    depth, cuts, is_closed_within, at = 0, [], False, begin
    while at < end:
        depth += (text[at] == ord("(")) - (text[at] == ord(")"))
        is_closed_within |= depth == 0 and at < end - 1
        if depth == 0 and text[at : at + 2] == b"&&" and at + 1 < end:
            cuts.append(at)
            at += 1
        at += 1
    if cuts:
        return [part for first, last in zip([begin] + [cut + 2 for cut in cuts], cuts + [end]) for part in parts(text, first, last)]
    if end - begin > 1 and text[begin] == ord("(") and depth == 0 and not is_closed_within:
        return parts(text, begin + 1, end - 1)
    return [(begin, end)]


def said(text, names, begin, end):
    """The comparison that a part says, or none."""
    sums = Sums(text[:end], names, begin)
    try:
        comparison = sums.comparison(b"=", b"==", b"!=")
        return comparison if sums.token.kind == "end" else None
    except Fault:
        return None


# ---- statements


class Reader(Sums):
    def __init__(self, text):
        super().__init__(text, [])
        self.statements = 0

    def program(self):
        """The statements of the text, each a tuple that begins with its word and its offset."""
        if not self.token.is_word(b"vars"):
            self.syntax()
        while True:
            self.next()
            self.new_name()
            if not self.token.is_sign(b","):
                break
        self.take_sign(b";")
        body = []
        while self.token.kind != "end":
            body.append(self.statement(0))
        return body

    def new_name(self):
        if not self.token.is_name():
            self.syntax()
        if len(self.names) == MOST_NAMES or len(self.token.text) > MOST_NAME_BYTES:
            raise Fault("limit", self.token.at)
        if self.token.text in self.names:
            raise Fault("twice", self.token.at)
        self.names.append(self.token.text)
        self.next()

    def begin_statement(self):
        self.statements += 1
        if self.statements > MOST_STATEMENTS:
            raise Fault("limit", self.token.at)

    def statement(self, depth):
        token = self.token
        if not (token.is_name() or token.is_sign(b"(") or token.is_word(*BEGIN_STATEMENTS)):
            self.syntax()
        self.begin_statement()
        if token.is_word(b"if"):
            return self.branching(depth)
        if token.is_word(b"while"):
            self.next()
            return ("while", token.at, self.guard(), self.block(depth + 1))
        if token.is_word(b"for"):
            return self.counting(depth)
        if token.is_word(b"assume", b"assert"):
            self.next()
            comparison = self.comparison(b"=", b"==", *([b"!="] if token.text == b"assume" else []))
            self.take_sign(b";")
            return (token.text.decode(), token.at, comparison)
        return self.tuple_assignment() if token.is_sign(b"(") else self.assignment()

    def block(self, depth):
        if self.token.is_sign(b"{") and depth > MOST_BLOCKS:
            raise Fault("limit", self.token.at)
        self.take_sign(b"{")
        body = []
        while not self.token.is_sign(b"}"):
            body.append(self.statement(depth))
        self.next()
        return body

    def branching(self, depth):
        at = self.token.at
        self.next()
        guard, inner, other = self.guard(), self.block(depth + 1), []
        if self.token.is_word(b"else"):
            self.next()
            if self.token.is_word(b"if"):
                self.begin_statement()
                other = [self.branching(depth)]
            else:
                other = self.block(depth + 1)
        return ("if", at, guard, inner, other)

    def counting(self, depth):
        """`for j = e .. f { s }` is `j = e; while j != f { s j = j + 1; }`."""
        at = self.token.at
        self.next()
        place = self.place()
        self.next()
        self.take_sign(b"=")
        begin = self.side()
        dots = self.token.at
        self.take_sign(b"..")
        end = self.side()
        body = self.block(depth + 1)
        step = ("set", dots, [place], [("+", dots, [place], 1)])
        return ("both", ("set", at, [place], [begin]), ("while", at, ([(False, [place], end, dots)], True), [*body, step]))

    def assignment(self):
        at, place = self.token.at, self.place()
        self.next()
        self.take_sign(b"=")
        if self.token.is_word(b"any"):
            at = self.token.at
            self.next()
            self.take_sign(b";")
            return ("any", at, place)
        value = self.side(divides_freely=True)
        self.take_sign(b";")
        return ("set", at, [place], [value])

    def tuple_assignment(self):
        at, places, values = self.token.at, [], []
        self.next()
        while True:
            place = self.place()
            if place in places:
                raise Fault("twice", self.token.at)
            places.append(place)
            self.next()
            if len(places) > 1 and self.token.is_sign(b")"):
                break
            self.take_sign(b",")
        self.next()
        self.take_sign(b"=")
        self.take_sign(b"(")
        for number in range(len(places)):
            if number:
                self.take_sign(b",")
            values.append(self.side(divides_freely=True))
        self.take_sign(b")")
        self.take_sign(b";")
        return ("set", at, places, values)

    def guard(self):
        """The comparisons that the parts of a guard say, and whether it has one part alone."""
        first, at = None, behind_blanks(self.text, self.token.at)
        while at < len(self.text) and self.text[at] != ord("{"):
            if not 0x21 <= self.text[at] <= 0x7E or self.text[at] in b"};":
                raise Fault("syntax", at)
            first = at if first is None else first
            at = behind_blanks(self.text, at + 1)
        if at == len(self.text) or first is None:
            raise Fault("syntax", at)
        self.token = Token(self.text, at)
        text = without_comments(self.text[:at])
        found = parts(text, first, at)
        says = (said(text, self.names, *part) for part in found)
        return [comparison for comparison in says if comparison], len(found) == 1


# ---- polynomials


def plus(p, q, factor=1):
    total = dict(p)
    for exponents, number in q.items():
        total[exponents] = total.get(exponents, 0) + factor * number
    return {exponents: number for exponents, number in total.items() if number}


def times(p, q):
    total = {}
    for left, a in p.items():
        for right, b in q.items():
            exponents = tuple(map(sum, zip(left, right)))
            total[exponents] = total.get(exponents, 0) + a * b
    return {exponents: number for exponents, number in total.items() if number}


def degree(p):
    return max(map(sum, p), default=0)


# ---- transitions


class Path:
    """What the variables are on a path, and how many unknowns it has. Its zeros aren't needed: only what is formed can be refused."""

    def __init__(self, images, unknowns=0):
        self.images, self.unknowns = images, unknowns

    def copy(self):
        return Path(list(self.images), self.unknowns)


class Former:
    """Forms the transitions of a program: each refusal is a fault."""

    def __init__(self, names):
        self.count, self.width, self.transitions = len(names), len(names) + MOST_UNKNOWNS, 0

    def constant(self, number):
        return {(0,) * self.width: Fraction(number)} if number else {}

    def variable(self, place):
        return {tuple(int(other == place) for other in range(self.width)): Fraction(1)}

    def begin(self):
        return Path([self.variable(place) for place in range(self.count)])

    def unknown(self, path, at):
        if path.unknowns == MOST_UNKNOWNS:
            raise Fault("limit", at)
        path.unknowns += 1
        return self.variable(self.count + path.unknowns - 1)

    def product(self, at, p, q):
        if p and q and degree(p) + degree(q) > MOST_DEGREE:
            raise Fault("limit", at)
        return self.few(at, times(p, q))

    def few(self, at, p):
        if len(p) > MOST_TERMS:
            raise Fault("limit", at)
        return p

    def formed(self, expression, path, inverses):
        """The polynomial of an expression; the inverses are those of its divisors, by the offsets of their signs."""
        if isinstance(expression, int):
            return self.constant(expression)
        if isinstance(expression, list):
            return path.images[expression[0]]
        operator, at, first, *rest = expression
        left = self.formed(first, path, inverses)
        if operator == "negative":
            return plus({}, left, -1)
        if operator == "over":
            return self.few(at, times(left, self.constant(Fraction(1, rest[0]))))
        if operator == "^":
            power = self.constant(1)
            for _ in range(rest[0]):
                power = self.product(at, power, left)
            return power
        if operator == "/":
            return self.product(at, left, inverses[at])
        right = self.formed(rest[0], path, inverses)
        if operator == "*":
            return self.product(at, left, right)
        return self.few(at, plus(left, right, 1 if operator == "+" else -1))

    def invert(self, path, at, p):
        inverse = self.unknown(path, at)
        self.product(at, inverse, p)
        return inverse

    def divisors(self, expression):
        """The divisors of an expression that aren't numbers, each before one that has it in itself, else in the order of their signs."""
        if isinstance(expression, tuple):
            operator, at, first, *rest = expression
            yield from self.divisors(first)
            for other in rest:
                yield from self.divisors(other)
            if operator == "/":
                yield at, rest[0]

    def set(self, path, places, values):
        inverses = {}
        for value in values:
            for at, divisor in self.divisors(value):
                inverses[at] = self.invert(path, at, self.formed(divisor, path, inverses))
        images = [self.formed(value, path, inverses) for value in values]
        for place, image in zip(places, images):
            path.images[place] = image

    def compare(self, path, comparison, holds=True):
        is_equal, left, right, at = comparison
        if is_equal != holds and path.unknowns == MOST_UNKNOWNS:
            raise Fault("limit", at)
        difference = self.few(at, plus(self.formed(left, path, {}), self.formed(right, path, {}), -1))
        if is_equal != holds:
            self.invert(path, at, difference)

    def guarded(self, paths, guard, lets_in):
        says, is_alone = guard
        copies = [path.copy() for path in paths]
        for path in copies:
            for comparison in says if lets_in else says[:1] if is_alone else []:
                self.compare(path, comparison, lets_in)
        return copies

    def close(self, paths, at):
        self.transitions += len(paths)
        if self.transitions > MOST_TRANSITIONS:
            raise Fault("limit", at)

    def along(self, statements, paths):
        for statement in statements:
            paths = self.behind(statement, paths)
        return paths

    def behind(self, statement, paths):
        word, at, *rest = statement
        if word == "both":
            return self.along(statement[1:], paths)
        if word == "if":
            guard, inner, other = rest
            if len(paths) > MOST_PATHS_BEFORE:
                raise Fault("limit", at)
            paths = self.along(inner, self.guarded(paths, guard, True)) + self.along(other, self.guarded(paths, guard, False))
            if len(paths) > MOST_PATHS:
                raise Fault("limit", at)
            return paths
        if word == "while":
            guard, body = rest
            self.close(paths, at)
            here = [self.begin()]
            self.close(self.along(body, self.guarded(here, guard, True)), at)
            return self.guarded(here, guard, False)
        if word == "assert":
            self.compare(self.begin(), rest[0])
            self.close(paths, at)
            return paths
        for path in paths:
            if word == "set":
                self.set(path, *rest)
            elif word == "any":
                path.images[rest[0]] = self.unknown(path, at)
            else:
                self.compare(path, rest[0])
        return paths


def fault_of(text):
    """The first fault of a text of bytes, or the first refusal of its transitions."""
    try:
        reader = Reader(text)
        body = reader.program()
        former = Former(reader.names)
        former.close(former.along(body, [former.begin()]), len(text))
    except Fault as fault:
        return str(fault)
    return None
