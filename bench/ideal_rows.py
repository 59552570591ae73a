#!/usr/bin/env python3
"""Computes the rows of crates/computation_rows/data/ideals.txt anew, by the rules as docs/DEFINITIONS.md has them, and tells each that has another answer.

Usage: bench/ideal_rows.py [FILE]     (but for the rows that count terms, which follow from no rule)

It shares nothing with the program, and is written to be read: polynomials are dictionaries from exponents to numbers, leads are searched for
each time, and the least waiting pair too. A number or an exponent that doesn't fit is wide where it is the result of an operation.
"""
import fractions
import functools
import pathlib
import re
import sys

ROWS = pathlib.Path(__file__).resolve().parent.parent / "crates/computation_rows/data/ideals.txt"
PRIME = 65521
MOST = 2**127 - 1
UNITS = ("Pair", "Cut", "Tail", "Round")


class Wide(Exception):
    pass


class Budget(Exception):
    pass


class Fractions:
    @staticmethod
    def number(value):
        if max(abs(value.numerator), value.denominator) > MOST:
            raise Wide
        return value

    @staticmethod
    def inverse(value):
        return 1 / value

    @staticmethod
    def shown(value):
        return value


class Remainders:
    @staticmethod
    def number(value):
        return fractions.Fraction(value.numerator * pow(value.denominator, -1, PRIME) % PRIME)

    @staticmethod
    def inverse(value):
        return fractions.Fraction(pow(value.numerator, -1, PRIME))

    @staticmethod
    def shown(value):
        return value - PRIME if value > PRIME // 2 else value


def grevlex(m):
    return sum(m), [-e for e in reversed(m)]


def rank(order):
    """The order as a key: of two monomials the greater has the greater key."""
    if order == "grevlex":
        return grevlex
    if order == "lex":
        return list
    first = int(order.split()[1])
    return lambda m: (grevlex(m[:first]), grevlex(m[first:]))


def divides(d, e):
    return all(a <= b for a, b in zip(d, e))


def over(e, d):
    return tuple(a - b for a, b in zip(e, d))


class Meter:
    def __init__(self, limit):
        self.limit, self.used, self.entries = limit, 0, []

    def note(self, kind, told):
        if kind in UNITS:
            if self.used == self.limit:
                raise Budget
            self.used += 1
        self.entries.append(told)

    def did(self, kind, **places):
        fields = ", ".join(f"{name}: {place}" for name, place in places.items())
        self.note(kind, f"Did {{ event: {kind}{f' {{ {fields} }}' if fields else ''} }}")


class Ideals:
    def __init__(self, numbers, key, meter):
        self.numbers, self.key, self.meter = numbers, key, meter

    def lead(self, p):
        return max(p, key=self.key)

    def monic(self, p):
        factor = self.numbers.inverse(p[self.lead(p)])
        return {m: self.numbers.number(c * factor) for m, c in p.items()}

    def less(self, p, number, by, g):
        """p less the number times the monomial `by` times g."""
        left = dict(p)
        for m, c in g.items():
            product = tuple(a + b for a, b in zip(m, by))
            if max(product) > 65535:
                raise Wide
            rest = self.numbers.number(left.pop(product, 0) - self.numbers.number(number * c))
            if rest != 0:
                left[product] = rest
        return left

    def cut(self, p, places, elements, behind_lead=False):
        """The first element whose lead divides the greatest term that has one, the factor, and what the cancellation leaves."""
        for m in sorted(p, key=self.key, reverse=True)[behind_lead:]:
            for k in places:
                lead = self.lead(elements[k])
                if divides(lead, m):
                    number = self.numbers.number(p[m] * self.numbers.inverse(elements[k][lead]))
                    by = over(m, lead)
                    return k, by, number, self.less(p, number, by, elements[k])
        return None

    def divide(self, p, elements):
        cofactors = [{} for _ in elements]
        while (found := self.cut(p, range(len(elements)), elements)) is not None:
            k, by, number, left = found
            self.meter.did("Cut", element=k)
            p = left
            cofactors[k][by] = number
        if not p:
            self.meter.did("Zero")
        return cofactors, p

    @functools.cache
    def is_by_degree(self, m):
        """Whether in m variables each monomial of degree 1 is below each of degree 2."""
        units = [tuple(int(k == l) for l in range(m)) for k in range(m)]
        squares = [tuple(a + b for a, b in zip(d, e)) for d in units for e in units]
        return max(map(self.key, units), default=0) <= min(map(self.key, squares), default=0)

    def complete(self, generators):
        elements, sugars, waiting = [], [], []

        def multiple(pair):
            return tuple(map(max, *(self.lead(elements[k]) for k in pair)))

        def sugar(pair):
            return max(sugars[k] + sum(over(multiple(pair), self.lead(elements[k]))) for k in pair)

        def place(pair):
            whole = multiple(pair)
            return 0 if self.is_by_degree(len(whole)) else sugar(pair), sum(whole), self.key(whole), pair

        def put(p, its_sugar):
            elements.append(self.monic(p))
            sugars.append(its_sugar)
            new = self.lead(elements[-1])
            waiting.extend((k, len(elements) - 1) for k, g in enumerate(elements[:-1]) if any(min(a, b) > 0 for a, b in zip(self.lead(g), new)))

        def is_covered(pair):
            def waits(k, l):
                return (min(k, l), max(k, l)) in waiting

            return any(k not in pair and divides(self.lead(g), multiple(pair)) and not waits(k, pair[0]) and not waits(k, pair[1])
                       for k, g in enumerate(elements))

        for p in filter(None, generators):
            put(p, max(map(sum, p)))
        while waiting:
            left, right = pair = min(waiting, key=place)
            waiting.remove(pair)
            if is_covered(pair):
                continue
            first, second = (self.less({}, -1, over(multiple(pair), self.lead(elements[k])), elements[k]) for k in pair)
            p = self.less(first, 1, (0,) * len(multiple(pair)), second)
            self.meter.did("Pair", left=left, right=right)
            while (found := self.cut(p, range(len(elements)), elements)) is not None:
                self.meter.did("Cut", element=found[0])
                p = found[3]
            if p:
                put(p, sugar(pair))
            self.meter.did("Keep" if p else "Zero")
        return elements

    def tidy(self, elements):
        """From the least lead up; of equal leads the last element comes first."""
        elements = sorted((self.monic(p) for p in reversed(elements)), key=lambda p: self.key(self.lead(p)))

        def others(k):
            return [l for l in range(len(elements)) if l != k]

        def redundant():
            return next((k for k, p in enumerate(elements) if any(divides(self.lead(elements[l]), self.lead(p)) for l in others(k))), None)

        while (k := redundant()) is not None:
            self.meter.did("Drop", element=k)
            del elements[k]

        def tail():
            cuts = ((k, self.cut(p, others(k), elements, behind_lead=True)) for k, p in enumerate(elements))
            return next(((k, found) for k, found in cuts if found is not None), None)

        while (found := tail()) is not None:
            k, (by, _, _, left) = found
            self.meter.did("Tail", element=k, by=by)
            elements[k] = left
        return elements

    def read(self, text, names):
        p = {}
        for sign, item in re.findall(r"([+-]?)([^+-]+)", text.replace(" ", "")):
            number, exponents = fractions.Fraction(1), dict.fromkeys(names, 0)
            for factor in item.split("*"):
                name, _, exponent = factor.partition("^")
                if name in exponents:
                    exponents[name] += int(exponent or 1)
                else:
                    number *= fractions.Fraction(factor)
            number = self.numbers.number(-number if sign == "-" else number)
            if number != 0:
                p[tuple(exponents.values())] = number
        return p

    def printed(self, p, names):
        text = ""
        for m in sorted(p, key=grevlex, reverse=True):
            number = self.numbers.shown(p[m])
            powers = "*".join(name if e == 1 else f"{name}^{e}" for name, e in zip(names, m) if e > 0)
            size = "*".join(filter(None, ("" if abs(number) == 1 and powers else str(abs(number)), powers)))
            text += (" - " if number < 0 else " + ") + size if text else ("-" if number < 0 else "") + size
        return text or "0"


def reduced(ideals, generators):
    return ideals.tidy(ideals.complete(generators))


def eliminated(ideals, first, generators):
    """What has none of the first variables, without them: kept of the completion, and tidied by degrees."""
    kept = [p for p in ideals.complete(generators) if not any(any(m[:first]) for m in p)]
    return Ideals(ideals.numbers, grevlex, ideals.meter).tidy([{m[first:]: c for m, c in p.items()} for p in kept])


def met(ideals, left, right):
    """With a variable t in front, t times the one list and 1 - t times the other, and what has no t."""
    times_t = [{(1, *m): c for m, c in p.items()} for p in left]
    times_rest = [{**{(0, *m): c for m, c in q.items()}, **{(1, *m): ideals.numbers.number(-c) for m, c in q.items()}} for q in right]
    return eliminated(Ideals(ideals.numbers, rank("blocks 1"), ideals.meter), 1, times_t + times_rest)


def computed(call, meter, numbers, order, names, values):
    ideals = Ideals(Fractions if numbers == "frac" else Remainders, rank(order), meter)
    names = names.split(",")
    lists = [[ideals.read(text, names) for text in value.split("; ")] for value in values]

    def list_of(elements, names=names):
        return "; ".join(ideals.printed(p, names) for p in elements) or "none"

    if call == "divide":
        (p,), elements = lists
        cofactors, rest = ideals.divide(p, elements)
        return f"{list_of(cofactors)} rest {ideals.printed(rest, names)}"
    if call == "contains":
        generators, (p,) = lists
        _, rest = ideals.divide(p, ideals.complete(generators))
        return "false" if rest else "true"
    if call == "eliminate":
        first = int(order.split()[1])
        if first > len(names):
            return "a block of more names than there are"
        return list_of(eliminated(ideals, first, *lists), names[first:])
    calls = {"complete": ideals.complete, "tidy": ideals.tidy, "reduced_basis": lambda a: reduced(ideals, a),
             "sum": lambda a, b: reduced(ideals, a + b), "meet": lambda a, b: met(ideals, a, b)}
    return list_of(calls[call](*lists))


def metered(meter, values):
    """What entries answer, one after another."""
    answers = []
    for kind, *places in (value.split() for value in values):
        try:
            if kind in ("Start", "Round"):
                meter.note(kind, f"Begin {{ task: {kind}{f' {{ round: {places[0]} }}' if places else ''} }}")
            else:
                meter.did(kind, **dict(zip(("left", "right") if kind == "Pair" else ("element",), places)))
            answers.append("Ok(())")
        except Budget:
            answers.append("Err(Budget)")
    return "; ".join(answers)


def answer(call, limit, *values):
    meter = Meter(int(limit))
    with_entries, call = call.startswith("entries of "), call.removeprefix("entries of ")
    try:
        told = metered(meter, values) if call == "meter" else computed(call, meter, *values[:3], values[3:])
    except Wide:
        told = "wide"
    except Budget:
        told = "budget"
    return f"{told} with [{', '.join(meter.entries)}]" if with_entries else f"{told} in {meter.used} units"


def main():
    path = pathlib.Path(sys.argv[1]) if len(sys.argv) > 1 else ROWS
    rows = [line.split("\t") for line in path.read_text().splitlines() if "\t" in line and not line.startswith("dense\t")]
    differ = [(row, found) for row in rows if (found := answer(*row[:-1])) != row[-1]]
    for row, found in differ:
        print("\t".join(row), f"    computed {found}", sep="\n")
    print(f"{len(rows) - len(differ)} rows agree, {len(differ)} differ")
    sys.exit(1 if differ else 0)


if __name__ == "__main__":
    main()
