#!/usr/bin/env python3
"""Compares two built programs on mutated texts: what is printed, on both outputs, and the status have to be the same.

Usage: bench/mutants.py BEFORE AFTER [COUNT [SEED]]     (COUNT is 12,000 and SEED is 1, if they aren't given)

BEFORE and AFTER are two programs `invar`, as `.ci/run` or `rt run` in crates/invar builds them. The same SEED gives the same texts.

Texts are those of examples/, of the lists in bench/ and of the rows of crates/acceptance: loops, loops in sequence, sequences, equations, certificates
and the polynomials in them, full certificates. To them come texts on both sides of each limit of docs/LANGUAGE.md, and loops that multiply out to too
many terms. Each is tried as it is, then with one to four changes: bytes and tokens dropped, doubled, exchanged, inserted or replaced, parts repeated,
and limits passed. The commands are those that read such a text: runs with each branch once, the judges, counter-runs of at most two letters, and
analyses and questions with budgets of a few steps, so what is read starts no long analysis. A program that ends by a signal, or that doesn't end
within a minute, is told too.
"""
import collections
import functools
import json
import os
import pathlib
import random
import re
import subprocess
import sys
import tempfile

TOP = pathlib.Path(__file__).resolve().parent.parent
ROWS = TOP / "crates/acceptance/data/rows.txt"
LOOP_ROWS = TOP / "crates/acceptance/data/loops.txt"
LOOPS, CHAINS, SEQUENCES = (TOP / "bench" / name for name in ("loops.txt", "chains.txt", "sequences.txt"))
FULL_ROWS = TOP / "crates/acceptance/data/full.txt"
SECONDS = 60
STATUSES = range(9)
MOST_SHOWN = 5
MOST_BYTES = 65_536

MOST_NAMES, MOST_NAME_BYTES, MOST_BRANCHES, MOST_STATEMENTS = 12, 32, 6, 64
MOST_DEPTH, MOST_OPERATORS, MOST_NUMBER, MOST_EXPONENT, MOST_FLAT_EXPONENT = 64, 1024, 2**127 - 1, 16, 65_535

TOKEN = re.compile(r"[A-Za-z][A-Za-z0-9_]*|[0-9]+|\s+|#[^\n]*|.", re.DOTALL)
WORD = re.compile(r"[A-Za-z][A-Za-z0-9_]*")
KEYWORDS = ["vars", "init", "branch", "when"]
SIGNS = list(",;=(){}+-*/^")
BLANKS = [" ", "\t", "\n", "\r", "# a comment\n", "#", "\x0b", "\x0c"]
ODD_BYTES = ["@", "_", "!", '"', "\\", "~", "\x7f", "\xc3\xa9", "\xff", "\x01"]
STATE = ["3", "-2", "5/2", "7", "-11", "13/3", "17", "-19", "23", "29/5", "31", "37"]


def beside(limit):
    """The last number within a limit, and the first past it."""
    return limit, limit + 1


LONG_NAMES = ["n" * size for size in beside(MOST_NAME_BYTES)]
NUMBERS = [str(n) for n in (0, 1, 2, 7, *beside(MOST_EXPONENT), *beside(MOST_FLAT_EXPONENT), *beside(MOST_NUMBER), 10**39)] + ["00", "0" * 40 + "1"]


# ---- texts on both sides of each limit


def sums(x, y):
    """Sums in two names, on both sides of each limit of a right side, and with each kind of divisor."""
    for n in (MOST_DEPTH - 1, *beside(MOST_DEPTH)):
        yield "(" * n + x + ")" * n
        yield "-" * n + x
        yield "(-" * (n // 2) + "(" * (n % 2) + x + ")" * (n - n // 2)
        yield "(" * n + f"{x}/{y}" + ")" * n
        yield "(" * n + f"{x}/(1)" + ")" * n
        yield "-" * n + f"{x}/-1"
        yield f"{x} - (" + "-" * (n - 1) + f"{y})*" + "(" * n + x + ")" * n
    for n in (MOST_OPERATORS - 1, *beside(MOST_OPERATORS)):
        yield x + f" + {y}" * n
        yield x + "-1" * n
        yield x + "*1" * n
        yield x + "/1" * n
        yield x + f"+{y}^1" * (n // 2) + "-1" * (n % 2)
        yield x + f"+-{y}" * (n // 2) + "*1" * (n % 2)
        yield "(" + x + "*1" * n + f"/{y})"
    for number in beside(MOST_NUMBER):
        yield from (f"{number}", f"{x}/{number}", f"{x}^{number}", f"-{number}*{x}/3", f"{x} + 000{number}", f"({x} - {number}/7)/2")
    for exponent in (0, 1, *beside(MOST_EXPONENT)):
        yield from (f"{x}^{exponent}", f"-({x}+1)^{exponent}", f"{y}*2^{exponent}", f"{x}^00{exponent}")
    for divisor in ("0", "00", y, "-1", "(1)", "vars", "other", *LONG_NAMES, "1^2", "+1", "", ")", "@", "1/2", "/2"):
        yield from (f"{x}/{divisor}", f"-({x}*{y}/{divisor})")
    yield from (f"{x}^{y}", f"{x}^-1", f"{x}^(2)", f"{x}^2^2", f"{x}^", "-", "", "()", f"{x} {y}", f"2{x}", f"+{x}", f"{x}--{y}", f"-{x}^2", f"(-{x})^2")


def loops_beside_limits():
    """Loops on both sides of each limit of a loop, and with each fault."""
    for text in sums("x", "y"):
        yield f"vars x, y, z; init z = {text}; branch {{ z = z+1; }}"
        yield f"vars x, y, z; branch {{ x = {text}; y = y - x; }}"
        yield f"vars x, y, z; branch {{ (z, x) = (x, {text}); }} branch when x > y {{ (x, y, z) = ({text}, z, y); }}"
    for name in LONG_NAMES:
        yield from (
            f"vars x, {name}; init {name}=1; branch {{ {name} = {name}+x; }}",
            f"vars x, y; init {name}=1; branch {{ x = x+1; }}",
            f"vars x, y; init x = {name}; branch {{ }}",
            f"vars x, y; branch {{ {name} = x; }}",
            f"vars x, y; branch {{ (x, {name}) = (y, x); }}",
            f"vars x, y; branch when {name} > 0 {{ (x, y) = (y, {name}); }}",
        )
    for n in beside(MOST_NAMES):
        names = [f"v{i}" for i in range(n)]
        yield f"vars {', '.join(names)}; branch {{ v0 = v{n - 1}; }}"
        yield f"vars {', '.join(names)}; branch {{ ({', '.join(names)}) = ({', '.join(reversed(names))}); }}"
    for n in beside(MOST_BRANCHES):
        yield "vars x, y;" + " branch { x = x+y; }" * n
        yield "vars x, y;" + " branch when x > 0 { }" * n
    for n in beside(MOST_STATEMENTS):
        yield "vars x, y; branch {" + " x = x+y;" * n + " }"
        yield "vars x, y; branch {" + " (x, y) = (y, x);" * n + " }"
        yield "vars x, y; branch {" + " x = x+1;" * (n // 2) + " } branch {" + " y = y-x;" * (n - n // 2) + " }"
    for targets, values in (("x, x", "1, 2"), ("x, y", "1"), ("x, y", "1, 2, 3"), ("x", "1"), ("x, q", "1, 2"), ("", ""), ("x, y,", "1, 2"), ("x, y", "1, 2,")):
        yield f"vars x, y; branch {{ ({targets}) = ({values}); }}"
    for starts in ("x=1, x=2", "x=x", "x=y, y=1", "y=1, x=y", "x=1, y=x+z", "q=1", "x=q", "", "x=1,", "x", "x=1 y=2", "x=y+z, y=2"):
        yield f"vars x, y, z; init {starts}; branch {{ x = x+1; }}"
    for guard in ("", "x > y", "x # a comment\n", "a[1] != \"b\" && when(vars)", "}", ";", "x; y", "\x7f", "\xff", "x\ty\r\n", "'", "{"):
        yield f"vars x, y; branch when {guard} {{ x = x+1; }}"
    yield 'vars alpha, b_2, C; # names\ninit b_2 = -(alpha + 1/2)^2*3,\r\n\tC = 0;\nbranch when a[1] != "x" {\n  alpha = -alpha^2/4 - -(b_2*(C - 7));\n' \
        "  (b_2, C) = (C, b_2 + alpha^0/3);\n}\nbranch { } # the end"


def loops_beside_lengths():
    """Loops whose closed forms, and loops whose orbits, multiply out to 2^20 terms or to more."""
    names = "abcdefghijkl"
    for size in (3, 4, 5, 12):
        rest = "+".join(names[2 : size + 1])
        yield from (f"vars {', '.join(names)}; branch {{ a=b^{power}; b=({rest}+1)^{power}; }}" for power in (2, 3, 5, 8))
    for size in (2, 4, 7, 11):
        total = "+".join(names[: size + 1])
        yield from (f"vars x, {', '.join(names[:11])}; init x=a^{power}; branch {{ a={total}; }}" for power in (2, 5, 8, 12, 16))


def equations_beside_limits():
    for text in sums("a", "t"):
        yield from (f"{text} = s", f"s = {text}")
        yield f"{text} = {text}"
    yield from ("=", "a =", "= a", "a", "a == t", "a = t = s", "a = t;", "vars = a", "(a = t)")


def flats(x, y):
    """Flat polynomials in two names: on both sides of each limit, each fault, and like monomials in other orders."""
    for exponent in beside(MOST_FLAT_EXPONENT):
        yield from (f"{x}^{exponent}", f"{x}^{exponent - 1}*{y}*{x}", f"2*{y}^{exponent}*{x} - 1", f"{x}*{y}^{exponent - 7}*{y}^7")
    for number in beside(MOST_NUMBER):
        yield from (f"{number}", f"-{number}*{x}", f"1/{number}*{x}", f"{number}/{number}*{y}", f"{x}^{number}", f"000{number}*{x}")
    for divisor in ("0", "00", "1", y, "-2", "(2)", ""):
        yield f"{x} - 3/{divisor}*{y}"
    yield from (
        f"{x} + {x}", f"{x}*{y} - {y}*{x}", f"{x}^2 + {x}*{x}", f"0*{x} + {x}", f"1 - 1", f"0", f"-0", f"{x}^0", f"{x}^0 + 1", f"{x}*2", f"2*3*{x}", f"--{x}", f"+{x}",
        f"{x} -- {y}", f"({x})", f"{x}{y}", f"2{x}", f"{x}/2", f"1/2*{x}/3", f"{x}*{y}*{x}^3 - 4/6*{y}^2 + 7", "", " ", f"{x} = 0", f"{x} # {y}", f"{x}\n+\t{y}",
        LONG_NAMES[0], LONG_NAMES[1], "when", f"{x}^", f"^{x}", f"{x}*", f"*{x}", f"{x}^2^2",
    )


# ---- what is written down in the repository


def rows_of(path):
    return [line.split("\t") for line in path.read_text().splitlines() if line and not line.startswith("# ")]


def written_loops():
    """The loops of the repository, each once. Those of the rows that break off are left out: dropping and cutting makes them anew."""
    found = [path.read_text() for path in sorted((TOP / "examples").glob("*.loop"))]
    found += [row[1].replace("~", "\n") for row in rows_of(ROWS) if row[0] == "LOOP" and len(row) == 2]
    found += [row[1] for row in rows_of(LOOPS) if len(row) == 2]
    found += [row[2 + (row[0] == "units")] for row in rows_of(LOOP_ROWS) if row[0] in ("basis", "member", "units")]
    return list(dict.fromkeys(text for text in found if text.rstrip().endswith("}")))


def written_equations():
    """The equations of the repository, each with its loop."""
    found, loop = [], ""
    for row in rows_of(ROWS):
        if row[0] == "LOOP" and len(row) == 2:
            loop = row[1].replace("~", "\n")
        elif row[0] == "call" and row[1] == "member" and len(row) > 3:
            found.append((loop, row[-2]))
    return found + [(row[2], row[3]) for row in rows_of(LOOP_ROWS) if row[0] == "member"]


def written_certificates():
    """The certificates of the repository that aren't full ones, each with its loop."""
    found = []
    for path in sorted((TOP / "examples").glob("*.json")):
        loop = next(loop for loop in sorted((TOP / "examples").glob("*.loop"), key=lambda p: -len(p.stem)) if path.stem.startswith(loop.stem))
        found.append((loop.read_text(), path.read_text()))
    loop = ""
    for row in rows_of(ROWS):
        if row[0] == "LOOP" and len(row) == 2:
            loop = row[1].replace("~", "\n")
        elif row[0] == "CERT" and len(row) == 2 and row[1].startswith("{") and row[1].endswith("}"):
            found.append((loop, row[1]))
    return [(loop, text) for loop, text in dict.fromkeys(found) if '"kind"' not in text]


def written_chains():
    """The loops in sequence of the repository."""
    return [path.read_text() for path in sorted((TOP / "examples/chains").glob("*.chain"))] + [row[1] for row in rows_of(CHAINS) if len(row) == 2]


def written_sequences():
    return [row[1] for row in rows_of(SEQUENCES) if len(row) == 2]


def written_full_certificates():
    """The full certificates of the repository, each with its loop."""
    found, loop = [((TOP / "examples/sign.loop").read_text(), (TOP / "examples/sign-full.json").read_text())], ""
    for row in rows_of(FULL_ROWS):
        if row[0] == "LOOP" and len(row) == 2:
            loop = row[1].replace("~", "\n")
        elif row[0] == "CERT" and len(row) == 2:
            found.append((loop, row[1]))
    return found


# ---- changes of a text


def spread(text, blank):
    """The text with this blank between all its tokens."""
    return blank.join(token for token in TOKEN.findall(text) if not token.isspace())


class Changer:
    """Changes of texts by chance."""

    def __init__(self, seed):
        self.chance = random.Random(seed)

    def pick(self, items):
        return items[self.chance.randrange(len(items))]

    def token(self, text):
        """A token of the language, names of the text and odd bytes among them."""
        names = WORD.findall(text) or ["x"]
        kinds = [SIGNS, SIGNS, names, names, NUMBERS, KEYWORDS, LONG_NAMES + ["other", "_x", "Vars", "when_"], BLANKS, ODD_BYTES]
        return self.pick(self.pick(kinds))

    def parts(self, text):
        """A text in three parts, of which the middle one is a token, or a few."""
        tokens = TOKEN.findall(text)
        at = self.chance.randrange(len(tokens))
        count = self.pick([1, 1, 1, 2, 3, 5])
        return "".join(tokens[:at]), "".join(tokens[at : at + count]), "".join(tokens[at + count :])

    def atom(self, text):
        """A text in three parts, of which the middle one is a name or a number."""
        atoms = [m for m in re.finditer(r"\w+", text) if m[0] not in KEYWORDS]
        if not atoms:
            return text, "x", ""
        found = self.pick(atoms)
        return text[: found.start()], found[0], text[found.end() :]

    # bytes

    def drop_byte(self, text):
        at = self.chance.randrange(len(text))
        return text[:at] + text[at + 1 :]

    def double_byte(self, text):
        at = self.chance.randrange(len(text))
        return text[:at] + text[at] + text[at:]

    def exchange_bytes(self, text):
        i = self.chance.randrange(len(text))
        j = self.pick([i + 1, self.chance.randrange(len(text))]) % len(text)
        listed = list(text)
        listed[i], listed[j] = listed[j], listed[i]
        return "".join(listed)

    def insert_byte(self, text):
        at = self.chance.randrange(len(text) + 1)
        return text[:at] + chr(self.chance.randrange(256)) + text[at:]

    def change_byte(self, text):
        at = self.chance.randrange(len(text))
        return text[:at] + self.pick([chr(self.chance.randrange(256)), chr(ord(text[at]) ^ 1 << self.chance.randrange(8))]) + text[at + 1 :]

    def cut(self, text):
        return text[: self.chance.randrange(len(text))]

    # tokens

    def drop_tokens(self, text):
        before, _, behind = self.parts(text)
        return before + behind

    def repeat_tokens(self, text):
        before, part, behind = self.parts(text)
        return before + self.pick(["", " "]).join([part] * self.pick([2, 2, 2, 3, 7])) + behind

    def exchange_tokens(self, text):
        tokens = TOKEN.findall(text)
        i = self.chance.randrange(len(tokens))
        j = self.pick([i + 1, i + 2, self.chance.randrange(len(tokens))]) % len(tokens)
        tokens[i], tokens[j] = tokens[j], tokens[i]
        return "".join(tokens)

    def insert_token(self, text):
        before, part, behind = self.parts(text)
        space = self.pick(["", " "])
        return before + self.token(text) + space + part + behind

    def change_token(self, text):
        before, _, behind = self.parts(text)
        return before + self.token(text) + behind

    def change_alike(self, text):
        """Another name for a name, another number for a number, another sign for an operator."""
        tokens = TOKEN.findall(text)
        kinds = [(WORD, WORD.findall(text)), (re.compile(r"[0-9]+"), NUMBERS[:5] + ["3", "12"]), (re.compile(r"[-+*/^]"), list("+-*/^"))]
        kind, others = self.pick(kinds)
        places = [i for i, token in enumerate(tokens) if kind.fullmatch(token) and token not in KEYWORDS]
        if places:
            tokens[self.pick(places)] = self.pick(others)
        return "".join(tokens)

    def spread(self, text):
        return spread(text, self.pick(BLANKS))

    def move_tokens(self, text):
        before, part, behind = self.parts(text)
        rest = TOKEN.findall(before + behind)
        at = self.chance.randrange(len(rest) + 1)
        return "".join(rest[:at]) + part + "".join(rest[at:])

    # limits

    def long_name(self, text):
        """Another name for a name of the text, there or everywhere, of as many bytes as a name may have, or of one more."""
        names = [word for word in WORD.findall(text) if word not in KEYWORDS] or ["x"]
        name = self.pick(names)
        return re.sub(rf"\b{name}\b", self.pick(LONG_NAMES), text, count=self.pick([0, 1]))

    def many_names(self, text):
        before, sign, behind = text.partition(";")
        more = self.pick(beside(MOST_NAMES)) - len(WORD.findall(before)) + 1
        return before + "".join(f", v{i}" for i in range(more)) + sign + behind

    def many_branches(self, text):
        found = re.search(r"branch[^}]*}", text)
        part = found[0] if found else "branch { }"
        return text + f"\n{part}" * (self.pick(beside(MOST_BRANCHES)) - text.count("branch"))

    def many_statements(self, text):
        found = re.search(r"{([^{};]*;)", text)
        if not found:
            return text + ";" * MOST_STATEMENTS
        inner = sum(part.count(";") for part in re.findall(r"{([^{}]*)}", text))
        return text[: found.end()] + found[1] * (self.pick(beside(MOST_STATEMENTS)) - inner) + text[found.end() :]

    def deep(self, text):
        before, atom, behind = self.atom(text)
        n = self.pick([MOST_DEPTH - 1, *beside(MOST_DEPTH)])
        signs = "".join(self.pick("(-") for _ in range(n))
        return before + self.pick(["(" * n + atom + ")" * n, "-" * n + atom, signs + atom + ")" * signs.count("(")]) + behind

    def many_operators(self, text):
        before, atom, behind = self.atom(text)
        more = self.pick(["+1", "-1", "*1", "/1", f" + {atom}", f"*{atom}^0", "+-1"])
        n = MOST_OPERATORS + 1 - self.chance.randrange(8)
        return before + atom + more * (n // sum(map(more.count, "+-*/^"))) + behind

    def number(self, text):
        before, _, behind = self.atom(text)
        return before + self.pick(NUMBERS) + behind

    def power(self, text):
        before, atom, behind = self.atom(text)
        return before + atom + "^" + self.pick(NUMBERS) + behind

    def divisor(self, text):
        before, atom, behind = self.atom(text)
        return before + atom + "/" + self.pick(NUMBERS + ["-1", "(1)", atom, "other", *LONG_NAMES]) + behind

    SMALL = [drop_byte, double_byte, exchange_bytes, insert_byte, change_byte]
    SMALL += [drop_tokens, repeat_tokens, exchange_tokens, insert_token, insert_token, change_token, change_token, move_tokens] * 2
    OF_SUMS = [long_name, deep, many_operators, number, number, power, power, divisor]
    OF_LOOPS = [many_names, many_branches, many_statements]

    def changed(self, text, limits):
        """The text with one to four changes, of which few pass limits. It stays short enough for a word of a command."""
        for _ in range(self.pick([1, 1, 1, 1, 2, 2, 3, 4])):
            changes = self.pick([self.SMALL] * 10 + [[Changer.change_alike]] * 8 + [limits] * 3 + [[Changer.cut, Changer.spread]])
            text = self.pick(changes)(self, text or " ")[:MOST_BYTES]
        return text


# ---- commands


class Command:
    """What a program is called with: its words, and the files that they name."""

    def __init__(self, words, **files):
        # A word is no bytes with 0, and UTF-8; a file may have any bytes.
        self.words = [word.replace("\0", "").encode() for word in words]
        self.files = {name: text.encode("latin-1", "replace") for name, text in files.items()}
        self.key = (*self.words, *self.files.items())

    def answer(self, program):
        try:
            done = subprocess.run([program, *self.words], stdin=subprocess.DEVNULL, capture_output=True, timeout=SECONDS)
            return done.returncode, done.stdout, done.stderr
        except subprocess.TimeoutExpired:
            return "late", b"", b""

    def answers(self, programs):
        for name, text in self.files.items():
            pathlib.Path(name).write_bytes(text)
        return [self.answer(program) for program in programs]


def names_in(loop):
    """The names of a loop, as far as they can be seen in its text."""
    head = re.search(r"\bvars\b([^;]*)", re.sub(r"#[^\n]*", "", loop))
    return WORD.findall(head[1] if head else "")[:MOST_NAMES] or ["x"]


def start_of(loop):
    """Numbers for a loop's names, which meet what `init` says where it sets a name to a number or to a name."""
    values = dict(zip(names_in(loop), STATE))
    init = re.search(r"\binit\b([^;]*)", loop)
    for name, value in re.findall(r"(\w+)\s*=\s*(\w{1,30})\s*(?=,|$)", init[1] if init else ""):
        if name in values and (value in values or value.isascii() and value.isdigit()):
            values[name] = values.get(value, value)
    return list(values.values())


def run(loop):
    """Each branch once, in order, from a state of the loop's size."""
    word = ",".join(str(i + 1) for i in range(min(max(loop.count("branch"), 1), MOST_BRANCHES)))
    return Command(["run", "text.loop", word, ",".join(start_of(loop))], **{"text.loop": loop})


def basis(loop):
    return Command(["basis", "--budget", "8", "text.loop"], **{"text.loop": loop})


def asked(loop, equation, words):
    """A command that asks about an equation of a loop: its name and its option."""
    return Command([*words, "text.loop", equation], **{"text.loop": loop})


member = functools.partial(asked, words=("member", "--budget", "40"))
QUESTIONS = [functools.partial(asked, words=words) for words in (("counter", "--length", "2"), ("decide", "--budget", "40"), ("prove", "--budget", "40"))]


def chain(loops):
    return Command(["chain", "--budget", "8", "text.chain"], **{"text.chain": loops})


def chainrun(loops):
    """The first branch of each loop once, from a state of the loops' size."""
    return Command(["chainrun", "text.chain", "/".join("1" * (loops.count("then") + 1)), ",".join(start_of(loops))], **{"text.chain": loops})


def relations(sequences):
    return Command(["relations", "--budget", "8", "text.sequences"], **{"text.sequences": sequences})


def checkfull(loop, certificate):
    return Command(["checkfull", "text.loop", "text.json"], **{"text.loop": loop, "text.json": certificate})


def check(loop, certificate):
    return Command(["check", "text.loop", "text.json"], **{"text.loop": loop, "text.json": certificate})


def check_of_flat(names, text):
    """The reading of a flat polynomial beside that of the sum with the same text: the certificate is valid where they are the same."""
    names = [*names[: MOST_NAMES - 1], "u_0"]
    loop = f"vars {', '.join(names)}; init u_0 = -({text}); branch {{ }}"
    return check(loop, json.dumps({"basis": [f"{text} + u_0"], "steps": [[["1"]]], "vars": names, "version": 1}))


def with_polynomial(certificate, place, text):
    """The certificate with this text in the place of a polynomial, counted through the basis and the cofactors."""
    value = json.loads(certificate)
    holders = [(value["basis"], i) for i in range(len(value["basis"]))]
    for cofactors in (row for rows in value["steps"] for row in rows):
        holders += [(item, 1) if isinstance(item, list) else (cofactors, i) for i, item in enumerate(cofactors)]
    holder, i = holders[place % len(holders)]
    holder[i] = text(holder[i])
    return json.dumps(value)


class Commands:
    """The commands with their texts, first as they are and then changed."""

    def __init__(self, seed):
        self.changer = Changer(seed)
        self.loops = written_loops()
        self.limit_loops = [*loops_beside_limits(), *loops_beside_lengths()]
        self.chains = written_chains()
        self.sequences = written_sequences()
        self.full_certificates = written_full_certificates()
        self.squares = (TOP / "examples/squares.loop").read_text()
        self.equations = written_equations()
        self.limit_equations = list(equations_beside_limits())
        self.certificates = written_certificates()
        self.limit_flats = list(flats("x", "y"))

    def unchanged(self):
        for loop in self.loops + self.limit_loops:
            yield run(loop)
        for loop in self.limit_loops:
            yield basis(loop)
        for loop in self.loops:
            yield run(spread(loop, "\t# a comment\n"))
        for loop, equation in self.equations + [(self.squares, equation) for equation in self.limit_equations]:
            yield member(loop, equation)
        for loop, certificate in self.certificates:
            yield check(loop, certificate)
        for loops in self.chains:
            yield from (chain(loops), chainrun(loops))
        yield from map(relations, self.sequences)
        for loop, certificate in self.full_certificates:
            yield checkfull(loop, certificate)
        for text in self.limit_flats:
            yield check_of_flat(["x", "y"], text)
            yield check("vars x, y; branch { }", json.dumps({"basis": ["0", text], "steps": [[["0", text], ["1", "1"]]], "vars": ["x", "y"], "version": 1}))

    def changed_loop(self):
        loop = self.changer.pick(self.changer.pick([self.loops, self.loops, self.limit_loops]))
        return self.changer.changed(loop, Changer.OF_SUMS + Changer.OF_LOOPS * 2)

    def changed_run(self):
        return run(self.changed_loop())

    def changed_basis(self):
        return basis(self.changed_loop())

    def changed_loop_of_certificate(self):
        loop, certificate = self.changer.pick(self.certificates)
        return check(self.changer.changed(loop, Changer.OF_SUMS + Changer.OF_LOOPS), certificate)

    def changed_equation(self):
        loop, equation = self.changer.pick(self.equations + [(self.squares, self.changer.pick(self.limit_equations))] * 40)
        return member(loop, self.changer.changed(equation, Changer.OF_SUMS))

    def changed_polynomial(self):
        loop, certificate = self.changer.pick([(loop, certificate) for loop, certificate in self.certificates if json.loads(certificate)["basis"]])
        change = functools.partial(self.changer.changed, limits=Changer.OF_SUMS)
        return check(loop, with_polynomial(certificate, self.changer.chance.randrange(100), change))

    def changed_flat(self):
        loop, certificate = self.changer.pick(self.certificates)
        polynomials = json.loads(certificate)["basis"] + self.limit_flats
        return check_of_flat(list(dict.fromkeys(names_in(loop) + ["x", "y"])), self.changer.changed(self.changer.pick(polynomials), Changer.OF_SUMS))

    def changed_certificate(self):
        loop, certificate = self.changer.pick(self.certificates)
        return check(loop, self.changer.changed(certificate, Changer.OF_SUMS))

    def changed_question(self):
        loop, equation = self.changer.pick(self.equations + [(self.squares, self.changer.pick(self.limit_equations))] * 40)
        if self.changer.pick([True, False]):
            loop = self.changer.changed(loop, Changer.OF_SUMS + Changer.OF_LOOPS)
        else:
            equation = self.changer.changed(equation, Changer.OF_SUMS)
        return self.changer.pick(QUESTIONS)(loop, equation)

    def changed_chain(self):
        return self.changer.pick([chain, chainrun])(self.changer.changed(self.changer.pick(self.chains), Changer.OF_SUMS + Changer.OF_LOOPS))

    def changed_sequences(self):
        return relations(self.changer.changed(self.changer.pick(self.sequences), Changer.OF_SUMS))

    def changed_full_certificate(self):
        loop, certificate = self.changer.pick(self.full_certificates)
        return checkfull(loop, self.changer.changed(certificate, Changer.OF_SUMS))

    def changed(self):
        kinds = [self.changed_run] * 9 + [self.changed_equation] * 5 + [self.changed_polynomial] * 2 + [self.changed_flat] * 3
        kinds += [self.changed_basis, self.changed_loop_of_certificate, self.changed_certificate]
        kinds += [self.changed_question, self.changed_chain, self.changed_sequences, self.changed_full_certificate] * 2
        return self.changer.pick(kinds)()

    def first(self, count):
        """So many commands, no two alike."""
        found = {command.key: command for command in self.unchanged()}
        while len(found) < count:
            command = self.changed()
            found.setdefault(command.key, command)
        return list(found.values())[:count]


# ---- answers


def kind(command, status, said):
    """What an answer is counted as: its text without offsets, numbers and names, or the command that has it."""
    line = said.decode("latin-1").partition("\n")[0]
    fault = re.match(r"(loop|equation|certificate|chain|sequences): [a-z ]+?(?= at |$)|(values|start|no branch|branch|wide|budget|read fault|too long|usage)(?=\W)", line)
    return fault[0] if status not in (0, 1) and fault else command.words[0].decode()


def shown(command):
    return "\n".join([f"    words {command.words}", *(f"    {name} {text}" for name, text in command.files.items())])


def main():
    if len(sys.argv) < 3:
        sys.exit(__doc__)
    programs, numbers = [str(pathlib.Path(path).resolve()) for path in sys.argv[1:3]], sys.argv[3:]
    count, seed = map(int, numbers + ["12000", "1"][len(numbers) :])
    commands = Commands(seed).first(count)
    counts, differ, broken = collections.defaultdict(collections.Counter), 0, 0
    with tempfile.TemporaryDirectory() as folder:
        os.chdir(folder)
        for command in commands:
            before, after = command.answers(programs)
            counts[str(before[0])][kind(command, *before[:2])] += 1
            if after[0] not in STATUSES:
                broken += 1
                print(f"NO ANSWER {after[0]}\n{shown(command)}", flush=True)
            if before != after:
                differ += 1
                if differ <= MOST_SHOWN:
                    print(f"DIFFERENT\n{shown(command)}\n    before {before}\n    after {after}", flush=True)
    for status, kinds in sorted(counts.items()):
        print(f"status {status}: {kinds.total():,} ({', '.join(f'{name} {number:,}' for name, number in kinds.most_common())})")
    print(f"{len(commands):,} texts by the seed {seed}, {differ:,} differ, {broken:,} without an answer")
    sys.exit(1 if differ or broken else 0)


if __name__ == "__main__":
    main()
