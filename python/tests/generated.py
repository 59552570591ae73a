"""C functions made at random, with what misleads a reader: effects in tests, commas, choices and sizes, scopes of names, narrow types, aliases, calls.

`functions(seed, count)` gives the same ones each time: pairs of a name and the text of `int NAME(int n, int m)`, to stand behind HEAD.
"""
from __future__ import annotations

import random

HEAD = """struct s { int x; };
enum { K = 2, Z = 0 };
int g; static int hh;
static int get(void) { hh += 3; return hh % 7; }
static void bump(void) { g += 2; }
static void set(int *x) { *x += 1; }
"""


class Function:
    """A function under way."""

    def __init__(self, numbers: random.Random) -> None:
        self.numbers = numbers
        self.counters, self.labels, self.is_in_loop = 0, 0, False
        self.whole = sorted({"a", "b", *numbers.sample("abcd", numbers.randint(2, 4))})
        more = [["g"], ["l"], [self.one("u", "uc", "sh")]]
        self.changed = self.whole + [name for names in more if self.happens(0.3) for name in names]
        self.read = self.changed + (["m"] if self.happens(0.3) else [])

    def one(self, *words: str) -> str:
        return self.numbers.choice(words)

    def happens(self, share: float) -> bool:
        return self.numbers.random() < share

    def number(self, low: int, high: int) -> int:
        return self.numbers.randint(low, high)

    def variable(self) -> str:
        return self.numbers.choice(self.changed)

    def readable(self) -> str:
        return self.numbers.choice(self.read)

    def two(self) -> tuple[str, str]:
        one, other = self.numbers.sample(self.whole, 2)
        return one, other

    # expressions

    def simple(self) -> str:
        return self.one(
            str(self.number(-3, 5)), str(self.number(-3, 5)), self.readable(), self.readable(), f"{self.number(2, 3)} * {self.readable()}",
            f"({self.readable()} {self.one('+', '-')} {self.number(1, 4)})", "K",
        )

    def effect(self) -> str:
        name = self.numbers.choice(self.whole)
        return self.one(f"{name}++", f"{name} += {self.number(1, 3)}", f"{name}--", f"{name} = {self.number(-2, 4)}")

    def test_with_effect(self) -> str:
        name = self.numbers.choice(self.whole)
        step = self.one(f"{name}++", f"++{name}", f"{name}--", f"--{name}")
        return f"{step} {self.one('<', '>', '>=', '<=', '!=')} {self.number(-3, 9)}"

    def test_behind_effect(self) -> str:
        """A test whose right side reads what its left side has changed."""
        name = self.numbers.choice(self.whole)
        step, sign = self.one(f"{name}++", f"{name}--"), self.one("&&", "||")
        right = self.one(f"{name} % 2 == 0", f"{name} < 5", f"{name} != 0", f"{name} >= {self.simple()}")
        return f"({step} > {self.number(-2, 3)} {sign} {right})"

    def test(self) -> str:
        sign = self.one("&&", "||")
        return self.numbers.choice([
            lambda: f"{self.readable()} {self.one('<', '>', '<=', '>=', '==', '!=')} {self.simple()}",
            lambda: f"{self.readable()} % 2 {self.one('==', '!=')} {self.one('0', '1')}",
            lambda: f"{self.readable()} % 3 == {self.one('0', '1', '2', '-1')}",
            lambda: self.readable(),
            lambda: self.one("K", "Z"),
            lambda: f"!({self.test()})",
            lambda: f"({self.test()} {sign} {self.test()})",
            lambda: f"({self.test()} {sign} {self.test_with_effect()})",
            self.test_with_effect,
            self.test_behind_effect,
            lambda: f"({self.effect()}, {self.test()})",
        ])()

    def expression(self) -> str:
        one, other = self.two()
        return self.numbers.choice([
            self.simple,
            lambda: f"{self.simple()} {self.one('+', '-')} {self.simple()}",
            lambda: f"{one}{self.one('++', '--')} + {other}",
            lambda: f"{one} + {self.one('++', '--')}{other}",
            lambda: f"{one}++ + ({other}++, {other})",
            lambda: f"{one}-- + (get(), {self.number(1, 5)})",
            lambda: f"{one}++ + (({other}--, {other} >= 0) ? 1 : 2)",
            lambda: f"arr[({one}++, {one} & 3)]",
            lambda: f"({self.test()} ? {self.simple()} : {self.simple()})",
            lambda: f"(m > 2 ? {one}++ : {other}--)",
            lambda: f"({self.readable()} {self.one('+', '-')} 1) / 2",
            lambda: f"{self.readable()} / 2",
            lambda: f"({self.one('unsigned char', 'short', 'unsigned', 'int', 'signed char', 'long')}) {self.readable()}",
            lambda: f"({self.effect()}, {self.number(0, 4)})",
            lambda: self.one("get()", "arr[m & 3]", "*p", f"{self.number(1, 3)}u", f"-{self.readable()}"),
        ])()

    # statements

    def block(self, depth: int) -> str:
        return "{ " + " ".join(self.statement(depth + 1) for _ in range(self.number(1, 2))) + " }"

    def scoped(self, depth: int) -> str:
        """A block whose names hide others."""
        name, inner = self.one("a", "b"), self.statement(depth + 2)
        kind = self.one("short", "unsigned char", "double", "unsigned")
        step = self.numbers.choice(self.whole)
        return self.one(
            f"{{ int {name} = {self.number(0, 4)}; {name} += {self.number(1, 3)}; {inner} }}",
            f"{{ {kind} {name} = {self.number(0, 4)}; {name} += 2; }}",
            f"{{ enum {{ K = {self.number(3, 9)} }}; {inner} }}",
            f"{{ int K = {self.simple()}; {inner} }}",
            f"{{ int g = 7; {{ extern int g; g += 2; }} {self.variable()} += g; }}",
            "{ extern int g; g += 2; }",
            f"{{ register int *r = &arr[{step}++ & 3]; {inner} }}",
            f"{{ register struct s r = {{ ++{step} }}; {inner} }}",
            f"{{ char r[({step}++ & 3) + 1]; r[0] = 0; }}",
            f"{{ typedef char R[({step}-- & 3) + 1]; }}",
            f"{self.variable()} += sizeof(char[({step}++ & 3) + 1]) - sizeof(char);",
        )

    def narrow(self) -> str:
        name = self.one("uc", "u", "sh")
        return self.one(
            f"if ({name} < 200) {name}++;", f"if ({name} > 0) {name}--;", f"{name} += {self.number(1, 90)};", f"if ({name} >= 3) {name} -= 3;",
            f"if ({name} < u) {name} += 1;", f"if ({name}++ > 0 && {name} < 256) {self.variable()} += {name};",
        )

    def halves(self) -> str:
        name, whole = self.readable(), self.numbers.choice(self.whole)
        return f"if ({name} % 2 == 0) {{ {whole} += {name} / 2; }} else {{ {whole} += ({name} {self.one('+', '-')} 1) / 2; }}"

    def leaving(self, depth: int) -> str:
        self.labels += 1
        label = f"L{self.labels}"
        words = [f"if ({self.test()}) goto {label}; {self.statement(depth + 2)} {label}: ;"]
        return self.one(*words, *([f"if ({self.test()}) {self.one('break', 'continue')};"] if self.is_in_loop else []))

    def choice(self, depth: int) -> str:
        cases = f"case 1: {self.statement(depth + 2)} {self.one('', 'break;')} case 2: {self.statement(depth + 2)} {self.one('', 'break;')}"
        return f"switch ({self.one('m', 'i', self.readable())}) {{ {cases} default: ; }}"

    def statement(self, depth: int) -> str:
        name, deep = self.variable(), depth > 4
        plain = [
            lambda: f"{name} {self.one('+=', '-=', '+=')} {self.one(str(self.number(1, 4)), self.simple())};",
            lambda: f"{name} {self.one('+=', '-=')} {self.number(1, 4)};",
            lambda: f"{name} = {self.expression()};",
            lambda: f"{name} += {self.expression()};",
            lambda: f"{name}{self.one('++', '--')};",
            lambda: f"{self.effect()}, {self.effect()};",
            lambda: f"{name} = {self.numbers.choice(self.whole)} = {self.simple()};",
            lambda: self.one("bump();", "*p += 1;", "arr[m & 3] = a;", "q->x += 2;", "set(&b);", "g += 1;"),
            lambda: f"{self.one('uc', 'u', 'sh', 'l', 'a', 'b')} {self.one('=', '+=', '-=')} {self.readable()};",
            self.narrow,
            self.halves,
        ]
        nested = [
            lambda: f"if ({self.test()}) {self.block(depth + 1)} else {self.block(depth + 1)}",
            lambda: f"if ({self.test()}) {self.block(depth + 1)}",
            lambda: self.choice(depth),
            lambda: self.scoped(depth),
            lambda: self.leaving(depth),
            lambda: f"do {{ {self.statement(depth + 1)} if ({self.test()}) {self.one('break', 'continue')}; {self.statement(depth + 1)} }} while (0);",
            lambda: self.loop(depth + 1) if depth < 2 else self.narrow(),
        ]
        return self.numbers.choice(plain if deep or self.happens(0.6) else nested)()

    def loop(self, depth: int) -> str:
        self.counters += 1
        k, outer, self.is_in_loop = f"k{self.counters}", self.is_in_loop, True
        body = " ".join(self.statement(depth) for _ in range(self.number(1, 3)))
        self.is_in_loop = outer
        most = self.one("m", "n", "3", "5")
        self.read.append(k)
        return "\n " + self.one(
            f"{k} = 0;\n while ({k}++ < {most}) {{ {body} }}",
            f"for ({k} = 0; {k} < {most}; {k}++)\n {{ {body} }}",
            f"{k} = {most};\n do {{ {body} }} while (--{k} > 0);",
            f"{k} = {most};\n while ({k} > 0) {{ {k}--; {body} }}",
            f"for (int {k} = 0, z = 9; {k} < {most}; z--, {k} += 1)\n {{ {body} }}",
            f"{k} = 0;\n while ({k} < {most} {self.one('&&', '||')} {self.test_with_effect()}) {{ {k}++; {body} }}",
            f"{k} = 0;\n while (1) {{ if ({k} >= {most}) break; {body} {k}++; }}",
        ) + "\n"

    def text(self, name: str) -> str:
        before = f"if ({self.test()}) {self.block(3)}" if self.happens(0.15) else ""
        loops = [self.loop(0) + (self.statement(4) if self.happens(0.3) else "") for _ in range(self.number(1, 2))]
        counters = ", ".join(f"k{number} = 0" for number in range(1, self.counters + 1))
        begins = ", ".join(f"{one} = {self.one('0', '0', '1', 'n', 'm', str(self.number(-3, 6)))}" for one in "abcd")
        return "\n".join([
            f"int {name}(int n, int m)",
            "{",
            f"    int {begins}, i = 0, {counters};",
            f"    unsigned u = {self.one('0', '3', '7u')}; unsigned char uc = {self.one('0', '5', '254')};",
            f"    short sh = {self.one('0', '100')}; long l = {self.one('0', 'a', '2')};",
            f"    int arr[4] = {{ 1, 2, 3, 4 }}; int *p = {self.one('&b', '&g', 'arr', '&a', 'arr')}; struct s z = {{ 1 }}, *q = &z;",
            f"    g = {self.one('0', 'n', '3')};",
            f"    {before}",
            *loops,
            "    return a;",
            "}",
            "",
        ])


def functions(seed: int, count: int) -> list[tuple[str, str]]:
    numbers = random.Random(seed)
    return [(f"f{number}", Function(numbers).text(f"f{number}")) for number in range(count)]
