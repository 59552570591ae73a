#!/usr/bin/env python3
"""Tests of invar-c: what is refused with its line, and what is written.

Usage: PYTHONPATH=python/src python/tests/test_c.py [--quick]        (once `./invar` has built the program)

With --quick the tests that take long are left out.
"""
from __future__ import annotations

import os
import re
import subprocess
import sys
import tempfile
import unittest
from dataclasses import dataclass
from pathlib import Path

import invar_tools
from invar_tools.polynomials import Polynomial, read_basis

TOP = Path(__file__).resolve().parents[2]

DIVISION = """int quotient(int a, int b)
{
    int q = 0, r = a;
    //@ loop variant r;
    while (r >= b) {
        r -= b;
        q++;
    }
    return q;
}
"""


INVAR = TOP / "invar"
ENVIRONMENT = {**os.environ, "PYTHONPATH": str(Path(invar_tools.__file__).resolve().parents[1])}
UNPROVED = "invar: nothing has been proved here of the program that answers; ./invar --prove proves it\n"
ALWAYS = "holds at each turn whatever the tests say"
QUICK = "--quick" in sys.argv
lengthy = unittest.skipIf(QUICK, "takes long")


@dataclass(frozen=True)
class Result:
    """How a call ended: its status, what it told, the text of the file, and the names beside it."""

    status: int
    told: str
    text: str
    beside: list[str]


class Calls(unittest.TestCase):
    """Calls of invar-c on files in a new folder."""

    def setUp(self) -> None:
        folder = tempfile.TemporaryDirectory()
        self.addCleanup(folder.cleanup)
        self.file = Path(folder.name) / "test.c"

    def annotate(self, text: str, *words: str) -> Result:
        self.file.write_text(text)
        call = [sys.executable, "-m", "invar_tools.c", *words, self.file]
        done = subprocess.run(call, env=ENVIRONMENT, capture_output=True, text=True, check=False)
        told = done.stderr.replace(UNPROVED, "", 1).replace(str(self.file), "test.c")
        return Result(done.returncode, told, self.file.read_text(), sorted(file.name for file in self.file.parent.iterdir()))

    def clauses(self, text: str) -> list[str]:
        """The left sides of the equations in a text."""
        return re.findall(r"loop invariant invar: (.*?) == 0;", text)


class Annotations(Calls):
    """What is refused with its line, and what is written."""

    def refused(self, text: str, *wanted: str) -> None:
        """The file stays as it was, and what is told has these parts."""
        result = self.annotate(text, "--keep")
        self.assertEqual((result.status, result.text, result.beside), (1, text, ["test.c"]))
        for part in wanted:
            self.assertIn(part, result.told)

    def body_refused(self, body: str, reason: str) -> None:
        text = f"int g(int n, int *p)\n{{\n    int x = 0, y = 1;\n    while (x < n) {{\n        {body}\n    }}\n    return y;\n}}\n"
        self.refused(text, f"test.c:4: loop not taken: {reason}" + (" in line 5\n" if "at first" not in reason else "\n"))

    def body_without(self, body: str, asked: str, left: str = "") -> None:
        """No equation between these holds, and what else changes may have any value, for a reason."""
        text = f"int g(int n, int *p)\n{{\n    int x = 0, y = 1;\n    while (x < n) {{\n        {body}\n    }}\n    return y;\n}}\n"
        result = self.annotate(text)
        self.assertEqual((result.status, result.text), (0, text))
        self.assertEqual(result.told, f"test.c:4: no equation between {asked} {ALWAYS}{'; any value: ' + left if left else ''}\n")

    def turned(self, body: str, before: str = "int x = 0, y = 0;", test: str = "x < n") -> list[str]:
        """The equations of a loop with this body."""
        return self.equations(f"int g(int n, int *p, unsigned m)\n{{\n    {before}\n    while ({test}) {{\n        {body}\n    }}\n    return y;\n}}\n")

    def equations(self, text: str) -> list[str]:
        result = self.annotate(text)
        self.assertEqual((result.status, result.told), (0, ""))
        clauses = [line.strip().removeprefix("/*@ ") for line in result.text.splitlines()]
        mark = "loop invariant invar: "
        return [clause.removeprefix(mark).removesuffix(" */").removesuffix(";") for clause in clauses if clause.startswith(mark)]

    def kept_text(self, text: str, name: str) -> list[str]:
        """The lines of a loop text that stays beside the file, but for its title."""
        self.annotate(text, "--keep")
        return (self.file.parent / name).read_text().splitlines()[1:]

    @lengthy
    def test_what_is_refused_by_line(self) -> None:
        self.body_refused("x = g(x, p);", "a call")
        self.body_refused("x = p[x];", "an array")
        self.body_refused("x = *p;", "a pointer")
        self.body_refused("x = x / 2;", "a division by 2 on a path without the test that makes it exact")
        self.body_refused("x = n / x;", "a division")
        self.body_refused("x = x % 3;", "a remainder")
        self.body_refused("x = x << 1;", "the operator <<")
        self.body_refused("int t; x = t;", "it has no value at first")
        self.body_refused("x = x++ + 1;", "x, which is changed and read in one expression,")
        self.body_refused("again: x++; if (x == 3) goto again;", "a label")
        self.body_refused("x += ({ int t = n; t + 1; });", "a statement inside of an expression")

    @lengthy
    def test_what_has_no_equation(self) -> None:
        self.body_without("x++; if (x == 7) break;", "x")
        self.body_without("x++; if (x == 7) continue;", "x")
        self.body_without("x = x > y ? x + 1 : x + 2;", "x")
        self.body_without("x++; y = p[x];", "x", "y (an array in line 5)")
        self.body_without("x++; y += g(x, p);", "x", "y (a call in line 5)")
        self.body_without("x++; y = y / 2;", "x", "y (a division by 2 on a path without the test that makes it exact in line 5)")

    def test_that_an_odd_rest_may_be_negative(self) -> None:
        self.body_refused("if (x % 2 == 1) x--; else x = x / 2;", "a division by 2 on a path without the test that makes it exact")

    def test_a_product_of_two_changing_variables(self) -> None:
        text = "int f(int n)\n{\n    int x = 1, y = 1;\n    while (x < n) {\n        x = x * y;\n        y = y + x;\n    }\n    return x;\n}\n"
        self.refused(text, f"test.c:4: loop not taken: no equation up to degree 4 {ALWAYS}: invar says branch 1: not solvable: x", "Each variable named uses the next")

    def test_what_is_no_whole_number(self) -> None:
        self.refused("int f(double x)\n{\n    while (x > 1)\n        x = x - 1;\n    return 0;\n}\n", "test.c:3: loop not taken: x, which is no")

    def test_faults_of_the_text(self) -> None:
        self.refused("int f(void)\n{\n    return 0\n}\n", "test.c:4: no C that is read here")
        self.refused("#include \"none.h\"\nint f(int x)\n{\n    while (x > 0) x-- y;\n    return 0;\n}\n", "the header none.h isn't found", "test.c:4: loop not taken: no C")
        self.refused("#if (\nint f(void);\n#endif\n", "test.c:1: the preprocessor says: ")

    def test_shadows(self) -> None:
        self.refused("int f(int x)\n{\n    while (x > 0) { int x = 1; x--; }\n    return 0;\n}\n", "test.c:3: loop not taken: nothing that changes")
        inner = "int f(int n)\n{\n    int x = 5, i = 0;\n    {\n        int x = 0;\n        while (i < n) { x += 2; i++; }\n    }\n    return x;\n}\n"
        self.assertEqual(self.equations(inner), ["2*i - x == 0"])
        hidden = "int x;\nint f(int x)\n{\n    int i = 0;\n    while (i < 5) { x += 2; i++; }\n    return x;\n}\n"
        self.assertEqual(self.equations(hidden), [r"\at(x, Pre) - x + 2*i == 0"])

    def test_names_that_acsl_has(self) -> None:
        text = "int f(int n)\n{\n    int integer = 0, i = 0;\n    while (i < n) { integer += 2; i++; }\n    return i;\n}\n"
        self.assertEqual(self.annotate(text).told, "test.c:4: no equation between integer, i can be written here\n")
        found = self.annotate(text.replace("i = 0", "i = 0, k = 0").replace("i++;", "i++; k++;")).text
        self.assertIn("/*@ loop invariant invar: i - k == 0; */\n", found)

    def test_both_sides_of_a_condition(self) -> None:
        self.assertEqual(self.turned("\n#ifdef FAST\ny += 2;\n#else\ny += 3;\n#endif\nx++;"), ["3*x - y == 0"])
        self.assertEqual(self.turned("y += 2;\n#if 0\ny += 40;\n#endif\nx++;"), ["2*x - y == 0"])
        self.assertEqual(self.annotate("#ifdef STEP\nint f(int n) { int x = 0, y = 0; while (x < n) { x++; y += STEP; } return y; }\n#endif\n", "-D", "STEP=7").text.count("7*x - y == 0"), 1)

    def test_functions_on_one_line(self) -> None:
        one = "int %s(int n) { int i = 0, s = 0; while (i < n) { s += %d; i++; } return s; }"
        text = self.annotate(f"{one % ('f', 2)} {one % ('g', 3)} {one % ('h', 4)}\n").text
        self.assertEqual(re.findall(r"invar: (.*?) == 0;\s*loop assigns s, i; \*/\s*while \(i < n\) { s \+= (\d)", text), [
            ("2*i - s", "2"), ("3*i - s", "3"), ("4*i - s", "4"),
        ])

    def test_what_loops_before_assign(self) -> None:
        text = "int f(int n, int *p)\n{\n    int i, c = n, s = 0;\n    for (i = 0; i < n; i++) s += p[i];\n    if (s > 5) s = 5;\n    while (s > c) { c++; s++; }\n    return s;\n}\n"
        result = self.annotate(text)
        self.assertIn("    /*@ loop assigns s, i; */\n    for (i = 0", result.text)
        self.assertIn(r"invar: \at(s, LoopEntry) - n + c - s == 0;", result.text)
        self.assertEqual(self.annotate(result.text).text, result.text)
        unframed = self.annotate(text.replace("s += p[i];", "s += f(i, p);")).text
        self.assertNotIn("loop assigns s, i;", unframed)
        self.assertRegex(unframed, r"invar: \\at\(c, LoopEntry\) - .*;")

    def test_what_never_changes(self) -> None:
        text = "static const int STEP = 3;\nvoid h(void);\nint f(int n)\n{\n    int i = 0, s = 0;\n    while (i < n) { s += STEP; h(); i++; }\n    return s;\n}\n"
        self.assertEqual(self.equations(text), ["STEP*i - s == 0"])

    def test_loops_that_are_never_reached(self) -> None:
        text = "int f(int n)\n{\n    int i = 0, s = 0;\n    if (0) {\n        while (i < n) { s += 2; i++; }\n    }\n    return s;\n}\n"
        self.assertEqual(self.equations(text), ["2*i - s == 0"])

    def test_a_loop_before_the_cases_of_a_switch(self) -> None:
        self.refused("int f(int n)\n{\n    int i = 0;\n    switch (n) { while (i < n) { case 0: i++; } }\n    return i;\n}\n", "test.c:4: loop not taken: it isn't reached")

    def test_macros(self) -> None:
        macros = "#define STEP 3\n#define EACH(i, n) for (i = 0; i < n; i++)\nint f(int n)\n{\n    int i = 0, s = 0;\n    "
        self.assertEqual(self.equations(macros + "while (i < n) { s += STEP; i++; }\n    return s;\n}\n"), ["3*i - s == 0"])
        self.refused(macros + "EACH(i, n) s += 2;\n    return s;\n}\n", "test.c:6: loop not taken: a loop that a macro makes")

    @lengthy
    def test_headers(self) -> None:
        text = "#include <stddef.h>\n#include <stdint.h>\nsize_t f(size_t n)\n{\n    size_t i = 0, j = n;\n    while (i < j) { i++; j--; }\n    return i;\n}\n"
        self.assertEqual(self.equations(text), ["n - i - j == 0"])
        types = "typedef int money;\nenum { STEP = 5 };\nmoney f(int n)\n{\n    money b = 0;\n    int y = 0;\n    while (y < n) { b += STEP; y++; }\n    return b;\n}\n"
        self.assertEqual(self.equations(types), ["b - 5*y == 0"])
        inner = "typedef long num;\nint f(int n)\n{\n    typedef short num;\n    num k = 0;\n    int i = 0;\n    while (i < n) { k += 5; i++; }\n    return k;\n}\n"
        self.assertIn("no equation between i holds", self.annotate(inner).told)
        unknown = "#include <nowhere.h>\nvoid f(thing *t, int n)\n{\n    other_t o;\n    int i = 0, s = 0;\n    while (i < n) { use(t, (thing *) o); s += 2; i++; }\n}\n"
        result = self.annotate(unknown)
        missing = "test.c: the header nowhere.h isn't found, and counts as empty\n"
        # a macro of such a header may change any variable
        self.assertEqual((result.status, result.told), (1, f"{missing}test.c:6: loop not taken: a call in line 6\n"))
        there = unknown.replace("#include <nowhere.h>", "typedef int thing, other_t; void use(thing *, thing *);")
        self.assertIn("invar: 2*i - s == 0;", self.annotate(there).text)
        macros = "#include <nowhere.h>\nint f(int n, char **p UNUSED)\n{\n    z_const unsigned char *next = 0;\n    int i = 0, s = 0;\n    while (i < n) { s += 2; i++; }\n    return s;\n}\n"
        self.assertIn("invar: 2*i - s == 0;", self.annotate(macros).text)

    @lengthy
    def test_values_that_may_not_fit(self) -> None:
        self.body_without("x++; y = *(long *) p;", "x", "y (a pointer in line 5)")
        self.assertEqual(self.annotate("int f(long m) { int i = 0, t = 0; while (i < 9) { i++; m++; t = m; } return t; }\n").text.count("- m + i == 0;"), 1)
        self.assertEqual(self.turned("long t = x; x++; y = t;", "int x = 1, y = 0;"), ["x - y - 1 == 0"])
        told = self.annotate("int f(int n) { short s = 70000; int i = 0; while (i < n) { s += 2; i++; } return s; }\n").told
        self.assertEqual(told, f"test.c:1: no equation between i {ALWAYS}; any value: s (short s in line 1 may not hold it)\n")
        self.assertEqual(self.turned("y += 2; x++;", "int y = 0; short x = 0;", "x < 1000"), ["y - 2*x == 0"])
        self.assertEqual(self.turned("y += (long) x * 2; x++;", "long y = 0; int x = 0;"), ["x*x - y - x == 0"])

    @lengthy
    def test_unsigned_values(self) -> None:
        self.assertEqual(self.turned("k--; y++;", "unsigned k = m; int y = 0;", "k > 0"), ["m - k - y == 0"])
        self.assertEqual(self.turned("k--; y++;", "unsigned k = m; int y = 0;", "k"), ["m - k - y == 0"])
        self.assertEqual(self.turned("r -= 3; y++;", "unsigned r = m; int y = 0;", "r >= 3"), ["m - r - 3*y == 0"])
        product = "int f(int n, int k)\n{\n    int d = 0;\n    %s i = 0;\n    while (i < 4) { i++; d += k; }\n    return d;\n}\n"
        self.assertEqual(self.equations(product % "int"), ["i*k - d == 0"])
        self.assertEqual(self.annotate(product % "short").told, "test.c:5: no equation between d, i can be written here\n")
        wrapping = "unsigned f(unsigned n)\n{\n    unsigned i = 0, s = 0;\n    while (i < n) { s += 2; i++; }\n    return s;\n}\n"
        self.assertEqual(self.annotate(wrapping).told, f"test.c:4: no equation between i {ALWAYS}; any value: s (unsigned int s in line 4 may not hold it)\n")

    def test_what_is_told_beside_equations(self) -> None:
        text = "int g;\nvoid h(void);\nint f(int n)\n{\n    int i = 0, k = 0;\n    unsigned char c = 0;\n    while (i < n) { %s i++; k += 2; }\n    return k;\n}\n"
        for body, wanted in (("c++;", "c (unsigned char c in line 7 may not hold it)"), ("g = i; h();", "g (a call in line 7)")):
            result = self.annotate(text.replace("%s", body))
            self.assertEqual((result.status, result.told), (0, f"test.c:7: any value: {wanted}\n"))
            self.assertIn("2*i - k == 0;", result.text)

    def test_unsigned_values_below_others(self) -> None:
        for kind, bound in (("unsigned", "n"), ("unsigned long", "n + 1"), ("unsigned long", "m")):
            self.assertEqual(self.turned("k++; y += 2;", f"{kind} k = 0; int y = 0;", f"k < {bound}"), ["2*k - y == 0"])
        self.assertIn("any value: k", self.annotate("int f(long n) { unsigned k = 0; int y = 0; while (k < n) { k++; y += 2; } return y; }\n").told)

    @lengthy
    def test_constants(self) -> None:
        values = {"010": 8, "0x1F": 31, "'a'": 97, r"'\n'": 10, r"'\17'": 15, r"'\x41'": 65, "3L": 3, "-7 / 2": -3, "7 << 2": 28, "(6 | 1) ^ 2": 5, "-7 % 3": -1}
        for written, value in values.items():
            text = f"int f(int n)\n{{\n    int i = 0;\n    long s = 0;\n    while (i < n) {{ s += {written}; i++; }}\n    return i;\n}}\n"
            found = self.annotate(text).text
            state = {"i": Polynomial.constant(10), "s": Polynomial.constant(10 * value)}
            equation = re.search(r"invar: (.*?) == 0;", found)[1]
            self.assertEqual(Polynomial.read(equation).substituted(state).value(), 0, written)

    @lengthy
    def test_effects_in_expressions(self) -> None:
        self.assertEqual(self.turned("y += 2;", test="x++ < n"), ["2*x - y == 0"])
        self.assertEqual(self.turned("y += 2;", "int x = 0, y = 0, k = n;", "k-- > 0"), ["2*n - y - 2*k == 0"])
        self.assertEqual(self.turned("y = x++;", "int x = 0, y = -1;"), ["x - y - 1 == 0"])
        self.assertEqual(self.turned("y = (z = 3, x += 2, x + z);", "int x = 0, y = 3, z;")[:1], ["x - y + 3 == 0"])
        self.assertEqual(self.turned("y += x > 5 ? 2 : 1 + 1; x++;"), ["2*x - y == 0"])
        self.assertEqual(self.turned("x++; z++; y = 2 * x;", "int x = 0, y = 0, z = 0;"), ["y - 2*z == 0", "x - z == 0"])

    @lengthy
    def test_ways_out(self) -> None:
        self.assertEqual(self.turned("if (x >= n) break; y += 2; x++;", test="1"), ["2*x - y == 0"])
        self.assertEqual(self.turned("x++; y += 2; if (x % 3 == 0) continue; if (y > 100) return x;"), ["2*x - y == 0"])
        self.assertEqual(self.turned("x++; switch (p[x]) { case 1: y += 2; break; case 2: y += 1; default: y += 1; } z += 4;", "int x = 0, y = 0, z = 0;"), ["4*x - z == 0"])
        self.assertEqual(self.equations("int f(int n)\n{\n    int i = 0, s = 0;\n    do { s += 2; } while (++i < n);\n    return s;\n}\n"), ["2*i - s == 0"])
        self.assertEqual(self.equations("int f(int n)\n{\n    int i, j;\n    for (i = 0, j = n; i < j; i++, j--) ;\n    return i;\n}\n"), ["n - i - j == 0"])

    def test_unknown_values(self) -> None:
        self.assertEqual(self.turned("int t = p[x]; x++; y += t; z -= t;", "int x = 0, y = 0, z = 0;"), ["y + z == 0"])
        text = "int f(int n, int *p)\n{\n    int x = 0, y = 0, z = 0;\n    while (x < n) { int t = p[x]; x++; y += t; z -= t; }\n    return y;\n}\n"
        self.assertEqual(self.kept_text(text, "test-4.loop"), [
            "vars any, x, y, z;",
            "locals t;",
            "init x = 0, y = 0, z = 0;",
            "branch when x < n { t = any; x = x + 1; y = y + t; z = z - t; }",
            "branch { any = any + 1; }",
        ])

    def test_what_a_call_may_change(self) -> None:
        text = "int g;\nvoid h(void);\nint f(int n)\n{\n    int i = 0, s = 0;\n    while (i < n) { h(); g += 2; s += 2; i++; }\n    return s;\n}\n"
        self.assertEqual(self.annotate(text).told, "test.c:6: any value: g (a call in line 6)\n")
        self.assertIn("invar: 2*i - s == 0;", self.annotate(text).text)
        self.assertNotIn("loop assigns", self.annotate(text).text)

    def test_values_at_the_first_arrival(self) -> None:
        text = "int f(int m)\n{\n    int s = 0, n = g(m), t = n;\n    while (n > 0) { s += 2; n--; t--; }\n    return s;\n}\n"
        self.assertEqual(self.equations(text), ["n - t == 0"])
        self.annotate(text, "--entries")
        self.assertIn(r"\at(n, LoopEntry)", self.file.read_text())

    def test_what_invar_refuses_in_part(self) -> None:
        text = "int f(int n)\n{\n    int i = 1, p = 1, s = 0;\n    while (i < n) { p = p * i; i++; s += 2; }\n    return p;\n}\n"
        result = self.annotate(text)
        self.assertEqual(result.status, 0)
        self.assertIn("test.c:4: loop taken for the equations up to degree 2 alone: invar says branch 1: not solvable: p", result.told)
        self.assertIn("2*i - s - 2 == 0", result.text)

    def test_that_other_loops_of_the_file_are_annotated(self) -> None:
        text = DIVISION + "void g(int n)\n{\n    while (n > 0) n = f(n);\n}\n"
        result = self.annotate(text)
        self.assertEqual((result.status, result.told), (1, "test.c:13: loop not taken: a call in line 13\n"))
        self.assertIn("invar: b*q - a + r == 0;", result.text)

    def test_clauses_beside_those_that_were_there(self) -> None:
        result = self.annotate(DIVISION)
        annotation = "    /*@ loop invariant invar: b*q - a + r == 0;\n        loop assigns r, q;\n        loop variant r; */\n"
        self.assertEqual(result.text, DIVISION.replace("    //@ loop variant r;\n", annotation))
        self.assertEqual(self.annotate(result.text).text, result.text)

    def test_clauses_of_an_earlier_time(self) -> None:
        text = "int f(int n, int *p)\n{\n    int i = 0, s = 0;\n%s    while (i < n) {\n        i++;\n        s += p[i];\n    }\n    return s;\n}\n"
        found = "loop invariant invar: 2*i - s == 0;"
        self.assertEqual(self.annotate(text % f"    /*@ {found} */\n").text, text % "")
        kept = self.annotate(text % f"    /*@ {found}\n        loop assigns i, s; */\n")
        self.assertEqual((kept.status, kept.text), (0, text % "    /*@ loop assigns i, s; */\n"))

    def test_clauses_of_behaviors(self) -> None:
        clause = "for b: loop invariant 0 <= i;"
        text = f"/*@ behavior b: assumes n > 0; */\nint f(int n)\n{{\n    int i = 0, s = 0;\n    /*@ {clause} */\n    while (i < n) {{ i++; s += 2; }}\n    return s;\n}}\n"
        self.assertIn(f"    /*@ loop invariant invar: 2*i - s == 0;\n        loop assigns i, s;\n        {clause} */\n", self.annotate(text).text)

    def test_clauses_on_one_line_and_lines_with_signs(self) -> None:
        wanted = "/*@ loop invariant invar: b*q - a + r == 0;\n        loop invariant 0 <= r;\n        loop assigns r, q;\n        loop variant r; */\n"
        for there in ("loop invariant 0 <= r; loop variant r; */", "loop invariant 0 <= r;\n      @ loop variant r;\n      @*/"):
            result = self.annotate(DIVISION.replace("//@ loop variant r;", "/*@ " + there))
            self.assertIn(wanted, result.text)

    def test_that_texts_and_certificates_are_kept(self) -> None:
        self.assertEqual(self.annotate(DIVISION, "--keep").beside, ["test-5.json", "test-5.loop", "test.c"])
        files = [self.file.parent / name for name in ("test-5.loop", "test-5.json")]
        judged = subprocess.run([INVAR, "check", *files], capture_output=True, text=True, check=False)
        self.assertEqual(judged.stdout, "valid\n")

    def test_temporaries(self) -> None:
        loop = "int f(int n)\n{\n    int x = 1, y = 0, t;\n    while (n > 0) { t = x; x = y; y = t; n--; }\n    return x;\n}\n"
        self.assertEqual(self.equations(loop), ["x + y - 1 == 0", "y*y - y == 0"])
        self.assertEqual(self.kept_text(loop, "test-4.loop"), [
            "vars n_0, n, x, y;",
            "locals t;",
            "init n = n_0, x = 1, y = 0;",
            "branch when n > 0 { t = x; x = y; y = t; n = n - 1; }",
        ])

    def test_assignments_in_their_order(self) -> None:
        loop = "int f(int n)\n{\n    int x = 0, y = 0;\n    while (x < n) { x++; y += x; x--; x += 2; }\n    return y;\n}\n"
        self.assertEqual(self.kept_text(loop, "test-4.loop")[-1], "branch when x < n { x = x + 1; y = y + x; x = x - 1; x = x + 2; }")
        twice = "int f(int n)\n{\n    int x = 0, s = 0, t;\n    while (s < n) { t = s += 2; x += t; }\n    return x;\n}\n"
        self.assertEqual(self.kept_text(twice, "test-4.loop")[-1], "branch when s < n { s = s + 2; t = s; x = x + t; }")

    def test_values_before_the_loop(self) -> None:
        loop = "int f(int n)\n{\n    int s = 0;\n    while (n > 0) { s += 2; n--; }\n    return s;\n}\n"
        self.assertEqual(self.equations(loop), [r"2*\at(n, Pre) - 2*n - s == 0"])
        called = "int f(int m)\n{\n    int s = 0, n = g(m);\n    while (n > 0) { s += 2; n--; }\n    return s;\n}\n"
        self.assertEqual(self.equations(called), [r"2*\at(n, LoopEntry) - s - 2*n == 0"])

    def test_what_a_pointer_may_have_changed(self) -> None:
        loop = "int f(int m)\n{\n    int s = 0, t = 0, *p = &s;\n    *p = m;\n    while (m > 0) { s++; t++; m--; }\n    return s;\n}\n"
        for equation in self.equations(loop):
            self.assertNotRegex(equation, r"^s - t ")

    def test_assertions_on_rests(self) -> None:
        loop = "int f(int x)\n{\n    int y = 1;\n    while (x > 1) {\n        //@ assert x % 2 == 0;\n        x = x / 2;\n        y = 2 * y;\n    }\n    return y;\n}\n"
        self.assertEqual(self.equations(loop), [r"x*y - \at(x, Pre) == 0"])

    def test_loops_inside_of_loops(self) -> None:
        text = "int f(int a, int b)\n{\n    int x = a, y = 0;\n    while (x > b) {\n        while (x > 2 * b) { x -= 2; y += 2; }\n        x--; y++;\n    }\n    return y;\n}\n"
        self.assertEqual(self.equations(text), ["a - x - y == 0"] * 2)

    def test_loops_one_after_another(self) -> None:
        text = "int f(int n)\n{\n    int x = 0, y = 0, i;\n    for (i = 0; i < n; i++) x += 2;\n    for (i = 0; i < n; i++) y += 3;\n    return x + y;\n}\n"
        self.assertEqual(sorted(self.equations(text)), ["x - 2*i == 0", "y - 3*i == 0", "y == 0"])
        self.assertEqual(self.kept_text(text, "test-4-5.chain")[3], "then do { i = 0; }")

    @lengthy
    def test_what_the_way_out_of_a_loop_changes(self) -> None:
        text = "int f(int n)\n{\n    int i = 0, s = 0;\n    %s\n    while (i < n) { i++; s++; }\n    return s;\n}\n"
        for loop, wanted in (
            ("while (s++ < n) i++;", "i - s + 1"),
            ("do { s += 2; } while (0);", "i - s + 2"),
            ("while (1) { s++; if (s > n) break; i++; }", "i - s + 1"),
            ("do { s++; i++; } while (i < n);", "i - s"),
        ):
            self.assertIn(self.clauses(self.annotate(text % loop).text)[-1], (wanted, negative(wanted)))
        found = self.annotate(text % "while (i < n) { if (p[i]) { s++; break; } i++; s++; }").text
        self.assertIn("LoopEntry", self.clauses(found)[-1])


class Stated(Calls):
    """Equations that the author states."""

    def behind(self, begin: str, body: str, *stated: str, test: str = "i < n") -> Result:
        """A loop with this body, with assertions behind it."""
        assertions = "".join(f"    //@ assert {one};\n" for one in stated)
        return self.annotate(f"int g(int n, int h, int *p)\n{{\n    {begin}\n    while ({test}) {{\n        {body}\n    }}\n{assertions}    return 0;\n}}\n")

    def test_one_that_needs_another(self) -> None:
        result = self.behind("int a = 0, s = 1, t = 1;", "a++; t += 2; s += t;", "s == (a + 1) * (a + 1)", test="s <= n")
        self.assertEqual((result.status, result.told), (0, ""))
        self.assertEqual(self.clauses(result.text), ["2*a - t + 1", "t*t - 4*s + 2*t + 1", "-a*a - 2*a + s - 1"])

    def test_one_that_needs_another_behind_a_loop_that_is_refused(self) -> None:
        begin, body = "int i = 0, p = 0, q = 1, r = 0, s = 1;", "int u = q + 2 * r + p; r = r + q; p = q; q = u; s = -s; i++;"
        clauses = self.clauses(self.behind(begin, body, "q - r - p + r * r == s + p * q").text)
        self.assertIn("-p*q + r*r - p + q - r - s", clauses)
        self.assertIn("p - q + r + s", clauses)

    def test_an_order_that_the_code_does_not_have(self) -> None:
        asked = "/*@ invar: a == k * b + c */"
        inner = "d = 1; v = b;\n    while (c >= 2 * v) { d = 2 * d; v = 2 * v; }\n    c = c - v; k = k + d;"
        text = f"int f(int a, int b)\n{{\n    int k = 0, c = a, d, v;\n    {asked}\n    while (c >= b) {{ {inner} }}\n    return c;\n}}\n"
        wanted = "test.c:4: not written: a == k * b + c: paths in another order than that of the statements don't keep a - b*k - c == 0\n"
        result = self.annotate(text)
        self.assertEqual((result.status, result.told), (1, wanted))

    def test_an_order_that_the_code_has(self) -> None:
        inner = "j = 0;\n    while (j < i) { j++; s++; }\n    i++;"
        text = f"int f(int n)\n{{\n    int i = 0, j, s = 0;\n    /*@ invar: s == 0 */\n    while (i < n) {{ {inner} }}\n    return s;\n}}\n"
        result = self.annotate(text)
        self.assertEqual(result.status, 1)
        self.assertIn("test.c:4: not written: s == 0: at the loop in line 5 a run ends without s == 0\n    word ", result.told)

    def test_an_equation_that_no_turn_changes(self) -> None:
        text = "int f(int n, int a)\n{\n    int i = 0, s = 0;\n    /*@ invar: a == n */\n    while (i < n) { i++; s += 2; }\n    return s;\n}\n"
        result = self.annotate(text)
        self.assertEqual((result.status, result.told), (1, "test.c:4: not asked: a == n: no turn changes it\n"))

    def test_one_that_holds_at_the_first_turn_alone(self) -> None:
        result = self.behind("int i = 0, s = 0;", "s += 2 * i + 1; i++;", "s == i")
        self.assertEqual(self.clauses(result.text), ["i*i - s"])
        wanted = "test.c:7: not written: s == i: at the loop in line 4 a run ends without s - i == 0\n"
        wanted += "    word 1 1\n    i = 0, s = 0\n    i = 1, s = 1\n    i = 2, s = 4\n    value 2\n"
        self.assertEqual((result.status, result.told), (0, wanted))

    def test_loops_that_are_refused(self) -> None:
        for begin, body, equation, wanted in (
            ("int i = 0, a = 0, b = 1, s = 1;", "int t = a + b; a = b; b = t; s = -s; i++;", "b * b - a * b - a * a == s", "a*a + a*b - b*b + s"),
            ("int i = 0, x = 1, y = 0, r = 1;", "int t = 3 * x - 4 * y; y = 4 * x + 3 * y; x = t; r = 25 * r; i++;", "x * x + y * y == r", "x*x + y*y - r"),
            ("int i = 0, x = 3, v = 2;", "v = v - h * x; x = x + h * v; i++;", "x * x + v * v - h * x * v == 13 - 6 * h", "-h*x*v + x*x + v*v + 6*h - 13"),
        ):
            result = self.behind(begin, body, equation)
            self.assertEqual(result.status, 0)
            self.assertRegex(result.told, r"^test.c:4: loop taken (without|for the equations) .*: invar says branch 1: ")
            self.assertTrue({wanted, negative(wanted)} & {*self.clauses(result.text)}, self.clauses(result.text))

    def test_what_is_no_equation_of_polynomials(self) -> None:
        result = self.behind("int i = 0, s = 0;", "s += 2; i++;", "s == p[0]", "i % 2 == 0", "0 <= s", "s % h == 0", r"\forall integer k; k == k")
        self.assertEqual((result.status, self.clauses(result.text)), (0, ["2*i - s"]))
        self.assertEqual(result.told, "".join(
            f"test.c:{line}: not asked: {text} is no equation of polynomials in variables for whole numbers\n"
            for line, text in ((7, "s == p[0]"), (10, "s % h == 0"))))

    def test_a_value_of_which_nothing_is_known(self) -> None:
        result = self.behind("int i = 0, y = 0, z = 0;", "int t = p[i]; y += t; z -= 2 * t; i++;", "2 * y + z == 0", "y == i")
        self.assertEqual(self.clauses(result.text), ["2*y + z"])
        self.assertEqual((result.status, result.told), (0, "test.c:8: not asked: y == i: y may have any value (an array in line 5)\n"))

    def test_postconditions(self) -> None:
        text = (
            "/*@ requires 0 <= n;\n    ensures \\result == n * n && 0 <= \\result;\n    behavior odd:\n      ensures n == 1; */\n"
            "int f(int n)\n{\n    int s = 0, k = 0;\n    for (int i = 0; i < n; i++) {\n        s += 2 * i + 1;\n        k++;\n    }\n    return s;\n}\n"
        )
        result = self.annotate(text)
        self.assertEqual((result.status, result.told), (0, ""))
        self.assertIn("-i*i + s", [*self.clauses(result.text), *map(negative, self.clauses(result.text))])
        result = self.annotate(text.replace("n * n", "3 * n"))
        self.assertIn("test.c:2: not written: \\result == 3 * n: at the loop in line 8 a run ends without ", result.told)

    def test_values_at_the_beginning_of_the_function(self) -> None:
        text = "/*@ ensures \\result == 2 * \\old(n); */\nint f(int n)\n{\n    int s = 0, p = 1;\n    while (n > 0) { s += 2; p = p * n; n--; }\n    //@ assert s == 2 * \\at(n, Pre) - 2 * n;\n    return s;\n}\n"
        result = self.annotate(text)
        self.assertIn(r"2*\at(n, Pre) - 2*n - s", [*self.clauses(result.text), *map(negative, self.clauses(result.text))])
        self.assertNotIn("not written", result.told)

    def test_equations_at_a_loop(self) -> None:
        text = "int f(int n)\n{\n    int f = 1, g = 1, i = 0;\n    while (i < n) {\n        %s\n        g = g + g * i;\n        i++;\n        f = f * i;\n    }\n    return f - g;\n}\n"
        result = self.annotate(text % "/*@ invar: f == g */")
        self.assertEqual(self.clauses(result.text), ["f - g"])
        self.assertIn("        /* invar: f == g */\n", result.text)
        self.assertEqual(self.annotate(result.text).text, result.text)
        result = self.annotate(text % "//@ invar: f == n * g;")
        self.assertEqual(result.status, 1)
        self.assertIn("test.c:5: not written: f == n * g: at the loop in line 4 a run ends without f - g*n == 0\n    word\n", result.told)

    def test_where_equations_are_asked(self) -> None:
        before = "int f(int n)\n{\n    int s = 0;\n    /*@ invar: s == 2 * i */\n    for (int i = 0; i < n; i++) s += 2;\n    return s;\n}\n"
        self.assertEqual(self.clauses(self.annotate(before).text), ["s - 2*i"])
        text = "/*@ invar: 1 == 1 */\nint f(int n)\n{\n    int s = 0;\n    /*@ invar: s == n */\n    s++;\n    while (s < n) {\n        s++;\n        //@ invar: s <= n\n        //@ invar: s\n    }\n    return s;\n}\n"
        result = self.annotate(text)
        self.assertEqual((result.status, result.text), (1, text))
        self.assertEqual(result.told, f"test.c:1: not asked: 1 == 1: it stands where no statement can\ntest.c:5: not asked: s == n: no loop is behind or around it\ntest.c:7: no equation between s {ALWAYS}\ntest.c:9: not asked: s <= n: it is no equation that is read here\ntest.c:10: not asked: s: it is no equation that is read here\n")

    def test_assertions_that_a_test_guards(self) -> None:
        text = "int f(int n, int *p)\n{\n    int i = 0, s = 0;\n    while (i < n) {\n        i++;\n        if (p[i])\n            //@ assert i % 2 == 0;\n            s += 2;\n    }\n    return s;\n}\n"
        self.assertEqual(self.annotate(text).told, f"test.c:4: no equation between i, s {ALWAYS}\n")

    def test_loops_inside_of_loops(self) -> None:
        text = "int f(int n, int m)\n{\n    int z = 0, f = 1;\n    while (n > 0) {\n        int j = 0, t = z;\n        while (j < m) { z++; j++; f = f * 2; }\n        //@ assert z == t + j;\n        n--;\n    }\n    return z;\n}\n"
        self.assertEqual(self.annotate(text).told.count("not written"), 0)

    def test_that_texts_and_certificates_are_kept(self) -> None:
        text = "int f(int n)\n{\n    int i = 0, s = 0;\n    while (i < n) { s += 2 * i + 1; i++; }\n    //@ assert s == i * i;\n    return s;\n}\n"
        self.assertEqual(self.annotate(text, "--keep").beside, ["test-4-asked-5-1.json", "test-4-asked-5-1.loop", "test-4.json", "test-4.loop", "test.c"])

    def test_equations_up_to_a_degree(self) -> None:
        result = self.behind("int i = 0, x = 1, y = 1, s = 0;", "s = s * h + 1; x = x * h; i++;")
        self.assertEqual(self.clauses(result.text), ["h*s - x - s + 1"])
        self.assertIn("test.c:4: loop taken for the equations up to degree 2 alone: invar says branch 1: not solvable: ", result.told)
        result = self.behind("int i = 0, a = 0, b = 1;", "b = a + b; a = b - a; i++;")
        self.assertEqual(self.clauses(result.text), ["a*a*a*a + 2*a*a*a*b - a*a*b*b - 2*a*b*b*b + b*b*b*b - 1"])
        self.assertIn("test.c:4: loop taken for the equations up to degree 4 alone: invar says branch 1: eigenvalues: ", result.told)


def negative(text: str) -> str:
    """The left side of an equation with all signs turned."""
    return Polynomial.read(text.replace(r"\at(n, Pre)", "before")).scaled(-1).whole({"before": r"\at(n, Pre)"})


class Texts(unittest.TestCase):
    """Polynomials as texts. The wanted ones are those of docs/FORMATS.md and docs/LANGUAGE.md, multiplied out by hand."""

    def test_denominators_and_powers(self) -> None:
        self.assertEqual(Polynomial.read("a - 1/2*t + 1/2").whole({}), "2*a - t + 1")
        self.assertEqual(Polynomial.read("t^2 - 4*s + 2*t + 1").whole({"t": "u"}), "u*u - 4*s + 2*u + 1")
        self.assertEqual(Polynomial.read("-1/4").whole({}), "-1")
        self.assertEqual(Polynomial.read("0").whole({}), "0")

    def test_bases(self) -> None:
        self.assertEqual(read_basis("none\n"), [])
        self.assertEqual([element.flat() for element in read_basis("x = 0\ny^2 - x = 0\n")], ["x", "y^2 - x"])


if __name__ == "__main__":
    unittest.main(argv=[word for word in sys.argv if word != "--quick"])
