#!/usr/bin/env python3
"""Tests of the package: what reads and shows loops, and the commands but for that of C programs.

Usage: PYTHONPATH=python/src python/tests/test_tools.py        (once `./invar` has built the program)

Where there is no sympy, the tests that need it are skipped and say so.
"""
from __future__ import annotations

import importlib.util
import os
import re
import shutil
import subprocess
import sys
import tempfile
import unittest
from fractions import Fraction
from pathlib import Path
from unittest import mock

import invar_tools
from invar_tools import Fault, Invar, Polynomial, Refused, algebra, read_certificate, read_equation, read_loop
from invar_tools.algebra import divided, sum_of
from invar_tools.coq import coq_text
from invar_tools.explain import Story, certified
from invar_tools.lean import lean
from invar_tools.loops import with_entries
from invar_tools.picture import Axis, axes_of, run, segments, value_at
from invar_tools.print import TOOLS, bases

TOP = Path(__file__).resolve().parents[2]
EXAMPLES = TOP / "examples"
ENVIRONMENT = {**os.environ, "PYTHONPATH": str(Path(invar_tools.__file__).resolve().parents[1])}
NEEDS_SYMPY = "needs sympy (apt-get install python3-sympy, or pip install sympy)"
NEEDS_COQ = "needs coqc (apt-get install coq)"
LOOPS = sorted([*EXAMPLES.glob("*.loop"), *EXAMPLES.glob("lesson/*.loop")])


def done(name: str, *words: str | Path, folder: Path = EXAMPLES) -> subprocess.CompletedProcess[str]:
    """A command of the package, in a folder."""
    call = [sys.executable, "-m", f"invar_tools.{name}", *words]
    return subprocess.run(call, cwd=folder, env=ENVIRONMENT, stdin=subprocess.DEVNULL, capture_output=True, text=True, check=False)


def printed(*words: str | Path) -> str:
    return subprocess.run([TOP / "invar", *words], capture_output=True, text=True, check=False, cwd=EXAMPLES).stdout


class Help(unittest.TestCase):
    """Each command has a page of help, whose example is run."""

    NEEDS = {"invar-c": ("pycparser", "cpp"), "invar-certify": ("sympy", ""), "invar-lift": ("", "Singular")}

    def test_examples(self) -> None:
        commands = sorted((TOP / "python/bin").iterdir())
        self.assertEqual(len(commands), 6)
        for command in commands:
            with self.subTest(command.name), tempfile.TemporaryDirectory() as folder:
                page = subprocess.run([command, "--help"], env=ENVIRONMENT, capture_output=True, text=True, check=True).stdout
                example = page.splitlines()[-1].strip()
                self.assertTrue("Example:" in page and example.startswith(f"{command.name} "), page)
                library, program = self.NEEDS.get(command.name, ("", ""))
                if (not library or importlib.util.find_spec(library)) and (not program or shutil.which(program)):
                    (Path(folder) / "examples").symlink_to(EXAMPLES)
                    environment = {**ENVIRONMENT, "PATH": f"{TOP / 'python/bin'}:{ENVIRONMENT['PATH']}"}
                    made = subprocess.run(example, shell=True, cwd=folder, env=environment, capture_output=True, text=True, check=False)
                    self.assertEqual((made.returncode, made.stderr.count("Traceback")), (0, 0), made)


class Reading(unittest.TestCase):
    def test_loops(self) -> None:
        loop = read_loop("vars a, b; locals t; init a=2; branch when a > b { t = a; a = b/2; b = (t + 1)^2; } branch { (a, b) = (b, a); }")
        self.assertEqual((loop.names, loop.free()), (["a", "b"], ["b"]))
        self.assertEqual(loop.start()["a"], Polynomial.constant(2))
        self.assertEqual({name: value.flat() for name, value in loop.branches[0].items()}, {"a": "1/2*b", "b": "a^2 + 2*a + 1"})
        self.assertEqual({name: value.flat() for name, value in loop.branches[1].items()}, {"a": "b", "b": "a"})

    def test_equations(self) -> None:
        self.assertEqual(read_equation("s = (a+1)^2", ["a", "s"]).flat(), "s - a^2 - 2*a - 1")
        self.assertEqual(read_equation("x*y", ["x", "y"]).flat(), "x*y")

    def test_certificates_of_both_versions(self) -> None:
        one = read_certificate((EXAMPLES / "squares.json").read_text())
        other = read_certificate('{"basis":["2*a - t + 1","t^2"],"steps":[[[[0,"1"]],[[1,"t"]]]],"vars":["a","s","t"],"version":2}')
        self.assertEqual([[cofactor.flat() for cofactor in row] for row in one.steps[0]], [["1", "0"], ["0", "1"]])
        self.assertEqual([[cofactor.flat() for cofactor in row] for row in other.steps[0]], [["1", "0"], ["0", "t"]])

    def test_copies_of_the_values_at_the_start(self) -> None:
        text, copies = with_entries("vars x, y, c, x_0; # a comment\ninit y=c; branch { x=x+c; y=y-x; }")
        self.assertEqual(copies, {"x_1": "x"})
        self.assertEqual(" ".join(text.split()), "vars x_1, x, y, c, x_0; init y=c, x=x_1; branch { x=x+c; y=y-x; }")
        text, _ = with_entries("vars branches, y; locals t, branches_0; init y=2*branches; # vars\nbranch { t=y; y=branches; branches=t; }")
        wanted = "vars branches_1, branches, y; locals t, branches_0; init y=2*branches_1, branches=branches_1; branch { t=y; y=branches; branches=t; }"
        self.assertEqual(" ".join(text.split()), wanted)
        self.assertEqual(" ".join(with_entries("vars x; branch { x=x+1; }")[0].split()), "vars x_0, x; init x=x_0; branch { x=x+1; }")


class Program(unittest.TestCase):
    """The calls of the program by which other programs use it."""

    SQUARES = (EXAMPLES / "squares.loop").read_text()

    def setUp(self) -> None:
        self.invar = Invar()

    def test_bases(self) -> None:
        self.assertEqual([one.flat() for one in self.invar.basis(self.SQUARES)], ["a - 1/2*t + 1/2", "t^2 - 4*s + 2*t + 1"])
        self.assertEqual([one.flat() for one in self.invar.basis(self.SQUARES, degree=1)], ["a - 1/2*t + 1/2"])
        self.assertEqual(self.invar.basis("vars x; branch { x=x+1; }"), [])
        found = self.invar.chain((EXAMPLES / "chains/doubling.chain").read_text())
        self.assertEqual([one.flat() for one in found[1]], ["q*y - a + r", "p*y - b", "a*p - b*q - p*r"])

    def test_questions(self) -> None:
        cofactors = self.invar.member(self.SQUARES, "s = (a+1)^2")
        self.assertEqual([one.flat() for one in cofactors], ["-a - 1/2*t - 3/2", "-1/4"])
        self.assertIsNone(self.invar.member(self.SQUARES, "s = a"))
        self.assertIsNone(self.invar.proof(self.SQUARES, "s = a"))
        self.assertTrue(self.invar.proof(self.SQUARES, "s = (a+1)^2").is_of(1))

    def test_certificates(self) -> None:
        for name, wanted in (("squares.json", True), ("squares-step-fails.json", False)):
            self.assertEqual(self.invar.is_valid(self.SQUARES, (EXAMPLES / name).read_text()), wanted)
        self.assertEqual(self.invar.certificate(self.SQUARES).basis, self.invar.basis(self.SQUARES))

    def test_refusals(self) -> None:
        for text, status, told in (("vars x; branch { x=x*x; }", 3, "branch 1: not solvable: x, x"), ("vars", 3, "loop: syntax at 4")):
            with self.assertRaises(Refused) as caught:
                self.invar.basis(text)
            self.assertEqual((caught.exception.answer_status, caught.exception.told), (status, told))

    def test_that_another_program_is_told(self) -> None:
        for program in ("/none", "/bin/false"):
            with self.assertRaises(Fault):
                Invar(program).basis(self.SQUARES)

    def test_what_the_manual_says_of_refusals(self) -> None:
        made = subprocess.run([TOP / "tools/refusals.py", "--check"], capture_output=True, text=True, check=False)
        self.assertEqual((made.returncode, made.stdout), (0, ""))


class Claims(unittest.TestCase):
    """Certificates that other programs make, and texts that would be run where a text is evaluated."""

    def setUp(self) -> None:
        folder = tempfile.TemporaryDirectory()
        self.addCleanup(folder.cleanup)
        self.folder = Path(folder.name)

    def made(self, name: str, text: str, *words: str) -> subprocess.CompletedProcess[str]:
        (self.folder / "test.loop").write_text(text)
        return done(name, "test.loop", *words, folder=self.folder)

    def test_that_no_text_is_run(self) -> None:
        call = '__import__("os").system("touch executed")'
        quiet = "vars a; init a=1; branch { a = a; }"
        for script in ("certify", "lift", "explain", "picture"):
            in_branch, in_init = f"vars a; init a=1; branch {{ a = {call} ; }}", f"vars a; init a={call}; branch {{ }}"
            for text, claim in ((in_branch, "a = 1"), (in_init, "a = 1"), (quiet, f"a = {call}")):
                made = self.made(script, text, claim)
                self.assertEqual((made.returncode != 0, made.stdout, [*self.folder.glob("executed")]), (True, "", []), (script, text, claim))
                self.assertIn("isn't of the language", made.stderr, (script, text, claim))

    @unittest.skipUnless(importlib.util.find_spec("sympy"), NEEDS_SYMPY)
    def test_certificates_that_sympy_makes(self) -> None:
        names = "vars lambda, in, I; locals def; init lambda=0, in=0, I=1; branch { def=lambda+1; in=in+2*lambda+1; lambda=def; } branch { I=-I; }"
        squares = (EXAMPLES / "squares.loop").read_text()
        for text, *claims in ((names, "in - lambda^2", "I^2 = 1"), (squares, "2*a - t + 1", "t^2 - 4*s + 2*t + 1"), (squares, "s = (a+1)^2", "2*a+1 = t")):
            made = self.made("certify", text, *claims)
            (self.folder / "test.json").write_text(made.stdout)
            self.assertEqual(printed("check", self.folder / "test.loop", self.folder / "test.json"), "valid\n", made)

    @unittest.skipUnless(importlib.util.find_spec("sympy"), NEEDS_SYMPY)
    def test_claims_that_need_others(self) -> None:
        for claims, wanted in ((["s - a^2"], "claim 1 isn't zero at every start"), (["s - (a+1)^2"], "claim 1 after branch 1 leaves -2*a + t - 1")):
            made = self.made("certify", (EXAMPLES / "squares.loop").read_text(), *claims)
            self.assertEqual((made.returncode, made.stdout, made.stderr), (1, "", f"{wanted}\n"))


class Invariants(unittest.TestCase):
    def test_each_tool(self) -> None:
        element, copies = read_equation("x^2 = 2*x_0/3", ["x", "x_0"]), {"x_0": "x"}
        wanted = {
            "acsl": r"loop invariant 3*x*x - 2*\at(x, LoopEntry) == 0;",
            "boogie": "invariant 3*x*x - 2*x_0 == 0;",
            "creusot": "#[invariant(3*x@*x@ - 2*x_0@ == 0)]",
            "dafny": "invariant 3*x*x - 2*x_0 == 0",
            "jml": r"//@ loop_invariant \bigint_math(3*x*x - 2*x_0 == 0);",
            "latex": r"3 x^{2} - 2 x_{0} &= 0 \\",
            "prusti": "body_invariant!(3*x*x - 2*x_0 == 0);",
            "spark": "pragma Loop_Invariant (3*To_Big_Integer (x)*To_Big_Integer (x) - 2*To_Big_Integer (x_0) = 0);",
            "verus": "3*(x as int)*(x as int) - 2*(x_0 as int) == 0,",
            "viper": "invariant 3*x*x - 2*x_0 == 0",
            "why3": "invariant { 3*x*x - 2*x_0 = 0 }",
        }
        self.assertEqual({name: tool.written(element, copies) for name, tool in sorted(TOOLS.items())}, wanted)

    def test_a_basis_that_is_none(self) -> None:
        elements, copies = bases(Invar(), "vars x, y; branch { x=x+1; y=y-1; }", False)
        self.assertEqual([TOOLS["dafny"].written(element, copies) for element in elements], ["invariant x_0 + y_0 - x - y == 0"])

    def test_that_the_program_tells_once_that_nothing_is_proved(self) -> None:
        version = printed("--version")
        made = done("print", "--invar", TOP / "invar", "--as", "lean", "squares.loop", "s = (a+1)^2")
        self.assertEqual(made.stderr.count("nothing has been proved here"), "without its proofs" in version)

    def test_theorems_for_lean(self) -> None:
        text = done("print", "--as", "lean", "squares.loop", "s = (a+1)^2").stdout
        self.assertEqual(text.count("theorem "), 5)
        self.assertIn("linear_combination (-a - 1/2*t - 3/2) * h1 + (-1/4) * h2\n", text)
        self.assertEqual(lean(Polynomial.variable("in") + Polynomial.variable("x"), {"x": "(y + 1)"}), "«in» + (y + 1)")

    def test_that_cofactors_combine_to_what_the_theorems_claim(self) -> None:
        for file in LOOPS:
            text = printed("cert", file)
            if text.startswith("{"):
                loop, certificate = read_loop(file.read_text()), read_certificate(text)
                for branch, rows in zip(loop.branches, certificate.steps):
                    for element, row in zip(certificate.basis, rows):
                        rest = element.substituted(branch) - sum_of(dict(enumerate(row)), certificate.basis)
                        self.assertEqual(rest, Polynomial(), file.name)


@unittest.skipUnless(shutil.which("coqc"), NEEDS_COQ)
class Theories(unittest.TestCase):
    """What is printed for Coq, and what Coq says of it."""

    def setUp(self) -> None:
        folder = tempfile.TemporaryDirectory()
        self.addCleanup(folder.cleanup)
        self.folder = Path(folder.name)

    def is_proved(self, text: str) -> bool:
        (self.folder / "theory.v").write_text(text)
        return subprocess.run(["coqc", "theory.v"], cwd=self.folder, capture_output=True, check=False).returncode == 0

    def test_bases(self) -> None:
        for name in ("squares.loop", "product.loop", "cohen-division.loop"):
            self.assertTrue(self.is_proved(done("print", "--as", "coq", name).stdout), name)

    def test_an_equation_of_a_loop_whose_basis_is_refused(self) -> None:
        self.assertTrue(self.is_proved(done("print", "--as", "coq", "fibonacci.loop", "(b^2 - a*b - a^2)^2 = 1").stdout))
        self.assertEqual(done("print", "--as", "coq", "fibonacci.loop", "a = b").returncode, 1)

    def test_names_of_coq(self) -> None:
        text = "vars forall, e_1, H, Q, O; init forall=0, e_1=0; branch { forall=forall+H; e_1=e_1+2*H; Q=Q/2; }"
        self.assertTrue(self.is_proved(coq_text(read_loop(text), Invar().certificate(text))))

    def test_that_coq_refuses_certificates_that_fail(self) -> None:
        for name in ("squares-step-fails.json", "squares-start-fails.json"):
            made = done("print", "--as", "coq", "squares.loop", name).stdout
            self.assertTrue(made.startswith("Require Import QArith."))
            self.assertFalse(self.is_proved(made), name)


class Explanations(unittest.TestCase):
    def told(self, name: str, equation: str) -> list[str]:
        loop = read_loop((EXAMPLES / name).read_text())
        return list(Story(loop, [read_equation(equation, loop.names)]).lines())

    def test_answers(self) -> None:
        for name, equation in (
            ("squares.loop", "s = (a+1)^2"), ("lesson/circle.loop", "x^2 + y^2 = 1"), ("lesson/fibonacci.loop", "(x^2 + x*y - y^2)^2 = 1"),
            ("lesson/cubes.loop", "x = n^3"), ("product.loop", "a*b = x*y + z"), ("gcd.loop", "a*p + b*r = x"), ("lesson/sign.loop", "x^2 = 1"),
        ):
            self.assertTrue(self.told(name, equation)[-1].endswith("YES"), name)
        for name, equation in (
            ("squares.loop", "s = a^2 + 2*t - 1"), ("lesson/fibonacci.loop", "x^2 + x*y - y^2 = -1"), ("lesson/circle.loop", "x = 1"),
            ("product.loop", "a*b = x*y"), ("lesson/cubes.loop", "x = n^3 + n"),
        ):
            self.assertTrue(self.told(name, equation)[-1].endswith("NO"), name)

    def test_that_answers_are_those_of_member(self) -> None:
        for file in LOOPS:
            elements = printed("basis", file).splitlines()
            for equation in elements if elements and " = 0" in elements[0] else []:
                for asked, wanted in ((equation, "YES"), (equation.replace(" = 0", " = 1"), "NO")):
                    self.assertTrue(self.told(str(file.relative_to(EXAMPLES)), asked)[-1].endswith(wanted), (file.name, asked))

    def test_lines(self) -> None:
        self.assertEqual(self.told("squares.loop", "s = (a+1)^2"), [
            "(1)  s - a^2 - 2*a - 1 = 0.   At the start it is 0.",
            "     Branch 1 adds t - 1 - 2*a, which is (2): is (2) always 0?",
            "(2)  t - 1 - 2*a = 0.   At the start it is 0.",
            "     Branch 1 leaves it as it is.",
            "Each claim holds at the start, and each branch adds only what is 0 where the claims hold.  YES",
        ])

    def test_cofactors(self) -> None:
        names = ["x", "y", "z"]
        claims = [read_equation(text, names) for text in ("x*y - z", "y^2 - 1")]
        value = read_equation("x*y^2*z - z^2*y + 2*y^2 - 2", names)
        rest, cofactors = divided(value, claims, names)
        self.assertEqual((rest, sum_of(cofactors, claims) - value), (Polynomial(), Polynomial()))
        rest, cofactors = divided(value + Polynomial.variable("x"), claims, names)
        self.assertEqual(rest + sum_of(cofactors, claims) - value, Polynomial.variable("x"))

    @unittest.skipUnless(importlib.util.find_spec("sympy"), NEEDS_SYMPY)
    def test_that_sympy_finds_the_same_combinations(self) -> None:
        for name, equation in (("lesson/cubes.loop", "x = n^3"), ("gcd.loop", "a*p + b*r = x"), ("power-sums.loop", "s^2 = c"), ("product.loop", "a*b = x*y")):
            told = []
            for many in (0, 10_000):
                with mock.patch.object(algebra, "MANY", many):
                    told.append(self.told(name, equation))
            self.assertEqual(*told)

    def test_certificates(self) -> None:
        loop = read_loop((EXAMPLES / "squares.loop").read_text())
        for name, wanted in (("squares.json", "YES"), ("squares-step-fails.json", "NO"), ("squares-start-fails.json", "NO")):
            self.assertTrue(list(certified(loop, read_certificate((EXAMPLES / name).read_text())))[-1].endswith(wanted), name)


class Pictures(unittest.TestCase):
    def test_runs(self) -> None:
        loop = read_loop("vars x, y, c; init y=c; branch { x=x+c; } branch { y=y/2; }")
        states = run(loop, [1, 2, 1], {"c": Fraction(3)})
        self.assertEqual([tuple(map(str, state.values())) for state in states], [("1", "3", "3"), ("4", "3", "3"), ("4", "3/2", "3"), ("7", "3/2", "3")])
        self.assertEqual(value_at(read_equation("x^2 = c*y", loop.names), states[0]), -8)

    def test_curves(self) -> None:
        found = list(segments(lambda x, y: x * x + y * y - 1, Axis(-1.5, 1.5), Axis(-1.5, 1.5)))
        self.assertGreater(len(found), 400)
        for one, other in found:
            for x, y in (one, other):
                self.assertAlmostEqual(x * x + y * y, 1, delta=0.001)

    def test_marks(self) -> None:
        for low, high in ((-1.2, 1.2), (0, 1), (0, 9.6), (-3, 3000), (0.001, 0.0047), (-56, 1)):
            marks = Axis(low, high).marks()
            self.assertTrue(3 <= len(marks) <= 10 and low <= marks[0] + 1e-9 and marks[-1] <= high + 1e-9, (low, high, marks))

    def test_files(self) -> None:
        picture = done("picture", "--turns", "5", "lesson/circle.loop", "x^2 + y^2 = 1").stdout
        self.assertEqual(len(re.findall("<circle", picture)), 6)
        loop = read_loop((EXAMPLES / "squares.loop").read_text())
        with self.assertRaises(Fault):
            axes_of(loop, read_equation("s = a + t", loop.names))


if __name__ == "__main__":
    unittest.main()
