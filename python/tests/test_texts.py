#!/usr/bin/env python3
"""Tests that the package reads loops, chains, sequences and programs as `invar` does.

Usage: PYTHONPATH=python/src python/tests/test_texts.py [--quick]        (once `./invar` has built the program)

Texts of each language are changed at random, always the same ones: 400 of each, or 60 with --quick. The package reads those that the program reads,
and no others. What it reads is then run, and what the program and the authors say of the states is true of them.
"""
from __future__ import annotations

import random
import re
import sys
import unittest
from collections.abc import Callable, Iterator
from fractions import Fraction
from pathlib import Path

from invar_tools import Fault, Invar, Polynomial, Refused, read_chain, read_loop, read_program, read_sequences
from invar_tools.programs import Assertion, Assignment, Assumption, Block, Choice, Comparison, For, Program, Statement, Unknown, While
from invar_tools.reader import State
from invar_tools.sequences import loop_of

TOP = Path(__file__).resolve().parents[2]
LOOPS = sorted((TOP / "examples").glob("*.loop"))
CHAINS = sorted((TOP / "examples/chains").glob("*.chain"))
SEQUENCES = sorted((TOP / "examples/sequences").glob("*.seqs"))
PROGRAMS = sorted([*(TOP / "bench/programs").glob("*.prog"), TOP / "examples/division.prog"])
CERTIFICATES = dict(line.split("\t", 1) for line in (TOP / "bench/programs/certificates.tsv").read_text().splitlines())
TEXTS = 60 if "--quick" in sys.argv else 400
RUNS, MOST_STEPS = 20, 120
PIECES = (
    " branch { } branch ", " when ", " when a && (b) ", " then ", " do { } ", " init ", " vars ", " locals t; ", " if ", " else ", " while * ", " for ",
    " assume ", " assert ", " any ", " any1 ", " sequences ", "==", "!=", "..", ".", "=", "(", ")", "{", "}", ";", ",", "/", "/0", "^17", "^2", "&&", "#",
    "\n", "\f", "x", "-", "é", "²", "9" * 42, "0" * 60, "!", "1", "(" * 66, "{" * 17, "_1", "x" * 33,
)
FAULT = re.compile(r"(?:loop \d+: )?(?:loop|chain|sequences|program): (syntax|limit|wide|twice|unknown|init uses|unset|divisor) at \d+")
ROUGH = {"limit", "wide"}
"""Faults of texts that are too large for the program, of which the package may read some."""


def odd_texts(sources: list[str]) -> Iterator[str]:
    """Texts with one to three pieces inserted, left out or repeated."""
    chance = random.Random(77)
    for _ in range(TEXTS):
        text = chance.choice(sources)
        for _ in range(chance.randint(1, 3)):
            begin = chance.randrange(len(text) + 1)
            end = begin + chance.choice([0, 1, 2, 8])
            text = text[:begin] + chance.choice(["", text[begin:end] * 2, *[chance.choice(PIECES)] * 2]) + text[end:]
        yield text


def fault_of(invar: Invar, command: str, text: str) -> str | None:
    """The reason of the first fault that the program tells of a text."""
    words = {"checkproof": ["/dev/null"], "member": ["0 = 0"]}.get(command, [])
    try:
        invar.of_text(command, text, *words)
    except Refused as refusal:
        fault = FAULT.fullmatch(refusal.told)
        return fault[1] if fault else None
    return None


class Reading(unittest.TestCase):
    """The package reads what the program reads."""

    def agrees(self, command: str, read: Callable[[str], object], files: list[Path]) -> None:
        invar = Invar()
        sources = [file.read_text() for file in files]
        read_counts = {True: 0, False: 0}
        for text in [*sources, *odd_texts(sources)]:
            fault = fault_of(invar, command, text)
            if fault in ROUGH:
                continue
            try:
                read(text)
                is_read = True
            except Fault:
                is_read = False
            self.assertEqual(is_read, fault is None, (text, fault))
            read_counts[is_read] += 1
        self.assertTrue(all(count > TEXTS // 20 for count in read_counts.values()), read_counts)

    def test_loops(self) -> None:
        self.agrees("member", read_loop, LOOPS)

    def test_chains(self) -> None:
        self.agrees("chain", read_chain, CHAINS)

    def test_sequences(self) -> None:
        self.agrees("relations", read_sequences, SEQUENCES)

    def test_programs(self) -> None:
        self.agrees("checkproof", read_program, PROGRAMS)


def value_at(value: Polynomial, state: dict[str, Fraction]) -> Fraction:
    found = value.substituted({name: Polynomial.constant(number) for name, number in state.items()}).value()
    assert found is not None
    return found


def moved(state: dict[str, Fraction], values: State) -> dict[str, Fraction]:
    return {name: value_at(value, state) for name, value in values.items()}


class Stopped(Exception):
    """A run goes on nowhere, or has done enough steps."""


class Run:
    """A run of a program, with choices and unknown values by chance, in which each assertion is looked at."""

    def __init__(self, program: Program, chance: random.Random) -> None:
        self.chance = chance
        self.state = {name: self.unknown() for name in program.names}
        self.steps = 0
        self.seen: list[tuple[str, Fraction]] = []
        try:
            self.block(program.block)
        except Stopped:
            pass

    def unknown(self) -> Fraction:
        return Fraction(self.chance.randint(-3, 6), self.chance.choice([1, 1, 2]))

    def at(self, value: Polynomial) -> Fraction:
        return value_at(value, self.state)

    def is_true(self, comparisons: list[Comparison]) -> bool:
        return all((self.at(one.value) == 0) == one.is_equal for one in comparisons)

    def must(self, holds: bool) -> None:
        if not holds:
            raise Stopped

    def chosen(self, statement: Choice | While) -> bool:
        """Whether a guard lets the state in; where it would let it past as well, by chance."""
        ways = [enters for enters, one in ((True, statement.guard.lets_in()), (False, statement.guard.lets_past())) if self.is_true(one)]
        self.must(bool(ways))
        return self.chance.choice(ways)

    def block(self, block: Block) -> None:
        for statement in block:
            self.step()
            self.do(statement)

    def step(self) -> None:
        self.steps += 1
        self.must(self.steps < MOST_STEPS)

    def do(self, statement: Statement) -> None:
        match statement:
            case Assignment():
                self.assign(statement)
            case Unknown(target):
                self.state[target] = self.unknown()
            case Assumption(comparison):
                self.must(self.is_true([comparison]))
            case Assertion(place, claim):
                self.seen.append((place, self.at(claim)))
            case Choice():
                self.block(statement.block if self.chosen(statement) else statement.other)
            case While():
                while self.chosen(statement):
                    self.step()
                    self.block(statement.block)
            case For(_, counter, first, bound, block):
                self.state[counter] = self.at(first)
                while self.state[counter] != self.at(bound):
                    self.block([*block, Assignment([counter], [Polynomial.variable(counter) + Polynomial.constant(1)], [])])

    def assign(self, statement: Assignment) -> None:
        state = dict(self.state)
        for number, divisor in enumerate(statement.divisors, 1):
            size = value_at(divisor, state)
            self.must(size != 0)
            state[f"any{number}"] = 1 / size
        values = [value_at(value, state) for value in statement.values]
        self.state |= zip(statement.targets, values)


class Meaning(unittest.TestCase):
    """What is read means what the program says of it."""

    def test_assertions_of_programs(self) -> None:
        """An assertion that a certificate shows is true in each run, and stands where the package says."""
        seen = 0
        invar, chance = Invar(), random.Random(77)
        for file in PROGRAMS:
            if file.stem in CERTIFICATES:
                text = file.read_text()
                shown = invar.assertions(text, CERTIFICATES[file.stem]) or {}
                for place, value in (found for _ in range(RUNS) for found in Run(read_program(text), chance).seen):
                    self.assertIn(place, shown, file.name)
                    self.assertTrue(value == 0 or not shown[place], (file.name, place))
                    seen += 1
        self.assertGreater(seen, 1_000)

    def test_wrong_assertions(self) -> None:
        text = (TOP / "bench/programs/wrong_assert.prog").read_text()
        chance = random.Random(77)
        self.assertTrue(any(value for _ in range(RUNS) for _, value in Run(read_program(text), chance).seen))

    def test_programs(self) -> None:
        program = read_program("vars x, y, n; # x\nx = (1 - y)/(x + 1/y) + y/2; if (x = 1 && (y)) { (x, y) = (y, x); } else if y != n { n = any; }")
        values, choice = program.block
        assert isinstance(values, Assignment) and isinstance(choice, Choice) and isinstance(choice.other[0], Choice)
        self.assertEqual([divisor.flat() for divisor in values.divisors], ["y", "x + any1"])
        self.assertEqual([value.flat() for value in values.values], ["any2 - any2*y + 1/2*y"])
        self.assertEqual((choice.guard.text, choice.guard.is_single), ("(x = 1 && (y))", False))
        self.assertEqual(([one.value.flat() for one in choice.guard.lets_in()], choice.guard.lets_past()), (["x - 1"], []))
        self.assertEqual([one.is_equal for one in choice.other[0].guard.lets_past()], [True])
        self.assertEqual(choice.other[0].block, [Unknown("n")])

    def test_places(self) -> None:
        text = "vars i, n; # é\n  for i = 0 .. n { while i < 2*n { assert i == n; } }"
        (loop,) = read_program(text).block
        assert isinstance(loop, For) and isinstance(loop.block[0], While) and isinstance(loop.block[0].block[0], Assertion)
        self.assertEqual([loop.place, loop.block[0].place, loop.block[0].block[0].place], ["2:3", "2:20", "2:36"])

    def test_deep_texts(self) -> None:
        self.assertEqual(len(read_program("vars x; " + "if x = 1 { } else " * 255 + "{ }").block), 1)
        for text in ("if x = 1 { } else " * 257 + "{ }", "while * { " * 17 + "}" * 17, "x = " + "(" * 900 + "x" + ")" * 900 + ";"):
            with self.assertRaises(Fault):
                read_program(f"vars x; {text}")
        self.assertEqual(len(read_program("vars x; if " + "(" * 900 + "x = 1" + ")" * 900 + " { }").block), 1)

    def test_runs_of_chains(self) -> None:
        invar = Invar()
        for file in CHAINS:
            text = file.read_text()
            chain = read_chain(text)
            state = {name: Fraction(place + 2) for place, name in enumerate(chain.first.free())}
            state = {name: value_at(value, state) for name, value in chain.first.start().items()}
            loops = [chain.first.branches, *(further.branches for further in chain.others)]
            steps: list[State] = [{}, *(further.code for further in chain.others)]
            bases = invar.chain(text)
            self.assertEqual(len(bases), len(loops))
            for code, branches, basis in zip(steps, loops, bases):
                state = moved(state, code) if code else state
                for values in [*branches, *branches]:
                    self.assertFalse(any(value_at(element, state) for element in basis), (file.name, state))
                    state = moved(state, values)

    def test_relations_of_sequences(self) -> None:
        invar = Invar()
        for file in SEQUENCES:
            text = file.read_text()
            loop, relations = loop_of(read_sequences(text)), invar.relations(text)
            self.assertTrue(relations)
            state = moved({}, loop.start())
            for _ in range(12):
                self.assertFalse(any(value_at(relation, state) for relation in relations), (file.name, state))
                state = moved(state, loop.branches[0])


if __name__ == "__main__":
    unittest.main(argv=[word for word in sys.argv if word != "--quick"])
