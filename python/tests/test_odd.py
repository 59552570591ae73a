#!/usr/bin/env python3
"""Tests that each command tells odd inputs in a line, with a status, and never ends with a traceback.

Usage: PYTHONPATH=python/src python/tests/test_odd.py [--quick]        (once `./invar` has built the program)

Each command is called 200 times (with --quick 40 times): files and words that it takes are changed at random, always the same ones.
"""
from __future__ import annotations

import contextlib
import importlib
import importlib.util
import io
import os
import random
import shutil
import sys
import tempfile
import unittest
from dataclasses import dataclass
from pathlib import Path
from unittest import mock

EXAMPLES = Path(__file__).resolve().parents[2] / "examples"
CALLS = 40 if "--quick" in sys.argv else 200
SYMPY = "needs sympy (apt-get install python3-sympy, or pip install sympy)"
PYCPARSER = "needs pycparser (apt-get install python3-pycparser, or pip install pycparser)"
CPP = "needs cpp (apt-get install cpp)"
ODD_WORDS = ["", "=", "a = ", "= 1", "a = b = c", "x^17", "(" * 100, "1/0", "a/0", "é = 1", "--", "--none", "-1", "9" * 60, "s = (a+1)^2 %", "/", "."]
ODD_PARTS = [b"", b";", b"}", b"{", b"(", b"^99", b"/0", b"\xff\xfe", b"#", b"\n", b"branch", b"when", b" then ", b"9" * 50, b"/*@ ", b"*/", b"#if\n", b'"']


@dataclass(frozen=True)
class Ended:
    """The status of a call, and what it printed and told."""

    status: object
    printed: str
    told: str


def called(module: str, words: list[str]) -> Ended:
    """A call of a command in this process."""
    printed, told = io.StringIO(), io.StringIO()
    main = importlib.import_module(module).main
    with contextlib.redirect_stdout(printed), contextlib.redirect_stderr(told), mock.patch.object(sys, "argv", ["invar", *words]):
        try:
            status = main()
        except SystemExit as end:
            status = end.code
    return Ended(status, printed.getvalue(), told.getvalue())


def changed(text: bytes, chance: random.Random) -> bytes:
    """A text with a part left out, doubled, or replaced."""
    begin = chance.randrange(len(text) + 1)
    end = min(len(text), begin + chance.choice([0, 1, 2, 8, 40]))
    return text[:begin] + chance.choice([b"", text[begin:end] * 2, *ODD_PARTS]) + text[end:]


def odd_call(words: list[str], files: list[str], chance: random.Random) -> list[str]:
    """Words of a call, of which one is odd, or a file that it takes is."""
    words = list(words)
    place = chance.randrange(len(words))
    if chance.random() < 0.6:
        file = Path(chance.choice(files))
        file.write_bytes(changed(file.read_bytes(), chance))
    elif chance.random() < 0.2:
        del words[place]
    elif chance.random() < 0.2:
        words.insert(place, chance.choice(ODD_WORDS))
    else:
        words[place] = chance.choice([*ODD_WORDS, changed(words[place].encode(), chance).decode(errors="ignore").replace("\0", "")])
    return words


class Odd(unittest.TestCase):
    def setUp(self) -> None:
        folder = tempfile.TemporaryDirectory()
        self.addCleanup(folder.cleanup)
        self.folder = folder.name
        self.addCleanup(os.chdir, os.getcwd())
        os.chdir(folder.name)

    def test_each(self) -> None:
        squares, product = EXAMPLES / "squares.loop", EXAMPLES / "product.loop"
        certificate = EXAMPLES / "squares.json"
        self.told("explain", ["a.loop", "s = (a+1)^2"], {"a.loop": squares})
        self.told("explain", ["a.loop", "a.json"], {"a.loop": squares, "a.json": certificate})
        self.told("picture", ["--turns", "3", "a.loop", "s = (a+1)^2"], {"a.loop": squares})
        self.told("picture", ["--word", "1,2,1", "--start", "a=3,b=1/2", "a.loop", "x*y = z"], {"a.loop": product})
        self.told("print", ["--as", "dafny", "a.loop"], {"a.loop": product})
        self.told("print", ["--as", "latex", "a.loop", "a.json"], {"a.loop": squares, "a.json": certificate})
        self.told("print", ["--as", "coq", "a.loop", "a.json"], {"a.loop": squares, "a.json": certificate})
        self.told("print", ["--as", "coq", "a.loop", "s = (a+1)^2"], {"a.loop": squares})
        self.told("print", ["--as", "lean", "a.loop", "s = (a+1)^2"], {"a.loop": squares})
        self.told("print", ["--write", "a.dfy"], {"a.dfy": EXAMPLES / "verifiers/product.dfy", "product.loop": product})
        self.told("lift", ["a.loop", "2*a - t + 1"], {"a.loop": squares})

    @unittest.skipUnless(importlib.util.find_spec("sympy"), SYMPY)
    def test_certify(self) -> None:
        self.told("certify", ["a.loop", "2*a - t + 1", "s = (a+1)^2"], {"a.loop": EXAMPLES / "squares.loop"})

    @unittest.skipUnless(importlib.util.find_spec("pycparser"), PYCPARSER)
    @unittest.skipUnless(shutil.which("cpp"), CPP)
    def test_c(self) -> None:
        self.told("c.__main__", ["a.c"], {"a.c": EXAMPLES / "c/product.c"})

    def told(self, name: str, words: list[str], files: dict[str, Path]) -> None:
        chance = random.Random(name)
        for number in range(CALLS):
            for file, source in files.items():
                Path(file).write_bytes(source.read_bytes())
            odd = odd_call(words, list(files), chance)
            with self.subTest(name=name, number=number, words=odd, files=[Path(file).read_bytes() for file in files]):
                ended = called(f"invar_tools.{name}", odd)
                self.assertIn(ended.status, (0, 1, 2))
                self.assertNotIn("Traceback", ended.told)
                if ended.status == 2:
                    self.assertTrue(ended.told.count("\n") == 1 or ended.printed and not ended.told, ended)


if __name__ == "__main__":
    unittest.main(argv=[word for word in sys.argv if word != "--quick"])
