#!/usr/bin/env python3
"""Tests that invar-c writes no equation that a run refutes: into C as it is written to mislead, and into functions made at random.

Usage: PYTHONPATH=python/src python/tests/test_hostile.py [--quick]        (once `./invar` has built the program; needs gcc)

Each file of python/tests/hostile is annotated in a copy, and run by 23 x 23 arguments with each equation checked at its head; so are 1,000 functions
of generated.py, always the same ones. With --quick it is the files that once had a wrong equation, and 20 functions.
"""
from __future__ import annotations

import os
import shutil
import subprocess
import sys
import tempfile
import unittest
from pathlib import Path

import invar_tools
from generated import HEAD, functions
from instrumented import wrong_clauses

FOLDER = Path(__file__).resolve().parent / "hostile"
ENVIRONMENT = {**os.environ, "PYTHONPATH": str(Path(invar_tools.__file__).resolve().parents[1])}
QUICK = "--quick" in sys.argv
FUNCTIONS, BATCH, SEED = (20 if QUICK else 1_000), 10, 20_261_201
ONCE_WRONG = (
    "and_left_post", "args_flush", "auto_init", "b_enum_for_scope", "b_enum_if0", "b_struct_register", "b_uchar_fact2", "b_vector", "c_for_register",
    "c_natural_even", "c_subscript_comma", "c_typedef_vla", "call_flush", "cleanup_attr", "comma_decl", "comma_flush", "cond_comma_flush", "enum_in_cast",
    "enum_leaks", "enum_over_var", "enum_shadowed_by_var", "enum_sizeof", "extern_inside", "extern_shadowed", "missing_header", "mode_attr",
    "register_ptr", "vla_dim", "vla_sizeof",
)
UNDEFINED = {"setjmp_loop"}
"""Files whose runs C doesn't define."""


@unittest.skipUnless(shutil.which("gcc"), "needs gcc (apt-get install gcc)")
class Hostile(unittest.TestCase):
    def setUp(self) -> None:
        folder = tempfile.TemporaryDirectory()
        self.addCleanup(folder.cleanup)
        self.folder = Path(folder.name)

    def annotated(self, text: str, name: str, *words: str) -> str:
        """The text with the equations that are written into it; its faults are told without a traceback."""
        file = self.folder / name
        file.write_text(text)
        call = [sys.executable, "-m", "invar_tools.c", *words, file]
        told = subprocess.run(call, env=ENVIRONMENT, capture_output=True, text=True, timeout=600, check=False).stderr
        self.assertNotIn("Traceback", told, name)
        return file.read_text()

    def test_files(self) -> None:
        """No equation in a hostile file is refuted."""
        files = [FOLDER / f"{name}.c" for name in ONCE_WRONG] if QUICK else sorted(FOLDER.glob("*.c"))
        for file in files:
            with self.subTest(file.stem):
                text = self.annotated(file.read_text(), file.name)
                if file.stem not in UNDEFINED and "loop invariant invar" in text:
                    self.assertFalse(wrong_clauses(text, ["f"], self.folder))

    def test_generated(self) -> None:
        """Nor is one in a function that is made at random."""
        made = functions(SEED, FUNCTIONS)
        for begin in range(0, FUNCTIONS, BATCH):
            batch = dict(made[begin : begin + BATCH])
            with self.subTest(begin):
                text = self.annotated(HEAD + "\n".join(batch.values()), f"batch_{begin}.c", "--entries")
                self.assertEqual(wrong_clauses(text, list(batch), self.folder), [])


if __name__ == "__main__":
    unittest.main(argv=[word for word in sys.argv if word != "--quick"])
