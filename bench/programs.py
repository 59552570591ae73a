#!/usr/bin/env python3
"""Compares what `invar` says of programs with an oracle of their texts, and with examples/checkproof.py.

Usage: bench/programs.py [PART ..]        (all parts, where none is named; INVAR names the program, else ./invar builds one)

  texts           5,000 mutated programs: the first fault, or the first refusal of their transitions, is that of bench/program_oracle.py
  certificates    the certificates in bench/programs/certificates.tsv, which another search found, are valid to both judges, with the same asserts
  altered         2,000 certificates with a part changed: both judges say the same

Programs are those of bench/programs. The same seeds give the same texts. A number that doesn't fit into 128 bits is told by `invar` alone, and counted.
"""
import collections
import copy
import importlib.util
import json
import os
import pathlib
import random
import subprocess
import sys
import tempfile

from program_oracle import fault_of

TOP = pathlib.Path(__file__).resolve().parent.parent
FOLDER = TOP / "bench/programs"
TEXTS, ALTERED, SEED, MOST_SHOWN = 5_000, 2_000, 20_261_201, 5
NO_FAULT = "certificate: not json"
PIECES = [
    b"vars", b"if", b"else", b"while", b"for", b"assume", b"assert", b"any", b"any1", b"==", b"!=", b"..", b".", b"=", b"(", b")", b"{", b"}", b";",
    b",", b"/", b"0", b"^", b"17", b"&&", b"#", b"\n", b"x", b"-", b"\xff", b"9" * 42, b"!", b"vars ", b"* ", b"x = any; ", b"x/y",
]


def program():
    """The program that answers, which is built where it has to be."""
    if given := os.environ.get("INVAR"):
        return pathlib.Path(given)
    subprocess.run([TOP / "invar", "--version"], check=True, capture_output=True)
    stands = [TOP / "crates/invar/out/invar", TOP / "crates/invar/out/unproved/invar"]
    return next(path for path in stands if path.exists())


def independent_judge():
    """examples/checkproof.py, as a module."""
    spec = importlib.util.spec_from_file_location("checkproof", TOP / "examples/checkproof.py")
    module = importlib.util.module_from_spec(spec)
    sys.modules["checkproof"] = module
    spec.loader.exec_module(module)
    return module.judge


class Comparison:
    """Counts what was said, and shows the first differences."""

    def __init__(self, part):
        self.part, self.said, self.differ = part, collections.Counter(), 0

    def add(self, what, given, wanted, told):
        self.said[told] += 1
        if given != wanted:
            self.differ += 1
            if self.differ <= MOST_SHOWN:
                print(f"{what}\n  invar says {given}\n  not        {wanted}")

    def end(self):
        counts = ", ".join(f"{count} {told}" for told, count in self.said.most_common())
        print(f"{self.part}: {self.said.total()} ({counts}), {self.differ} differ")
        return self.differ


class Invar:
    def __init__(self, room):
        self.program, self.text, self.certificate = program(), pathlib.Path(room, "x.prog"), pathlib.Path(room, "x.json")

    def checkproof(self, text, certificate):
        """The status, and what is printed."""
        self.text.write_bytes(text)
        self.certificate.write_bytes(certificate)
        made = subprocess.run([self.program, "checkproof", self.text, self.certificate], capture_output=True, timeout=60)
        return made.returncode, made.stdout.decode()


def programs():
    return {path.stem: path.read_bytes() for path in sorted(FOLDER.glob("*.prog"))}


def certificates():
    lines = (FOLDER / "certificates.tsv").read_text().splitlines()
    return dict(line.split("\t", 1) for line in lines)


# ---- texts


def mutated(text, numbers):
    """The text with one to three pieces inserted, dropped or repeated."""
    changed = bytearray(text)
    for _ in range(numbers.randint(1, 3)):
        at, way = numbers.randrange(len(changed) + 1), numbers.random()
        if way < 0.4:
            changed[at:at] = numbers.choice(PIECES)
        elif way < 0.7:
            del changed[at : at + numbers.randint(1, 6)]
        else:
            begin = numbers.randrange(len(changed) + 1)
            changed[at:at] = changed[begin : begin + numbers.randint(1, 30)]
    return bytes(changed)


def texts(invar):
    numbers, found = random.Random(SEED), list(programs().values())
    comparison = Comparison("texts")
    for text in [*found, *(mutated(numbers.choice(found), numbers) for _ in range(TEXTS))]:
        fault = fault_of(text)
        said = invar.checkproof(text, b"")[1].rstrip("\n")
        wanted = f"program: {fault}" if fault else NO_FAULT
        comparison.add(text, said, wanted, fault.split()[0] if fault else "without a fault")
    return comparison.end()


# ---- certificates


def judged(invar, judge, comparison, name, text, certificate):
    given = invar.checkproof(text, certificate.encode())
    if given[1].startswith(("wide", "limit")):
        comparison.said[given[1].split(":")[0]] += 1
        return
    status, said = judge(text.decode("latin-1"), certificate)
    comparison.add(f"{name} with {certificate}", given, (status, said), said.split()[0].rstrip(":"))


def valid(invar):
    comparison, judge, known = Comparison("certificates"), independent_judge(), programs()
    for name, certificate in certificates().items():
        judged(invar, judge, comparison, name, known[name], certificate)
    comparison.differ += sum(count for told, count in comparison.said.items() if told != "valid")
    return comparison.end()


def places(parts, depth):
    """The places of the parts at a depth of lists in one another."""
    if depth == 0:
        yield ()
    else:
        for number, part in enumerate(parts):
            for place in places(part, depth - 1):
                yield (number, *place)


def altered(certificate, names, numbers):
    """The certificate with a part changed; the same where it has no such part."""
    changed = copy.deepcopy(certificate)
    way = numbers.choice(["element", "cofactor", "place", "identity", "member", "list"])
    if way == "element" and (found := list(places(changed["lists"], 2))):
        node, element = numbers.choice(found)
        old = changed["lists"][node][element]
        changed["lists"][node][element] = numbers.choice([f"{old} + 1", f"2*{names[0]}", "x + x", "0", 7, f"-{old}"])
    elif way in ("cofactor", "place") and (found := list(places(changed["steps"], 3))):
        step, element, pair = numbers.choice(found)
        new = [0, 1, 5, -1, True, None] if way == "place" else ["0", "1", "-1", "any1", names[-1], f"1/2*{names[0]}", 3]
        changed["steps"][step][element][pair][0 if way == "place" else 1] = numbers.choice(new)
    elif way == "identity" and (found := list(places(changed["steps"], 2))):
        step, element = numbers.choice(found)
        changed["steps"][step][element] = []
    elif way == "member":
        changed[numbers.choice(["kind", "version", "vars", "lists", "steps"])] = numbers.choice([1, "program", [], None, {}])
    elif way == "list":
        changed["lists"].append([])
    return changed


def changed_parts(invar):
    numbers, comparison, judge, known = random.Random(SEED), Comparison("altered"), independent_judge(), programs()
    whole = {name: json.loads(text) for name, text in certificates().items()}
    for _ in range(ALTERED):
        name = numbers.choice(list(whole))
        certificate = altered(whole[name], whole[name]["vars"], numbers)
        judged(invar, judge, comparison, name, known[name], json.dumps(certificate))
    return comparison.end()


PARTS = {"texts": texts, "certificates": valid, "altered": changed_parts}


def main(words):
    with tempfile.TemporaryDirectory() as room:
        invar = Invar(room)
        differ = [PARTS[part](invar) for part in words or PARTS]
    return 1 if any(differ) else 0


if __name__ == "__main__":
    sys.exit(main(sys.argv[1:]))
