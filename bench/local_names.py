#!/usr/bin/env python3
"""Random loops with local names, beside the same loops with expressions in their places.

Usage: bench/local_names.py [COUNT] [SEED]     COUNT is 10,000 if it isn't given

(after .ci/run, or `rt run` in crates/invar, has built the program.)
A loop has one to four variables, one to three local names, an `init` of numbers and of free variables, and one or two branches of one to six
statements, single ones and lists. The other loop has no local name: each of its branches is one statement, which sets all variables to the
expressions that they stand for at the end of the branch, with parentheses round whatever is put in. Its `basis`, and `run` along some words, have
to be the same, byte for byte. An expression that has grown past the limits of a text is left out and counted; so is a fault or a Wide whose place
is an offset, which is another one in the other text, and a number of a run that doesn't fit, which is told by the statement that comes to it.
"""
import os
import pathlib
import random
import subprocess
import sys
import tempfile

TOP = pathlib.Path(__file__).resolve().parent.parent
PROGRAM = pathlib.Path(os.environ.get("INVAR") or TOP / "crates/invar/out/invar").resolve()
VARIABLES, LOCALS = "xyzw", "tuv"


def atom(rng, names):
    return rng.choice(names) if names and rng.random() < 0.7 else str(rng.randint(0, 3))


def expression(rng, names, depth):
    if depth == 0 or rng.random() < 0.3:
        return atom(rng, names)
    kind = rng.random()
    left = expression(rng, names, depth - 1)
    if kind < 0.35:
        return f"{left} + {expression(rng, names, depth - 1)}"
    if kind < 0.6:
        return f"{left} - ({expression(rng, names, depth - 1)})"
    if kind < 0.75:
        return f"{rng.randint(1, 3)}*({left})"
    if kind < 0.85:
        return f"({left})*({atom(rng, names)})"
    if kind < 0.93:
        return f"({left})/{rng.randint(1, 3)}"
    return f"-({left})"


def statements(rng, names, own):
    """Statements as pairs of targets and right sides; a local name is used only once it is set."""
    known, found = list(names), []
    for _ in range(rng.randint(1, 6)):
        count = 1 if rng.random() < 0.7 or len(names) + len(own) < 2 else 2
        targets = rng.sample(names + own, count)
        found.append((targets, [expression(rng, known, 2) for _ in targets]))
        known += [name for name in targets if name in own and name not in known]
    return found


def shown(found):
    texts = []
    for targets, sides in found:
        if len(targets) == 1:
            texts.append(f"{targets[0]} = {sides[0]};")
        else:
            texts.append(f"({', '.join(targets)}) = ({', '.join(sides)});")
    return " ".join(texts)


def put(text, values):
    """The text with what the names stand for in their places; a name has one letter."""
    return "".join(f"({values[c]})" if c in values else c for c in text)


def in_one(found, names):
    values = {name: name for name in names}
    for targets, sides in found:
        new = [put(side, values) for side in sides]
        values.update(zip(targets, new))
    sides = [values[name] for name in names]
    return f"{names[0]} = {sides[0]};" if len(names) == 1 else f"({', '.join(names)}) = ({', '.join(sides)});"


def loops(rng):
    names = list(VARIABLES[: rng.randint(1, 4)])
    own = list(LOCALS[: rng.randint(1, 3)])
    set_names = [name for name in names if rng.random() < 0.7]
    free = [name for name in names if name not in set_names]
    start = {name: str(rng.randint(-3, 3)) for name in names}
    equations = []
    for name in set_names:
        value = rng.choice(free) if free and rng.random() < 0.3 else str(rng.randint(0, 3))
        start[name] = start.get(value, value)
        equations.append(f"{name}={value}")
    head = f"init {', '.join(equations)}; " if equations else ""
    branches = [statements(rng, names, own) for _ in range(rng.randint(1, 2))]
    local = f"vars {', '.join(names)}; locals {', '.join(own)}; {head}" + " ".join(f"branch {{ {shown(b)} }}" for b in branches)
    plain = f"vars {', '.join(names)}; {head}" + " ".join(f"branch {{ {in_one(b, names)} }}" for b in branches)
    word = ",".join(str(rng.randint(1, len(branches))) for _ in range(rng.randint(0, 3)))
    return local, plain, word, ",".join(start[name] for name in names)


def answer(folder, text, command, *words):
    path = folder / "loop"
    path.write_text(text)
    options = ["--budget", "2000"] if command == "basis" else []
    done = subprocess.run([PROGRAM, command, *options, path, *words], capture_output=True, text=True)
    return done.returncode, done.stdout + done.stderr


def at_a_place(said):
    return said.startswith(("loop: ", "wide: step "))


def main():
    count = int(sys.argv[1]) if len(sys.argv) > 1 else 10000
    rng = random.Random(sys.argv[2] if len(sys.argv) > 2 else "local names")
    same, left_out, statuses = 0, 0, {}
    with tempfile.TemporaryDirectory() as name:
        folder = pathlib.Path(name)
        for _ in range(count):
            local, plain, word, start = loops(rng)
            for command, words in (("basis", ()), ("run", (word, start))):
                ours, theirs = answer(folder, local, command, *words), answer(folder, plain, command, *words)
                if at_a_place(ours[1]) or at_a_place(theirs[1]):
                    left_out += 1
                elif ours != theirs:
                    print(f"{command} {' '.join(words)} differs\n{local}\n{ours}\n{plain}\n{theirs}")
                    return 1
                else:
                    statuses[ours[0]] = statuses.get(ours[0], 0) + 1
                    same += 1
    print(f"{same} calls answer the same, by status {dict(sorted(statuses.items()))}; {left_out} were left out for a place in the text")
    return 0


if __name__ == "__main__":
    sys.exit(main())
