#!/usr/bin/env python3
"""Times `forms` on 100 branches of 8 variables in triangular form, 100 with a product, 100 that overwrite variables, and sees that they are right.

Usage: bench/forms.py [COUNT]     (after .ci/run, or `rt run` in crates/computation_rows, has built the program)

The polynomial of a variable is an eigenvalue from 1 to 10, or its opposite, times the variable, and a linear one in the variables behind it with a
constant; with a product, that of the first variable has a product of two others too; of a branch that overwrites variables some eigenvalues are 0.
Some eigenvalues come more than once. The program makes
each closed form several times over, and what it takes to start is taken off; the reading of the row and the printing of the closed form stand
in the time, which is processor time, the system's included. A closed form is right where from a state its values at four numbers of turns, from
that on at which the branch begins, are the states after these turns, and the value before is not.
"""
import fractions
import math
import os
import pathlib
import random
import re
import subprocess
import sys
import tempfile

PROGRAM = pathlib.Path(os.environ.get("COMPUTATION_ROWS") or pathlib.Path(__file__).resolve().parent.parent / "crates/computation_rows/out/computation_rows").resolve()
TIMES = 5
VARIABLES = "abcdefgh"
MOST_MS = 20
LINEAR, PRODUCT, OVERWRITE = KINDS = "linear", "with a product", "that overwrite"
Fraction = fractions.Fraction


def coarsest(numbers):
    """The coarsest base: numbers with a common divisor are taken apart."""
    waiting, base = list(numbers), []
    while waiting:
        number = waiting.pop()
        other = next((b for b in base if math.gcd(b, number) > 1), None)
        if other is not None:
            base.remove(other)
            common = math.gcd(other, number)
            waiting += [other // common, common, number // common]
        elif number > 1:
            base.append(number)
    return sorted(base)


def branch(kind):
    """The eigenvalues, and the polynomials as lists of a coefficient and the places of variables."""
    values, images = [], []
    for i in range(len(VARIABLES)):
        value = 0 if kind == OVERWRITE and random.random() < 0.3 else random.choice([-1, 1]) * random.randint(1, 10)
        if values and random.random() < 0.3:
            value = random.choice(values)
        values.append(value)
        image = [(value, [i])] + [(random.randint(-3, 3), [j]) for j in range(i + 1, len(VARIABLES))] + [(random.randint(-3, 3), [])]
        if kind == PRODUCT and i == 0:
            image.append((random.choice([-2, -1, 1, 2]), sorted(random.choices(range(1, len(VARIABLES)), k=2))))
        images.append([(c, places) for c, places in image if c])
    return values, images


def value_of(image, state):
    return sum(c * math.prod(state[place] for place in places) for c, places in image)


def text_of(image):
    return " + ".join("*".join([str(c), *(VARIABLES[place] for place in places)]) for c, places in image).replace("+ -", "- ") or "0"


def row(images, base):
    powers = [letter + str(b) for letter in "uv" for b in base]
    return "forms\t" + ",".join(["n", "s", *powers]) + "\t" + ",".join(VARIABLES) + "\t" + "; ".join(map(text_of, images)) + "\t?\n"


def value_at(text, point):
    """The value of a printed polynomial where the names have these numbers."""
    total = Fraction(0)
    for sign, item in re.findall(r"(^-?|[+-] )([^ ]+)", text):
        value = Fraction(-1 if "-" in sign else 1)
        for factor in item.split("*"):
            name, _, exponent = factor.partition("^")
            value *= point[name] ** int(exponent or 1) if name in point else Fraction(factor)
        total += value
    return total


def is_right(answer, images, base):
    said, *forms = answer.split("; ")
    since = int(forms.pop(0).removeprefix("since ")) if forms and forms[0].startswith("since ") else 0
    if said != "base " + (",".join(map(str, base)) or "none") or len(forms) != len(VARIABLES):
        return False
    states = [[Fraction(random.randint(-5, 5), random.randint(1, 3)) for _ in VARIABLES]]
    while len(states) < since + 4:
        states.append([value_of(image, states[-1]) for image in images])

    def is_state(turns):
        point = dict(zip(VARIABLES, states[0]), n=Fraction(turns), s=Fraction((-1) ** turns))
        for b in base:
            point |= {f"u{b}": Fraction(b) ** turns, f"v{b}": Fraction(b) ** -turns}
        return [value_at(form, point) for form in forms] == states[turns]

    return all(map(is_state, range(since, since + 4))) and not (since > 0 and is_state(since - 1))


def run(lines):
    """The processor time in seconds and the answers of one run on these lines."""
    with tempfile.TemporaryDirectory() as folder:
        pathlib.Path(folder, "rows.txt").write_text("".join(lines))
        child = subprocess.Popen([PROGRAM], stdout=subprocess.PIPE, text=True, cwd=folder)
        said = child.stdout.read()
        _, _, usage = os.wait4(child.pid, 0)
    answers = re.findall(r"^    answers (.*)$", said, re.MULTILINE)
    assert len(answers) == len(lines), said
    return usage.ru_utime + usage.ru_stime, answers


def main():
    random.seed(7)
    count = int(sys.argv[1]) if len(sys.argv) > 1 else 100
    start = min(run([])[0] for _ in range(9))
    print("branches        count  wide  mean ms  most ms  mean terms  most terms")
    slow = 0
    for kind in KINDS:
        times, terms, wide = [], [], 0
        for _ in range(count):
            values, images = branch(kind)
            base = coarsest(abs(value) for value in values if value)
            taken, answers = run([row(images, base)] * TIMES)
            if answers[0].startswith("wide form"):
                wide += 1
            else:
                assert is_right(answers[0], images, base), (row(images, base), answers[0])
                terms.append(sum(len(re.findall(r" [+-] ", form)) + 1 for form in answers[0].split("; ")[1:] if not form.startswith("since ")))
            times.append(1000 * max(0, taken - start) / TIMES)
        slow += sum(taken >= MOST_MS for taken in times)
        print(f"{kind:14}  {count:5}  {wide:4}  {sum(times) / count:7.2f}  {max(times):7.2f}  {sum(terms) / max(1, len(terms)):10.0f}  {max(terms, default=0):10}", flush=True)
    print(f"{slow} took {MOST_MS} ms or more")
    return slow != 0


if __name__ == "__main__":
    sys.exit(main())
