"""Writes a certificate of version 2 with Singular, to be judged by `invar check`.

Usage: invar-lift LOOP POLYNOMIAL.. > CERT

Each polynomial is a claim: that it is always zero at the head of the loop. Singular's `lift` finds the cofactors: of the claims, that
combine to a claim with the values after a branch. Where there are none the claims don't follow from each other, and more of them are
needed. Nothing of Singular's answer is trusted: `invar check` judges the file. Loop and claims are read as by invar-certify, which
takes sympy; Singular is given the variables by their places, and no text of a file.
"""
from __future__ import annotations

import re
import subprocess
import sys

from .certify import Claims, Unclaimed, words
from .commands import command
from .faults import Fault
from .polynomials import Polynomial


def singular(program: str) -> str:
    try:
        run = subprocess.run(["Singular", "-q", "--no-rc"], input=program, capture_output=True, text=True, check=True)
    except FileNotFoundError as fault:
        raise Fault("Singular isn't installed (apt-get install singular-ui)") from fault
    except subprocess.CalledProcessError as fault:
        raise Fault(f"Singular has no answer: its status is {fault.returncode}") from fault
    return run.stdout


def cofactors(claims: Claims) -> list[list[list[Polynomial]]]:
    """For each branch and each claim the cofactor of each claim, which Singular finds."""
    names = claims.loop.names
    inner = {name: Polynomial.variable(f"v{place}") for place, name in enumerate(names)}
    outer = {f"v{place}": Polynomial.variable(name) for place, name in enumerate(names)}

    def text(value: Polynomial) -> str:
        return value.substituted(inner).flat()

    count = len(claims.elements)
    lines = [f"ring r = 0, ({','.join(outer)}), dp;", "short = 0;", f"ideal g = {','.join(map(text, claims.elements))};", "int b; int e; int i;"]
    for branch in claims.loop.branches:
        lines += [
            f"map f = r, {','.join(text(branch[name]) for name in names)};",
            "ideal h = f(g);",
            "matrix t = lift(g, h);",
            f"for (e = 1; e <= {count}; e++) {{ for (i = 1; i <= {count}; i++) {{ print(string(t[i, e])); }} }}",
            "kill t; kill h; kill f;",
        ]
    answer = singular("\n".join([*lines, "quit;"]))
    if not re.fullmatch(r"[v\d\s^*/+-]*", answer):
        raise Unclaimed("the claims don't follow from each other: " + " ".join(answer.split()))
    found = [Polynomial.read(line).substituted(outer) for line in answer.split()]
    rows = [found[at : at + count] for at in range(0, len(found), count)]
    return [rows[at : at + count] for at in range(0, len(rows), count)]


@command
def main() -> int:
    claims = words("invar-lift", "Singular")
    print(claims.certificate(cofactors(claims)))
    return 0


if __name__ == "__main__":
    sys.exit(main())
