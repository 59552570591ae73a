"""Prints the equations of a loop as loop invariants in the words of a verifier.

Usage: invar-print --as TOOL [--entries] LOOP
       invar-print --as TOOL LOOP CERT
       invar-print --as coq LOOP [CERT or EQUATION]
       invar-print --write [--loops FOLDER] FILE..

TOOL is acsl, dafny, boogie, why3, jml, spark, viper, verus, creusot, prusti, latex, coq or lean. The equations are those of the basis of LOOP,
or those that a certificate lists: multiplied by the least common denominator, and powers written as products, so that each is an
equation of whole numbers exactly where the printed one holds. Where a basis is `none`, and with --entries, they are those of the loop
with a copy of each value at the start that changes: x_0 is that of x.

For coq it prints a theory that Coq judges by itself: each identity of the certificate, and by induction that its equations hold at each
state that is reached; with an EQUATION the certificate is that of `invar prove`, of any loop. For lean it prints theorems of the same
identities, and with an EQUATION also that it follows from the basis.

With --write the files are programs for Dafny (.dfy), Boogie (.bpl) or Why3 (.mlw). Between a line `basis of NAME.loop` and a line `end of
the basis`, both in comments, the basis of FOLDER/NAME.loop is written; without a folder the loop stands beside the program.
"""
from __future__ import annotations

import re
import sys
from argparse import Namespace
from dataclasses import dataclass
from pathlib import Path

from .certificates import Certificate, read_certificate
from .client import Invar
from .commands import Parser, command
from .coq import coq_text
from .faults import NO, Fault
from .lean import lean_text
from .loops import read_loop, with_entries
from .polynomials import Polynomial


class Denied(Fault):
    """An equation doesn't always hold."""

    status = NO

    def __init__(self, equation: str) -> None:
        super().__init__(f"{equation} doesn't always hold; invar decide and invar counter show a run")


@dataclass(frozen=True)
class Tool:
    """How a verifier has an invariant: its line around the left side, what stands for a variable, and for its value at the start."""

    line: str
    name: str = "{}"
    entry: str = ""
    powers: bool = False

    def written(self, element: Polynomial, entries: dict[str, str]) -> str:
        """The line of an equation."""
        spelling = {name: self.name.format(name) for name in element.names()}
        spelling |= {copy: self.entry.format(name) for copy, name in entries.items() if self.entry}
        if not self.powers:
            return self.line.format(element.whole(spelling))
        whole = element.scaled(element.denominator())
        return self.line.format(whole.written(lambda name, exponent: [latex_power(name, exponent)]).replace("*", " "))


def latex_power(name: str, exponent: int) -> str:
    word = name.rstrip("0123456789")
    number, word = name[len(word):], word.removesuffix("_")
    letter = word if len(word) == 1 else rf"\mathit{{{word}}}".replace("_", r"\_")
    return letter + (f"_{{{number}}}" if number else "") + (f"^{{{exponent}}}" if exponent > 1 else "")


TOOLS = {
    "acsl": Tool("loop invariant {} == 0;", entry=r"\at({}, LoopEntry)"),
    "dafny": Tool("invariant {} == 0"),
    "boogie": Tool("invariant {} == 0;"),
    "why3": Tool("invariant {{ {} = 0 }}"),
    "jml": Tool(r"//@ loop_invariant \bigint_math({} == 0);"),
    "spark": Tool("pragma Loop_Invariant ({} = 0);", name="To_Big_Integer ({})"),
    "viper": Tool("invariant {} == 0"),
    "verus": Tool("{} == 0,", name="({} as int)"),
    "creusot": Tool("#[invariant({} == 0)]", name="{}@"),
    "prusti": Tool("body_invariant!({} == 0);"),
    "latex": Tool(r"{} &= 0 \\", powers=True),
}
SUFFIXES = {".dfy": "dafny", ".bpl": "boogie", ".mlw": "why3"}


def bases(invar: Invar, text: str, entries: bool) -> tuple[list[Polynomial], dict[str, str]]:
    """The basis of a loop without copies of the values at the start, if one is wanted and there is one, or else with them."""
    elements = [] if entries else invar.basis(text)
    if elements:
        return elements, {}
    text, copies = with_entries(text)
    return invar.basis(text), copies


def claimed(invar: Invar, text: str, rest: str | None) -> Certificate:
    """A certificate of a loop: the one in a file, one that has an equation, or that of the basis."""
    if rest is None:
        return invar.certificate(text)
    if "=" not in rest:
        return read_certificate(Path(rest).read_text())
    found = invar.proof(text, rest)
    if found is None:
        raise Denied(rest)
    return found


def coq_theory(invar: Invar, text: str, rest: str | None) -> str:
    """The theorems of a loop for Coq, of a certificate for it if one is named, or of an equation."""
    loop, certificate = read_loop(text), claimed(invar, text, rest)
    if not certificate.basis or not certificate.is_of(len(loop.branches)):
        raise Fault("the certificate has no element, or cofactors for other branches or elements than there are")
    return coq_text(loop, certificate)


def lean_theorems(invar: Invar, text: str, rest: str | None) -> str:
    """All theorems of a loop for Lean, of a certificate for it if one is named, and of an equation."""
    loop = read_loop(text)
    equation = rest if rest is not None and "=" in rest else None
    certificate = claimed(invar, text, rest if equation is None else None)
    if not certificate.is_of(len(loop.branches)):
        raise Fault("the certificate has cofactors for other branches or elements than there are")
    cofactors = None if equation is None else invar.member(text, equation)
    if equation is not None and cofactors is None:
        raise Denied(equation)
    return lean_text(loop, certificate, equation, cofactors or [])


def written(invar: Invar, text: str, tool: Tool, folder: Path) -> str:
    """A program's text with the basis of each loop that it names, which stands in a folder."""

    def basis(match: re.Match[str]) -> str:
        head, blanks, name, end = match.groups()
        elements, entries = bases(invar, (folder / name).read_text(), False)
        return head + "".join(f"{blanks}{tool.written(element, entries)}\n" for element in elements) + end

    begin, final = r"(( *)(?://|\(\*) basis of (\S+\.loop)(?: \*\))?\n)", r"( *(?://|\(\*) end of the basis(?: \*\))?\n)"
    return re.sub(begin + r"(?:.*\n)*?" + final, basis, text)


PROVERS = {"coq": coq_theory, "lean": lean_theorems}


def words() -> Namespace:
    what = "Prints the equations of a loop as loop invariants in the words of a verifier."
    parser = Parser("invar-print", what, "invar-print --as dafny examples/squares.loop")
    parser.add_invar()
    parser.add_argument("--as", dest="tool", choices=[*TOOLS, *PROVERS], metavar="TOOL", help=", ".join([*TOOLS, *PROVERS]))
    parser.add_argument("--entries", action="store_true", help="with copies of the values at the start")
    parser.add_argument("--write", action="store_true", help="write the basis of the loops that programs name into them")
    parser.add_argument("--loops", type=Path, metavar="FOLDER", help="where the loops are that programs name, if not beside them")
    parser.add_argument("files", nargs="+", metavar="FILE", help="LOOP [CERT], or for coq and lean LOOP [CERT or EQUATION], or programs")
    asked = parser.parse_args()
    if not asked.write and (asked.tool is None or len(asked.files) > 2):
        parser.error("one loop, and a tool by --as")
    for name in asked.files if asked.write else []:
        if Path(name).suffix not in SUFFIXES:
            parser.error(f"{name}: a program is a file of {', '.join(SUFFIXES)}")
    return asked


def write(invar: Invar, file: Path, loops: Path | None) -> None:
    """Writes bases into a program."""
    file.write_text(written(invar, file.read_text(), TOOLS[SUFFIXES[file.suffix]], loops or file.parent))


@command
def main() -> int:
    asked = words()
    invar = Invar(asked.invar)
    if asked.write:
        for name in asked.files:
            write(invar, Path(name), asked.loops)
        return 0
    loop, rest = Path(asked.files[0]), asked.files[1] if len(asked.files) > 1 else None
    text = loop.read_text()
    if asked.tool in PROVERS:
        print(PROVERS[asked.tool](invar, text, rest), end="")
        return 0
    elements, entries = (read_certificate(Path(rest).read_text()).basis, {}) if rest else bases(invar, text, asked.entries)
    for element in elements:
        print(TOOLS[asked.tool].written(element, entries))
    if not elements:
        print(f"{loop}: no equation holds at each turn", file=sys.stderr)
    return 0


if __name__ == "__main__":
    sys.exit(main())
