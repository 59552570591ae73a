"""Writes the equations that `invar` finds into a C file, as loop invariants for Frama-C.

Usage: invar-c [--keep] [--entries] [-I FOLDER] [-D MACRO] [--output OTHER.c] FILE.c

Each loop whose variables are whole numbers, and whose paths change them by polynomials or give them values of which nothing is known,
is written as a loop text for `invar`. The equations of its basis come into the file as clauses `loop invariant invar: ..`, without
denominators, beside the clauses that were there. So does an equation that the author states behind a loop, by `assert` or `ensures`, or
at it, by `/*@ invar: s == i*i */`, with those that it needs to be kept by each turn. A loop that isn't taken is told on standard error
with its line, gets no equation, and makes the status 1; one that is taken in part is told, and gets what was found. Where no loop is
taken nothing is written. With --keep the loop texts and their certificates stay beside the file. docs/VERIFYING.md begins at the
beginning.
"""
from __future__ import annotations

import contextlib
import hashlib
import sys
import tempfile
from argparse import Namespace
from collections.abc import Iterable, Mapping
from dataclasses import dataclass, field, replace
from pathlib import Path

from pycparser import c_ast

from ..client import Invar
from ..commands import Parser
from ..polynomials import Polynomial
from .acsl import Note, annotated, has_assigns, has_found
from .declarations import Declarations
from .effects import assigned
from .lowering import lowered
from .paths import Stage, State, stages
from .program import MOST_SECONDS, NO, Files, Program, Refused
from .questions import Question, follows, others, questions_at
from .results import ALWAYS, Found, Result, left_out, nothing
from .sources import Refusal, Source, line_of, loops_in, read_source, write_source
from .stated import PROMISE
from .starts import Sequence, Starts, starts_of
from .statements import Equation, Set, Statement, Touch, Turns, Within, every, turns_in
from .texts import LoopText, Order, idle, is_any, loop_text, spelled


DEGREES = (2, 3, 4)
"""Up to which the equations of a loop are asked for that `invar basis` refuses."""

MOST_NAME = 80
"""Of the name of a file on loops, without its suffix."""


@dataclass(frozen=True)
class Asked:
    """A loop, with those inside of it, as it is asked by itself."""

    sequence: Sequence
    starts: Starts
    stage: Stage

    def text(self, title: str, out: frozenset[str], wanted: frozenset[str] = frozenset()) -> LoopText:
        return loop_text([self.stage], self.start(), title, out, wanted)

    def start(self) -> State:
        return self.starts.at[self.sequence.first()]


@dataclass
class Annotator:
    """What was found for the loops of a file, and what is told of them."""

    source: Source
    program: Program
    folder: Path
    entries: bool = False
    results: dict[Turns, Result] = field(default_factory=dict)
    notes: list[Note] = field(default_factory=list)
    refusals: list[tuple[int, str]] = field(default_factory=list)
    remarks: list[tuple[int, str]] = field(default_factory=list)
    answers: dict[tuple[Equation, str], str] = field(default_factory=dict)
    """What is told of each equation that the author states, once for each form that it has at a head: nothing where it is settled."""

    def refuse(self, line: int, reason: str) -> None:
        self.refusals.append((line, f"loop not taken: {reason}"))

    def whole_file(self) -> None:
        declared = Declarations(whole=not self.source.missing)
        for piece in self.source.pieces:
            declared.take(piece.tree)
        promised: list[c_ast.Node] = []
        for piece in self.source.pieces:
            for line in piece.loops if piece.fault is not None else []:
                self.refuse(line, str(piece.fault))
            if piece.fault is not None and not self.source.missing and not piece.loops:
                self.refusals.append((piece.fault.line, piece.fault.reason))
            for node in piece.tree:
                if is_promise(node):
                    promised.append(node.cond)
                    continue
                if isinstance(node, c_ast.FuncDef) and piece.own:
                    self.function(node, declared, promised)
                promised = []

    def is_framed(self, loop: Turns) -> bool:
        """Whether a loop says what it assigns, or may be made to say so."""
        return has_assigns(self.source, loop.node) or assigned(loop) is not None and self.source.offset_of(loop.node) is not None

    def function(self, node: c_ast.FuncDef, declared: Declarations, promised: list[c_ast.Node]) -> None:
        try:
            function = lowered(node, declared, promised)
            starts = starts_of(function, self.is_framed)
        except Refusal as fault:
            for loop in loops_in(node):
                self.refuse(line_of(loop), str(fault))
            return
        except RecursionError:
            for loop in loops_in(node):
                self.refuse(line_of(loop), "an expression or a statement of the function is nested too deep")
            return
        loops = turns_in(function.items)
        for lost in loops_in(node):
            if all(loop.node is not lost for loop in loops):
                self.refuse(line_of(lost), "it isn't reached")
        for loop in loops:
            self.results[loop] = Result()
        for sequence in starts.sequences.get(None, []):
            self.take(sequence, starts)
        for sequence in starts.sequences.get(None, []):
            self.ask(sequence, starts)
        for loop in loops:
            self.conclude(loop)
        for equation in function.homeless:
            self.answers[equation, ""] = f"not asked: {equation.text}: no loop is behind or around it"
        self.notes += self.written(loops)

    def take(self, sequence: Sequence, starts: Starts) -> None:
        """Takes the loops of a sequence one after another, where there are several, and each for itself."""
        if len(sequence.loops()) > 1:
            with contextlib.suppress(Refusal, Refused):
                self.keep(self.asked(sequence, starts, idle(self.stages(sequence, starts), starts.at[sequence.first()])))
        for loop, part in zip(sequence.loops(), sequence.parts()):
            try:
                self.keep(self.analysed(part, starts))
            except (Refusal, Refused) as fault:
                if not self.results[loop].fault.startswith(str(fault)):
                    self.results[loop].fault = str(fault)
            for inner in starts.sequences.get(loop, []):
                if not all(self.results[one].equations(one, False) for one in turns_in(inner.items)):
                    self.take(inner, starts)

    def keep(self, found: Mapping[Turns, Found]) -> None:
        for loop, one in found.items():
            self.results[loop].found.append(one)

    def analysed(self, sequence: Sequence, starts: Starts) -> dict[Turns, Found]:
        """The basis at a loop and at those inside, first without temporaries that are variables, and with them where there is none.

        Where `invar` refuses, the equations up to small degrees are asked for; then the loop without the variables that it names.
        """
        brief = idle(self.stages(sequence, starts), starts.at[sequence.first()])
        with contextlib.suppress(Refusal, Refused):
            found = self.asked(sequence, starts, brief) if brief else {}
            if any(one.elements for one in found.values()):
                return found
        out: frozenset[str] = frozenset()
        first = ""
        while True:
            try:
                return self.asked(sequence, starts, out, first)
            except (Refusal, Refused) as fault:
                if not first and isinstance(fault, Refused) and self.is_bounded(self.asking(sequence, starts), brief, str(fault)):
                    raise
                first = first or str(fault)
                more = frozenset(fault.keys) - out
                if not more:
                    raise Refusal(0, first) from fault
                out |= more

    def is_bounded(self, asked: Asked, out: frozenset[str], fault: str) -> bool:
        """Whether a loop whose basis is refused has equations of small degrees: these are kept, with those that they need."""
        text = asked.text(self.title(asked.sequence), out)
        name = f"{self.name(asked.sequence)}-degree"
        results = [self.results[head] for head in asked.stage.walk.heads]
        for degree in DEGREES:
            try:
                elements = self.program.bounded(text.text, degree, self.folder / f"{name}-{degree}.loop")
            except Refused as other:
                fault += "" if results[0].degree else f"\n    of equations up to degree {degree} {other}"
                break
            for result in results:
                result.degree, result.has_some = degree, elements != []
            for number, element in enumerate(elements, 1):
                with contextlib.suppress(Refusal, Refused):
                    self.prove(asked, text, element, f"{name}-{degree}-{number}")
            if elements:
                break
        for result in results:
            result.fault = fault
        return any(result.proved for result in results)

    def title(self, sequence: Sequence) -> str:
        return f"{self.source.path.name}, line {' and line '.join(str(line_of(loop.node)) for loop in sequence.loops())}"

    def name(self, sequence: Sequence) -> str:
        """The name of files on loops, without its suffix."""
        name = "-".join([self.source.path.stem, *(str(line_of(loop.node)) for loop in sequence.loops())])
        return name if len(name) <= MOST_NAME else f"{name[:MOST_NAME]}-{hashlib.sha256(name.encode()).hexdigest()[:16]}"

    def asked(self, sequence: Sequence, starts: Starts, out: frozenset[str] = frozenset(), refused: str = "") -> dict[Turns, Found]:
        """The basis at each loop of a sequence and at those inside."""
        start = starts.at[sequence.first()]
        parts = self.stages(sequence, starts)
        edges = [edge for part in parts for edge in part.walk.edges]
        text: LoopText | None = None
        try:
            text = loop_text(parts, start, self.title(sequence), out)
            bases = self.bases(text, self.name(sequence), len(parts))
        except (Refusal, Refused) as fault:
            known = text.names.variables if text is not None else {}
            named = [key for key, name in known.items() if name in fault.names] if isinstance(fault, Refused) else []
            loose = [key for edge in edges for key, value in edge.values.items() if any(map(is_any, value.names()))]
            fault.keys = named or loose
            raise
        return {
            loop: replace(self.found(parts, starts, text, elements), first=part is parts[0] and loop is sequence.first(), refused=refused)
            for part, elements in zip(parts, bases)
            for loop in part.walk.heads
        }

    def found(self, parts: list[Stage], starts: Starts, text: LoopText, elements: list[Polynomial]) -> Found:
        """Equations in the names of a loop text."""
        asked = tuple(key for key in text.names.variables if any(key in edge.values for part in parts for edge in part.walk.edges))
        heads = [head for part in parts for head in part.walk.heads]
        cut = {key for head in heads for key in cut_off([*head.body, *head.next])}
        types = starts.function.types
        wrapping = frozenset(text.names.variables[key] for key in asked if key in cut or not types[key].signed)
        return Found(elements, text, len(heads) == 1, asked, wrapping=wrapping)

    def asking(self, sequence: Sequence, starts: Starts) -> Asked:
        return Asked(sequence, starts, self.stages(sequence, starts)[0])

    def prove(self, asked: Asked, text: LoopText, equation: Polynomial, name: str) -> None:
        """Has an equation in the names of a text proved, and keeps it at each loop with those that it needs."""
        stem = self.folder / name
        elements = self.program.proof(text.text, Files(stem.with_name(f"{name}.loop"), stem.with_name(f"{name}.json")), equation)
        heads = asked.stage.walk.heads
        found = self.found([asked.stage], asked.starts, text, elements)
        if not all(found.is_written(head.visible) for head in heads):
            raise Refusal(0, "it holds at each turn, with equations that can't be written here")
        for head in heads:
            self.results[head].proved.append(found)

    def ask(self, sequence: Sequence, starts: Starts) -> None:
        """Asks what the author states at the loops of a sequence, at those inside of them, and behind them."""
        for loop, part in zip(sequence.loops(), sequence.parts()):
            with contextlib.suppress(Refusal):
                self.ask_one(self.asking(part, starts))
            for inner in starts.sequences.get(loop, []):
                self.ask(inner, starts)

    def ask_one(self, asked: Asked) -> None:
        """Asks what the author states at a loop, at those inside of it, and behind them; what is settled isn't asked again."""
        for head in asked.stage.walk.heads:
            for number, question in enumerate(questions_at(head, asked.stage.walk, asked.starts.function, asked.start()), 1):
                form = question.equation, question.value.flat()
                if self.answers.get(form, "it isn't asked yet"):
                    name = f"{self.name(asked.sequence)}-asked-{question.equation.line}-{number}"
                    self.answers[form] = self.answer(question, head, asked, name)

    def answer(self, question: Question, head: Turns, asked: Asked, name: str) -> str:
        """What is told of an equation that the author states: nothing where it is settled."""
        equation = question.equation
        if equation.value is None:
            return f"not asked: {equation.text} is no equation of polynomials in variables for whole numbers"
        if question.silent:
            return f"not asked: {equation.text}: {question.silent}"
        told: list[str] = []
        for value in question.at_bounds():
            out = others(asked.stage, value.names())
            if out is None:
                continue
            try:
                text = asked.text(f"{self.title(asked.sequence)}: {equation.text}", out, frozenset(value.names()))
            except Refusal as fault:
                told.append(f"not asked: {equation.text}: {fault}")
                continue
            try:
                self.prove(asked, text, text.renamed(value), name)
                return ""
            except Refusal as fault:
                told.append(f"not written: {equation.text}: {fault}")
            except Refused as fault:
                told.append(denied(equation, text.renamed(value).whole(text.names.spelling), head, fault, text.order))
        if any(follows(question, found) for found in [*self.results[head].found, *self.results[head].proved]):
            return ""
        before = self.answers.get((equation, question.value.flat()), "")
        unmoved = f"not asked: {equation.text}: no turn changes it" if equation.word == "invar" else ""
        return max(told, key=lambda one: one.count("\n"), default=before or unmoved)

    def stated(self) -> None:
        """Tells what of the author's equations isn't written. What is asked by `invar:` and isn't makes the status 1."""
        for (equation, _), told in self.answers.items():
            if told:
                (self.refusals if equation.word == "invar" else self.remarks).append((equation.line, told))
        self.refusals += self.source.unread

    def stages(self, sequence: Sequence, starts: Starts) -> list[Stage]:
        return stages(sequence.items, starts.at[sequence.first()].of, sequence.scope, starts.function.types)

    def bases(self, text: LoopText, name: str, loops: int) -> list[list[Polynomial]]:
        stem = self.folder / name
        if loops > 1:
            return self.program.chain(text.text, stem.with_name(name + ".chain"))
        return [self.program.basis(text.text, Files(stem.with_name(name + ".loop"), stem.with_name(name + ".json")))]

    def conclude(self, loop: Turns) -> None:
        """Tells what isn't written of a loop, and why."""
        result, line = self.results[loop], line_of(loop.node)
        equations = result.equations(loop, self.entries)
        refused = next((found.refused for found in result.found if found.refused), "")
        some = f"up to degree {result.degree}" if result.has_some else "that are stated"
        if equations and not result.found and self.source.offset_of(loop.node) is not None:
            self.remarks.append((line, f"loop taken for the equations {some} alone: {result.fault}"))
        elif not equations and result.degree:
            holds = "can be written here" if result.has_some else ALWAYS
            self.refuse(line, f"no equation up to degree {result.degree} {holds}: {refused or result.fault}")
        elif not result.found or refused and not equations:
            self.refuse(line, refused or result.fault or "it isn't reached")
        elif equations and self.source.offset_of(loop.node) is None:
            self.refuse(line, "a loop that a macro makes")
        elif refused:
            but = f", but for the equations {some}" if result.proved else ""
            self.remarks.append((line, f"loop taken without {', '.join(left_out(result.found[-1]))}{but}: {refused}"))
        elif not equations:
            self.remarks.append((line, nothing(result.found[-1])))
        else:
            lost = unforeseen(loop, result.found[-1])
            self.remarks += [(line, f"any value: {', '.join(lost)}")] if lost else []

    def written(self, loops: list[Turns]) -> list[Note]:
        """The notes of a function's loops: equations, and what loops before those or inside of them assign, since provers ask for it.

        A loop that has equations of an earlier time and none now gets a note without any.
        """
        placed = [loop for loop in loops if self.source.offset_of(loop.node) is not None]
        equations = {loop: self.results[loop].equations(loop, self.entries) for loop in placed}
        last = max((place for place, loop in enumerate(placed) if equations[loop]), default=-1)
        wanted = placed[: last + 1] + (turns_in([*placed[last].body, *placed[last].next]) if last >= 0 else [])
        notes = [Note(loop.node, equations[loop], assigned(loop)) for loop in placed if loop in wanted]
        missing = [note for note in notes if note.equations or note.assigns is not None and not has_assigns(self.source, note.loop)]
        told = {note.loop for note in missing}
        return missing + [Note(loop.node, (), None) for loop in placed if loop.node not in told and has_found(self.source, loop.node)]

    def told(self) -> list[str]:
        """The lines that are told, in the order of the text."""
        lines = sorted(dict.fromkeys(self.refusals + self.remarks))
        return [f"{self.source.path}:{line}: {text}" for line, text in lines]


def cut_off(items: Iterable[Statement]) -> set[str]:
    """The variables for which it has to be known that a value fits."""
    return {item.key for item in every(items) if isinstance(item, Set) and any(isinstance(need, Within) for need in item.term.needs)}


def denied(equation: Equation, asked: str, head: Turns, fault: Refused, order: Order | None) -> str:
    """What is told where an equation isn't proved: the run at whose end it fails, if the code has such a run, or why there is no answer."""
    if fault.status != NO:
        return f"not decided: {equation.text}: {fault}"
    lines = fault.told.splitlines()[1:]
    if order is not None and not order.takes(map(int, lines[0].split()[1:]), head):
        return f"not written: {equation.text}: paths in another order than that of the statements don't keep {asked} == 0"
    run = "\n    ".join(lines)
    return f"not written: {equation.text}: at the loop in line {line_of(head.node)} a run ends without {asked} == 0\n    {run}"


def is_promise(node: c_ast.Node) -> bool:
    """Whether a node stands for a postcondition of the function that follows."""
    return isinstance(node, c_ast.StaticAssert) and node.message is not None and node.message.value == f'"{PROMISE}"'


def unforeseen(loop: Turns, found: Found) -> list[str]:
    """The variables that the loop assigns and that have any value for a reason that isn't seen at the assignment."""
    inside = list(every([*loop.body, *loop.next]))
    own = {item.key for item in inside if isinstance(item, Set)}
    reasons = {item.reason for item in inside if isinstance(item, Touch) and item.keys}
    reasons |= {need.reason for item in inside if isinstance(item, Set) for need in item.term.needs if isinstance(need, Within)}
    return [f"{spelled(key)} ({why})" for key, why in found.without.items() if key in own and why in reasons]


def kept(folder: Path, beside: Path) -> None:
    """Moves loop texts and certificates beside the file."""
    for file in sorted(folder.iterdir()):
        (beside / file.name).write_text(file.read_text())


def words() -> Namespace:
    what = "Writes the equations that invar finds into a C file, as loop invariants for Frama-C."
    parser = Parser("invar-c", what, "invar-c --output annotated.c examples/c/product.c")
    parser.add_invar()
    parser.add_argument("file", type=Path, metavar="FILE.c")
    parser.add_argument("--keep", action="store_true", help="keep the loop texts and their certificates beside the file")
    parser.add_argument("--entries", action="store_true", help="also write equations with values at the first arrival at a loop")
    parser.add_argument("--output", type=Path, metavar="OTHER.c", help="write into another file")
    parser.add_argument("-I", type=Path, dest="folders", action="append", default=[], metavar="FOLDER", help="a folder of headers")
    parser.add_argument("-D", dest="macros", action="append", default=[], metavar="MACRO", help="a macro, as NAME or NAME=VALUE")
    return parser.parse_args()


def main() -> int:
    asked = words()
    target = asked.output or asked.file
    try:
        source = read_source(asked.file, asked.folders, asked.macros)
    except Refusal as fault:
        print(f"{asked.file}:{fault.line}: {fault.reason}", file=sys.stderr)
        return 1
    except OSError as fault:
        print(f"{fault.filename}: {fault.strerror}", file=sys.stderr)
        return 1
    invar = Invar(asked.invar, MOST_SECONDS)
    invar.prepare()
    with tempfile.TemporaryDirectory() as name:
        annotator = Annotator(source, Program(invar), Path(name), asked.entries)
        annotator.whole_file()
        annotator.stated()
        if annotator.notes:
            write_source(target, annotated(source, annotator.notes))
        if annotator.notes and asked.keep:
            kept(Path(name), target.parent)
    for header in source.missing:
        print(f"{asked.file}: the header {header} isn't found, and counts as empty", file=sys.stderr)
    for line in annotator.told():
        print(line, file=sys.stderr)
    return 1 if annotator.refusals else 0
