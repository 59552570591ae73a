"""Loop annotations of Frama-C: equations are written beside the clauses that are there."""
from __future__ import annotations

import re
from collections.abc import Iterable
from dataclasses import dataclass

from .sources import Loop, Source

FOUND = "loop invariant invar: "
"""How each clause begins that was written here; clauses of an earlier time are replaced."""

BEHAVIOR = r"for\b[^:;]*:"
ANNOTATION = re.compile(rf"/\*@\s*((?:{BEHAVIOR}\s*)?loop\b.*?)\*/|//@\s*((?:{BEHAVIOR}\s*)?loop\b[^\n]*)", re.DOTALL)
LAST = re.compile(rf"{BEHAVIOR}|loop variant\b")
"""Before the clauses of a behavior, and before the variant, stand those for all cases."""


RESERVED = {"assert", "boolean", "integer", "real"}
"""Names that a variable may have and that mean something else in an annotation."""


@dataclass(frozen=True)
class Note:
    """What is written at a loop: equations between whole numbers, and the variables that its turns change, if these are all."""

    loop: Loop
    equations: tuple[str, ...]
    assigns: tuple[str, ...] | None


def clauses_of(annotation: str) -> list[str]:
    """The lines of an annotation, each clause on lines of its own, without those that were written here."""
    apart = re.sub(r";[ \t]*(?=(?:loop|for)\b)", ";\n", annotation.strip().removesuffix("@"))
    lines = [line.strip().lstrip("@").strip() for line in apart.splitlines()]
    return [line for line in lines if line and not line.startswith(FOUND)]


def written(note: Note, there: list[str]) -> str:
    """The annotation of a note with the clauses that are there, without blanks before its lines; nothing where there are none."""
    found = [f"{FOUND}{equation} == 0;" for equation in note.equations]
    end = next((place for place, line in enumerate(there) if LAST.match(line)), len(there))
    is_given = any(line.startswith("loop assigns") for line in there)
    assigns = [] if is_given or note.assigns is None else [f"loop assigns {listed(note.assigns)};"]
    clauses = [*found, *there[:end], *assigns, *there[end:]]
    return "/*@ " + "\n    ".join(clauses) + " */" if clauses else ""


def listed(names: Iterable[str]) -> str:
    return ", ".join(names) or r"\nothing"


def annotation_before(source: Source, at: int) -> re.Match[str] | None:
    """The annotation of a loop that begins at a place of the text."""
    gap = len(source.code[:at].rstrip())
    found = list(ANNOTATION.finditer(source.text, gap, at))
    return found[-1] if found else None


def has_assigns(source: Source, loop: Loop) -> bool:
    """Whether the author says what a loop assigns."""
    at = source.offset_of(loop)
    found = None if at is None else annotation_before(source, at)
    return found is not None and re.search(r"\bloop assigns\b", found[0]) is not None


ASKED = re.compile(r"(/\*|//)@(\s*invar\s*:)")
"""How an equation begins that is asked of a loop: it is no annotation of Frama-C, and becomes a comment."""


def has_found(source: Source, loop: Loop) -> bool:
    """Whether a loop has clauses that were written here at an earlier time."""
    at = source.offset_of(loop)
    found = None if at is None else annotation_before(source, at)
    return found is not None and FOUND in found[0]


def annotated(source: Source, notes: Iterable[Note]) -> str:
    """The text of a source with notes at its loops."""
    text = source.text
    places = [(at, note) for note in notes if (at := source.offset_of(note.loop)) is not None]
    for at, note in sorted(places, key=lambda place: place[0], reverse=True):
        found = annotation_before(source, at)
        begin, end = found.span() if found else (at, at)
        there = clauses_of(found[1] or found[2]) if found else []
        blanks = " " * (begin - text.rfind("\n", 0, begin) - 1)
        annotation = written(note, there).replace("\n", "\n" + blanks)
        behind = "\n" + blanks if annotation and not found else ""
        text = text[:begin] + annotation + behind + (text[end:] if annotation else text[end:].lstrip())
    return ASKED.sub(r"\1\2", text)
