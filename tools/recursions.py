#!/usr/bin/env python3
"""Lists the functions that call themselves, directly or in a circle within their crate, and compares them with the table in tools/recursions.md.

Usage: tools/recursions.py        (status 1 where they differ from the table)

The table says what bounds the depth of each: a limit of the texts that are read, or a number of halvings. What would grow with an input beyond these
limits (terms, elements, entries, letters, bytes) is to be a loop, since the stack is no part of any budget.

A function that calls itself needs a measure, and its folder of proofs has a `+` before its name; one that goes down a value of a type with parts of the
same type needs none, and is found in the sources. There a call `x.name(..)` is one of the crate's own method `name` where x is `self`, or where the
method's type has such parts.
"""
import re
import sys
from collections import defaultdict
from dataclasses import dataclass
from pathlib import Path

TOP = Path(__file__).resolve().parent.parent
TABLE = TOP / "tools/recursions.md"
ROW = re.compile(r"^\| `(\w+)` \| (`.+`) \| .+ \|$")
CLAUSE = re.compile(r"\b(?:requires|ensures|narrow)(?:\s+[a-z_]\w*)?\s*$")
TYPE = re.compile(r"^(?:pub(?:\(crate\))? )?(?:struct|enum)\s+(\w+)[^;{]*\{", re.MULTILINE)
IMPL = re.compile(r"^impl(?:<[^{]*?>)?\s+(?:[^{]*?\bfor\s+)?(\w+)[^;{]*\{", re.MULTILINE)
FUNCTION = re.compile(r"\bfn\s+(\w+)\s*(?:<[^(]*>)?\(")
CALL = re.compile(r"(?:\b(\w+)::)?(?:(\w+)\s*\.\s*|(\.)\s*)?\b([a-z_]\w*)\s*(?:::<[^;(){}]*?>)?\(")


@dataclass(frozen=True)
class Function:
    module: str
    owner: str
    name: str

    def __str__(self) -> str:
        return f"{self.owner or self.module}::{self.name}"


def without_texts(source: str) -> str:
    """The source without comments, and with empty strings and characters, so that each bracket in it is one of the code."""
    source = re.sub(r"//[^\n]*", "", source)
    source = re.sub(r'"(?:\\.|[^"\\])*"', '""', source)
    return re.sub(r"'(?:\\.[^']*|[^'\\])'", "' '", source)


def end_of(text: str, start: int) -> int:
    """The place behind the bracket that closes the one at this place."""
    depth = 0
    for place in range(start, len(text)):
        depth += (text[place] in "({[") - (text[place] in ")}]")
        if depth == 0:
            return place + 1
    raise ValueError("a bracket isn't closed")


def body_of(text: str, start: int) -> str:
    """The body of the function whose parameters begin at this place; empty where it has none."""
    place = head = end_of(text, start)
    while place < len(text) and text[place] != ";":
        if text[place] == "{":
            end = end_of(text, place)
            if not CLAUSE.search(text[head:place]):
                return text[place:end]
            place = head = end
        else:
            place = end_of(text, place) if text[place] in "([" else place + 1
    return ""


class Crate:
    def __init__(self, folder: Path) -> None:
        self.folder = folder
        self.bodies: dict[Function, str] = {}
        self.nested: set[str] = set()
        self.imports: dict[str, set[str]] = defaultdict(set)
        self.foreign: dict[str, set[str]] = defaultdict(set)
        self.named: dict[str, list[Function]] = defaultdict(list)
        paths = sorted((folder / "src").rglob("*.rt"))
        self.modules = {path.stem for path in paths}
        for path in paths:
            self.read(without_texts(path.read_text()), path.stem)
        for function in self.bodies:
            self.named[function.name].append(function)

    def read(self, text: str, module: str) -> None:
        for found in re.finditer(r"^(?:pub )?use (\w+)[^;]*;", text, re.MULTILINE):
            words = set(re.findall(r"\w+", found[0]))
            if found[1] in {"crate", "self", "super", *self.modules}:
                self.imports[module] |= words
            else:
                self.foreign[module] |= words
        for found in TYPE.finditer(text):
            if re.search(rf"\b{found[1]}\b", text[found.end():end_of(text, found.end() - 1)]):
                self.nested.add(found[1])
        impls = [(found.start(), end_of(text, found.end() - 1), found[1]) for found in IMPL.finditer(text)]
        for found in FUNCTION.finditer(text):
            owner = next((name for start, end, name in impls if start < found.start() < end), "")
            if body := body_of(text, found.end() - 1):
                self.bodies[Function(module, owner, found[1])] = body

    def may_call(self, caller: Function, path: str, receiver: str, other: Function) -> bool:
        """Whether the words in front of a function's name may be those of a call of this one; `.` is a receiver that is no name."""
        if receiver:
            return bool(other.owner) and (other.owner in self.nested or (receiver, other.owner) == ("self", caller.owner))
        if path and path[0].isupper():
            return other.owner == (caller.owner if path == "Self" else path)
        if path and path not in ("self", "super", "crate"):
            return not other.owner and other.module == path and path not in self.foreign[caller.module]
        return not other.owner and (other.module == caller.module or other.name in self.imports[caller.module])

    def calls(self, caller: Function) -> set[Function]:
        found = (call.groups() for call in CALL.finditer(self.bodies[caller]))
        return {other for path, name_of, dot, name in found for other in self.named[name] if self.may_call(caller, path, name_of or dot, other)}

    def with_measure(self) -> set[str]:
        """The functions whose folders of proofs say that they call themselves."""
        names = set()
        for path in (self.folder / "proofs").rglob("+*"):
            owner = path.parent.name
            names.add(f"{'lib' if owner == 'proofs' else owner}::{path.name[1:]}")
        return names

    def recursive(self) -> set[str]:
        calls = {function: self.calls(function) for function in self.bodies}
        names = self.with_measure()
        for function in self.bodies:
            reached, waiting = set(), list(calls[function])
            while waiting:
                other = waiting.pop()
                if other not in reached:
                    reached.add(other)
                    waiting.extend(calls[other])
            if function in reached:
                names.add(str(function))
        return names


def rows() -> set[tuple[str, str]]:
    """The functions of the table, each with its crate."""
    found = filter(None, map(ROW.match, TABLE.read_text().splitlines()))
    return {(row[1], name) for row in found for name in re.findall(r"`([^`]+)`", row[2])}


def main() -> int:
    there = {(folder.name, name) for folder in sorted(TOP.glob("crates/*")) if (folder / "src").is_dir() for name in Crate(folder).recursive()}
    told = rows()
    for crate, name in sorted(there - told):
        print(f"{crate}: {name} calls itself, and isn't in the table of {TABLE.relative_to(TOP)}")
    for crate, name in sorted(told - there):
        print(f"{crate}: {name} is in the table of {TABLE.relative_to(TOP)}, and doesn't call itself")
    print(f"{len(there)} functions call themselves")
    return 1 if there != told else 0


if __name__ == "__main__":
    sys.exit(main())
