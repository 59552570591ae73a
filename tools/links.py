#!/usr/bin/env python3
"""Lists the links of chains of functions, crate by crate.

Usage: tools/links.py

A chain is a sequence that is cut into functions each of which is called by the one before alone. A link of one is a private function with one caller
and three parameters or more besides `self` and the allocator that hands on at least half of them, as they are (`x`, `&x` or `&mut x`), to another
private function of which it is the one caller. Each link says again what is known of what it hands on; a type for what is under way, with its facts
as ghost fields, says it once. Functions that share their name with another of the crate are left out.

Each row is a file, a line, the link, how many of its parameters it hands on, and to whom.
"""
import re
from collections import Counter, defaultdict
from collections.abc import Iterator
from dataclasses import dataclass
from pathlib import Path

TOP = Path(__file__).resolve().parent.parent
FEW_PARAMETERS = 3
# a link's parameters that aren't counted: what a method is of, and where lists are made
LEFT_OUT = {"self", "alloc"}
HEAD = re.compile(r"^(?P<indent> *)(?P<public>pub(?:\(\w+\))? )?fn (?P<name>\w+)(?:<[^>(]*>)?\(", re.M)
COMMENT = re.compile(r"//[^\n]*")
LITERAL = re.compile(r""""(?:[^"\\]|\\.)*"|'(?:[^'\\\n]|\\.)'""")
BORROW = re.compile(r"^&?(?:mut )?")
OPENS, CLOSES = "([{", ")]}"


@dataclass(frozen=True)
class Function:
    path: Path
    line: int
    name: str
    is_private: bool
    parameters: frozenset[str]
    body: str


@dataclass(frozen=True)
class Link:
    path: Path
    line: int
    name: str
    next_name: str
    handed: int
    parameters: int

    def __str__(self) -> str:
        return f"{self.name} hands on {self.handed} of its {self.parameters} parameters to {self.next_name}"


def without_comments_and_literals(text: str) -> str:
    return LITERAL.sub("''", COMMENT.sub("", text))


def listed_from(text: str, start: int) -> tuple[list[str], int]:
    """What stands between the bracket at the start and the one that closes it, parted by commas; and where that one stands."""
    parts, depth, begin = [], 0, start + 1
    for place in range(start, len(text)):
        if text[place] in OPENS or (text[place] == "<" and text[place - 1] != " "):
            depth += 1
        elif text[place] in CLOSES or (text[place] == ">" and text[place - 1] not in " -="):
            depth -= 1
        if depth == 0 or (depth == 1 and text[place] == ","):
            parts.append(text[begin:place].strip())
            begin = place + 1
        if depth == 0:
            return [part for part in parts if part], place
    return [], len(text)


def parameter_name(parameter: str) -> str:
    return BORROW.sub("", parameter.partition(":")[0].strip())


def functions_in(path: Path) -> Iterator[Function]:
    text = without_comments_and_literals(path.read_text(encoding="utf-8"))
    heads = list(HEAD.finditer(text))
    for head, following in zip(heads, [*heads[1:], None]):
        parameters, end = listed_from(text, head.end() - 1)
        behind = text[end:following.start() if following else len(text)]
        # the contract stands between the parameters and a bracket that has a line to itself
        _, bracket, body = behind.partition(f"\n{head['indent']}{{\n")
        yield Function(
            path=path,
            line=text.count("\n", 0, head.start("name")) + 1,
            name=head["name"],
            is_private=(head["public"] or "pub(").startswith("pub("),
            parameters=frozenset(map(parameter_name, parameters)) - LEFT_OUT,
            body=body if bracket else behind,
        )


def calls_of(name: str, functions: list[Function]) -> Iterator[tuple[Function, set[str]]]:
    """Each call in the bodies of functions: who calls, and with which arguments."""
    call = re.compile(rf"(?<!\w){name}(?:::<[^>]*>)?\(")
    for function in functions:
        for found in call.finditer(function.body):
            arguments, _ = listed_from(function.body, found.end() - 1)
            yield function, {BORROW.sub("", argument) for argument in arguments}


def links_of(crate: Path) -> Iterator[Link]:
    functions = [function for path in sorted((crate / "src").rglob("*.rt")) for function in functions_in(path)]
    bearers = Counter(function.name for function in functions)
    # each private function with one caller, and with which arguments it is called
    called, callees = {}, defaultdict(list)
    for function in functions:
        if function.is_private and bearers[function.name] == 1:
            calls = list(calls_of(function.name, functions))
            if len(calls) == 1 and calls[0][0] is not function:
                caller, called[function.name] = calls[0]
                callees[caller.name].append(function.name)
    for function in functions:
        if function.name in called and len(function.parameters) >= FEW_PARAMETERS:
            handed, next_name = max(((len(called[name] & function.parameters), name) for name in callees[function.name]), default=(0, ""))
            if 2 * handed >= len(function.parameters):
                yield Link(function.path, function.line, function.name, next_name, handed, len(function.parameters))


def links() -> list[Link]:
    """Those of all crates, crate by crate."""
    return [link for crate in sorted((TOP / "crates").iterdir()) for link in links_of(crate)]


def main() -> None:
    found = defaultdict(list)
    for link in links():
        found[link.path.relative_to(TOP).parts[1]].append(link)
    for crate, of_crate in found.items():
        print(f"{crate}: {len(of_crate)}")
        for link in of_crate:
            print(f"  {link.path.relative_to(TOP)}:{link.line}: {link}")
    print(f"{sum(map(len, found.values()))} links")


if __name__ == "__main__":
    main()
