#!/usr/bin/env python3
"""Lays out definitions and proofs (.antt) within 100 columns; `rt fmt` then has the last word on white space.

Usage: tools/wrap.py FILE ..

A line that is longer is broken at the outermost bracket that serves; a bracket over several lines that fits into one is
joined, and a value is brought up to its `=`. Imports, and the comments at a file's head, stay as they are.
"""
import re
import sys
from pathlib import Path

COLUMNS = 100
FURTHER = 4         # columns by which a line goes on further in, and half of it for each bracket
DEEPEST = 4         # brackets that are told by white space
OPEN, CLOSE = "([{⟨", ")]}⟩"
CLOSING = {"(": ")", "{": "}", "[": "]"}
LONGEST_BRACKET = 12  # lines of a bracket that is joined

# What a break costs: each bracket that it is in, each column that it leaves free, and what it would part or serve.
BRACKET, PARTS, RELATION, OPERATOR, LISTED, BINDER = 30, 60, -40, -15, -30, -8
RELATIONS = {"→", "∙", "×", "⊎", "↔", "then", "else", "|", "↦"}
OPERATORS = RELATIONS | {"∧", "∨", "++", "∷", "+", "*", "≡", "<", "≤", "∘", "-"}
HEADS = {"λ", "(λ", "∀", "let", ":", "record", "rw", "sym", "ap", "elim", "(elim", "if", "(if", "unfold", "open", "pub"}
TAILS = {":", "=", ".", "where", "{", "in", "["}


def width(line: str) -> int:
    return len(line) - len(line.lstrip())


def depths(text: str) -> list[int | None]:
    """How many brackets are open before each character; None within a quoted text."""
    out: list[int | None] = []
    depth, is_quoted, is_escaped = 0, False, False
    for character in text:
        out.append(None if is_quoted else depth)
        if is_escaped:
            is_escaped = False
        elif is_quoted:
            is_escaped, is_quoted = character == "\\", character != '"'
        elif character == '"':
            is_quoted = True
        else:
            depth += (character in OPEN) - (character in CLOSE)
    return out


def cost(text: str, place: int, deep: int, room: int) -> int:
    head = text[:place]
    before, after = head.rsplit(" ", 1)[-1], text[place + 1:].split(" ", 1)[0]
    total = BRACKET * deep + room - place
    if before in OPERATORS or before in HEADS or before.endswith(("(λ", "(let")):
        total += PARTS
    if after in TAILS or after.startswith((")", "]", "}")):
        total += PARTS
    if "λ" in head and "." not in head[head.rindex("λ"):]:
        total += PARTS
    if after in OPERATORS:
        total += RELATION if after in RELATIONS else OPERATOR
    if before in ("=", "in", "of") or before.endswith((",", ";", ".")):
        total += LISTED
    return total + (BINDER if after.lstrip("(").startswith("λ") else 0)


def best_break(text: str, room: int) -> int | None:
    """The space at which the text is broken so that its beginning fits, or the first one where none does."""
    marks = depths(text)
    spaces = [k for k, character in enumerate(text) if character == " " and k > 2 * FURTHER and marks[k] is not None]
    fitting = [k for k in spaces if k <= room]
    if not fitting:
        return spaces[0] if spaces else None
    lowest = min(marks[k] for k in fitting)
    return min(fitting, key=lambda k: (cost(text, k, marks[k] - lowest, room), -k))


def broken(line: str) -> list[str]:
    prefix, rest, deep, out = " " * width(line), line.lstrip(), 0, []
    while len(prefix) + len(rest) > COLUMNS:
        place = best_break(rest, COLUMNS - len(prefix))
        if place is None:
            break
        out.append(prefix + rest[:place].rstrip())
        deep += depths(rest)[place]
        rest = rest[place + 1:].lstrip()
        prefix = " " * (width(line) + FURTHER + FURTHER // 2 * max(0, min(deep, DEEPEST)))
    return [*out, prefix + rest]


def broken_comment(line: str) -> list[str]:
    head = " " * width(line) + "--"
    out = [head]
    for word in line.split("--", 1)[1].split():
        if len(out[-1]) + 1 + len(word) > COLUMNS:
            out.append(head)
        out[-1] += " " + word
    return out


def with_breaks(lines: list[str]) -> list[str]:
    out, is_head = [], True
    for line in lines:
        bare = line.strip()
        is_head = is_head and (not bare or bare.startswith("--"))
        if len(line) <= COLUMNS or is_head or bare.startswith(("use ", "pub use ")):
            out.append(line)
        elif bare.startswith("--"):
            out += broken_comment(line)
        else:
            out += [line] if " -- " in line else broken(line)
    return out


def one_bracket(lines: list[str], begin: int) -> tuple[str, int] | None:
    """The line in place of a bracket that opens at the end of a line, and the line behind the bracket; None where it doesn't fit."""
    line = lines[begin]
    end = next((k for k in range(begin + 1, len(lines)) if width(lines[k]) <= width(line)), len(lines))
    if end == len(lines) or not 1 < end - begin <= LONGEST_BRACKET or width(lines[end]) != width(line):
        return None
    inner = [it.strip() for it in lines[begin + 1:end]]
    last, close = lines[end].strip(), CLOSING[line[-1]]
    if not last.startswith(close) or any(not it or "--" in it or it[-1] in CLOSING or re.search(r"\b(do|where|let)\b", it) for it in inner):
        return None
    space = "" if close == ")" else " "
    whole = line + space + " ".join(inner).rstrip(",;") + space + last
    return (whole, end + 1) if len(whole) <= COLUMNS else None


def one_value(lines: list[str], begin: int) -> tuple[str, int] | None:
    """The line in place of one that ends with `=` and of its value, where that is one line and fits."""
    line, value = lines[begin], lines[begin + 1] if begin + 1 < len(lines) else ""
    behind = lines[begin + 2] if begin + 2 < len(lines) else ""
    if width(value) <= width(line) or not value.strip() or value[-1] in CLOSING or "--" in value or re.match(r"\s*(let|do)\b", value):
        return None
    if behind.strip() and width(behind) > width(line):
        return None
    whole = f"{line} {value.strip()}"
    return (whole, begin + 2) if len(whole) <= COLUMNS else None


def joined(lines: list[str], begin: int) -> tuple[str, int] | None:
    line = lines[begin]
    if "--" in line or line.lstrip().startswith("use "):
        return None
    if line.endswith(" ="):
        return one_value(lines, begin)
    return one_bracket(lines, begin) if line and line[-1] in CLOSING else None


def with_joins(lines: list[str]) -> list[str]:
    is_done = False
    while not is_done:
        is_done = True
        for begin in reversed(range(len(lines))):
            if begin < len(lines) and (made := joined(lines, begin)):
                lines[begin:made[1]] = [made[0]]
                is_done = False
    return lines


def main() -> None:
    for path in map(Path, sys.argv[1:]):
        lines = path.read_text(encoding="utf-8").split("\n")
        path.write_text("\n".join(with_joins(with_breaks(lines))), encoding="utf-8")


if __name__ == "__main__":
    main()
