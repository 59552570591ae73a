"""C files: what the preprocessor makes of them, their top-level pieces with their syntax trees, and where their loops stand."""
from __future__ import annotations

import re
from collections.abc import Callable, Container, Iterator
from dataclasses import dataclass, field
from pathlib import Path
from typing import TypeAlias

from pycparser import c_ast, c_parser

from .preprocessor import STANDARD_INPUT, Line, preprocessed
from .stated import ASSERTION, QUESTION, Reader as Stated

LOOPS = (c_ast.While, c_ast.DoWhile, c_ast.For)
Loop: TypeAlias = c_ast.Node
"""A node of one of these kinds."""


class Refusal(Exception):
    """Why something of a C file isn't taken, and in which line."""

    def __init__(self, line: int, reason: str) -> None:
        super().__init__(f"{reason} in line {line}" if line else reason)
        self.line = line
        self.reason = reason
        self.keys: list[str] = []
        """The variables without which a loop might be taken."""


def write_source(path: Path, text: str) -> None:
    """Writes a text that was read from a source, with its own ends of lines and bytes that are no UTF-8."""
    path.write_bytes(text.encode(errors="surrogateescape"))


def line_of(node: c_ast.Node) -> int:
    """The line of a node, or of the first part that has one."""
    if node.coord is not None:
        return int(node.coord.line)
    return next((line_of(child) for _, child in node.children()), 0)


@dataclass(frozen=True)
class Piece:
    """A declaration or a function: its lines in the source, its tree or why it isn't read, and the lines of its loops."""

    tree: list[c_ast.Node]
    fault: Refusal | None
    loops: list[int]
    own: bool
    """Whether it stands in the file, and not in a header."""


@dataclass(frozen=True)
class Source:
    """A C file: its text, the text with blanks in the places of comments and directives, and its pieces and those of its headers."""

    path: Path
    text: str
    code: str
    pieces: list[Piece]
    offsets: dict[tuple[int, int], int]
    """Where loops of the text begin, by their line and column in what the preprocessor makes."""
    missing: list[str] = field(default_factory=list)
    """The headers that aren't found."""
    unread: list[tuple[int, str]] = field(default_factory=list)
    """The lines of equations that are asked of a loop and aren't read, and why."""

    def offset_of(self, node: c_ast.Node) -> int | None:
        """Where the text of a loop begins, if it stands there as it is."""
        return self.offsets.get((node.coord.line, node.coord.column))


LEXEME = re.compile(
    r"""//(?:\\\n|[^\n])*|/\*.*?\*/|"(?:\\.|[^"\\\n])*"|'(?:\\.|[^'\\\n])*'|(?m:^[ \t]*\#(?:\\\n|[^\n])*)""", re.DOTALL
)
KEYWORD = re.compile(r"\b(?:for|while|do)\b")


def without_comments(text: str, replacement: Callable[[str], str]) -> str:
    """A C text with replacements in the places of comments and directives."""
    return LEXEME.sub(lambda found: found[0] if found[0][0] in "\"'" else replacement(found[0]), text)


def blanks(text: str) -> str:
    """As many blanks as a text has characters, with its ends of lines."""
    return re.sub(r"[^\n]", " ", text)


def bare(text: str) -> str:
    """A C text with blanks in the places of comments, directives and quoted texts."""
    return LEXEME.sub(lambda found: blanks(found[0]), text)


def with_statements(text: str) -> tuple[str, list[tuple[int, str]]]:
    """A C text with what annotations state in their places, as C, and without `#error` and `#line`; and what of that isn't read."""
    reader = Stated(bare(text))

    def in_c(found: re.Match[str]) -> str:
        if re.match(r"\s*#\s*(?:error|line|\d+)\b", found[0]):
            return blanks(found[0])
        text: str = found[0]
        return reader.in_c(text, found.start()) if text.startswith(("//", "/*")) else text

    return LEXEME.sub(in_c, text), reader.unread


def read_source(path: Path, folders: list[Path], macros: list[str]) -> Source:
    """The source of a file, read with folders of headers and with macros; what the preprocessor refuses is a refusal."""
    text = path.read_bytes().decode(errors="surrogateescape")
    said, unread = with_statements(text.replace("\r\n", "\n"))
    made = preprocessed(said, path, folders, macros)
    if made.fault is not None:
        raise Refusal(made.fault[0], f"the preprocessor says: {made.fault[1]}")
    code = without_attributes(re.sub(r"[\r\f]", " ", "\n".join(line.text for line in made.lines)))
    pieces = list(Reader(is_whole=not made.missing).pieces(code, made.lines))
    return Source(path, text, without_comments(text, blanks), pieces, places(text, bare(code), made.lines), made.missing, unread)


ATTRIBUTE = re.compile(r"\b__attribute__\b\s*")
CHANGING = re.compile(r"\b_*(mode|cleanup|vector_size|ext_vector_type|alias|weakref)_*\b")
"""Attributes that change a type, run code or give a variable a second name: what has one isn't read."""


def without_attributes(code: str) -> str:
    """A C text with blanks for attributes, but for those that change what it means."""
    shown = bare(code)
    for found in ATTRIBUTE.finditer(shown):
        end = closing(shown, found.end())
        if not CHANGING.search(code, found.end(), end):
            code = code[: found.start()] + blanks(code[found.start() : end]) + code[end:]
    return code


def places(text: str, code: str, lines: list[Line]) -> dict[tuple[int, int], int]:
    """The offsets of loops in a text, by their line and column in the code that is made of it.

    A line of the code has the loops of its line in the text where it has the same keywords; else a macro has made some of them.
    """
    result: dict[tuple[int, int], int] = {}
    made: dict[int, list[re.Match[str]]] = {}
    for line, row in zip(lines, code.split("\n")):
        if line.file == STANDARD_INPUT:
            made.setdefault(line.number, []).extend(KEYWORD.finditer(row))
    begin = 0
    for number, row in enumerate(bare(text).split("\n"), 1):
        words = list(KEYWORD.finditer(row))
        there = made.get(number, [])
        if [word[0] for word in words] == [word[0] for word in there]:
            for word, other in zip(words, there):
                result[number, other.start() + 1] = begin + word.start()
        begin += len(row) + 1
    return result


WORDS = set(
    "auto break case char const continue default do double else enum extern float for goto if inline int long register restrict return "
    "short signed sizeof static struct switch typedef union unsigned void volatile while _Bool _Complex _Noreturn _Alignas _Alignof _Atomic "
    "_Static_assert _Thread_local __int128".split()
)
BASE_TYPES = "unsigned|signed|char|short|int|long|float|double|void"
MACRO_BEFORE = re.compile(rf"(?:[;{{}}(,]|^)\s*([A-Za-z_]\w*)(?=\s+(?:{BASE_TYPES})\b)", re.MULTILINE)
MACRO_BEHIND = re.compile(rf"(?:\b(?:{BASE_TYPES})\s|\*)\s*([A-Za-z_]\w*)\s+([A-Z_][A-Z_0-9]*)(?=\s*[,)])")
"""A word before a type, as `z_const unsigned x`, and one behind a parameter, as `int x UNUSED`."""
BEFORE_TYPES = set("const static extern register volatile inline typedef auto restrict _Noreturn".split())


@dataclass
class Reader:
    """Reads pieces one after another; names of types are known from those before, or seen from how they are used."""

    types: dict[str, None] = field(default_factory=dict)
    parser: c_parser.CParser = field(default_factory=c_parser.CParser)
    is_whole: bool = True
    """Whether all headers are there: else words may be macros of those that aren't."""

    def pieces(self, code: str, lines: list[Line]) -> Iterator[Piece]:
        number = column = 0
        for piece in cut(code, bare(code)):
            inside = lines[number : number + piece.count("\n") + 1]
            piece, column = " " * column + piece, len(piece.rpartition("\n")[2]) + ("\n" not in piece) * column
            number += piece.count("\n")
            own = any(line.file == STANDARD_INPUT for line, row in zip(inside, piece.split("\n")) if row.strip())
            if piece.strip() and (own or re.search(r"\b(?:typedef|enum|extern)\b|^[^(]*$", piece)):
                yield self.read(piece, inside, own)

    def read(self, piece: str, lines: list[Line], own: bool) -> Piece:
        """The piece of a text; of a header only what it declares counts."""
        loops = [lines[row].number for row in loop_rows(bare(piece))] if own else []
        changing = ATTRIBUTE.search(bare(piece))
        if changing:
            word = CHANGING.search(piece, changing.end())
            row = piece.count("\n", 0, changing.start())
            return Piece([], Refusal(lines[row].number, f"the attribute {word[1] if word else ''}"), loops, own)
        guessed = {} if is_promise(piece) else guessed_types(bare(piece))
        known = [*self.types, *(name for name in guessed if name not in self.types)]
        prelude = f"typedef int {', '.join(known)};" if known else ""
        piece = piece if self.is_whole else without_macros(piece, self.types)
        try:
            tree = self.parser.parse(prelude + piece, STANDARD_INPUT).ext[len(known) :]
        except c_parser.ParseError as fault:
            if is_promise(piece):
                return Piece([], None, [], own)
            place = re.search(r":(\d+)(?::\d+)?: (.*)", str(fault))
            row, what = (int(place[1]) - 1, place[2]) if place else (0, str(fault))
            return Piece([], Refusal(lines[min(row, len(lines) - 1)].number, f"no C that is read here ({what})"), loops, own)
        except (RecursionError, AssertionError, AttributeError) as fault:
            return Piece([], Refusal(lines[0].number, f"no C that is read here ({fault or 'it is nested too deep'})"), loops, own)
        shift(tree, lines, len(prelude))
        self.types.update((node.name, None) for node in tree if isinstance(node, c_ast.Typedef))
        return Piece(tree, None, loops, own)


def without_macros(piece: str, types: Container[str]) -> str:
    """A piece with blanks for words that can only be macros of headers that aren't found."""
    shown = bare(piece)
    for pattern in (MACRO_BEFORE, MACRO_BEHIND):
        for found in pattern.finditer(shown):
            words = set(found.groups())
            if not words & WORDS and found[pattern.groups] not in types:
                begin, end = found.span(pattern.groups)
                piece = piece[:begin] + " " * (end - begin) + piece[end:]
    return piece


def is_promise(piece: str) -> bool:
    """Whether a piece is a static assertion, as postconditions are here."""
    return piece.lstrip().startswith("_Static_assert")


def shift(tree: list[c_ast.Node], lines: list[Line], columns: int) -> None:
    """Gives nodes the lines that they have in the source, and in the first line of a piece their columns without the prelude."""
    seen: set[int] = set()
    for node in (part for top in tree for part in nodes(top)):
        if node.coord is None or id(node.coord) in seen:
            continue
        seen.add(id(node.coord))
        row = node.coord.line - 1
        if row == 0 and node.coord.column is not None:
            node.coord.column -= columns
        line = lines[min(row, len(lines) - 1)]
        node.coord.line, node.coord.file = line.number, line.file


def loop_rows(piece: str) -> list[int]:
    """The rows of a piece in which loops begin, as its words tell: the `while` of a `do` stands before parentheses and a `;`."""
    rows, waiting = [], 0
    for word in KEYWORD.finditer(piece):
        waiting += word[0] == "do"
        if word[0] == "while" and waiting and piece[closing(piece, word.end()) :].lstrip().startswith(";"):
            waiting -= 1
        else:
            rows.append(piece.count("\n", 0, word.start()))
    return rows


def closing(text: str, at: int) -> int:
    """Where a text goes on behind the parentheses that open at or behind a place."""
    depth = 0
    for found in re.finditer(r"[()]", text[at:]):
        depth += 1 if found[0] == "(" else -1
        if depth <= 0:
            return at + found.end()
    return len(text)


def cut(code: str, shown: str) -> Iterator[str]:
    """The top-level pieces of a text: declarations up to their `;`, functions up to their `}`."""
    depth = begin = 0
    body = False
    for found in re.finditer(r"[(){};\[\]]", shown):
        sign, at = found[0], found.start()
        head = shown[begin:at].rstrip()
        if sign == "{" and depth == 0:
            body = head.endswith((")", ";")) or re.search(r"\)\s*(?:const)?$", head) is not None
        depth = max(0, depth + (sign in "({[") - (sign in ")}]"))
        ends = sign == ";" and not re.search(r"\)\s*[A-Za-z_][\w\s]*[\s*]\w[^()=]*$", head) or sign == "}" and body
        if depth == 0 and ends:
            yield code[begin : at + 1]
            begin, body = at + 1, False
    yield code[begin:]


def guessed_types(piece: str) -> dict[str, None]:
    """Names that a piece uses as types, as far as two or three words show it: `T x`, `T *x;`, `(T *)`, `(T) x`."""
    tokens = re.findall(r"[A-Za-z_]\w*|\d[\w.]*|\S", piece)
    found: dict[str, None] = {}
    depth = 0
    for place, word in enumerate(tokens):
        depth += (word == "{") - (word == "}")
        if not re.match(r"[A-Za-z_]", word) or word in WORDS:
            continue
        before = tokens[place - 1] if place else ";"
        behind = tokens[place + 1 :]
        stars = next((count for count, sign in enumerate(behind) if sign not in ("*", "const")), len(behind))
        then = behind[stars] if stars < len(behind) else ""
        name = re.match(r"[A-Za-z_]", then) is not None and then not in WORDS
        opens = before in {*";{}", *BEFORE_TYPES} or before in "(," and depth == 0 or before == ")" and depth == 0
        if opens and name and (stars or before not in "};{" or then not in WORDS):
            found[word] = None
        elif stars and then in (")", ",") and (before == "(" or depth == 0 and before in {",", *BEFORE_TYPES}) and "*" in behind[:stars]:
            found[word] = None
        elif before == "(" and behind[:1] == [")"] and re.match(r"[\w\"']", "".join(behind[1:2])) and behind[1] not in WORDS - {"sizeof"}:
            if place < 2 or not re.match(r"\w", tokens[place - 2]) or tokens[place - 2] in ("return", "sizeof"):
                found[word] = None
    return found


def is_stated(node: c_ast.Node) -> bool:
    """Whether a node stands for what an annotation states, and is no call of the code."""
    return isinstance(node, c_ast.FuncCall) and getattr(node.name, "name", None) in (ASSERTION, QUESTION)


def nodes(node: c_ast.Node) -> list[c_ast.Node]:
    """A node and all its parts, but for those of what annotations state."""
    found, pending = [], [node]
    while pending:
        part = pending.pop()
        found.append(part)
        pending += [child for _, child in reversed(part.children())] if not is_stated(part) else []
    return found


def loops_in(node: c_ast.Node) -> list[Loop]:
    """The loops of a node in the order of the text."""
    return [part for part in nodes(node) if isinstance(part, LOOPS)]


def flattened(items: list[c_ast.Node]) -> list[tuple[bool, c_ast.Node]]:
    """The statements of a switch in their order, and its cases, which are marked, before theirs."""
    result: list[tuple[bool, c_ast.Node]] = []
    for item in items:
        if isinstance(item, (c_ast.Case, c_ast.Default)):
            result += [(True, item), *flattened(item.stmts or [])]
        else:
            result.append((False, item))
    return result


def statements(node: c_ast.Node | None) -> list[c_ast.Node]:
    """The parts of a block, or a statement alone, or the declarations of a list."""
    if node is None:
        return []
    if isinstance(node, c_ast.Compound):
        return list(node.block_items or [])
    if isinstance(node, c_ast.DeclList):
        return list(node.decls)
    return [node]
