#!/usr/bin/env python3
"""Lists what the repository states twice, and what it states for nobody.

Usage: tools/repeats.py [--since REVISION] [--most NUMBER]

  same statement   lemmas and definitions whose types are the same up to the names of their bound variables
  same body        runs of six or more lines that stand in two places, up to white space
  cited nowhere    definitions and lemmas that neither code, nor an answer, nor a worked example leads to

With --since, only what has a part in a file that changed since that revision; with --most, so many rows of each. A row is a place to look,
not a verdict.
"""
import argparse
import collections
import itertools
import re
import subprocess
from dataclasses import dataclass
from pathlib import Path

TOP = Path(__file__).resolve().parent.parent
SHORTEST = 6        # lines of a body
SHORTEST_TYPE = 25  # characters of a statement
BROKEN = 4          # columns by which a line that was broken goes on further in
MOST_PLACES = 8     # of a body: what stands in more is a form that the language asks for
MODIFIERS = r"(?:(?:abbrev|unfoldable|pub|opaque|private)\s+)*"
DECLARED = re.compile(r"^\s*" + MODIFIERS + rf"([^\s:(){{}}|=]+)\s+:\s+(.{{{SHORTEST_TYPE},}})$")
BEGINS = re.compile(r"^\s*" + MODIFIERS + r"(?:(?:record|data)\s+(?P<type>[^\s:(){}]+)|(?P<name>[^\s:(){}|=λ◌,;.\[\]]+)\s+:(?:\s|$))")
IMPORT = re.compile(r"^\s*(?P<how>(?:pub\s+|ghost\s+)*)use\s+(?P<module>Rattle\.[^\s;{]*?)(?:\.\{[^}]*\}|\s+as\s+\S+)?;?\s*$")
# files whose lemmas are there for themselves: worked examples, and inputs that meet the premises of others
WORKED = re.compile(
    r"/(?:(?:Trace)?Examples|Squares\w*|ShortCertificates|Fibonacci|WorkedLoops|ChangedCode|(?:Recurrences)?Formed|Branches|Powers|Resets|\w*Witnesses|Idle\w*|Identity\w*|PassedLimits|ReadTexts"
    r"|\w+Map|LateLoop|AsciiCodes)\.antt$"
)
WORD = re.compile(r"[^\s(){}\[\],;.λ∷:=|⟨⟩]+")
IS_IMPORT_OR_COMMENT = ("--", "//", "use ", "ghost use ", "pub use ")

Files = dict[str, list[str]]


@dataclass(frozen=True)
class Row:
    files: frozenset[str]
    text: str


def git(*command: str) -> set[str]:
    return set(subprocess.run(["git", "-C", TOP, *command], check=True, capture_output=True, text=True).stdout.split("\n")) - {""}


def width(line: str) -> int:
    return len(line) - len(line.lstrip())


def depth(line: str) -> int:
    return sum(line.count(bracket) for bracket in "({[") - sum(line.count(bracket) for bracket in ")}]")


def without_breaks(lines: list[str]) -> list[str]:
    """The lines of definitions and proofs, each brought up to where it goes on: a line that was broken stands whole, with empty ones behind it."""
    whole = list(lines)
    k = 0
    while k < len(lines):
        begin, line = k, lines[k]
        k += 1
        if not line.strip() or is_comment(line):
            continue
        is_head = line.rstrip().endswith(("=", "where"))
        deep = depth(line)
        while k < len(lines) and lines[k].strip() and not is_comment(lines[k]) and (
                deep > 0 or not is_head and width(lines[k]) >= width(line) + BROKEN):
            whole[begin] += " " + lines[k].strip()
            whole[k] = ""
            deep += depth(lines[k])
            k += 1
    return whole


def source(path: str) -> list[str]:
    lines = (TOP / path).read_text(encoding="utf-8").split("\n")
    return without_breaks(lines) if path.endswith(".antt") else lines


def sources() -> Files:
    paths = git("ls-files", "--cached", "--others", "--exclude-standard")
    return {path: source(path) for path in sorted(paths) if path.endswith((".antt", ".rt")) and (TOP / path).exists()}


def is_comment(line: str) -> bool:
    return line.lstrip().startswith("--")


def is_theory(path: str) -> bool:
    """Whether a file has definitions and lemmas that others cite: answers and invariants are cited by their function alone."""
    return path.endswith(".antt") and not path.endswith(("Answers.antt", "Invariants.antt"))


def without_names(statement: str) -> str:
    """The statement with its bound variables numbered, and without white space."""
    bound: list[str] = []
    for group in re.findall(r"[({]([^(){}:]+) :", statement):
        bound += [name for name in group.split() if name not in bound]
    for place, name in enumerate(bound):
        statement = re.sub(rf"(?<![\w\-.◌]){re.escape(name)}(?![\w\-◌])", f"v{place}", statement)
    return re.sub(r"\s+", "", statement)


def same_statements(files: Files) -> list[Row]:
    told = collections.defaultdict(list)
    for path in filter(is_theory, files):
        for number, line in enumerate(files[path], 1):
            found = None if is_comment(line) or line.rstrip().endswith(";") else DECLARED.match(line.rstrip())
            if found and "→" in found[2] and "≡" in found[2]:
                told[without_names(found[2])].append((path, number, found[1], found[2]))
    groups = sorted((group for group in told.values() if len(group) > 1), key=len, reverse=True)
    return [
        Row(frozenset(path for path, *_ in group),
            "\n      ".join([group[0][3][:110], *(f"{path}:{number} {name}" for path, number, name, _ in group[:6])]))
        for group in groups
    ]


def code_lines(lines: list[str]) -> list[tuple[int, str]]:
    """The lines that say something, numbered, with their white space made one."""
    return [
        (number, re.sub(r"\s+", " ", line.strip()))
        for number, line in enumerate(lines, 1)
        if re.search(r"\w", line) and not line.lstrip().startswith(IS_IMPORT_OR_COMMENT)
    ]


def common_length(left: list[tuple[int, str]], right: list[tuple[int, str]]) -> int:
    return next((k for k, (a, b) in enumerate(zip(left, right)) if a[1] != b[1]), min(len(left), len(right)))


def same_bodies(files: Files) -> list[Row]:
    kept = {path: code_lines(lines) for path, lines in files.items()}
    runs = collections.defaultdict(list)
    for path, lines in kept.items():
        for k in range(len(lines) - SHORTEST + 1):
            runs[tuple(text for _, text in lines[k:k + SHORTEST])].append((path, k))
    seen, rows = set(), []
    for places in runs.values():
        if not 2 <= len(places) <= MOST_PLACES:
            continue
        (p, i), (q, j) = places[:2]
        is_new = (p, q, i - j) not in seen and not (p == q and abs(i - j) < SHORTEST)
        seen.add((p, q, i - j))
        if is_new:
            length = common_length(kept[p][i:], kept[q][j:])
            rows.append((length, Row(frozenset((p, q)), f"{length} lines  {p}:{kept[p][i][0]}  {q}:{kept[q][j][0]}")))
    return [row for _, row in sorted(rows, key=lambda pair: -pair[0])]


@dataclass(eq=False)
class Block:
    """A definition or a lemma: its type and its clauses, with what stands further in."""
    path: str
    name: str
    first: int
    behind: int


def blocks_in(path: str, lines: list[str]) -> list[Block]:
    blocks = []
    k = 0
    while k < len(lines):
        found = None if is_comment(lines[k]) else BEGINS.match(lines[k])
        k += 1
        if found:
            name, indent = found["type"] or found["name"], width(lines[k - 1])
            goes_on = re.compile(rf"\s{{{indent}}}(?:unfolding\b|[)}}\]]|{re.escape(name)}(?:\s|$)(?!\s*:\s))")
            first = k - 1
            while k < len(lines) and (not lines[k].strip() or width(lines[k]) > indent or goes_on.match(lines[k])):
                k += 1
            blocks.append(Block(path, name, first, k))
    return blocks


def module_of(path: str) -> str:
    return "Rattle." + path.removeprefix("crates/").removesuffix(".antt").replace("/", ".")


def modules_told(path: str, line: str) -> list[str]:
    """The modules whose lemmas and definitions an attribute of code names, as `crate::proofs::Each::count_is`."""
    told = re.findall(r"(\w+)::((?:proofs|specs)(?:::\w+)+)", line) if path.endswith(".rt") else []
    return [".".join(["Rattle", path.split("/")[1] if crate == "crate" else crate, *inside.split("::")]) for crate, inside in told]


def seen_from(files: Files) -> dict[str, set[str]]:
    """Of each file those whose names it may have: itself, those that it imports, and those that these pass on."""
    by_module = {module_of(path): path for path in files if path.endswith(".antt")}
    imported, passed = collections.defaultdict(set), collections.defaultdict(set)
    for path, lines in files.items():
        opens = any(line.lstrip().startswith("pub open") for line in lines)
        found = [(match["module"], opens or "pub" in match["how"]) for match in map(IMPORT.match, lines) if match]
        found += [(module, False) for line in lines for module in modules_told(path, line)]
        for module, is_passed in found:
            while module and module not in by_module:
                module = module.rpartition(".")[0]
            if module:
                imported[path].add(by_module[module])
                if is_passed:
                    passed[path].add(by_module[module])
    seen = {}
    for path in files:
        seen[path], waiting = {path}, set(imported[path])
        while waiting:
            seen[path] |= waiting
            waiting = {behind for one in waiting for behind in passed[one]} - seen[path]
    return seen


def cited_nowhere(files: Files) -> list[Row]:
    """What neither code, nor an answer, nor what is worked out for itself leads to."""
    seen = seen_from(files)
    blocks = {path: blocks_in(path, lines) if is_theory(path) else [] for path, lines in files.items()}
    named = collections.defaultdict(list)
    for block in itertools.chain(*blocks.values()):
        named[block.name].append(block)
    cites = collections.defaultdict(set)
    for path, lines in files.items():
        owner = {k: block for block in blocks[path] for k in range(block.first, block.behind)}
        renamed = {new: old for line in lines if IMPORT.match(line) for old, new in re.findall(r"(\S+) as ([^\s,}]+)", line)}
        for k, line in enumerate(lines):
            if not IMPORT.match(line) and not line.lstrip().startswith(IS_IMPORT_OR_COMMENT):
                words = set(WORD.findall(line))
                for word in words | {renamed[word] for word in words & renamed.keys()}:
                    cites[owner.get(k)] |= {block for block in named[word] if block.path in seen[path] and block is not owner.get(k)}
    kept = {block for block in itertools.chain(*blocks.values()) if WORKED.search(block.path)}
    waiting = cites[None] | kept
    while waiting:
        kept |= waiting
        waiting = {other for block in waiting for other in cites[block]} - kept
    return [
        Row(frozenset([path]), f"{path}:{block.first + 1} {block.name}")
        for path in files for block in blocks[path] if block not in kept
    ]


def main() -> None:
    parser = argparse.ArgumentParser(description=__doc__, formatter_class=argparse.RawDescriptionHelpFormatter)
    parser.add_argument("--since", metavar="REVISION")
    parser.add_argument("--most", metavar="NUMBER", type=int)
    arguments = parser.parse_args()
    files = sources()
    changed = None
    if arguments.since:
        changed = git("diff", "--name-only", arguments.since) | git("ls-files", "--others", "--exclude-standard")
    for title, find in (("same statement", same_statements), ("same body", same_bodies), ("cited nowhere", cited_nowhere)):
        rows = [row for row in find(files) if changed is None or row.files & changed]
        print(f"{title}: {len(rows)}")
        for row in rows[:arguments.most]:
            print(f"  {row.text}")


if __name__ == "__main__":
    main()
