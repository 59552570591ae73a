#!/usr/bin/env python3
"""Lists where the repository's sources leave its layout (CONTRIBUTING.md says the rules).

Usage: tools/layout.py [--since REVISION] [--rule NAME ..]

With --since, of each file only where it changed since that revision; with --rule, only the rules that are named:

  edits      the old text of a must-fail edit, or of one in bench/edits, doesn't stand exactly once in its file; or the gate has more than 60
  modules    a list in a Lib.antt names a file that isn't there, a file of specs isn't listed, or its name is a module's but for the case
  imports    a name is imported that its file doesn't use
  columns    a line of more than 100 columns, but for imports, the comments at a file's head, and what a text in quotes has too many
  lengths    a file of more than 600 lines
  heads      a file of specs or proofs doesn't begin with what it says, or one of proofs doesn't name there what other crates cite
  digits     a clause has a number of two digits or more, where a name should stand; the base of numerals has none
  borrowed   a file of specs imports from proofs, but for values that carry their laws
  order      crates.txt lists a crate behind one that stands on it
  theory     a crate of the band `theory` in crates.txt stands on one of another band, or on a library of the kit
  below      a crate stands on one that it has to do without
  named      crates.txt lists a library for a crate, none of whose files names it; or a file names one that isn't listed
  pages      docs/CRATES.md isn't what tools/crates.py writes; a page names a file, a crate or a word of the sources that isn't there; or the picture
             in docs/ARCHITECTURE.md leaves a crate out, or draws it before one that it names
  words      a word that is out of use stands in a source or on a page, outside of texts in quotes
  paths      a file is a symbolic link, which the gate takes nowhere
  links      more functions are links of chains than may be; tools/links.py says what these are, and lists them
  edges      a note, and no finding: a crate stands on another by at most three import lines, through which alone something is below it

Each row is a file, a line (0: the whole file), and what is wrong there. The status is 1 where there is a row. Those on crates, heads, pages
and links are about the whole repository, also with --since.
"""
import argparse
import os
import re
import subprocess
import sys
from collections import Counter, defaultdict
from collections.abc import Iterator
from dataclasses import dataclass
from functools import cache
from itertools import takewhile
from pathlib import Path

import crates
import links
from crates import Crate

TOP = Path(__file__).resolve().parent.parent
CRATES = TOP / "crates.txt"
COLUMNS, LINES, EDITS, FEW_IMPORTS = 100, 600, 60, 3
# how many links the crates may have
MOST_LINKS = 44
# an import in a file of definitions or proofs, and in one of code
THEORY_IMPORT = re.compile(r"^\s*use (Rattle\.[^;\n{]*)\.\{([^}]*)\}", re.M)
CODE_IMPORT = re.compile(r"^\s*ghost use (Rattle\.[^;\n{]*)\.\{([^}]*)\};", re.M)
# what is imported from a file of proofs, and what may be a name in a head
PROOFS_IMPORT = re.compile(r"\buse Rattle\.([a-z]\w*)\.proofs\.([^\s;{]+)\.\{([^}]*)\}")
HEAD_WORD = re.compile(r"[^\s,;:(){}`]+")
CLAUSE = re.compile(r"^\s*(?:(?:requires|ensures|narrow)\b|(?:\w+\s*)?\{)")
NUMBER = re.compile(r"(?<![\w.^-])(?<!digits_value )\d{2,}(?![\w.])")
QUOTED = re.compile(r'"[^"]*"')
# what stands before a part of a name; and behind one, but for the last of these
WORD = re.compile(r"[\w-]")
# a name of a library, in a path of definitions and proofs, in one of code, and in an import of either
THEORY_PATH = re.compile(r"\bRattle\.([a-z]\w*)\.")
CODE_PATH = re.compile(r"(?<![\w:.])([a-z]\w*)::")
ANY_IMPORT = re.compile(r"^\s*(?:(?:pub|ghost|unfoldable)\s+)*use\s+(?:Rattle\.([a-z]\w*)\.|([a-z]\w*)::)", re.M)

# What specs may take from proofs. A structure has its laws as parts, so it stands where they are proved, and so do its operations, which
# are told by it. A type that keeps a fact of its values (a fraction in lowest terms, a row of a width, a residue below its modulus) has
# lemmas in what makes a value.
STRUCTURES = {"ℚ_field", "ℚ_ring", "ℤ_ring", "algebra_ring", "Algebra", "algebra", "coef", "monomial", "poly_ring", "Poly", "poly", "poly_constant", "poly_evaluate"}
KEPT_FACTS = {"RingLaws", "abs-pos", "same_abs", "is_lowest-in", "lowest-whole", "rest-residue", "each_prop"}

# What a crate may stand on neither itself nor through others. What judges certificates completes nothing, finds no closed form and has no meter.
COMPUTATIONS = {"journal", "divide", "complete", "reduced_basis", "ideal_ops", "linear", "solvable", "eigen_split", "closed_forms", "invariant_fix"}
WITHOUT = {"cert_checker": COMPUTATIONS, "full_cert": COMPUTATIONS}

# Words that are out of use: what is said in their place, and below which path they had that meaning (everywhere, where none is given).
RETIRED = (
    (re.compile(r"(?<![A-Za-z])falling(?![A-Za-z])|Falling"), "descending", ""),
    (re.compile(r"(?<![A-Za-z])(?:un)?spent(?![A-Za-z])|Spent"), "exhausted", ""),
    (re.compile(r"[Cc]hain"), "cycle, for variables that use one another", "crates/solvable"),
    (re.compile(r"\bdivision\.rest\b"), "remainder", "crates"),
    (re.compile(r"(?<![A-Za-z])(?<!in )[Tt]urns?(?![A-Za-z])(?! (?:into|to|out|a)\b)|(?<=[a-z_])Turns?(?![a-z])"), "iteration", "crates"),
    (re.compile(r"backward_|_backward|(?<![A-Za-z])Backward|[Ff]orms? backward"), "inverse form", ""),
    (re.compile(r"(?<![A-Za-z])unw(?:ound|ind)|Unw(?:ound|ind)"), "pulled back", "crates"),
    (re.compile(r"(?<![A-Za-z])sources?(?![A-Za-z])|Sources?(?![a-z])"), "inhomogeneity", "crates/(?:closed_forms|expo|solvable_maps)/"),
    (re.compile(r"\bIfRefused\b|\bIsAll\b|\bAreMet\b|\blimit_met\b"), "a name that says what it is", "crates"),
    (re.compile(r"\bwords behind\b|[a-z]_words\.rt\b|\bread_words\b|(?<=[a-z])(?<!Of)Words\b"), "arguments, for what a command is given", "crates/[a-z_]*(?:app|commands|parts)/"),
)
TEXT_IN_QUOTES = re.compile(r"""b?'(?:\\.|[^'\\\n])'|"(?:[^"\\]|\\.)*\"""")

# In pages: a text in backticks, a path anywhere, the crates in a heading, and parts of paths that stand for others.
TICKED = re.compile(r"`([^`\n]+)`")
PATH = re.compile(r"(?<![\w/.*-])((?:crates|bench|docs|tools|examples|python|[a-z]\w*/(?:src|specs|proofs|must-fail|data))/[\w./*-]*\w)")
FILE_NAME = re.compile(r"[\w.-]+\.(?:antt|rt|py|sh|md|edit)")
SOURCE_WORD = re.compile(r"[a-z][a-z0-9]+(?:_[a-z0-9]{2,})+")
HEADING_CRATES = re.compile(r"^#+ .*\(((?:`\w+`(?:, )?)+)\)$")
STANDS_FOR_OTHERS = {"X", "NAME", "MODULE", "FUNCTION", "FILE"}


@dataclass(frozen=True)
class Finding:
    rule: str
    path: Path
    line: int
    what: str

    def __str__(self) -> str:
        return f"{self.rule}: {self.path.relative_to(TOP)}:{self.line}: {self.what}"


@dataclass(frozen=True)
class Source:
    """A file of code (.rt) or of definitions and proofs (.antt)."""
    path: Path
    text: str

    @property
    def lines(self) -> list[str]:
        return self.text.split("\n")

    @property
    def is_theory(self) -> bool:
        return self.path.suffix == ".antt"

    @property
    def is_specs(self) -> bool:
        return "specs" in self.path.parts


def sources() -> Iterator[Source]:
    for path in sorted((TOP / "crates").rglob("*")):
        if path.suffix in (".rt", ".antt") and "out" not in path.parts:
            yield Source(path, path.read_text(encoding="utf-8"))


def edit_files() -> Iterator[tuple[Path, Path]]:
    """Each edit with the folder of its crate."""
    for path in sorted((TOP / "crates").glob("*/must-fail/*.edit")):
        yield path, path.parent.parent
    for path in sorted((TOP / "bench" / "edits").glob("*/*.edit")):
        yield path, TOP / "crates" / path.parent.name


def edits() -> Iterator[Finding]:
    for path, crate in edit_files():
        file = None
        for number, line in enumerate(path.read_text(encoding="utf-8").split("\n"), 1):
            if line.startswith("file: "):
                file = crate / line[6:].strip()
            elif line.startswith("old: "):
                count = file.read_text(encoding="utf-8").count(line[5:]) if file and file.exists() else 0
                if count != 1:
                    yield Finding("edits", path, number, f"stands {count} times in its file")
    of_gate = len(list((TOP / "crates").glob("*/must-fail/*.edit")))
    if of_gate > EDITS:
        yield Finding("edits", TOP / "crates", 0, f"the gate has {of_gate} edits")


def modules() -> Iterator[Finding]:
    for folder in sorted((TOP / "crates").glob("*/specs")) + sorted((TOP / "crates").glob("*/proofs")):
        library = folder / "Lib.antt"
        listed = set(re.findall(r"^pub mod (\S+)", library.read_text(encoding="utf-8"), re.M)) if library.exists() else set()
        there = {file.stem for file in folder.glob("*.antt")} - {"Lib"}
        for name in sorted(there - listed if folder.name == "specs" else ()):
            yield Finding("modules", folder / f"{name}.antt", 0, "isn't in Lib.antt")
        for name in sorted(listed - there):
            if not (folder / name).is_dir():
                yield Finding("modules", library, 0, f"{name} has no file")
        # the prover makes a module of proofs for each of code
        code = {file.stem for file in (folder.parent / "src").rglob("*.rt")}
        for name in sorted(there if folder.name == "proofs" else ()):
            for other in sorted(it for it in code - {name} if it.lower() == name.lower()):
                yield Finding("modules", folder / f"{name}.antt", 0, f"differs from the module {other} in the case of letters alone")


def is_used(name: str, rest: str) -> bool:
    if name == "◌>>=◌" and re.search(r"\bdo$", rest, re.M):
        return True  # a block behind `do` binds by it
    if "◌" in name:
        return all(part in rest for part in name.split("◌") if part)
    at = rest.find(name)
    while at >= 0 and (WORD.match(rest[at - 1 : at]) or WORD.match(rest[at + len(name) : at + len(name) + 1].replace("-", ""))):
        at = rest.find(name, at + 1)
    return at >= 0


def imports(source: Source) -> Iterator[Finding]:
    for match in (THEORY_IMPORT if source.is_theory else CODE_IMPORT).finditer(source.text):
        rest = source.text[:match.start()] + source.text[match.end():]
        line = source.text.count("\n", 0, match.start(1)) + 1
        for item in filter(None, (part.strip() for part in match.group(2).split(","))):
            name = item.split(" as ")[-1].strip()
            # `rules` is looked for by a tactic, which names it nowhere
            if name != "rules" and not is_used(name, rest):
                yield Finding("imports", source.path, line, f"{name} isn't used")


def columns(source: Source) -> Iterator[Finding]:
    exempt = ("--", "use ", "pub use ") if source.is_theory else ("//", "use ", "ghost use", "#[")
    for number, line in enumerate(source.lines, 1):
        if len(QUOTED.sub("", line)) > COLUMNS and not line.lstrip().startswith(exempt):
            yield Finding("columns", source.path, number, f"{len(line)} columns")


def lengths(source: Source) -> Iterator[Finding]:
    count = source.text.count("\n")
    if count > LINES:
        yield Finding("lengths", source.path, 0, f"{count} lines")


def is_written_by_kit(path: Path) -> bool:
    """Lists of modules, and the files of a function's answers, goals and invariants that lie in a folder of its name."""
    is_of_function = path.parent.name != "proofs" and path.name in ("Answers.antt", "Goals.antt", "Invariants.antt")
    return path.name == "Lib.antt" or is_of_function


@cache
def cited() -> dict[Path, set[str]]:
    """The names of each file of proofs that files of other crates import."""
    found = defaultdict(set)
    for source in sources():
        crate = source.path.relative_to(TOP / "crates").parts[0]
        for library, module, items in PROOFS_IMPORT.findall(source.text):
            if library != crate:
                path = TOP / "crates" / library / "proofs" / f"{module.replace('.', '/')}.antt"
                found[path] |= {item.strip().split(" as ")[0] for item in items.split(",") if item.strip()}
    return found


def heads(source: Source) -> Iterator[Finding]:
    if source.is_theory and not is_written_by_kit(source.path):
        head = list(takewhile(lambda line: line.startswith("--"), source.lines))
        if not head:
            yield Finding("heads", source.path, 1, "has no head")
        for name in sorted(cited().get(source.path, set()) - set(HEAD_WORD.findall("\n".join(head)))):
            yield Finding("heads", source.path, 1, f"{name}, which other crates cite, isn't named in the head")


def digits(source: Source) -> Iterator[Finding]:
    if not source.is_theory:
        for number, line in enumerate(source.lines, 1):
            if CLAUSE.match(line) and NUMBER.search(line.split("//")[0]):
                yield Finding("digits", source.path, number, line.strip())


def borrowed(source: Source) -> Iterator[Finding]:
    if source.is_theory and source.is_specs:
        for number, line in enumerate(source.lines, 1):
            found = re.match(r"use Rattle\.(?!std\.)\w+\.proofs\.([\w.]+?)(?:\.\{([^}]*)\}| as \w+)?$", line)
            names = re.split(r",\s*", found[2] or found[1]) if found else []
            taken = [name for name in names if name.split(" as ")[0] not in STRUCTURES | KEPT_FACTS]
            if taken:
                yield Finding("borrowed", source.path, number, ", ".join(taken))


def without_library_names(text: str) -> str:
    """The text without the names that it imports from the kit's library, which has words of its own."""
    imported = re.findall(r"^use Rattle\.std\.[\w.]+\.\{([^}]*)\}$", text, re.MULTILINE)
    names = [name for names in imported for name in re.split(r",\s*", names) if re.fullmatch(r"[\w-]+", name)]
    return re.sub(rf"(?<![\w-])(?:{'|'.join(map(re.escape, names))})(?![\w-])", "", text) if names else text


def retired_in(path: Path, text: str) -> Iterator[Finding]:
    name = path.relative_to(TOP).as_posix()
    words = [(word, instead) for word, instead, below in RETIRED if re.match(below, name)]
    text = TEXT_IN_QUOTES.sub(lambda quoted: "\n" * quoted[0].count("\n"), text) if path.suffix != ".md" else text
    text = without_library_names(text) if path.suffix == ".antt" else text
    words = [(word, instead) for word, instead in words if word.search(text)]
    for number, line in enumerate(text.split("\n"), 1):
        yield from (Finding("words", path, number, f"`{found[0]}` is out of use: {instead}") for word, instead in words if (found := word.search(line)))


def words() -> Iterator[Finding]:
    for source in sources():
        yield from retired_in(source.path, source.text)
    for page in page_files():
        yield from retired_in(page, page.read_text(encoding="utf-8"))


def chain_links() -> Iterator[Finding]:
    found = links.links()
    if len(found) > MOST_LINKS:
        yield Finding("links", TOP / "crates", 0, f"{len(found)} links are more than {MOST_LINKS}; tools/links.py lists them")


@cache
def listed() -> dict[str, Crate]:
    return crates.listed()


def all_below(name: str, but: str = "") -> set[str]:
    """The crates that a crate stands on, itself or through others; without a line that names one of them, where it is given."""
    stands_on = {one.name: {other for other in one.below if other in listed()} for one in listed().values()}
    reached, waiting = set(), stands_on[name] - {but}
    while waiting:
        reached |= waiting
        waiting = {other for one in waiting for other in stands_on[one]} - reached
    return reached


def of_crate(rule: str, crate: Crate, what: str) -> Finding:
    return Finding(rule, CRATES, crate.line, f"{crate.name} {what}")


def order() -> Iterator[Finding]:
    for crate in listed().values():
        for other in crate.below:
            if other in listed() and listed()[other].line > crate.line:
                yield of_crate("order", crate, f"stands on {other}, which is listed behind it")


def theory() -> Iterator[Finding]:
    for crate in listed().values():
        for other in crate.below if crate.band == "theory" else ():
            if other not in listed() or listed()[other].band != "theory":
                yield of_crate("theory", crate, f"stands on {other}")


def below() -> Iterator[Finding]:
    for name, without in WITHOUT.items():
        for other in sorted(all_below(name) & without):
            yield of_crate("below", listed()[name], f"stands on {other}")


@dataclass
class Naming:
    """Where a crate names libraries: the first file of each, and how many of its imports name it."""
    first: dict[str, Path]
    imports: Counter[str]


@cache
def namings() -> dict[str, Naming]:
    found = defaultdict(lambda: Naming({}, Counter()))
    for source in sources():
        naming = found[source.path.relative_to(TOP / "crates").parts[0]]
        text = source.text if source.is_theory else re.sub(r"//.*", "", source.text)
        paths = THEORY_PATH.findall(text) + ([] if source.is_theory else CODE_PATH.findall(text))
        for library in paths:
            naming.first.setdefault(library, source.path)
        naming.imports.update(theory or code for theory, code in ANY_IMPORT.findall(text))
    return found


def named() -> Iterator[Finding]:
    known = set(listed()) | {library for crate in listed().values() for library in crate.below}
    for crate in listed().values():
        first = namings()[crate.name].first
        for library in crate.below:
            if library not in first:
                yield of_crate("named", crate, f"names {library} in no file")
        for library in sorted(known & set(first) - {crate.name, *crate.below}):
            yield Finding("named", first[library], 0, f"names {library}, which crates.txt doesn't list for {crate.name}")


def edges() -> Iterator[Finding]:
    for crate in listed().values():
        for other in crate.below if crate.band != "worked rows" else ():
            count = namings()[crate.name].imports[other]
            alone = all_below(crate.name) - all_below(crate.name, but=other) if other in listed() and count <= FEW_IMPORTS else ()
            if alone:
                yield of_crate("edges", crate, f"names {other} in so few imports: {count}; below by these alone: {', '.join(sorted(alone))}")


def page_files() -> list[Path]:
    found = [*TOP.glob("*.md"), *(TOP / "docs").glob("*.md"), *(TOP / "bench").glob("*.md"), *(TOP / "examples").rglob("*.md"), *(TOP / "python").glob("*.md")]
    return sorted(found)


@cache
def files_there() -> frozenset[Path]:
    """The files of the repository: what git has, and what it doesn't know yet and doesn't ignore."""
    command = ["git", "-C", TOP, "ls-files", "--cached", "--others", "--exclude-standard"]
    names = subprocess.run(command, check=True, capture_output=True, text=True).stdout.split("\n")
    return frozenset(TOP / name for name in names if name and (TOP / name).exists())


def paths() -> Iterator[Finding]:
    for path in sorted(files_there()):
        if path.is_symlink():
            yield Finding("paths", path, 0, "is a symbolic link: put the file itself here")


@cache
def file_names() -> frozenset[str]:
    return frozenset(path.name for path in files_there())


@cache
def source_words() -> frozenset[str]:
    """The words of all files but pages, and the names of files."""
    words = {path.stem for path in files_there()}
    for path in files_there():
        if path.suffix != ".md" and "edits" not in path.parts:
            words |= set(SOURCE_WORD.findall(path.read_text(encoding="utf-8", errors="replace")))
    return frozenset(words)


def is_there(page: Path, path: str) -> bool:
    if STANDS_FOR_OTHERS & set(path.split("/")) or "/out/" in path or path.endswith("/out"):
        return True
    return any(next(base.glob(path), None) for base in (TOP, TOP / "crates", page.parent))


def missing_in(page: Path, line: str) -> Iterator[str]:
    """What a line of a page names that isn't there."""
    for path in PATH.findall(line):
        if not is_there(page, path.rstrip("/")):
            yield f"no file {path}"
    for ticked in TICKED.findall(line):
        if FILE_NAME.fullmatch(ticked) and not ticked.startswith(".") and ticked not in file_names():
            yield f"no file {ticked}"
        elif SOURCE_WORD.fullmatch(ticked) and ticked not in source_words():
            yield f"no word {ticked}"
    heading = HEADING_CRATES.match(line)
    for name in TICKED.findall(heading[1]) if heading else ():
        if name not in listed():
            yield f"no crate {name}"


def crate_cells(lines: list[str]) -> Iterator[tuple[int, str]]:
    """The first cells of tables of crates, with their lines."""
    is_of_crates = False
    for number, line in enumerate(lines, 1):
        cells = line.split("|")
        if not line.startswith("|"):
            is_of_crates = False
        elif is_of_crates:
            yield number, cells[1]
        elif cells[1].strip() in ("Crate", "Crates"):
            is_of_crates = True


def picture() -> Iterator[Finding]:
    """The layers as ARCHITECTURE draws them: each crate once, behind those that it names. What two blanks part is a crate, if it is one word."""
    page = TOP / "docs" / "ARCHITECTURE.md"
    before, _, text = page.read_text(encoding="utf-8").partition("## The layers\n")
    drawn = []
    for number, line in enumerate(text.partition("\n## ")[0].split("\n"), before.count("\n") + 2):
        names = [part for part in re.split(r"  +", line.strip()) if re.fullmatch(r"[a-z]\w+", part)] if line.startswith("    ") else []
        drawn += [(name, number) for name in names if name in listed() or "_" in name]
    place = {name: k for k, (name, _) in enumerate(drawn)}
    for name, number in drawn:
        if name not in listed():
            yield Finding("pages", page, number, f"no crate {name}")
        elif any(place.get(other, -1) > place[name] for other in listed()[name].below):
            yield Finding("pages", page, number, f"{name} is drawn before a crate that it names")
    for name in sorted(set(listed()) - set(place)):
        yield Finding("pages", page, 0, f"{name} isn't drawn")


def pages() -> Iterator[Finding]:
    if not crates.PAGE.exists() or crates.PAGE.read_text(encoding="utf-8") != crates.page():
        yield Finding("pages", crates.PAGE, 0, "isn't what tools/crates.py writes")
    yield from picture()
    for page in page_files():
        lines = page.read_text(encoding="utf-8").split("\n")
        for number, line in enumerate(lines, 1):
            for what in missing_in(page, line):
                yield Finding("pages", page, number, what)
        for number, cell in crate_cells(lines):
            for name in TICKED.findall(cell):
                if name not in listed():
                    yield Finding("pages", page, number, f"no crate {name}")


OF_TREE = {
    "edits": edits, "modules": modules, "order": order, "theory": theory, "below": below, "named": named, "pages": pages, "words": words,
    "paths": paths, "links": chain_links,
}
OF_FILE = {
    "imports": imports, "columns": columns, "lengths": lengths, "heads": heads, "digits": digits, "borrowed": borrowed,
}
NOTES = {"edges": edges}
# what has to do with more than the file in which it stands
OF_ALL = {"heads", "order", "theory", "below", "named", "pages", "links"}


def findings(rules: set[str]) -> Iterator[Finding]:
    for rule, find in OF_TREE.items():
        if rule in rules:
            yield from find()
    for source in sources():
        for rule, find in OF_FILE.items():
            if rule in rules:
                yield from find(source)


def changed_since(revision: str) -> set[Path]:
    """What differs from the revision, and what git doesn't know yet."""
    names = []
    for command in (["diff", "--name-only", revision], ["ls-files", "--others", "--exclude-standard"]):
        names += subprocess.run(["git", "-C", TOP, *command], check=True, capture_output=True, text=True).stdout.split("\n")
    return {TOP / name for name in names if name}


def main() -> int:
    every = [*OF_TREE, *OF_FILE, *NOTES]
    parser = argparse.ArgumentParser(description=__doc__, formatter_class=argparse.RawDescriptionHelpFormatter)
    parser.add_argument("--since", metavar="REVISION")
    parser.add_argument("--rule", nargs="+", choices=every, default=every)
    arguments = parser.parse_args()
    changed = changed_since(arguments.since) if arguments.since else None
    rows = [row for row in findings(set(arguments.rule)) if changed is None or row.path in changed or row.rule in OF_ALL]
    for row in rows:
        print(row)
    for note in (note for rule, find in NOTES.items() if rule in arguments.rule for note in find()):
        print(f"note: {note}", file=sys.stderr)
    print(f"{len(rows)} findings", file=sys.stderr)
    return 1 if rows else 0


if __name__ == "__main__":
    sys.exit(main())
