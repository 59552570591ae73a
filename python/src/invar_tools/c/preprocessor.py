"""What the C preprocessor makes of a file, line by line, with the small headers of this folder in place of those of a system."""
from __future__ import annotations

import re
import subprocess
import tempfile
from dataclasses import dataclass, field
from pathlib import Path

HEADERS = Path(__file__).resolve().parent / "headers"

EXTENSIONS = ["__attribute=__attribute__", "__extension__=", "__restrict=restrict", "__inline=inline", "__inline__=inline", "__signed__=signed"]
"""Words of compilers, which say nothing of values."""

STANDARD_INPUT = "<stdin>"
"""As what `cpp` knows a text that it is given."""

MARK = re.compile(r'#\s*(?:line\s+)?(\d+)\s+"((?:\\.|[^"\\])*)".*')


@dataclass(frozen=True)
class Line:
    """A line of what is made, with the file and the number of the line that it comes from."""

    text: str
    file: str
    number: int


@dataclass(frozen=True)
class Made:
    """The lines that are made, the headers that aren't found, and the line and the text of a fault."""

    lines: list[Line] = field(default_factory=list)
    missing: list[str] = field(default_factory=list)
    fault: tuple[int, str] | None = None


def preprocessed(text: str, path: Path, folders: list[Path], macros: list[str]) -> Made:
    """The lines that `cpp` makes of the text of a file. A header that isn't found counts as empty."""
    with tempfile.TemporaryDirectory() as name:
        words = ["-nostdinc", "-D__FRAMAC__", *(f"-D{macro}" for macro in EXTENSIONS + macros), "-iquote", str(path.parent.resolve())]
        empty = Path(name) / "1" / "2" / "3"
        words += [f"-I{folder.resolve()}" for folder in folders] + ["-isystem", str(HEADERS), "-isystem", str(empty)]
        missing = stood_in(text, words, empty, name)
        done = cpp(text, name, *words)
    if done.returncode != 0:
        fault = re.search(rf"{STANDARD_INPUT}:(\d+):\d+: (?:fatal )?error: (.*)", done.stderr)
        return Made(fault=(int(fault[1]), fault[2]) if fault else (0, done.stderr.strip()))
    return Made(numbered(done.stdout), missing)


def cpp(text: str, place: str, *words: str) -> subprocess.CompletedProcess[str]:
    """What `cpp` makes of a text in a folder that has no headers, so that those that are found have absolute paths."""
    call = ["cpp", *words, "-"]
    return subprocess.run(call, input=text, cwd=place, capture_output=True, check=False, encoding="utf-8", errors="surrogateescape")


def stood_in(text: str, words: list[str], folder: Path, place: str) -> list[str]:
    """Makes empty files in a folder for the headers that a text wants and that aren't found, and gives their names."""
    wanted = cpp(text, place, "-M", "-MG", *words).stdout.replace("\\\n", " ").partition(":")[2]
    names = [name.replace("\\ ", " ") for name in re.findall(r"(?:\\ |\S)+", wanted)]
    missing = [name for name in names if name != "-" and not Path(name).is_absolute() and Path(name).parts.count("..") <= 3]
    folder.mkdir(parents=True)
    for name in missing:
        (folder / name).parent.mkdir(parents=True, exist_ok=True)
        (folder / name).touch()
    return missing


def numbered(text: str) -> list[Line]:
    """The lines of a text with those that they come from, as the marks in it say. Other lines that begin with # count as empty."""
    lines: list[Line] = []
    file, number = STANDARD_INPUT, 1
    for row in text.split("\n"):
        mark = MARK.fullmatch(row)
        if mark:
            file, number = mark[2], int(mark[1])
        else:
            lines.append(Line("" if row.lstrip().startswith("#") else row, file, number))
            number += 1
    return lines
