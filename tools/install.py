#!/usr/bin/env python3
"""Puts the program that answers ./invar into a folder, with its page for `man` and its completion for bash and zsh.

Usage: ./invar --install [DIR]        (~/.local/bin, where no folder is named)

The program is one file, which needs the C library of the system and nothing else. The page and the completions are made of what the program itself says:
its usage line and its pages of help. They go where `man` and bash look for those of a program in DIR: into `share` beside a folder `bin`, and else in it.
"""
from __future__ import annotations

import argparse
import os
import re
import subprocess
import sys
import tempfile
from dataclasses import dataclass
from pathlib import Path

from kept import TOP

NOTHING_WORKED = 70
# what the arguments of commands are called that are files
FILES = ("LOOP", "CERT", "CHAIN", "FILE")
OPTION = re.compile(r"\[(--\w+) (\w+)\]")
# signs that roff prints as others, or takes for itself
SIGNS = {"\\": "\\(rs", "-": "\\-", "'": "\\(aq", "`": "\\(ga", "^": "\\(ha"}


@dataclass(frozen=True)
class Command:
    """A command: how it is called, what it is in a line, and its page."""

    form: str
    what: str
    page: str

    @property
    def name(self) -> str:
        return self.form.split()[0]

    @property
    def options(self) -> list[tuple[str, str]]:
        """The options, each with what its value is called."""
        return OPTION.findall(self.form)

    @property
    def arguments(self) -> list[str]:
        return OPTION.sub("", self.form).split()[1:]


@dataclass(frozen=True)
class Help:
    """What the program says of itself."""

    version: str
    overview: str
    commands: list[Command]

    def paragraph(self, beginning: str) -> str:
        """The lines behind the beginning of a paragraph of the overview."""
        return next(part for part in self.overview.split("\n\n") if part.startswith(beginning))


def said(program: str, *words: str) -> str:
    return subprocess.run([program, *words], stdin=subprocess.DEVNULL, stdout=subprocess.PIPE, text=True, check=False).stdout


def help_of(program: str) -> Help:
    """The pages of a program, and the table of commands in them."""
    usage, overview = said(program), said(program, "help")
    commands = []
    for form in usage.removeprefix("usage: invar ").partition(";")[0].split(" | "):
        name = form.split()[0]
        what = re.search(rf"^  {re.escape(form)} +(.*)$", overview, re.MULTILINE)
        commands.append(Command(form, what[1], said(program, "help", name).partition("\n")[2]))
    return Help(said(program, "--version").strip(), overview, commands)


# ---- the page for man


def escaped(text: str) -> str:
    """A text as roff has it."""
    text = "".join(SIGNS.get(sign, sign) for sign in text)
    return re.sub(r"^(?=\.)", r"\&", text, flags=re.MULTILINE)


def synopsis(form: str) -> str:
    """A form with the words that are typed in bold, and those that stand for others in italics."""
    words = re.sub(r"\b[A-Z]+\b", lambda word: rf"\fI{word[0]}\fP", escaped(form))
    return re.sub(r"^(\S+)|(\\-\\-\w+)", r"\\fB\g<0>\\fP", words)


def rows(table: list[tuple[str, str]]) -> str:
    """A table of two columns, as its rows stand in a page."""
    return "\n".join(f".TP\n\\fB{escaped(left)}\\fP\n{escaped(right)}" for left, right in table)


def options(paragraph: str) -> list[tuple[str, str]]:
    """The options of the paragraph that lists them, with what each is."""
    return re.findall(r"^  (--\w+ \w)   (.*)$", paragraph, re.MULTILINE)


def statuses(paragraph: str) -> list[tuple[str, str]]:
    """The statuses of the paragraph that lists them, with what each means."""
    text = " ".join(paragraph.split()).removeprefix("Status: ").removesuffix(".")
    return re.findall(r"(\d) (.*?)(?:; |$)", text)


def man_page(pages: Help) -> str:
    """The page for `man`."""
    introduction = pages.overview.partition("\n\n")[0]
    first = " ".join(introduction.split()).partition(". ")[0]
    examples = [line.strip() for line in pages.paragraph("Examples:").splitlines()[1:]]
    lines = [
        f'.TH INVAR 1 "" "{escaped(pages.version)}"',
        ".SH NAME",
        f"invar \\- {escaped(first.removeprefix('invar '))}",
        ".SH SYNOPSIS",
        *(f"\\fBinvar\\fP {synopsis(command.form)}\n.br" for command in pages.commands),
        "\\fBinvar help\\fP [\\fICOMMAND\\fP]\n.br\n\\fBinvar \\-\\-version\\fP",
        ".SH DESCRIPTION",
        escaped(introduction),
        ".SH COMMANDS",
        *(f".TP\n{synopsis(command.form)}\n{escaped(command.page.strip())}" for command in pages.commands),
        ".SH OPTIONS",
        escaped(pages.paragraph("Options stand").partition("\n")[0]),
        rows(options(pages.paragraph("Options stand"))),
        ".SH EXIT STATUS",
        rows(statuses(pages.paragraph("Status:"))),
        ".SH EXAMPLES",
        ".nf",
        *map(escaped, examples),
        ".fi",
    ]
    return "\n".join(lines) + "\n"


# ---- completion


def in_quotes(text: str) -> str:
    return "'" + text.replace("'", "'\\''") + "'"


def bash_completion(pages: Help) -> str:
    """Completion for bash: commands, their options before the file, and files where they take one."""
    names = " ".join(command.name for command in pages.commands)
    cases = "\n".join(
        f"        {command.name}) options={in_quotes(' '.join(name for name, _ in command.options))} arguments={in_quotes(' '.join(command.arguments))} ;;"
        for command in pages.commands
    )
    return f"""\
# Completion of invar for bash, made by ./invar --install of the pages of {pages.version}.
_invar() {{
    local word=${{COMP_WORDS[COMP_CWORD]}} command=${{COMP_WORDS[1]}} place=2 options= arguments=
    COMPREPLY=()
    if [ "$COMP_CWORD" = 1 ]; then
        COMPREPLY=($(compgen -W '{names} help --help --version' -- "$word"))
        return
    fi
    case $command in
        help) [ "$COMP_CWORD" = 2 ] && COMPREPLY=($(compgen -W '{names}' -- "$word")) ;;
{cases}
    esac
    while [ "$place" -lt "$COMP_CWORD" ] && [[ ${{COMP_WORDS[place]}} == --* ]]; do
        place=$((place + 2))
    done
    [ "$place" -le "$COMP_CWORD" ] || return
    if [ "$place" = "$COMP_CWORD" ] && [[ $word == -* ]]; then
        COMPREPLY=($(compgen -W "$options" -- "$word"))
        return
    fi
    set -- $arguments
    shift $((COMP_CWORD - place)) 2>/dev/null || return
    case $1 in
        {' | '.join(FILES)}) compopt -o filenames 2>/dev/null; mapfile -t COMPREPLY < <(compgen -f -- "$word") ;;
    esac
}}
complete -F _invar invar
"""


def zsh_completion(pages: Help) -> str:
    """Completion for zsh: the same, with what each command and option is."""
    told = {form.split()[0]: what for form, what in options(pages.paragraph("Options stand"))}

    def arguments(command: Command) -> str:
        options = [in_quotes(f"{name}[{told[name]}]:{value}: ") for name, value in command.options]
        places = [in_quotes(f"{place}:{name}:{'_files' if name in FILES else ' '}") for place, name in enumerate(command.arguments, 1)]
        return " ".join([*options, *places])

    described = "\n".join(f"        {in_quotes(f'{command.name}:{command.what}')}" for command in pages.commands)
    cases = "\n".join(f"        {command.name}) _arguments {arguments(command)} ;;" for command in pages.commands)
    return f"""\
#compdef invar
# Completion of invar for zsh, made by ./invar --install of the pages of {pages.version}.
_invar() {{
    local -a commands=(
{described}
        'help:all commands, or more about one'
    )
    if (( CURRENT == 2 )); then
        _describe command commands
        return
    fi
    local command=$words[2]
    shift words
    (( CURRENT-- ))
    case $command in
        help) _describe command commands ;;
{cases}
    esac
}}
_invar "$@"
"""


# ---- files


def put(path: Path, content: bytes, mode: int) -> None:
    """Writes a file in one step: an older one answers until then."""
    path.parent.mkdir(parents=True, exist_ok=True)
    with tempfile.NamedTemporaryFile(dir=path.parent, prefix=f".{path.name}-", delete=False) as part:
        try:
            part.write(content)
            part.flush()
            os.fchmod(part.fileno(), mode)
            os.replace(part.name, path)
        except BaseException:
            os.unlink(part.name)
            raise
    print(path)


def install(program: str, folder: Path) -> None:
    """Puts the program into the folder, and beside it what belongs to it. Each file is told."""
    pages = help_of(program)
    share = (folder.parent if folder.name == "bin" else folder) / "share"
    put(folder / "invar", Path(program).read_bytes(), 0o755)
    put(share / "man/man1/invar.1", man_page(pages).encode(), 0o644)
    put(share / "bash-completion/completions/invar", bash_completion(pages).encode(), 0o644)
    put(share / "zsh/site-functions/_invar", zsh_completion(pages).encode(), 0o644)
    print(f"installed {pages.version}")
    if str(folder) not in os.environ.get("PATH", "").split(os.pathsep):
        print(f"{folder} isn't on your PATH; this puts it there: export PATH={folder}:$PATH")
    print(f"zsh completes where its fpath has {share}/zsh/site-functions; bash, where bash-completion is installed")


def main() -> int:
    parser = argparse.ArgumentParser(prog="./invar --install", description="Installs the program, its page for man, and completion for bash and zsh.")
    parser.add_argument("folder", nargs="?", type=Path, default=Path.home() / ".local/bin", metavar="DIR", help="~/.local/bin, where none is named")
    folder = parser.parse_args().folder.absolute()
    built = subprocess.run([f"{TOP}/tools/program.py", "build"], stdin=subprocess.DEVNULL, stdout=subprocess.PIPE, text=True, check=False)
    if built.returncode != 0 or not built.stdout:
        print("invar: there is no program to be installed", file=sys.stderr)
        return NOTHING_WORKED
    try:
        install(built.stdout.strip(), folder)
    except OSError as fault:
        print(f"invar: nothing could be installed: {fault}", file=sys.stderr)
        return NOTHING_WORKED
    return 0


if __name__ == "__main__":
    sys.exit(main())
