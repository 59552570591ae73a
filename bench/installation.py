#!/usr/bin/env python3
"""What ./invar --install puts where: the program answers from its new place, `man` reads its page, and bash and zsh complete its commands.

Usage: bench/installation.py        (installs into folders of its own; what needs man, bash or zsh is skipped where there is none, and a line says so)
"""
import os
import pathlib
import shutil
import subprocess
import sys
import tempfile

TOP = pathlib.Path(__file__).resolve().parent.parent
# the scripts find the interpreter that runs this one, whatever the folder at home is
PATH = f"{pathlib.Path(sys.executable).parent}:{os.environ['PATH']}"
SHARED = ("man/man1/invar.1", "bash-completion/completions/invar", "zsh/site-functions/_invar")
COMMANDS = "basis member cert check run gen chain chainrun counter full checkfull relations decide prove checkproof".split()
COMPLETE = """
source "$1"
shift
COMP_WORDS=("$@") COMP_CWORD=$(($# - 1))
_invar
printf '%s\\n' "${COMPREPLY[@]}"
"""
# the words that stand, of which the last is completed, and what it may be
COMPLETIONS = [
    ([""], [*COMMANDS, "help", "--help", "--version"]),
    (["ba"], ["basis"]),
    (["--"], ["--help", "--version"]),
    (["help", "ch"], ["check", "chain", "chainrun", "checkfull", "checkproof"]),
    (["basis", "--"], ["--budget", "--degree"]),
    (["basis", "--budget", ""], [""]),
    (["basis", "--budget", "9", "--d"], ["--degree"]),
    (["basis", "--degree", "2", "s."], ["s.json", "s.loop"]),
    (["counter", "-"], ["--length"]),
    (["member", "s.loop", ""], [""]),
    (["check", "s.loop", "s.j"], ["s.json"]),
    (["check", "s.loop", "s.json", ""], [""]),
    (["gen", ""], [""]),
    (["none", ""], [""]),
]


def run(words, **how):
    return subprocess.run(words, stdin=subprocess.DEVNULL, capture_output=True, text=True, **how)


def skipped(name):
    if shutil.which(name) is None:
        print(f"skipped: what {name} makes of the installed files, which needs {name} (apt-get install {'man-db' if name == 'man' else name})")
        return True
    return False


def places(room):
    """Where the files stand, for each way to name the folder: what is told, and what is there."""
    for name, folder, share in (("bin", room / "bin", room / "share"), ("other", room / "other", room / "other/share"), (None, room / ".local/bin", room / ".local/share")):
        words = [TOP / "invar", "--install", *([room / name] if name else [])]
        wanted = [str(folder / "invar"), *(str(share / file) for file in SHARED)]
        for _ in range(2):
            made = run(words, env={**os.environ, "PATH": PATH, "HOME": str(room)})
            yield words, made.returncode, 0
            yield words, made.stdout.splitlines()[:4], wanted
        yield words, sorted(str(it) for it in folder.parent.rglob("*") if it.is_file() and str(it) in wanted), sorted(wanted)
    (room / "file").touch()
    made = run([TOP / "invar", "--install", room / "file/bin"], env={**os.environ, "PATH": PATH})
    yield "a folder in a file", (made.returncode, made.stdout), (70, "")


def answers(room):
    """What the installed program answers, beside the one here."""
    shutil.copy(TOP / "examples/squares.loop", room / "s.loop")
    for words in (["--version"], ["basis", "s.loop"], ["member", "s.loop", "s = a^2"], ["help"], []):
        here, there = run([TOP / "invar", *words], cwd=room), run([room / "bin/invar", *words], cwd=room, env={})
        yield words, (there.returncode, there.stdout, there.stderr), (here.returncode, here.stdout, "")


def page(room):
    """The page as `man` shows it: each line of the program's pages stands in it, and no sign is another."""
    if skipped("man"):
        return
    made = run(["man", "--warnings", "-E", "UTF-8", "--no-hyphenation", "--no-justification", "-l", room / "share/man/man1/invar.1"], env={**os.environ, "MANWIDTH": "400"})
    yield "man -l", (made.returncode, made.stderr), (0, "")
    shown = " ".join(made.stdout.split())
    for command in COMMANDS:
        form, body = run([room / "bin/invar", "help", command]).stdout.split("\n", 1)
        wanted = f"{form.removeprefix('invar ')} {' '.join(body.split())}"
        yield command, wanted in shown or shown, True
    for part in ("--budget N at most N steps", "8 writing failed", "invar member examples/squares.loop 's = (a+1)^2'"):
        yield "man -l", part in shown or shown, True


def completions(room):
    if not skipped("bash"):
        (room / "s.json").touch()
        file = room / "share/bash-completion/completions/invar"
        for words, wanted in COMPLETIONS:
            made = run(["bash", "--norc", "--noprofile", "-c", COMPLETE, "bash", file, "invar", *words], cwd=room)
            yield words, (sorted(made.stdout.splitlines()), made.stderr), (sorted(wanted), "")
    if not skipped("zsh"):
        made = run(["zsh", "-f", "-n", room / "share/zsh/site-functions/_invar"])
        yield "zsh -n", (made.returncode, made.stdout + made.stderr), (0, "")


def main():
    differ = count = 0
    with tempfile.TemporaryDirectory() as folder:
        room = pathlib.Path(folder)
        for rows in (places, answers, page, completions):
            for words, given, wanted in rows(room):
                count += 1
                if given != wanted:
                    differ += 1
                    print(f"{words}\n  gives {given}\n  not   {wanted}")
    print(f"{count - differ} rows agree, {differ} differ")
    return 1 if differ else 0


if __name__ == "__main__":
    sys.exit(main())
