#!/usr/bin/env python3
"""What ./invar does where no program stands for the sources as they are.

Usage: tools/program.py build        builds one of which nothing is proved, if need be, and prints the path of that which is to answer: the proved
                                     one, where it stands. Prints nothing where this kit can't build one so
       tools/program.py prove        proves the program and builds it, if need be
       tools/program.py try WORD..   answers by `rt try`, which keeps nothing

One call at a time builds, and one proves; others wait where no program stands, and none waits for a proof. What is built is put at its place in one
step, so nothing is half there after an interrupt.
"""
import os
import re
import subprocess
import sys

import kept
import prove
import unproved
from progress import Progress, told

PROGRAM = "invar"
NOTHING_WORKED = 70
NEW_LINE = "\n"


def say(text):
    print(f"invar: {text}", file=sys.stderr, flush=True)


def wait():
    say("another call is building; this one waits for it")


def standing():
    """The program that is to answer, where one stands for the sources as they are."""
    return next((program for program in (kept.proved(PROGRAM), kept.unproved(PROGRAM)) if program.stands()), None)


def build():
    stands = standing()
    if not stands:
        with kept.alone(PROGRAM, "building", wait):
            stands = standing()
            if not stands:
                return make(kept.unproved(PROGRAM))
    print(stands.path)
    return 0


def make(plain):
    """Builds the program of which nothing is proved."""
    progress = Progress()
    progress.line("building the program without its proofs; about two minutes of processor time, once")
    made_of = plain.made_of()
    try:
        unproved.build(PROGRAM, plain.path, progress)
    except unproved.OtherWords as error:
        progress.end()
        say(f"this kit builds no program in this way: {str(error).strip().rpartition(NEW_LINE)[2]}")
        return 0
    except unproved.Faulty as error:
        progress.end()
        sys.stderr.write(str(error))
        return NOTHING_WORKED
    progress.end()
    if not plain.keep(made_of):
        say("the sources changed while the program was built; it answers once")
    progress.line(f"built in {told(progress.taken())}")
    print(plain.path)
    return 0


def try_words(words):
    """What `rt try` answers, which reads files by their whole names."""
    say("`rt try` answers, which builds anew each time and waits a minute at most; nothing has been proved here of what it says")
    os.chdir(f"{kept.TOP}/crates/{PROGRAM}")
    words = ["rt", "try", "--", *words]
    if words[3:] != ["--version"]:
        os.execvp("rt", words)
    told = subprocess.run(words, stdout=subprocess.PIPE, text=True, check=False)
    sys.stdout.write(re.sub(r"^(invar [\d.]+)$", rf"\1{unproved.UNPROVED}", told.stdout, flags=re.MULTILINE))
    return told.returncode


def main(word, *words):
    if word == "try":
        return try_words([os.path.realpath(it) if os.path.isfile(it) else it for it in words])
    kept.end_when_told()
    if word == "build":
        return build()
    with kept.alone(PROGRAM, "proving", prove.wait):
        if kept.proved(PROGRAM).stands():
            say(f"{PROGRAM} is proved and built")
            return 0
        return NOTHING_WORKED if prove.prove(PROGRAM) else 0


if __name__ == "__main__":
    try:
        sys.exit(main(*sys.argv[1:]))
    except OSError as fault:
        say(f"nothing could be built: {fault}")
        sys.exit(NOTHING_WORKED)
