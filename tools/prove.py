#!/usr/bin/env python3
"""Proves the crates that a program stands on, those that don't wait for each other side by side, and builds the program.

Usage: tools/prove.py PROGRAM        (a crate of crates.txt)

`rt` works in a crate of a checkout only while no other `rt` works in it or in one below. So each worker has a copy of the crates' sources: it is
given the libraries below that are built, and gives back what it builds. Each crate that is proved is told by a line on standard error. What the
building of a crate says is told where it fails; the status is then 1.

INVAR_WORKERS says how many are proved at once: as many as there are processors, if it isn't set; with 1 they are proved one after another.
Those on the longest chain of crates go before the others, as the whole takes no less time than they do. Each is proved by one job, which takes
the least processor time; only a large one on that chain gets half of the processors, and one beside which little is left to prove its share of them.
"""
import concurrent.futures
import contextlib
import os
import queue
import shutil
import signal
import subprocess
import sys
import tempfile

import kept
from kept import TOP
from progress import Progress, told

WORKERS = int(os.environ.get("INVAR_WORKERS") or os.cpu_count() or 1)
# `rt`, which sums the sources of each crate once
RT = os.path.join(TOP, "tools", "rt.py")
# what `rt` leaves in the folder `out` of a crate: its library, and what was checked of it
LIBRARY, CHECKED = "rlib", "incremental"
# how nice a crate's proof is to those on the longest chain: so much for each part of the chain that it misses, up to the most
NICE, MOST_NICE = 60, 19
# by which part of it a chain may miss the longest one and still count as it
NEAR = 0.02
# a crate of fewer bytes of code gains nothing from a second job
LARGE = 8_000
ROOM = "copies-"
# the commands that are under way
CALLS = set()


def crates_below(program):
    """The crates of the repository that the program stands on, each with those that it names: lowest first."""
    named = kept.crates_below(program)
    return {name: [crate for crate in below if crate in named] for name, below in named.items()}


def size(name):
    """How many bytes of code a crate has, by which the time of its proof is guessed. Laws, which do nothing, take next to none."""
    folder = os.path.join(TOP, "crates", name, "src")
    return sum(os.path.getsize(os.path.join(at, file)) for at, _, files in os.walk(folder) for file in files if not file.endswith("laws.rt"))


def slack(order):
    """By how much each crate misses the longest chain of crates, as a part of it: 0 for those on it."""
    sizes = {name: size(name) for name in order}
    upto, beyond = {}, dict.fromkeys(order, 0)
    for name, below in order.items():
        upto[name] = sizes[name] + max((upto[crate] for crate in below), default=0)
    for name, below in reversed(order.items()):
        for crate in below:
            beyond[crate] = max(beyond[crate], beyond[name] + sizes[name])
    longest = max(upto.values())
    return {name: 1 - (upto[name] + beyond[name]) / longest for name in order}


def apart(order):
    """For each crate those that don't wait for it and for which it doesn't wait, which can be proved beside it."""
    below = {name: set(all_below(name, order)) for name in order}
    return {name: [other for other in order if other != name and other not in below[name] and name not in below[other]] for name in order}


def jobs(size, beside, least, workers):
    """With how many jobs a crate of this size is proved, where so much is left that can be proved beside it: its share of the workers."""
    return max(least, round(workers * size / (size + beside))) if size >= LARGE else 1


def call(top, name, *words, niceness=0):
    """Runs a command of `rt` in the folder of a crate: its status, and what it prints."""
    folder = os.path.join(top, "crates", name)
    words = ["nice", "-n", str(niceness), sys.executable, RT, *words]
    how = {"stdin": subprocess.DEVNULL, "stdout": subprocess.PIPE, "stderr": subprocess.STDOUT, "start_new_session": True}
    with subprocess.Popen(words, cwd=folder, text=True, **how) as command:
        CALLS.add(command)
        said = command.communicate()[0]
        CALLS.discard(command)
    return command.returncode, said


def end_calls():
    """Ends what `call` has started, for a proof that is told to stop."""
    for command in list(CALLS):
        with contextlib.suppress(OSError):
            os.killpg(command.pid, signal.SIGTERM)


def hand(part, name, source, target):
    """Gives a copy of the repository what another one has in the folder `out` of a crate, if it has it."""

    def link(one, other):
        # what `rt` replaces, and never writes into, has two names then
        if part == LIBRARY or one.endswith(".oantt"):
            with contextlib.suppress(OSError):
                return os.link(one, other)
        return shutil.copy2(one, other)

    has = os.path.join(source, "crates", name, "out", part)
    out = os.path.join(target, "crates", name, "out")
    if os.path.isdir(has):
        os.makedirs(out, exist_ok=True)
        with tempfile.TemporaryDirectory(prefix="given-", dir=out) as room:
            shutil.copytree(has, os.path.join(room, part), symlinks=True, copy_function=link)
            shutil.rmtree(os.path.join(out, part), ignore_errors=True)
            os.rename(os.path.join(room, part), os.path.join(out, part))


class Copy:
    """A copy of the sources, in which one crate is proved at a time."""

    def __init__(self, top):
        self.top = top
        self.given = set()
        shutil.copytree(os.path.join(TOP, "crates"), os.path.join(top, "crates"), ignore=shutil.ignore_patterns("out", "must-fail"))
        for name in ("crates.txt", "HANDLES"):
            shutil.copy2(os.path.join(TOP, name), top)

    def library(self, name, below, jobs, niceness):
        """Whether the library of a crate is built over those below, which only a proved crate's is, and what was said of it."""
        for crate in below:
            if crate not in self.given:
                hand(LIBRARY, crate, TOP, self.top)
                self.given.add(crate)
        for part in (LIBRARY, CHECKED):
            hand(part, name, TOP, self.top)
        status, said = call(self.top, name, "lib", "--jobs", str(jobs), niceness=niceness)
        if status == 0:
            for part in (CHECKED, LIBRARY):
                hand(part, name, self.top, TOP)
            self.given.add(name)
        return status == 0, said


def built(program):
    """Whether a program is proved and built, and what was said of it. Its status is the program's own, as it is run too."""
    said = call(TOP, program, "run")[1]
    return any(line.startswith("logic=proved") for line in said.splitlines()), said


def all_below(name, waits):
    """The crates that a crate stands on, lowest first."""
    found = {}
    for crate in waits[name]:
        found.update(dict.fromkeys([*all_below(crate, waits), crate]))
    return list(found)


def libraries(program, order, copies, progress):
    """Proves the crates below the program and builds their libraries. What was said of one that failed, or nothing."""
    waits = {name: below for name, below in order.items() if name != program}
    sizes = {name: size(name) for name in order}
    done, running, taken = {}, {}, {}
    behind, others = slack(order), apart(order)

    def work(name, jobs):
        copy = copies.get()
        try:
            return copy.library(name, all_below(name, order), jobs, min(MOST_NICE, round(NICE * behind[name])))
        finally:
            copies.put(copy)

    def show():
        part = sum(sizes[name] for name in done) / sum(sizes.values())
        progress.bar(part, f"{len(done)} of {len(order)} crates, proving {', '.join(running.values())}")

    def go(pool):
        while waits or running:
            for name in sorted((name for name, below in waits.items() if done.keys() >= set(below)), key=behind.get):
                free = WORKERS - sum(taken[other] for other in running.values())
                if free <= 0:
                    break
                beside = sum(sizes[other] for other in others[name] if other not in done)
                least = WORKERS // 2 or 1 if behind[name] < NEAR else 1
                taken[name] = min(free, jobs(sizes[name], beside, least, WORKERS))
                running[pool.submit(work, name, taken[name])] = name
                del waits[name]
            show()
            ended, _ = concurrent.futures.wait(running, timeout=1, return_when=concurrent.futures.FIRST_COMPLETED)
            for future in ended:
                name = running.pop(future)
                proved, said = future.result()
                if not proved:
                    return said
                done[name] = progress.taken()
                progress.line(f"proved {name} ({len(done)} of {len(order)}, after {told(done[name])})")
        return None

    with concurrent.futures.ThreadPoolExecutor(WORKERS) as pool:
        try:
            return go(pool)
        except BaseException:
            end_calls()
            raise


def wait():
    print("invar: another call proves; this one waits for it", file=sys.stderr)


def prove(program):
    """Proves and builds a program, for whoever holds the lock: whether that failed."""
    order = crates_below(program)
    progress = Progress()
    progress.line(f"proving {len(order)} crates, {WORKERS} at a time; the first time this takes a good while")
    stands = kept.proved(program)
    made_of = stands.made_of()
    out = os.path.dirname(stands.path)
    kept.remove_left(out, ROOM)
    with tempfile.TemporaryDirectory(prefix=ROOM, dir=out) as room:
        copies = queue.Queue()
        for number in range(WORKERS):
            copies.put(Copy(os.path.join(room, str(number))))
        said = libraries(program, order, copies, progress)
    progress.end()
    if said is None:
        proved, said = built(program)
        if proved:
            same = stands.keep(made_of)
            progress.line(f"proved and built {program} in {told(progress.taken())}" + ("" if same else "; sources changed meanwhile"))
            return 0
    sys.stderr.write(said)
    return 1


def main(program):
    kept.end_when_told()
    with kept.alone(program, "proving", wait):
        return prove(program)


if __name__ == "__main__":
    sys.exit(main(*sys.argv[1:]))
