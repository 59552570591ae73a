"""What is kept in a program's folder `out`, and of which sources and which kit it was made.

Beside a program NAME that is kept stands its stamp, `NAME.sources`, of three lines: the kit, a sum of the sources, a sum of the program. The time of
the stamp is one at which the sources had this sum, so that none has changed since where none is newer. Where one is, the sum decides; a stamp
of other sources is put aside as `NAME.outdated`, since they may come back.
"""
import contextlib
import fcntl
import hashlib
import os
import shutil
import signal
import sys
import time

TOP = os.path.dirname(os.path.dirname(os.path.abspath(__file__)))
# a file that was changed in the same instant counts as changed later
INSTANT = 0.05
PROVED_PARTS = ("src", "specs", "proofs")
UNPROVED_PARTS = ("src",)
# what says how the program of which nothing is proved is built, and what it says of itself
UNPROVED_BUILDER = "tools/unproved.py"


def kit_folder():
    """The folder of the kit, or none where `rt` isn't on the PATH."""
    rt = shutil.which("rt")
    return os.path.dirname(os.path.dirname(os.path.realpath(rt))) if rt else None


def kit_name():
    """The line that `rt version` prints; empty where there is no kit."""
    folder = kit_folder()
    if not folder:
        return ""
    with contextlib.suppress(OSError), open(f"{folder}/KIT-ID") as line:
        return line.readline().rstrip("\n")
    return folder


def crates_below(program):
    """The crates of the repository that the program stands on, and itself, each with the names behind it in crates.txt: lowest first."""
    named = {}
    with open(f"{TOP}/crates.txt") as lines:
        for line in lines:
            name, colon, below = line.split("#")[0].partition(":")
            if colon:
                named[name.split()[0]] = below.split()
    order = {}

    def visit(name):
        for crate in named[name]:
            if crate in named and crate not in order:
                visit(crate)
        order[name] = named[name]

    visit(program)
    return order


def sum_of_file(path):
    with open(path, "rb") as content:
        return hashlib.sha256(content.read()).hexdigest()


def sum_of_sources(program, parts, builder):
    """A sum over what a program is made of: its crates, what each stands on, the names and contents of their files, and its builder's, if it has one."""
    total = hashlib.sha256()
    for name, below in crates_below(program).items():
        total.update(f"{name}: {' '.join(below)}\n".encode())
        for part in parts:
            for at, folders, files in os.walk(f"{TOP}/crates/{name}/{part}"):
                folders.sort()
                for file in sorted(files):
                    path = os.path.join(at, file)
                    total.update(f"{os.path.relpath(path, TOP)} {sum_of_file(path)}\n".encode())
    if builder:
        total.update(f"{builder} {sum_of_file(f'{TOP}/{builder}')}\n".encode())
    return total.hexdigest()


class Kept:
    """A program that is kept, with its stamp."""

    def __init__(self, name, path, parts, builder=None):
        self.name, self.path, self.parts, self.builder = name, path, parts, builder
        self.stamp, self.outdated = f"{path}.sources", f"{path}.outdated"

    def made_of(self):
        """The kit, and the sum of the sources as they are."""
        return kit_name(), sum_of_sources(self.name, self.parts, self.builder)

    def stands(self):
        """Whether the program is one of the sources as they are, by the stamp's sums. The stamp's time is then now; else it is put aside.

        Where there is no kit, one that was made by any kit will do.
        """
        now = time.time()
        kit, sources = self.made_of()
        for stamp in (self.stamp, self.outdated):
            with contextlib.suppress(OSError):
                with open(stamp) as lines:
                    made_by, made_of, program = lines.read().splitlines()
                if kit in ("", made_by) and sources == made_of and program == sum_of_file(self.path):
                    self._write((made_by, made_of, program), now)
                    return True
        with contextlib.suppress(OSError):
            os.replace(self.stamp, self.outdated)
        return False

    def keep(self, made_of):
        """Writes the stamp of the program that was just made of these, unless the sources have changed meanwhile: whether they are the same."""
        now = time.time()
        if self.made_of() != made_of:
            return False
        self._write((*made_of, sum_of_file(self.path)), now)
        return True

    def _write(self, lines, now):
        part = f"{self.stamp}.{os.getpid()}"
        with open(part, "w") as stamp:
            stamp.write("".join(f"{line}\n" for line in lines))
        for path in (self.path, part):
            os.utime(path, (now - INSTANT, now - INSTANT))
        os.replace(part, self.stamp)
        with contextlib.suppress(OSError):
            os.remove(self.outdated)


def proved(program):
    return Kept(program, f"{TOP}/crates/{program}/out/{program}", PROVED_PARTS)


def unproved(program):
    return Kept(program, f"{TOP}/crates/{program}/out/unproved/{program}", UNPROVED_PARTS, UNPROVED_BUILDER)


@contextlib.contextmanager
def alone(program, work, wait):
    """Holds the lock of a program's folder for this work, so that one call at a time does it. Says so by `wait` where another one has it."""
    folder = f"{TOP}/crates/{program}/out"
    os.makedirs(folder, exist_ok=True)
    with open(f"{folder}/{work}.lock", "w") as lock:
        try:
            fcntl.flock(lock, fcntl.LOCK_EX | fcntl.LOCK_NB)
        except OSError:
            wait()
            fcntl.flock(lock, fcntl.LOCK_EX)
        yield


def remove_left(folder, prefix):
    """Removes what builds left that were killed; for whoever holds the lock."""
    for name in os.listdir(folder) if os.path.isdir(folder) else ():
        if name.startswith(prefix):
            shutil.rmtree(os.path.join(folder, name), ignore_errors=True)


def end_when_told():
    """So that folders are removed when this is told to stop."""
    for number in (signal.SIGTERM, signal.SIGHUP, signal.SIGINT):
        signal.signal(number, lambda number, _: sys.exit(128 + number))
