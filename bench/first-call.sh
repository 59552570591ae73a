#!/bin/sh
# How long the first answer takes on a fresh clone, with nothing kept from earlier runs, and the calls behind it.
# Usage: bench/first-call.sh            the program of which nothing is proved: the first call, and the mean of 50 calls behind it
#        bench/first-call.sh --prove    that, then ./invar --prove, and the mean of 50 calls of the proved program
# The clone is of the last commit, in a folder below TMPDIR, which is removed. INVAR_WORKERS says how many crates are proved at once.
here=$(cd "$(dirname "$0")/.." && pwd)
folder=$(mktemp -d) || exit 1
trap 'rm -rf "$folder"' EXIT
git clone -q "$here" "$folder/clone" && cd "$folder/clone" || exit 1
python3 - "$@" <<'PY'
import os, resource, subprocess, sys, time

BASIS = b"a - 1/2*t + 1/2 = 0\nt^2 - 4*s + 2*t + 1 = 0\n"
ANSWER = ["./invar", "basis", "examples/squares.loop"]
CALLS = 50
# the goals: the first answer, on two processors or on more, and a later call
FIRST = 240 if os.cpu_count() <= 2 else 180
LATER = 0.050
PROVED = (30 if os.cpu_count() <= 2 else 15) * 60


def taken(words, times=1):
    """The seconds of a call, from its start to its end, and those of processor time; and whether all calls answer well."""
    before, start = resource.getrusage(resource.RUSAGE_CHILDREN), time.perf_counter()
    good = all(subprocess.run(words, stdout=subprocess.PIPE).stdout == (BASIS if words == ANSWER else b"") for _ in range(times))
    spent, after = time.perf_counter() - start, resource.getrusage(resource.RUSAGE_CHILDREN)
    busy = after.ru_utime + after.ru_stime - before.ru_utime - before.ru_stime
    return spent / times, busy / times, good


def told(name, words, goal, times=1):
    spent, busy, good = taken(words, times)
    print(f"{name}: {spent:.3f} s, {busy:.3f} s of processor time (goal: below {goal} s){'' if good else '; THE ANSWER IS WRONG'}", flush=True)
    return good and spent < goal


well = told("the first answer, without proofs", ANSWER, FIRST)
with open(os.devnull, "w") as nothing:
    os.dup2(nothing.fileno(), 2)
well &= told(f"each of {CALLS} calls behind it", ANSWER, LATER, CALLS)
if sys.argv[1:] == ["--prove"]:
    well &= told("all proofs, and the proved program", ["./invar", "--prove"], PROVED)
    well &= told(f"each of {CALLS} calls of the proved program", ANSWER, LATER, CALLS)
sys.exit(0 if well else 1)
PY
