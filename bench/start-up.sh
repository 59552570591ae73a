#!/bin/sh
# How long one run takes from start to end: of 200 runs of `basis` and of `check` on the squares example, in milliseconds.
# Usage: bench/start-up.sh        (after ./invar --prove has built the program)
here=$(cd "$(dirname "$0")/.." && pwd)
exec python3 - "$here/crates/invar/out/invar" "$here/examples/squares.loop" "$here/examples/squares.json" <<'PY'
import statistics, subprocess, sys, time

program, loop, certificate = sys.argv[1:]
GOAL = 10


def taken(words, text):
    start = time.perf_counter()
    done = subprocess.run([program, *words], capture_output=True)
    spent = (time.perf_counter() - start) * 1000
    assert (done.returncode, done.stdout) == (0, text), done
    return spent


good = True
for words, text in ((["basis", loop], b"a - 1/2*t + 1/2 = 0\nt^2 - 4*s + 2*t + 1 = 0\n"), (["check", loop, certificate], b"valid\n")):
    runs = [taken(words, text) for _ in range(200)]
    print(f"{words[0]}: {statistics.mean(runs):.2f} ms a run, least {min(runs):.2f}, most {max(runs):.2f} (goal: mean below {GOAL} ms)")
    good &= statistics.mean(runs) < GOAL
sys.exit(0 if good else 1)
PY
