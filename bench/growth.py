#!/usr/bin/env python3
"""Times `invar basis` on families of loops that have a size, and tells where time grows faster than the answer.

Usage: bench/growth.py [FAMILY ..]      (after ./invar --prove, or a call of ./invar, has built the program; INVAR names another)

Each family is gone through by size until a loop takes longer than LIMIT or has no answer. What is timed is the processor time of a process, less that
of one that answers a loop of nothing; the least of RUNS counts. Where the last two sizes that are answered both take CLEAR at least, the factors by which
time and answer grow from one to the other stand beside each other, and a family is `worse` where time grows by more than the square of what the answer
does, a step being at least LEAST of it.
"""
import os
import pathlib
import resource
import subprocess
import sys
import tempfile

TOP = pathlib.Path(__file__).resolve().parent.parent
PROGRAMS = [TOP / "crates/invar/out/invar", TOP / "crates/invar/out/unproved/invar"]
BUDGET = "1000000"
LIMIT = 10
RUNS = 3
CLEAR = 0.003
LEAST = 2
PRIMES = (2, 3, 5, 7, 11, 13, 17, 19, 23, 29, 31, 37)


# ---- families


def names(n, letter="x"):
    return [f"{letter}{i}" for i in range(1, n + 1)]


def loop(variables, starts, *branches):
    """The text of a loop, whose starts and branches are lists of equations."""
    init = f"init {', '.join(starts)}; " if starts else ""
    return f"vars {', '.join(variables)}; {init}" + " ".join(f"branch {{ {' '.join(f'{it};' for it in branch)} }}" for branch in branches)


def all_at(variables, value):
    return [f"{x}={value}" for x in variables]


def counters(n):
    return loop(names(n), all_at(names(n), 0), [f"{x}={x}+{i + 1}" for i, x in enumerate(names(n))])


def powers_of_two(n):
    return loop(names(n), all_at(names(n), 1), [f"{x}={2 ** (i + 1)}*{x}" for i, x in enumerate(names(n))])


def ring_of_products(n):
    return loop(names(n), all_at(names(n), 1), [f"{x}={PRIMES[i] * PRIMES[(i + 1) % n]}*{x}" for i, x in enumerate(names(n))])


def primes_with_a_sum(n):
    return loop([*names(n), "s"], [*all_at(names(n), 1), "s=0"], [*(f"{x}={PRIMES[i]}*{x}" for i, x in enumerate(names(n))), f"s=s+{'+'.join(names(n))}"])


def turns_of_sums(n):
    return ["x1=x1+1", *(f"x{i}=x{i}+x{i - 1}" for i in range(2, n + 1))]


def iterated_sums(n):
    return loop(names(n), all_at(names(n), 0), turns_of_sums(n))


def iterated_sums_from_anywhere(n):
    return loop([*names(n, "a"), *names(n)], [f"x{i}=a{i}" for i in range(1, n + 1)], turns_of_sums(n))


def power_sums_from_anywhere(n):
    variables = ["b", *names(n, "a"), "n", *names(n, "s")]
    return loop(variables, ["n=b", *(f"s{i}=a{i}" for i in range(1, n + 1))], ["n=n+1", *(f"s{i}=s{i}+n^{i}" for i in range(1, n + 1))])


def sum_of_powers(d):
    return loop(["x", "y"], ["x=0", "y=0"], ["x=x+1", f"y=y+x^{d}"])


def two_sums_of_powers(d):
    return loop(["x", "y", "z"], ["x=0", "y=0", "z=0"], ["x=x+1", f"y=y+x^{d}", f"z=z+x^{d + 1}"])


def branches_of_squares(n):
    return loop([*names(n), "s"], [*all_at(names(n), 0), "s=0"], *([f"s=s+2*{x}+1", f"{x}={x}+1"] for x in names(n)))


def branches_of_cubes(n):
    return loop([*names(n), "s"], [*all_at(names(n), 0), "s=0"], *([f"{x}={x}+1", f"s=s+{x}^3"] for x in names(n)))


def with_eigenvalues(values):
    """A loop that multiplies its state by the matrix P D P^(-1), where P has min(i, j) at i, j, and D the values on its diagonal."""
    n = len(values)
    left = [[min(i, j) + 1 for j in range(n)] for i in range(n)]
    inverse = [[{0: 1 if i == n - 1 else 2, 1: -1}.get(abs(i - j), 0) for j in range(n)] for i in range(n)]
    matrix = [[sum(left[i][k] * values[k] * inverse[k][j] for k in range(n)) for j in range(n)] for i in range(n)]
    rows = (" + ".join(f"({c})*{x}" for c, x in zip(row, names(n)) if c) or "0" for row in matrix)
    return loop(names(n), [f"{x}={sum(row)}" for x, row in zip(names(n), left)], [f"({', '.join(names(n))}) = ({', '.join(rows)})"])


def eigenvalues_of_two(n):
    return with_eigenvalues([2**i for i in range(n)])


def eigenvalues_in_turn(n):
    return with_eigenvalues(list(range(1, n + 1)))


def jordan_block(n):
    rows = ("+".join(names(n)[i:i + 2]) for i in range(n))
    return loop(names(n), [f"{x}={i + 1}" for i, x in enumerate(names(n))], [f"({', '.join(names(n))}) = ({', '.join(rows)})"])


def degree(k):
    return loop(["x", "y"], ["x=1", "y=1"], [f"x={2**k}*x", "y=2*y"])


def digits(k):
    return loop(["a", "s", "t"], [f"a={10**k // 3}", f"s={10**k // 7}", f"t={10**k // 9}"], ["a=a+1", "t=t+2", "s=s+t"])


FAMILIES = {
    "counters": (counters, range(2, 13, 2)),
    "powers of two": (powers_of_two, range(4, 13)),
    "ring of products": (ring_of_products, range(3, 13)),
    "primes with a sum": (primes_with_a_sum, range(1, 12)),
    "iterated sums": (iterated_sums, range(3, 13)),
    "iterated sums from anywhere": (iterated_sums_from_anywhere, range(2, 6)),
    "power sums from anywhere": (power_sums_from_anywhere, range(1, 6)),
    "sum of powers": (sum_of_powers, range(2, 17, 2)),
    "two sums of powers": (two_sums_of_powers, range(1, 10)),
    "branches of squares": (branches_of_squares, range(1, 7)),
    "branches of cubes": (branches_of_cubes, range(1, 7)),
    "eigenvalues of two": (eigenvalues_of_two, range(2, 10)),
    "eigenvalues in turn": (eigenvalues_in_turn, range(2, 11)),
    "jordan block": (jordan_block, range(2, 13)),
    "degree": (degree, (1, 2, 4, 8, 16, 32, 64, 126)),
    "digits": (digits, (1, 2, 4, 8, 16, 24, 30)),
}


# ---- times


def spent(program, text):
    """The processor time in seconds, the status and the answer."""
    with tempfile.NamedTemporaryFile("w", suffix=".loop") as file:
        file.write(text)
        file.flush()
        limit = lambda: resource.setrlimit(resource.RLIMIT_CPU, (LIMIT, LIMIT + 1))
        child = subprocess.Popen([program, "basis", "--budget", BUDGET, file.name], stdout=subprocess.PIPE, stderr=subprocess.DEVNULL, text=True, preexec_fn=limit)
        said = child.stdout.read()
        _, status, usage = os.wait4(child.pid, 0)
    return usage.ru_utime + usage.ru_stime, os.waitstatus_to_exitcode(status), said


def least(program, text):
    """What a loop is answered, and the least of several times."""
    runs = [spent(program, text)]
    while len(runs) < RUNS and runs[0][0] < 1:
        runs.append(spent(program, text))
    return min(runs)


def told(size, taken, status, said):
    """A size with its time, and with the answer's length or what stands in its place."""
    if status < 0:
        return f"{size}: above {LIMIT} s"
    return f"{size}: {max(taken, 0) * 1000:.1f} ms ({f'{len(said)} bytes' if status == 0 else said.strip()})"


def family(program, name, start):
    """Goes through a family, and says how it grows. Whether it is worse than the answer."""
    make, sizes = FAMILIES[name]
    answered = []
    for size in sizes:
        taken, status, said = least(program, make(size))
        print(f"    {told(size, taken - start, status, said)}", flush=True)
        if status != 0:
            break
        answered.append((taken - start, len(said)))
    if len(answered) < 2 or min(answered[-2][0], answered[-1][0]) < CLEAR:
        print("  too quick to say how it grows")
        return False
    (before, short), (after, long) = answered[-2:]
    time, answer = after / before, long / short
    worse = time > max(LEAST, answer * answer)
    print(f"  the last step takes {time:.1f} times as long, its answer is {answer:.1f} times as long{': worse' if worse else ''}", flush=True)
    return worse


def main():
    chosen = sys.argv[1:] or FAMILIES
    program = os.environ.get("INVAR") or next((str(it) for it in PROGRAMS if it.is_file()), None)
    if not program or any(name not in FAMILIES for name in chosen):
        sys.exit(__doc__)
    start = least(program, "vars x; branch { }")[0]
    worse = []
    for name in chosen:
        print(name)
        if family(program, name, start):
            worse.append(name)
    print(f"time grows by more than the square of what the answer does in {', '.join(worse) or 'none'}")


if __name__ == "__main__":
    main()
