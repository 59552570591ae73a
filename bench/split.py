#!/usr/bin/env python3
"""Times `split` on 200 matrices of 2 to 12 rows beside sympy, and sees that both find the same eigenvalues.

Usage: bench/split.py [COUNT]     (after .ci/run, or `rt run` in crates/computation_rows, has built the program; needs sympy)

Each matrix has whole eigenvalues, some of them more than once and with forms that are no eigenvectors, every third has the eigenvalue 0, and most
have a greatest column sum of at least three quarters of the limit. Values ascend, but those that are 0 stand last. The program runs each matrix several times over; what it takes to start is taken off. sympy's
`eigenvals` and `jordan_form` run each once. All times are processor time, the system's included.
"""
import collections
import os
import pathlib
import random
import re
import subprocess
import sys
import tempfile
import time

import sympy

PROGRAM = pathlib.Path(os.environ.get("COMPUTATION_ROWS") or pathlib.Path(__file__).resolve().parent.parent / "crates/computation_rows/out/computation_rows").resolve()
TIMES = 5
SIZES = range(2, 13)


def limit(size):
    return 4096 if size <= 8 else 512


def column_sum(rows):
    return max(sum(abs(row[j]) for row in rows) for j in range(len(rows)))


def conjugate(rows, times):
    """Adds a multiple of a row to another and takes the same multiple of the one column from the other, some times over."""
    size = len(rows)
    for _ in range(times):
        i, j = random.sample(range(size), 2)
        sign = random.choice([1, -1])
        for k in range(size):
            rows[i][k] += sign * rows[j][k]
        for k in range(size):
            rows[k][j] -= sign * rows[k][i]
    return rows


def matrix(size):
    while True:
        top = random.choice([limit(size) // 2, limit(size) // 4, 20, 5])
        values = [random.choice([-1, 1]) * random.randint(1, top) for _ in range(size)]
        if random.random() < 1 / 3:
            values[random.randrange(size)] = 0
        for i in range(size - 1):
            if random.random() < 0.4:
                values[i + 1] = values[i]
        rows = [[values[i] if i == j else 0 for j in range(size)] for i in range(size)]
        for i in range(size - 1):
            if values[i] == values[i + 1] and random.random() < 0.7:
                rows[i][i + 1] = 1
        rows = conjugate(rows, random.randint(0, size))
        if limit(size) * 3 // 4 <= column_sum(rows) <= limit(size) or (random.random() < 0.1 and column_sum(rows) <= limit(size)):
            return rows, collections.Counter(values)


def row(rows):
    return "split\t" + ";".join(",".join(map(str, numbers)) for numbers in rows) + "\t?\n"


def run(lines):
    """The processor time in seconds and the answers of one run on these lines."""
    with tempfile.TemporaryDirectory() as folder:
        pathlib.Path(folder, "rows.txt").write_text("".join(lines))
        child = subprocess.Popen([PROGRAM], stdout=subprocess.PIPE, text=True, cwd=folder)
        said = child.stdout.read()
        _, _, usage = os.wait4(child.pid, 0)
    answers = re.findall(r"^    answers (.*)$", said, re.MULTILINE)
    assert len(answers) == len(lines), said
    return usage.ru_utime + usage.ru_stime, answers


def of_program(rows, values, start):
    """The seconds of processor time of one `split`, whose values are the eigenvalues with their multiplicities, or which is too wide."""
    taken, answers = run([row(rows)] * TIMES)
    found = [int(value) for value in re.findall(r" with (-?\d+)", answers[0])]
    wide = answers[0].startswith("wide")
    assert wide or collections.Counter(found) == values, (rows, answers[0])
    assert found == sorted(found, key=lambda value: (value == 0, value)), (rows, answers[0])
    return max(0, taken - start) / TIMES, wide


def of_sympy(rows, values):
    """The seconds of processor time of `eigenvals` and of `jordan_form`."""
    start = time.process_time()
    found = sympy.Matrix(rows).eigenvals()
    between = time.process_time()
    sympy.Matrix(rows).jordan_form()
    end = time.process_time()
    assert found == dict(values), rows
    return between - start, end - between


def main():
    random.seed(7)
    of_sympy([[1, 1], [0, 2]], {1: 1, 2: 1})  # what the first call loads is not counted
    count = int(sys.argv[1]) if len(sys.argv) > 1 else 200
    start = min(run([])[0] for _ in range(9))
    print("size  matrices  wide  mean ms  most ms  eigenvals ms  jordan_form ms")
    for place, size in enumerate(SIZES):
        each = count // len(SIZES) + (place < count % len(SIZES))
        matrices = [matrix(size) for _ in range(each)]
        times = [of_program(rows, values, start) for rows, values in matrices]
        seconds = [taken for taken, _ in times]
        eigenvals, jordan_form = (1000 * sum(taken) / each for taken in zip(*(of_sympy(rows, values) for rows, values in matrices)))
        print(f"{size:4}  {each:8}  {sum(wide for _, wide in times):4}  {1000 * sum(seconds) / each:7.2f}  {1000 * max(seconds):7.2f}  {eigenvals:12.0f}  {jordan_form:14.0f}", flush=True)


if __name__ == "__main__":
    main()
