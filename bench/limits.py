#!/usr/bin/env python3
"""Times the built program on inputs as large as it takes, by processor time with the system's, and tells its peak memory.

Usage: bench/limits.py        (after ./invar --prove has built the program)
"""
import itertools
import json
import os
import pathlib
import random
import subprocess
import sys
import tempfile

PROGRAM = pathlib.Path(__file__).resolve().parent.parent / "crates/invar/out/invar"
LOOP_BYTES = 65_536
CERTIFICATE_BYTES = 1_048_576
failed = False


# A process counts the memory of the one that started it, so the program is started by a small one of its own.
START = """
import os, sys
_, status, usage = os.wait4(os.posix_spawn(sys.argv[1], sys.argv[1:], os.environ), 0)
sys.stderr.write(f"{usage.ru_utime + usage.ru_stime} {usage.ru_maxrss}")
sys.exit(os.waitstatus_to_exitcode(status))
"""


def run(words, status, text=""):
    """The processor time in seconds and the peak memory in megabytes of one run, which ends with this status and whose text begins so."""
    done = subprocess.run([sys.executable, "-I", "-S", "-c", START, PROGRAM, *words], capture_output=True)
    if done.returncode != status or not done.stdout.startswith(text.encode()):
        sys.exit(f"{' '.join(map(str, words))[:80]}: status {done.returncode}: {done.stdout[:80]}")
    taken, kilobytes = done.stderr.split()
    return float(taken), float(kilobytes) / 1024


def row(what, words, status, seconds, megabytes=None, runs=5, text=""):
    global failed
    taken, memory = min(run(words, status, text) for _ in range(runs))
    goal = f"below {seconds * 1000:.0f} ms" + (f" and {megabytes} MB" if megabytes else "")
    good = taken < seconds and (megabytes is None or memory < megabytes)
    failed |= not good
    print(f"{what}: {taken * 1000:.1f} ms, {memory:.1f} MB (goal: {goal}){'' if good else ' MISSED'}")


def long_loop(size):
    """A loop text of this many bytes: long names, comments, and parentheses nested up to the limit."""
    names = [f"a_long_name_with_the_number_{i}" for i in range(12)]
    nested = "(" * 63 + names[0] + "+1" + ")" * 63
    text = f"vars {', '.join(names)};\nbranch {{\n"
    statement = f"  # a comment about the statement that follows\n  {names[1]} = {nested} - {names[2]}*{names[3]} + 7/2*{names[4]};\n"
    count = min(64, max(1, (size - len(text)) // (len(statement) * 2)))
    text += statement * count
    sums = " + ".join(itertools.repeat(names[5], 1000))
    while len(text) + len(sums) + 60 < size and count < 64:
        text += f"  {names[6]} = {sums};\n"
        count += 1
    text += "}\n"
    return text + "#" * (size - len(text))


def monomials(names):
    """Monomials of up to three of the names, with exponents below 100, and powers of each name up to the greatest exponent."""
    power = lambda name, e: name if e == 1 else f"{name}^{e}"
    for count in (1, 2, 3):
        for chosen in itertools.combinations(names, count):
            for exponents in itertools.product(range(1, 100 if count < 3 else 10), repeat=count):
                yield "*".join(map(power, chosen, exponents))
    yield from (f"{name}^{e}" for name in names for e in range(100, 65_536))


def large_certificate(size):
    """One polynomial in 8 variables, with as many terms as fit, and its cofactor 1 for the branch that leaves all as they are."""
    names = list("abcdefgh")
    head, tail = '{"basis":["', '"],"steps":[[["1"]]],"vars":["' + '","'.join(names) + '"],"version":1}'
    terms, length = [], len(head) + len(tail)
    for term in sorted(monomials(names), key=len):
        if length + len(term) + 1 > size:
            break
        terms.append(term)
        length += len(term) + 1
    return head + "+".join(terms) + tail, len(terms)


def certificate(variables, basis, steps):
    """The text of a certificate with these polynomials and, branch by branch, rows of cofactors."""
    return json.dumps({"basis": basis, "steps": steps, "vars": variables, "version": 1})


NAMES = "abcdefghijkl"
SUM_OF_TWELVE = "+".join(NAMES)
# Each of 12 variables becomes the sum of all, so that a product of their squares would have 1,352,078 terms.
TWELVE_SUMS = ("vars a, b, c, d, e, f, g, h, i, j, k, l; init a=0; branch { "
               f"(a, b, c, d, e, f, g, h, i, j, k, l) = ({', '.join([SUM_OF_TWELVE] * 12)}); }}")
TWELVE_SQUARES = certificate(list("abcdefghijkl"), ["*".join(f"{name}^2" for name in "abcdefghijkl")], [[["1"]]])


def random_exponents(terms, seed):
    """This many lists of three large exponents, in ascending order."""
    random.seed(seed)
    return sorted({tuple(random.randrange(1, 30_000) for _ in range(3)) for _ in range(terms)})


def random_sum(terms, seed):
    """A sum of this many terms in three variables with large exponents, each of them a multiple of x."""
    return "+".join(f"x^{a}*y^{b}*z^{c}" for a, b, c in random_exponents(terms, seed))


def long_product():
    """A certificate whose one identity has a product of two sums of 3,000 terms."""
    return certificate(list("xyz"), [random_sum(3000, 1)], [[[random_sum(3000, 2)]]])


def cancelling_products(branches, terms, cofactor_terms):
    """A valid certificate of the elements 0, p and p, where 0 is a cofactor times p less the same, for branches that leave all as they are."""
    names = list("xabc")
    long = "+".join(f"x*{term}" for term in itertools.islice(monomials(names[1:]), terms))
    cofactor = "+".join(f"x^{exponent}" for exponent in range(2, cofactor_terms + 2))
    opposite = "-" + cofactor.replace("+", "-")
    return certificate(names, ["0", long, long], [[["0", cofactor, opposite], ["0", "1", "0"], ["0", "0", "1"]]] * branches)


def full_certificate(names, polys, out, links):
    """The text of a full certificate without elements, of a branch whose form has these polynomials, with this start and no rounds."""
    return json.dumps({"version": 1, "kind": "full", "vars": names, "basis": [], "steps": [[]], "forms": [{"base": [], "polys": polys}],
                       "start": {"out": out, "links": links}, "rounds": []}, separators=(",", ":"))


def unit(place, variables):
    """The exponents of one variable."""
    return [int(other == place) for other in range(variables)]


def still(count):
    """The form of a branch that leaves its variables as they are, over n, s and the variables."""
    return [[["1", unit(place + 2, count + 2)]] for place in range(count)]


def long_form():
    """A form whose first polynomial has twelve terms, for a branch that raises the first variable to the sixteenth power."""
    drift = [["1", [1, 0] + unit(place, 12)] for place in range(1, 12)]
    return full_certificate(list(NAMES), [still(12)[0] + drift] + still(12)[1:], [], [])


def long_form_later():
    """A form of 11,000 terms with n^99, each of which is a hundred at n + 1."""
    drift = [["1", [99, 0, exponent]] for exponent in range(1, 11_000)]
    return full_certificate(["a"], [still(1)[0] + drift], [], [])


def long_start():
    """A start of one equation whose two parts have 3,000 terms each."""
    out, link = ([["1", exponents] for exponents in random_exponents(3000, seed)] for seed in (1, 2))
    return full_certificate(list("xyz"), still(3), [out], [[link]])


# Loops whose analysis takes more steps than the usual budget: none of their numbers is too wide before.
LONG_ANALYSES = {
    "a product by six branches": "vars a, b, x, y, p, q; init x=a, y=b, p=1, q=0; branch { x=x/2; y=y/2; p=4*p; } branch { x=x-1; q=q+y*p; } branch { y=y-1; q=q+x*p; } "
    "branch { (x, y, q) = (x-1, y-1, q+(x+y-1)*p); } branch { x=x/2; p=2*p; } branch { y=y/2; p=2*p; }",
    "shears of two matrices": "vars a, b, c, d, e, f, g, h; init a=1, b=0, c=0, d=1, e=1, f=0, g=0, h=1; branch { a=a+c; b=b+d; e=e+f; } branch { c=c+a; d=d+b; } "
    "branch { e=e+g; f=f+h; } branch { g=g+e; h=h+f; }",
    "shears of three rows": "vars a, b, c, d, e, f, g, h, i; init a=1, b=0, c=0, d=0, e=1, f=0, g=0, h=0, i=1; branch { a=a+d; b=b+e; c=c+f; } "
    "branch { d=d+g; e=e+h; f=f+i; } branch { g=g+a; h=h+b; i=i+c; }",
}

# Sums of seven variables, whose sixth powers have 924 terms each, and are composed with one another.
SIXTH_POWERS = "vars a, b, c, d, e, f, g, h, p, q, r; init p=0, q=0, r=0; branch { p=p+(b+c+d+e+f+g+h)^6; q=q+(a+c+d+e+f+g+h)^6; r=r+(a+b+d+e+f+g+h)^6; }"

# A sum of eleven variables in a power: a twelfth has 646,646 terms, a thirteenth over a million.
ELEVEN_SUMS = "vars a, b, c, d, e, f, g, h, i, j, k, x; init x=a^{power}; branch {{ a=a+b+c+d+e+f+g+h+i+j+k; }}"
SEVEN_IN_TURN = "vars a, b, c, d, e, f, g, x; init x=a^8; branch { a=a+b; b=b+c; c=c+d; d=d+e; e=e+f; f=f+g; }"

# Each of twelve variables but the last becomes the cube of the sum of those behind it: its third turn has millions of terms.
SUMS_OF_CUBES = ("vars a, b, c, d, e, f, g, h, i, j, k, l; branch { "
                 + " ".join(f"{name}=({'+'.join(NAMES[place + 1:])})^3;" for place, name in enumerate(NAMES[:-1])) + " }")


# Exchanges of two of six variables, and a product of 2,002 terms that is 0 at each start: each of 1,555 words has to be composed.
EXCHANGES = "vars a, b, c, d, e, f, x; init x=0; " + " ".join(f"branch {{ ({one}, {other}) = ({other}, {one}); }}" for one, other in ("ab", "bc", "cd", "de", "ef", "af"))
LONG_PRODUCT = "x*(a+b+c+d+e+f)^9 = 0"

# Each word of fewer than six letters has 2,002 terms, each of which a letter makes one term, and the start none; each that is kept costs 8.
# So the empty word costs 2,002 * 8, each further one 2,002 * 9, and the 3,724th of them passes 2^26.
STOPS_EXCHANGES = "limit: words up to 2 5 1 2 4\n"

# Six linear maps of six variables, in each of which every variable becomes the sum or difference of all, and a product of 1,716 terms that is 0
# at each start.
DENSE_MAPS = "vars a, b, c, d, e, f, x; init x=0; " + " ".join(
    "branch { (a, b, c, d, e, f) = ("
    + ", ".join("".join(("-" if (place * branch) >> bit & 1 else "+") + name for bit, name in enumerate("abcdef")).lstrip("+") for place in range(6)) + "); }"
    for branch in (1, 3, 5, 7, 9, 11))
DENSE_PRODUCT = "x*(a+b+c+d+e+f+1)^7 = 0"


def main():
    with tempfile.TemporaryDirectory() as folder:
        os.chdir(folder)
        twelve = ",".join(["1"] * 12)
        for size in (LOOP_BYTES // 4, LOOP_BYTES // 2, LOOP_BYTES):
            pathlib.Path("long.loop").write_text(long_loop(size))
            row(f"reading a loop of {size} bytes", ["run", "long.loop", "", twelve], 0, 0.02)
        pathlib.Path("same.loop").write_text("vars a, b, c, d, e, f, g, h; branch { }")
        text, terms = large_certificate(CERTIFICATE_BYTES)
        pathlib.Path("large.json").write_text(text)
        # The polynomial isn't zero at every start, so the answer is a no, after the composition with the start map.
        row(f"check of one polynomial with {terms} terms in {len(text)} bytes", ["check", "same.loop", "large.json"], 1, 1, 100)
        for what, loop, text, status, seconds, megabytes in (
                ("twelve squares, each of a sum of twelve", TWELVE_SUMS, TWELVE_SQUARES, 3, 1, 50),
                ("a product of two sums of 3,000 terms", "vars x, y, z; init x=0; branch { }", long_product(), 3, 1, 50),
                ("products as long as they may be, at six branches", "vars x, a, b, c; init x=0;" + " branch { }" * 6, cancelling_products(6, 30_000, 14), 0, 60, 1000)):
            pathlib.Path("some.loop").write_text(loop)
            pathlib.Path("some.json").write_text(text)
            row(f"check of {what}, in {len(text)} bytes", ["check", "some.loop", "some.json"], status, seconds, megabytes, 1)
        for what, loop, text in (
                ("a form of twelve terms in a sixteenth power", f"vars {', '.join(NAMES)}; branch {{ a=a^12*a^4; }}", long_form()),
                ("a form of 11,000 terms with n^99", "vars a; branch { }", long_form_later()),
                ("a start whose two parts have 3,000 terms", "vars x, y, z; init x=0; branch { }", long_start())):
            pathlib.Path("some.loop").write_text(loop)
            pathlib.Path("some.json").write_text(text)
            row(f"checkfull of {what}, in {len(text)} bytes", ["checkfull", "some.loop", "some.json"], 3, 1, 100, 1)
        pathlib.Path("turns.loop").write_text(
            "vars a, b, c, d, e, f, g, h, i, j, k, l; branch { a=a+1; b=b+a; c=c+b; d=d+c; e=e+2*a; f=f-e; g=g+1/2; h=h+a*b; i=i+g; j=j-a; k=k+3*e; l=l+2; }")
        row("run of 4096 letters over 12 variables", ["run", "turns.loop", ",".join(["1"] * 4096), twelve], 0, 0.5)
        pathlib.Path("exchanges.loop").write_text(EXCHANGES)
        row("counter of six exchanges up to four letters, 2,002 terms a word", ["counter", "--length", "4", "exchanges.loop", LONG_PRODUCT], 0, 10, 100, 1)
        row("the same up to six letters, which costs too much", ["counter", "--length", "6", "exchanges.loop", LONG_PRODUCT], 3, 60, 1000, 1, STOPS_EXCHANGES)
        pathlib.Path("dense.loop").write_text(DENSE_MAPS)
        row("counter of six dense linear maps up to six letters, 1,716 terms a word", ["counter", "--length", "6", "dense.loop", DENSE_PRODUCT], 3, 60, 1000, 1, "limit: words up to 4 2 1\n")
        for name, text in LONG_ANALYSES.items():
            pathlib.Path("long.loop").write_text(text)
            row(f"basis of {name}, up to the usual budget", ["basis", "long.loop"], 5, 60, 100, 1)
        pathlib.Path("long.loop").write_text(SUMS_OF_CUBES)
        row("basis of sums of cubes, eleven behind one another", ["basis", "long.loop"], 3, 0.5, 50)
        for what, text, status, seconds, megabytes in (
                ("a sum of eleven variables in a twelfth power", ELEVEN_SUMS.format(power=12), 0, 60, 300),
                ("one in a thirteenth power, a task that is too long", ELEVEN_SUMS.format(power=13), 3, 0.5, 50),
                ("seven variables in turn, a task that is too long", SEVEN_IN_TURN, 3, 0.5, 50)):
            pathlib.Path("long.loop").write_text(text)
            row(f"basis of {what}", ["basis", "long.loop"], status, seconds, megabytes, 1)
        pathlib.Path("long.loop").write_text(SIXTH_POWERS)
        row("basis of three sums of sixth powers of seven variables, whose closing test is too long", ["basis", "long.loop"], 3, 60, 200, 1)
    sys.exit(1 if failed else 0)


if __name__ == "__main__":
    main()
