#!/usr/bin/env python3
"""Full certificates, made and judged beside the program.

Usage: bench/full_certificates.py make FILE          prints a full certificate of the loop in a file
       bench/full_certificates.py judge FILE CERT    judges one
       bench/full_certificates.py mutate [COUNT]     changes certificates at random, 5,000 of them, and compares what `checkfull` answers
       bench/full_certificates.py times              times `checkfull` beside `basis`, and on a certificate of nearly 16 MB
       bench/full_certificates.py full [LOOPS]       runs `full` on each loop of a file, and on what it writes `checkfull` and examples/checkfull.py
       bench/full_certificates.py judges [COUNT]     changes what `full` writes at random, 1,000 times, and compares what these two answer

(after .ci/run, or `rt run` in crates/invar, has built the program, or with INVAR for another one; needs sympy.) Loops are those of
bench/loops.txt. Closed forms are found by bench/loop_forms.py, from first states. Fractions are Python's own, polynomials dictionaries, and
what is judged is read here by the rules of docs/FORMATS.md. Where `complete` is answered, the polynomials must also generate what those of the
certificate that was changed do. What is wide to the program isn't here: then the parts before must hold.
"""
import json
import os
import pathlib
import random
import signal
import subprocess
import sys
import tempfile

import loop_forms as forms
from full_judging import MOST, MOST_BYTES, Judge, parts
from full_making import completed, grevlex, made, reduced, written

PROGRAM = pathlib.Path(os.environ.get("INVAR") or forms.TOP / "crates/invar/out/invar").resolve()
SECONDS, MEGABYTES = 10, 1536


# ---- certificates changed


def places(value, path=()):
    yield path
    children = value.items() if isinstance(value, dict) else enumerate(value) if isinstance(value, list) else ()
    for k, v in children:
        yield from places(v, (*path, k))


def at(value, path):
    for k in path:
        value = value[k]
    return value


NUMBERS = ["0", "1", "-1", "2", "1/2", "-0", "3/0", "01", "1/", "x", "", "-", "2/4", str(MOST), str(MOST + 1), f"1/{MOST}", "+1", "1.0"]
VALUES = [None, True, 0, 1, -1, 2, 65535, 65536, 0.5, "1", "", [], {}, [[]], [["1", []]]]


def changed_value(value, chance):
    """The value with one change somewhere."""
    value = json.loads(json.dumps(value))
    every = list(places(value))
    for _ in range(chance.choice((1, 1, 1, 2, 3))):
        path = chance.choice([p for p in every if p])
        try:
            above, key, old = at(value, path[:-1]), path[-1], at(value, path)
            kind = chance.randrange(10)
            if isinstance(old, int) and not isinstance(old, bool) and kind < 8:
                above[key] = old + chance.choice((-1, 1, 1, 2))
            elif isinstance(old, str) and kind < 8:
                above[key] = chance.choice(NUMBERS)
            elif isinstance(old, list) and old and kind < 3:
                del old[chance.randrange(len(old))]
            elif isinstance(old, list) and old and kind < 5:
                old.insert(chance.randrange(len(old) + 1), json.loads(json.dumps(chance.choice(old))))
            elif isinstance(old, list) and len(old) > 1 and kind < 7:
                i, j = chance.sample(range(len(old)), 2)
                old[i], old[j] = old[j], old[i]
            elif isinstance(above, dict) and kind == 7:
                del above[key]
            elif kind == 8:
                above[key] = json.loads(json.dumps(at(value, chance.choice(every))))
            else:
                above[key] = chance.choice(VALUES)
        except (KeyError, IndexError, TypeError):
            continue
    return written(value)


def is_raw(value):
    return isinstance(value, list) and value and all(isinstance(t, list) and len(t) == 2 and isinstance(t[0], str) and isinstance(t[1], list) for t in value)


def changed_terms(value, chance):
    """The value with a polynomial changed into another one, or exchanged with one beside it."""
    value = json.loads(json.dumps(value))
    path = chance.choice([p for p in places(value) if p and is_raw(at(value, p))])
    row, i, p = at(value, path[:-1]), path[-1], at(value, path)
    term = chance.choice(p)
    kind = chance.randrange(6)
    if kind == 0:
        term[0] = chance.choice(("1", "2", "-1", "1/2", "3", "-2/3", f"{MOST}", f"1/{MOST}"))
    elif kind == 1 and term[1]:
        j = chance.randrange(len(term[1]))
        term[1][j] = abs(term[1][j] + chance.choice((-1, 1)))
    elif kind == 2:
        p.remove(term)
    elif kind == 3:
        p.append([chance.choice(("1", "-1", "2/3")), [chance.randrange(3) for _ in term[1]]])
    elif kind == 4:
        j = chance.randrange(len(row))
        row[i], row[j] = row[j], row[i]
    else:
        row[i] = []
    return written(value)


def changed_bytes(data, chance):
    data = bytearray(data)
    for _ in range(chance.choice((1, 1, 2))):
        i = chance.randrange(len(data))
        kind = chance.randrange(4)
        if kind == 0:
            data[i] = chance.randrange(256)
        elif kind == 1:
            data[i] = chance.choice(b'0123456789-/[]{}",: ')
        elif kind == 2:
            del data[i : i + chance.randrange(1, 9)]
        else:
            j = chance.randrange(len(data))
            data[i:i] = data[j : j + chance.randrange(1, 20)]
    return bytes(data)


def same_ideal(c, gs, m):
    mine = reduced(completed(c["basis"], grevlex), grevlex)
    return sorted(map(sorted, (p.items() for p in mine))) == sorted(map(sorted, (p.items() for p in gs)))


def answer(loop, cert):
    run = subprocess.run([PROGRAM, "checkfull", loop, cert], capture_output=True)
    return run.returncode, run.stdout.decode()


STATUSES = {"complete": 0, "fails": 1, "certificate": 3, "wide": 4}


def agrees(judge, data, status, said, gs):
    wanted, c = judge.verdict(data)
    word = said.split(":")[0].strip()
    if STATUSES.get(word) != status or not said.endswith("\n"):
        return False, wanted
    if word == "wide":
        path = said.removeprefix("wide: ").strip()
        before = [holds for _, holds in before_part(judge, c, path)] if c else [False]
        return all(before), wanted
    if word == "complete" and not same_ideal(c, gs, len(judge.names)):
        return False, "another ideal"
    return said == wanted + "\n", wanted


def before_part(judge, c, path):
    for here, holds in parts(c, judge.starts, judge.maps, len(judge.names)):
        if here == path:
            return
        yield here, holds


def mutate(count):
    chance = random.Random(1)
    loops = []
    for loop in forms.loops_in(forms.LOOPS):
        full = made_within(loop.text)
        if full is not None and len(written(full[0])) < 30_000:
            loops.append((loop, *full))
        if len(loops) == 40:
            break
    differ, said_so = 0, {}
    with tempfile.TemporaryDirectory() as folder:
        text, cert = pathlib.Path(folder, "LOOP"), pathlib.Path(folder, "CERT")
        for turn in range(count):
            loop, certificate, gs = loops[turn % len(loops)]
            data = written(certificate)
            if turn >= len(loops):
                change = chance.choices((changed_terms, changed_value, changed_bytes), (6, 3, 1))[0]
                data = change(data if change is changed_bytes else certificate, chance)
            text.write_text(loop.text)
            cert.write_bytes(data)
            status, said = answer(text, cert)
            same, wanted = agrees(Judge(loop.text), data, status, said, gs)
            said_so[said.split(":")[0].strip()] = said_so.get(said.split(":")[0].strip(), 0) + 1
            if not same:
                differ += 1
                pathlib.Path(tempfile.gettempdir(), f"differs-{differ}.json").write_bytes(data)
                print(f"{loop.name}: {loop.text}\n   program {status} {said!r}\n   here {wanted}", flush=True)
    print(f"{count} certificates: {', '.join(f'{n} {word}' for word, n in sorted(said_so.items()))}; {differ} answers differ")
    return differ


def made_within(text, seconds=20):
    """A certificate that is made in so many seconds."""
    def late(*_):
        raise TimeoutError

    signal.signal(signal.SIGALRM, late)
    signal.alarm(seconds)
    try:
        return made(text)
    except TimeoutError:
        return None
    finally:
        signal.alarm(0)


# ---- times


def spent(words):
    """The processor time of a call, and its peak in MB."""
    process = subprocess.Popen([PROGRAM, *words], stdout=subprocess.PIPE)
    said = process.stdout.read().decode()
    _, status, usage = os.wait4(process.pid, 0)
    process.returncode = status
    return usage.ru_utime + usage.ru_stime, usage.ru_maxrss / 1024, said


def least(words, turns):
    return min(spent(words)[0] for _ in range(turns))


def times():
    missed, ratios = 0, []
    with tempfile.TemporaryDirectory() as folder:
        text, cert = pathlib.Path(folder, "LOOP"), pathlib.Path(folder, "CERT")
        largest = None
        for loop in forms.loops_in(forms.LOOPS):
            full = made_within(loop.text)
            if full is None:
                continue
            data = written(full[0])
            text.write_text(loop.text)
            cert.write_bytes(data)
            if spent(["basis", text])[2].startswith(("budget", "wide", "round")):
                continue
            mine, basis = least(["checkfull", text, cert], 5), least(["basis", text], 5)
            said = spent(["checkfull", text, cert])[2].strip()
            missed += not said.startswith(("complete", "wide"))
            ratios.append(mine / basis)
            print(f"{loop.name}: {len(data)} bytes, {said}, checkfull {mine * 1000:.1f} ms, basis {basis * 1000:.1f} ms", flush=True)
            if full[0]["rounds"] and (largest is None or len(data) > largest[2]):
                largest = (loop, full[0], len(data))
        print(f"{sum(r <= 2 for r in ratios)} of {len(ratios)} take at most twice the time of basis; the median is {sorted(ratios)[len(ratios) // 2]:.1f} times")
        loop = largest[0]
        full, _ = made(loop.text, one_more=True)
        more = full["rounds"][-1]
        room = MOST_BYTES - len(written(full))
        full["rounds"] += [more] * (room // (len(written(more)) + 1))
        text.write_text(loop.text)
        cert.write_bytes(written(full))
        seconds, peak, said = spent(["checkfull", text, cert])
        missed += said.strip() != "complete" or seconds > SECONDS or peak > MEGABYTES
        print(f"{loop.name} with {len(full['rounds'])} rounds: {len(written(full))} bytes, {said.strip()}, {seconds:.2f} s, {peak:.0f} MB")
    return missed


# ---- what `full` writes


def judged_by_python(text, cert):
    run = subprocess.run([sys.executable, forms.TOP / "examples/checkfull.py", text, cert], capture_output=True)
    return run.stdout.decode().strip()


def full(file):
    """What `full` writes for each loop, judged twice; a table of sizes and times."""
    missed, said_so, sizes = 0, {}, []
    print("| Loop | `full` | Bytes | Time of `full` | `checkfull` | Time | In Python |")
    print("|---|---|---|---|---|---|---|")
    with tempfile.TemporaryDirectory() as folder:
        text, cert = pathlib.Path(folder, "LOOP"), pathlib.Path(folder, "CERT")
        for loop in forms.loops_in(file):
            text.write_text(loop.text)
            seconds, _, said = spent(["full", text])
            if not said.startswith("{"):
                word = "begins late" if said.strip().endswith("begins late") else said.split(":")[0].strip()
                said_so[word] = said_so.get(word, 0) + 1
                print(f"| {loop.name} | {said.strip()} | | {seconds * 1000:.1f} ms | | | |", flush=True)
                continue
            cert.write_text(said)
            judge_seconds, _, told = spent(["checkfull", text, cert])
            other = judged_by_python(text, cert)
            missed += told.strip() != "complete" or other != "complete"
            said_so["written"] = said_so.get("written", 0) + 1
            sizes.append(len(said))
            print(
                f"| {loop.name} | written | {len(said):,} | {seconds * 1000:.1f} ms | {told.strip()} | {judge_seconds * 1000:.1f} ms | {other} |",
                flush=True,
            )
    print(f"{', '.join(f'{n} {word}' for word, n in sorted(said_so.items()))}; {missed} of what is written isn't complete to both")
    if sizes:
        print(f"{sum(sizes):,} bytes, the median {sorted(sizes)[len(sizes) // 2]:,}, the largest {max(sizes):,}")
    return missed


def judges(count):
    """What both judges say of certificates that `full` wrote, changed at random."""
    chance = random.Random(2)
    differ, said_so = 0, {}
    with tempfile.TemporaryDirectory() as folder:
        text, cert = pathlib.Path(folder, "LOOP"), pathlib.Path(folder, "CERT")
        written_ones = []
        for loop in forms.loops_in(forms.LOOPS):
            text.write_text(loop.text)
            said = spent(["full", text])[2]
            if said.startswith("{") and len(said) < 30_000:
                written_ones.append((loop, json.loads(said)))
        for turn in range(count):
            loop, certificate = written_ones[turn % len(written_ones)]
            data = written(certificate)
            change = chance.choices((changed_terms, changed_value, changed_bytes), (6, 3, 1))[0]
            data = change(data if change is changed_bytes else certificate, chance)
            text.write_text(loop.text)
            cert.write_bytes(data)
            said, other = answer(text, cert)[1].strip(), judged_by_python(text, cert)
            word = said.split(":")[0]
            said_so[word] = said_so.get(word, 0) + 1
            if said != other and word != "wide":
                differ += 1
                pathlib.Path(tempfile.gettempdir(), f"judges-{differ}.json").write_bytes(data)
                print(f"{loop.name}: {loop.text}\n   program {said!r}\n   in Python {other!r}", flush=True)
    print(f"{count} certificates: {', '.join(f'{n} {word}' for word, n in sorted(said_so.items()))}; {differ} answers differ")
    return differ


def main():
    what, words = sys.argv[1], sys.argv[2:]
    if what == "make":
        sys.stdout.buffer.write(written(made(pathlib.Path(words[0]).read_text())[0]) + b"\n")
    elif what == "judge":
        print(Judge(pathlib.Path(words[0]).read_text()).verdict(pathlib.Path(words[1]).read_bytes())[0])
    elif what == "mutate":
        sys.exit(1 if mutate(int(words[0]) if words else 5000) else 0)
    elif what == "judges":
        sys.exit(1 if judges(int(words[0]) if words else 1000) else 0)
    elif what == "full":
        sys.exit(1 if full(words[0] if words else forms.LOOPS) else 0)
    else:
        sys.exit(1 if times() else 0)


if __name__ == "__main__":
    main()
