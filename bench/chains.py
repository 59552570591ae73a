#!/usr/bin/env python3
"""The bases of loops in sequence beside Singular: the same bases found in another way.

Usage: bench/chains.py rows [CHAINS]      writes a row of crates/acceptance/data/rows.txt for each chain of the file CHAINS
       bench/chains.py compare [CHAINS]   compares the bases with what the program prints
       bench/chains.py times [CHAINS]     times the program beside Singular, and fails where a basis is another

(`compare`, `times`: after .ci/run, or `rt run` in crates/invar and crates/acceptance, has built the programs; needs Singular, Debian package
`singular`, and sympy.)
CHAINS is bench/chains.txt, if it isn't given: a name and a chain's text a line, with a tab between.

What a loop reaches is found forward as `bench/loops.py` finds it, with closed forms of its own: the first loop from the equations of its start, and each
further one from the basis of what the loops before it reach, and of what the code before it makes of that: its image, by elimination of all that was.

For `times` Singular does what the program does, loop by loop, with the closed forms given to it (bench/loops.py), each loop from the basis of the chain
before it; code between two loops by `std` in an order by blocks with copies of the assigned variables first. Its time is the sum over the parts, each
by its own clock for many in one process; the program's is that of `acceptance` on many equal rows.
"""
import os
import pathlib
import subprocess
import sys
import tempfile

import loops
from loop_forms import TOP, Reader, form_of, late_form, loops_in, variable
from loops import HEAD, TAIL, basis_text, list_text, read_singular, singular, singular_forward, singular_poly

CHAINS = TOP / "bench/chains.txt"
PROGRAM = pathlib.Path(os.environ.get("INVAR") or TOP / "crates/invar/out/invar").resolve()


class ChainReader(Reader):
    def chain(self):
        """The variables, the equations of the start, and for each loop the map of the code before it, or None, and the maps of its branches."""
        variables, starts, maps = self.loop()
        loops = [(None, maps)]
        while self.peek() == "then":
            self.take()
            code = self.code(len(variables)) if self.peek() == "do" else None
            loops.append((code, self.branches(len(variables))))
        assert not self.peek(), self.peek()
        return variables, starts, loops

    def code(self, m):
        """The map of the code between two loops."""
        self.take("do")
        self.take("{")
        state = [variable(m, i) for i in range(m)] + [None] * (len(self.names) - m)
        while self.peek() != "}":
            self.statement(state, m)
        self.take("}")
        return state[:m]


def singular_image(names, polys, images):
    """The basis of what a map makes of the common zeros of some polynomials."""
    m = len(names)
    xs = [f"x({i + 1})" for i in range(m)]
    lines = [HEAD, f"ring R = 0,(x(1..{m})),dp; short = 0; int k; int i;", f"ideal G = {list_text(polys, xs)};"]
    lines.append(f"ring E = 0,(x(1..{m}),y(1..{m})),(dp({m}),dp({m})); ideal J = imap(R, G)")
    for i, image in enumerate(images):
        lines.append(f"  , y({i + 1})-({singular_poly(image, xs)})")
    lines.append(f"; J = eliminate(J, {'*'.join(xs)});")
    lines.append(f"ring P = 0,(x(1..{m}),z(1..{m})),dp; map C = E," + ",".join(["0"] * m + xs) + "; ideal K = C(J);")
    lines += ["setring R; G = imap(P, K); G = simplify(std(G), 3);", TAIL]
    return "\n".join(lines) + "\n"


def elements(said, m):
    """The elements of a basis that Singular printed."""
    return [p for line in said.splitlines() if line.startswith("element") for p in [read_singular(line[8:].strip(), m)] if any(p.values())]


def bases_of(text):
    """For each loop its basis as the program prints it; None where a branch has no closed form."""
    names, polys, loops = ChainReader(text).chain()
    bases = []
    for code, maps in loops:
        if code is not None:
            polys = elements(singular(singular_image(names, polys, code)).said, len(names))
        forms = [late_form(images, len(names)) for images in maps]
        if None in forms:
            return None
        said = singular(singular_forward(names, polys, maps, forms)).said
        polys = elements(said, len(names))
        bases.append(basis_text(names, said))
    return bases


def answer(bases):
    """What the program answers to a chain with these bases, its lines joined by `~`."""
    return "0 " + "".join(f"loop {j}:~" + basis.replace("; ", "~") + "~" for j, basis in enumerate(bases, 1))


def printed_for(text):
    """What the program prints for a chain, in the same form."""
    with tempfile.NamedTemporaryFile("w", suffix=".chain") as chain:
        chain.write(text)
        chain.flush()
        ended = subprocess.run([PROGRAM, "chain", chain.name], capture_output=True, text=True)
    return f"{ended.returncode} " + ended.stdout.replace("\n", "~")


def rows(chains):
    for chain in chains:
        found = bases_of(chain.text)
        if found is None:
            print(f"# {chain.name}: no closed form", flush=True)
        else:
            print(f"LOOP\t{chain.text}\ncall\tchain\tLOOP\t{answer(found)}", flush=True)


def compare(chains):
    differ = skipped = 0
    for chain in chains:
        found = bases_of(chain.text)
        if found is None:
            skipped += 1
        elif (mine := printed_for(chain.text)) != answer(found):
            differ += 1
            print(f"{chain.name}: {chain.text}\n   here {answer(found)}\n   program {mine}", flush=True)
    print(f"{len(chains) - differ - skipped} chains agree, {differ} differ, {skipped} have no closed form")
    sys.exit(1 if differ else 0)


# ---- times


def singular_between(names, polys, images, count):
    """What comes through code, by the program's way: so many times over, timed by Singular's own clock."""
    m = len(names)
    changed = [i for i in range(m) if images[i] != variable(m, i)]
    k = len(changed)
    xs = [f"x({i + 1})" for i in range(m)]
    was = [f"c({changed.index(i) + 1})" if i in changed else xs[i] for i in range(m)]
    front = f"c(1..{k})," if k else ""
    lines = [loops.FIRST_SUM, HEAD, f"ring R = 0,(x(1..{m})),dp; short = 0; ideal I0 = {list_text(polys, xs)}; ideal G;"]
    lines.append(f"ring B = 0,({front}x(1..{m})),({f'dp({k}),' if k else ''}dp({m})); short = 0; map F = R,{','.join(was)}; ideal J; ideal K;")
    lines.append('system("--ticks-per-sec", 1000000); int k; int i; int turn; setring R; int begin = timer;')
    lines.append(f"for (turn = 1; turn <= {count}; turn++) {{ setring B; J = F(I0)")
    lines += [f"  , {xs[i]}-({singular_poly(images[i], was)})" for i in changed]
    lines.append(f"; J = std(J); K = 0; for (i = 1; i <= size(J); i++) {{ if (first_sum(leadexp(J[i]), {k}) == 0) {{ K = K, J[i]; }} }}")
    lines += ['setring R; G = imap(B, K); G = simplify(std(G), 3); }', '"ticks", timer - begin;', TAIL]
    return "\n".join(lines) + "\n"


def timed(program_of):
    """Singular's seconds for what the program of a count does so often, and what it said."""
    for count in (1, 10, 100, 1000, 10000):
        said = singular(program_of(count)).said
        ticks = loops.number_of("ticks", said)
        if ticks > loops.SECONDS * 1000000:
            break
    return ticks / 1000000 / count, said


def singular_times(text):
    """Singular's bases, loop by loop, and its seconds for all of them; None where a branch has no closed form."""
    names, polys, parts = ChainReader(text).chain()
    bases, seconds = [], 0
    for code, maps in parts:
        forms = [form_of(images, len(names)) for images in maps]
        if None in forms:
            return None
        if code is not None:
            spent, said = timed(lambda count: singular_between(names, polys, code, count))
            seconds, polys = seconds + spent, elements(said, len(names))
        spent, said = timed(lambda count: loops.singular_backward(names, polys, maps, forms, count))
        seconds, polys = seconds + spent, elements(said, len(names))
        bases.append(basis_text(names, said))
    return bases, seconds


class Chains(loops.Programs):
    command = "chain"

    @staticmethod
    def of_rows(text, count):
        with tempfile.NamedTemporaryFile("w", suffix=".txt") as made:
            made.write(f"LOOP\t{text}\n" + "call\tchain\tLOOP\t\n" * count)
            made.flush()
            return loops.Spent([loops.ACCEPTANCE, "print", made.name]).seconds


def times(chains):
    good, all_ = True, []
    print("| Chain | Loops | Program, computation | Singular, computation | Ratio | Program, process |")
    print("|---|---|---|---|---|---|", flush=True)
    for chain in chains:
        mine = Chains(chain.text)
        if mine.status != 0:
            print(f"{chain.name}: {mine.answer}", flush=True)
            continue
        theirs = singular_times(chain.text)
        if theirs is None:
            print(f"{chain.name}: no closed form", flush=True)
            continue
        bases, seconds = theirs
        if "0 " + mine.answer.replace("; ", "~") + "~" != answer(bases):
            good = False
            print(f"{chain.name}: DIFFERENT\n    program {mine.answer}\n    Singular {answer(bases)}")
        ratio = mine.seconds / seconds
        all_.append(ratio)
        print(f"| {chain.name} | {len(bases)} | {mine.seconds * 1000:.3f} ms | {seconds * 1000:.3f} ms | {ratio:.2f} "
              f"| {mine.process * 1000:.1f} ms |", flush=True)
    print(f"{len(all_)} chains, bases {'equal' if good else 'DIFFERENT'}")
    loops.told("computation to computation", all_)
    sys.exit(0 if good else 1)


def main():
    chains = loops_in(sys.argv[2] if len(sys.argv) > 2 else CHAINS)
    {"rows": rows, "compare": compare, "times": times}[sys.argv[1]](chains)


if __name__ == "__main__":
    main()
