#!/usr/bin/env python3
"""The journal of each loop's analysis, by the rules as docs/DEFINITIONS.md has them, compared with what the program counts and answers.

Usage: bench/journals.py [LOOPS] [BUDGET]   (after .ci/run, or `rt run` in crates/acceptance, has built the program; needs sympy)
       bench/journals.py answers [LOOPS]    what the program counts and answers, a line for each loop, to be compared with what another program does
       bench/journals.py tasks [LOOPS]      (without the program)
       bench/journals.py rows [LOOPS]       writes rows of crates/acceptance/data/loops.txt with units (without the program)

LOOPS is bench/loops.txt, if it isn't given. Closed forms are those of bench/loop_forms.py, over the coarsest coprime base; ideals are computed
by bench/ideal_rows.py, event by event. Units and answers are compared, of what is too wide only that it is. Loops of more than 5,000 units, which
would take an hour here, are left out. `tasks` tells for each loop from which number of turns on the form of each branch is, and which variables
pass, the units of each task, those of the closing tests summed, and the answer.
"""
import sys

import ideal_rows
import loop_forms as forms

MOST_UNITS = 5000


def normal(p, r):
    out = {}
    for e, c in p.items():
        e = list(e)
        e[1] %= 2
        for j in range(r):
            both = min(e[2 + j], e[2 + r + j])
            e[2 + j] -= both
            e[2 + r + j] -= both
        out[tuple(e)] = out.get(tuple(e), 0) + c
    return {e: c for e, c in out.items() if c}


class Analysis:
    def __init__(self, text, budget):
        self.names, self.starts, self.maps = forms.Reader(text).loop()
        self.m = len(self.names)
        self.meter = ideal_rows.Meter(budget)
        self.forms = [forms.form_of(images, self.m) for images in self.maps]

    def ideals(self, order):
        return ideal_rows.Ideals(ideal_rows.Fractions, ideal_rows.rank(order), self.meter)

    def begin(self, task, unit=False):
        self.task = task
        self.meter.note("Round" if unit else "Begin", f"Begin {task}")

    def reduced(self, order, gens, front):
        elements = self.ideals(order).complete(gens)
        kept = [{e[front:]: c for e, c in p.items()} for p in elements if all(not any(e[:front]) for e in p)]
        return self.ideals("grevlex").tidy(kept)

    def closed(self, k, gs):
        for b, images in enumerate(self.maps):
            for i, g in enumerate(gs):
                self.begin(f"Closed {k} {b + 1} {i + 1}")
                _, rest = self.ideals("grevlex").divide(forms.composed(g, images, self.m), gs)
                if rest:
                    return False
        return True

    def orbit(self, k, b, gs):
        """What is a member after each number of turns from that on at which the branch begins."""
        self.begin(f"Orbit {k} {b + 1}")
        form = self.forms[b]
        r, copies = len(form.base), [i for i, passes in enumerate(form.passes) if passes]
        front = 2 + 2 * r + len(copies)
        width = front + self.m

        def wide(p):
            return {e[:2 + 2 * r] + (0,) * len(copies) + e[2 + 2 * r:]: c for e, c in p.items()}

        was = [wide(p) for p in form.backward]
        for place, i in enumerate(copies):
            was[i] = forms.variable(width, 2 + 2 * r + place)
        gens = [normal(forms.composed(g, was, width), r) for g in gs]
        if copies:
            before = [forms.variable(width, i) for i in range(2 + 2 * r)] + was
            for i, p in enumerate(form.forward):
                now = normal(forms.composed(p, before, width), r)
                gens.append(forms.plus(forms.variable(width, front + i), forms.scaled(now, -1)))
        for i, j in [(1, 1)] + [(2 + j, 2 + r + j) for j in range(r)]:
            gens.append(forms.plus(forms.times(forms.variable(width, i), forms.variable(width, j)), forms.constant(width, -1)))
        return self.reduced(f"blocks {front}", gens, front)

    def turn(self, k, b, turn, gs):
        """What is a member of `gs` after one turn."""
        self.begin(f"Turn {k} {b + 1} {turn}")
        form = self.forms[b]
        copies = [i for i, passes in enumerate(form.passes) if passes]
        width = len(copies) + self.m
        was = [{(0,) * len(copies) + e: c for e, c in form.one_before(i).items()} for i in range(self.m)]
        for place, i in enumerate(copies):
            was[i] = forms.variable(width, place)
        gens = [forms.composed(g, was, width) for g in gs]
        for i, image in enumerate(self.maps[b]):
            gens.append(forms.plus(forms.variable(width, len(copies) + i), forms.scaled(forms.composed(image, was, width), -1)))
        return self.reduced(f"blocks {len(copies)}", gens, len(copies))

    def meet(self, task, so_far, further):
        self.begin(task)
        t, rest = {(1,): 1}, {(0,): 1, (1,): -1}
        gens = [{e + f: c * d for e, c in t.items() for f, d in p.items()} for p in so_far]
        gens += [{e + f: c * d for e, c in rest.items() for f, d in q.items()} for q in further]
        return self.reduced("blocks 1", gens, 1)

    def round(self, k, gs):
        self.begin(f"Round {k}", unit=True)
        so_far = None
        for b, form in enumerate(self.forms):
            if form.since:
                so_far, turned = gs if so_far is None else so_far, gs
                for turn in range(1, form.since):
                    turned = self.turn(k, b, turn, turned)
                    so_far = self.meet(f"TurnMeet {k} {b + 1} {turn}", so_far, turned)
            orbit = self.orbit(k, b, gs)
            so_far = orbit if so_far is None else self.meet(f"Meet {k} {b + 1}", so_far, orbit)
        return so_far

    def basis(self):
        self.begin("Start")
        gs, k = self.reduced("grevlex", self.starts, 0), 0
        while not self.closed(k, gs):
            k += 1
            gs = self.round(k, gs)
        return "; ".join(forms.printed(p, self.names) + " = 0" for p in gs) or "none"

    def begins(self):
        """For each branch where it begins, and the variables that pass."""
        return "; ".join(f"{form.since} {','.join(name for name, passes in zip(self.names, form.passes) if passes) or '-'}" for form in self.forms)

    def tasks(self):
        """The units of each task, those of the closing tests summed."""
        units = []
        for entry in self.meter.entries:
            word, _, rest = entry.partition(" ")
            if word == "Begin":
                units.append([rest, int(rest.startswith("Round"))])
            elif any(f"event: {kind} " in entry for kind in ideal_rows.UNITS):
                units[-1][1] += 1
        closing = [count for task, count in units if task.startswith("Closed")]
        told = [f"{task}: {count}" for task, count in units if not task.startswith("Closed") and (task != "Start" or count)]
        return ", ".join([*told, f"{len(closing)} Closed: {sum(closing)}"])


def place_of(task):
    """The words for the place of a task."""
    name, *numbers = task.split(" ")
    words = {
        "Start": "start",
        "Closed": "round {}, branch {}, element {}, closing",
        "Orbit": "round {}, branch {}, orbit",
        "Meet": "round {}, branch {}, meet",
        "Turn": "round {}, branch {}, turn {}",
        "TurnMeet": "round {}, branch {}, turn {}, meet",
    }
    return words[name].format(*numbers)


def answer(analysis, budget):
    """The status and the text. A number is wide here where it doesn't fit, so the program may refuse an earlier one."""
    try:
        return "0 " + analysis.basis()
    except ideal_rows.Budget:
        return f"5 budget: {budget}"
    except ideal_rows.Wide:
        return f"4 wide: {place_of(analysis.task)}"


def tell_answers(loops):
    for loop, (units, mine) in zip(loops, forms.answers_of([loop.text for loop in loops])):
        print(f"{loop.name}\t{units} units, {mine}")


def tell_tasks(loops):
    for loop in loops:
        analysis = Analysis(loop.text, 200000)
        if None in analysis.forms:
            print(f"{loop.name}: no closed form")
            continue
        here = answer(analysis, 200000)
        print(f"{loop.name}\t{analysis.begins()}\t{analysis.meter.used}\t{analysis.tasks()}\t{here}", flush=True)


def tell_rows(loops):
    for loop in loops:
        analysis = Analysis(loop.text, 200000)
        if None in analysis.forms:
            print(f"# {loop.name}: no closed form", flush=True)
        else:
            here = answer(analysis, 200000)
            print(f"units\tbasis\t200000\t{loop.text}\t{analysis.meter.used} units, {here}", flush=True)


def main():
    tell = {"answers": tell_answers, "tasks": tell_tasks, "rows": tell_rows}.get(sys.argv[1] if len(sys.argv) > 1 else "")
    if tell:
        return tell(forms.loops_in(sys.argv[2] if len(sys.argv) > 2 else forms.LOOPS))
    loops = forms.loops_in(sys.argv[1] if len(sys.argv) > 1 else forms.LOOPS)
    budget = int(sys.argv[2]) if len(sys.argv) > 2 else 200000
    same = differ = left_out = unformed = 0
    for loop, (units, mine) in zip(loops, forms.answers_of([loop.text for loop in loops], budget)):
        analysis = Analysis(loop.text, budget)
        if None in analysis.forms:
            unformed += 1
            continue
        if units > MOST_UNITS:
            left_out += 1
            continue
        here, used = answer(analysis, budget), analysis.meter.used
        if mine[:6] == here[:6] == "4 wide" or (units, mine) == (used, here):
            same += 1
        else:
            differ += 1
            print(f"{loop.name}: {loop.text}\n   program {units} {mine}\n   here {used} {here}", flush=True)
    print(f"{same} journals have the same units and answer, {differ} differ, {left_out} are left out, {unformed} have no closed form")
    sys.exit(1 if differ else 0)


if __name__ == "__main__":
    main()
