"""C files with their equations checked where they should hold: at each head, in runs by 23 x 23 arguments.

A function to be run is `int NAME(int n, int m)` with its opening brace at the begin of a line. Numbers are compared in 128 bits.
"""
from __future__ import annotations

import re
import subprocess
from dataclasses import dataclass, field
from pathlib import Path

ANNOTATION = re.compile(r"/\*@\s*loop.*?\*/", re.DOTALL)
CLAUSE = re.compile(r"loop invariant invar:\s*(.*?)\s*==\s*0;", re.DOTALL)
KEYWORD = re.compile(r"\s*(while|for|do)\b")
ENTRY, BEGINNING = re.compile(r"\\at\((\w+),\s*LoopEntry\)"), re.compile(r"\\at\((\w+),\s*Pre\)")
MOST_LOOPS, SECONDS = 2_000, 600

HEAD = f"""#include <setjmp.h>
#include <signal.h>
#include <stdio.h>
#include <sys/time.h>
static jmp_buf out_; static sigjmp_buf trap_;
static int ticks_, n_, m_, wrong_[{MOST_LOOPS}][80]; static const char *function_;
#define TICK() (++ticks_ > 3000 ? (longjmp(out_, 1), 0) : 0)
#define CHECK(e, l, k, s) \\
    ((e) != 0 && wrong_[l][k]++ == 0 ? printf("wrong: %s, n = %d, m = %d: %s\\n", function_, n_, m_, s) : 0)
"""
MAIN = """
typedef int function_of_(int, int);
static void trapped_(int number) { siglongjmp(trap_, number); }
int main(void)
{
    function_of_ *functions[] = { %s };
    const char *names[] = { %s };
    int values[] = { -9, -7, -5, -3, -2, -1, 0, 1, 2, 3, 4, 5, 6, 7, 8, 9, 10, 11, 13, 16, 21, 27, 38 };
    int count = sizeof values / sizeof *values, numbers[] = { SIGILL, SIGTRAP, SIGFPE, SIGVTALRM, SIGSEGV };
    for (int k = 0; k < 5; k++) signal(numbers[k], trapped_);
    for (volatile int k = 0; k < (int)(sizeof functions / sizeof *functions); k++)
    for (volatile int a = 0; a < count; a++) for (volatile int b = 0; b < count; b++) {
        struct itimerval few = { { 0, 0 }, { 0, 5000 } };
        n_ = values[a]; m_ = values[b]; ticks_ = 0; function_ = names[k];
        if (sigsetjmp(trap_, 1)) continue;
        setitimer(ITIMER_VIRTUAL, &few, 0);
        if (!setjmp(out_)) functions[k](n_, m_);
    }
    return 0;
}
"""


def wide(expression: str) -> str:
    """An expression of names in 128 bits."""
    return re.sub(r"[A-Za-z_]\w*", lambda name: f"((__int128){name[0]})", expression)


def closing(text: str, at: int) -> int:
    """Where the parenthesis that opens at a place is closed."""
    depth = 0
    for found in re.finditer(r"[()]", text[at:]):
        depth += 1 if found[0] == "(" else -1
        if depth == 0:
            return at + found.start()
    return len(text)


def first_part(text: str) -> str:
    """What stands before the first `;` outside of brackets."""
    depth = 0
    for place, sign in enumerate(text):
        depth += (sign in "([{") - (sign in ")]}")
        if sign == ";" and depth == 0:
            return text[:place]
    return text


@dataclass
class Checked:
    """An annotated text, and what is put into it, each at a place."""

    text: str
    statics: list[str] = field(default_factory=list)
    put: list[tuple[int, str]] = field(default_factory=list)
    beginnings: dict[int, set[str]] = field(default_factory=dict)
    """The names whose values are kept where a function begins, by the place."""

    def whole(self) -> str:
        for number, annotation in enumerate(ANNOTATION.finditer(self.text)):
            clauses, keyword = CLAUSE.findall(annotation[0]), KEYWORD.match(self.text, annotation.end())
            if clauses and keyword:
                self.loop(number, clauses, annotation.start(), keyword)
        for place, names in self.beginnings.items():
            self.put.append((place, "".join(f" __int128 begin_{place}_{name} = {name};" for name in sorted(names))))
        text = self.text
        for place, words in sorted(self.put, reverse=True):
            text = text[:place] + words + text[place:]
        return "\n".join([HEAD, *self.statics, "#line 1", text])

    def loop(self, number: int, clauses: list[str], at: int, keyword: re.Match[str]) -> None:
        """Checks the clauses whenever the loop comes to its head."""
        entries: set[str] = set()
        checks = [f'CHECK({wide(self.plain(clause, number, at, entries))}, {number}, {k}, "{clause}")' for k, clause in enumerate(clauses)]
        self.statics.append(f"static int first_{number};" + "".join(f" static __int128 entry_{number}_{name};" for name in sorted(entries)))
        keep = "".join(f"entry_{number}_{name} = {name}, " for name in sorted(entries))
        words = ", ".join(["TICK()", f"(first_{number} ? ({keep}first_{number} = 0) : 0)", *(check.replace("\\", "") for check in checks)])
        self.put.append((keyword.start(1), f"if ((first_{number} = 1, 0)) ; else "))
        if keyword[1] == "do":
            self.put.append((self.text.index("{", keyword.end()) + 1, f" (void) ({words}); "))
            return
        opens = self.text.index("(", keyword.end())
        if keyword[1] == "while":
            self.put.append((opens + 1, f"{words}, "))
            return
        inside = self.text[opens + 1 : closing(self.text, opens)]
        place = opens + 1 + len(first_part(inside)) + 1
        is_bare = not first_part(self.text[place:]).strip()
        self.put.append((place, f" {words}, {'1' if is_bare else ''}"))

    def plain(self, clause: str, number: int, at: int, entries: set[str]) -> str:
        """A clause with C names for values at the first arrival and at the beginning of the function."""
        place = self.text.rfind("\n{\n", 0, at) + 2

        def entry(found: re.Match[str]) -> str:
            entries.add(found[1])
            return f"entry_{number}_{found[1]}"

        def beginning(found: re.Match[str]) -> str:
            self.beginnings.setdefault(place, set()).add(found[1])
            return f"begin_{place}_{found[1]}"

        return BEGINNING.sub(beginning, ENTRY.sub(entry, clause))


def wrong_clauses(annotated: str, names: list[str], folder: Path) -> list[str] | None:
    """The clauses that a run of one of the functions refutes; none where no program is made of the text."""
    source, program = folder / "checked.c", folder / "checked"
    main = MAIN % (", ".join(names), ", ".join(f'"{name}"' for name in names))
    source.write_text(Checked(annotated).whole() + main)
    checks = ["-fsanitize=signed-integer-overflow,bounds,integer-divide-by-zero", "-fsanitize-undefined-trap-on-error"]
    call = ["gcc", "-O0", "-w", "-DDRIVER", *checks, "-o", program, source]
    if subprocess.run(call, capture_output=True, check=False).returncode:
        return None
    said = subprocess.run([program], capture_output=True, text=True, timeout=SECONDS, check=False).stdout
    return [line for line in said.splitlines() if line.startswith("wrong:")]
