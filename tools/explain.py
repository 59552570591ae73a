#!/usr/bin/env python3
"""Shows a fault that `invar` tells by an offset, and says what to write in place of a common slip.

Usage: tools/explain.py PROGRAM WORD..     the fault that the program tells of these words, if it tells one: the file, line and column, the line, a mark
                                           below the token, and what to write
       tools/explain.py                    the table of slips, as docs/USING.md has it

./invar calls this before the program answers, where a look at the texts has found a fault. The program's answer stays as it is.
"""
import dataclasses
import difflib
import os
import re
import subprocess
import sys

OPTIONS = {"--budget": range(1, 1_000_001), "--degree": range(1, 17), "--length": range(7)}
TOLD = re.compile(r"(?:loop \d+: )?(loop|equation|sequences|program): (\w+(?: \w+)*) at (\d+)\n", re.A)
TOKEN = re.compile(r"[A-Za-z]\w*|\d+\.\d+|\d+|[-+*/]=|\+\+|--|\*\*|//|/\*|:=|[=<>!]=|&&|\|\||.", re.A | re.S)
SECONDS, WIDTH = 5, 100
CONTROL = re.compile(r"[\x00-\x08\x0a-\x1f\x7f-\x9f]")

# what a fault means, where it is no slip of the table
MEANINGS = {
    "syntax": "no text of the language goes on with this",
    "limit": "this passes a limit",
    "wide": "a number may not fit into 128 bits here",
    "twice": "this name stands a second time",
    "unknown": "this name isn't declared",
    "init uses": "`init` sets this name, so its right sides can't use it",
    "unset": "this local name has no value here",
    "divisor": "a divisor is a number other than 0",
}


@dataclasses.dataclass(frozen=True)
class Slip:
    """Something that people write, and what to write. `at` matches the text from the token at fault on, `behind` the text before it."""

    written: str
    instead: str
    at: str
    behind: str = ""
    reasons: tuple = ("syntax",)
    kinds: tuple = ("loop", "equation", "sequences", "program")

    def fits(self, kind, reason, before, after):
        return (
            kind in self.kinds
            and reason in self.reasons
            and re.match(self.at, after, re.S)
            and re.search(f"(?:{self.behind})\\Z", before, re.S)
        )


STATED = ("loop", "sequences", "program")
LOOP = ("loop",)
PROGRAM = ("program",)
TEXTS = ("loop", "program")
ASKED = ("equation",)
SLIPS = [
    Slip("a byte order mark before the text", "save the file as UTF-8 without one", "\ufeff"),
    Slip("`x += 1`, `x -= y`", "`x = x + 1;`, `x = x - y;`", r"[-+*/]=", kinds=STATED),
    Slip("`x++`", "`x = x + 1;`", r"\+\+|--", r"\w\s*", kinds=STATED),
    Slip("`x := e`", "`x = e;`", ":="),
    Slip("`s == e`", "`s = e`, with one `=`", "=", "=", kinds=("loop", "equation", "sequences")),
    Slip("`x**2`", "`x^2`", r"\*", r"\*"),
    Slip("`0.5`", "`1/2`: numbers are whole, and a fraction is a division by a number", r"\.", r"\d"),
    Slip("`2x`, `2(x+y)`", "`2*x`, `2*(x+y)`", r"[A-Za-z(]", r"(?<!\w)\d+\s*"),
    Slip("`x // 2`", "`x/2`, which is exact", "/", r"/"),
    Slip("`// text`, `/* text */`", "`# text`, up to the end of the line", r"//|/\*", kinds=STATED),
    Slip("`x % 2`", "a branch for each remainder: there is no remainder in an expression, a guard may have it", "%", kinds=("loop", "equation", "sequences")),
    Slip("`x == e;`", "`x = e;`", "==", kinds=PROGRAM),
    Slip("`r = n % d`", "`r = any; q = (n - r)/d;`, with the quotient as a variable", "%", kinds=PROGRAM),
    Slip("`s >= 0`, `s != 0`", "an equation, with one `=`: nothing else can be asked", "[<>!≤≥≠]", kinds=ASKED),
    Slip("`s - a^2` as an equation", "`s - a^2 = 0`", r"\Z", r"\A[^=]*", kinds=ASKED),
    Slip("`vars x y`", "`vars x, y;`", r"[A-Za-z]", r"(?:vars|locals)\b[^;{]*\w\s+", kinds=TEXTS),
    Slip("a second `init`", "one `init` for all: `init x=0, y=1;`", r"init\b", r"\binit\b.*", kinds=LOOP),
    Slip("`locals` elsewhere", "`locals t;` directly behind the `;` of `vars`", r"locals\b", kinds=LOOP),
    Slip("`x, y = y, x`", "`(x, y) = (y, x);`", ",", r"[{};]\s*[A-Za-z]\w*\s*", kinds=TEXTS),
    Slip("`if`, `while`, `for`", "a branch for each case, `branch when x > 0 { .. }`: guards are for people, and are ignored",
         r"(?:if|else|while|for|do)\b", reasons=("syntax", "unknown"), kinds=LOOP),
    Slip("`x = e` without `;`", "`x = e;`", r"[A-Za-z}]", r"=[^;{}]*[\w)]\s*", kinds=STATED),
    Slip("`if g s;` without braces", "`if g { s; }`: what is between the word and the brace is the guard", ";", r"\b(?:if|while)\b[^{};]*", kinds=PROGRAM),
    Slip("`break`, `continue`, `return`", "a variable that the guard tests: `while i < n && done = 0 { .. }`", r"(?:break|continue|return)\b",
         reasons=("syntax", "unknown"), kinds=PROGRAM),
    Slip("`do { .. } while g`", "its body once before the loop, or a loop that a variable ends", r"do\b", reasons=("syntax", "unknown"), kinds=PROGRAM),
    Slip("`int x = 0;`", "`vars x;` first, and `x = 0;`", r"(?:int|long|unsigned|float|double|var|let)\b", reasons=("syntax", "unknown"), kinds=PROGRAM),
    Slip("`init`, `branch`, `when`", "`x = 0;` behind `vars x;`, and `while`, `if` in place of branches", r"(?:init|branch|when)\b", kinds=PROGRAM),
    Slip("a text that doesn't begin with `vars`", "`vars x, y;` first, then `init ..;`, then the branches", r".", r"\A(?:\s|#[^\n]*\n)*", kinds=LOOP),
    Slip("a program that doesn't begin with `vars`", "`vars x, y;` first, then the statements", r".", r"\A(?:\s|#[^\n]*\n)*", kinds=PROGRAM),
    Slip("a name that isn't declared", "its name behind `vars`; or, where each branch sets it before it uses it, behind `locals`", "", reasons=("unknown",),
         kinds=LOOP),
    Slip("a name in a program that isn't declared", "its name behind `vars`", "", reasons=("unknown",), kinds=PROGRAM),
    Slip("`assert x/y = z`", "`assert x = y*z;`, or `q = x/y;` before it: only an assignment divides by more than a number", r"[A-Za-z(-]",
         reasons=("divisor",), kinds=PROGRAM),
    Slip("an equation with another name", "the loop's variables alone", "", reasons=("unknown",), kinds=ASKED),
    Slip("`init x=0, y=x`", "`init x=0, y=0`, what the name is set to", "", reasons=("init uses",), kinds=LOOP),
    Slip("`x = t;` before `t = e;`", "`t = e;` first in this branch; or t behind `vars`", "", reasons=("unset",), kinds=LOOP),
    Slip("`1/x`, `x/y`", "a loop without it: a divisor is a number", r"[A-Za-z(-]", reasons=("divisor",), kinds=("loop", "equation", "sequences")),
]


def table():
    """The slips, as a page has them."""
    rows = [f"| {slip.written} | {slip.instead} |" for slip in SLIPS]
    rows.append("| an option behind the file | the option first: `invar basis --budget 1000 LOOP` |")
    return "\n".join(["| Written | Write |", "|---|---|", *(row.replace("||", "\\|\\|") for row in rows)])


def advice(kind, reason, before, after):
    """What to write, or what the fault means."""
    for slip in SLIPS:
        if slip.fits(kind, reason, before, after):
            return f"for {slip.written} write {slip.instead}" if slip.written[0] == "`" else f"{slip.written}: {slip.instead}"
    if reason == "syntax" and not after:
        return "the text ends too soon"
    return MEANINGS.get(reason, reason)


def shown(name, text, offset, kind, reason):
    """The lines that show the fault at this offset, in bytes."""
    before, after = text[:offset].decode(errors="replace"), text[offset:].decode(errors="replace")
    said = advice(kind, reason, before, after)
    if not after:
        before = before.rstrip() or before
    token = TOKEN.match(after)[0] if after and after[0] != "\n" else " "
    return marked(name, before, after, len(token), MEANINGS.get(reason, reason), said)


def marked(name, before, after, width, meaning, said):
    """The lines that show what stands between these two texts' border and so many signs behind it."""
    head, line = before.count("\n") + 1, before.rpartition("\n")[2]
    rest = after.partition("\n")[0] if after else ""
    column = len(line) + 1
    # a window of a long line
    start = max(0, len(line) - WIDTH // 2)
    window = visible((line[start:] + rest)[:WIDTH].rstrip("\r"))
    shift = "".join("\t" if sign == "\t" else " " for sign in visible(line[start:]))
    mark = "^" * max(1, len(visible(rest[: min(width, WIDTH - len(line) + start)])))
    return f"{visible(name)}:{head}:{column}: {meaning}\n    {window}\n    {shift}{mark}\n    {said}\n"


def visible(text):
    """The text with what a terminal would obey, or a locale can't have, in its place: `\\x1b`."""
    return CONTROL.sub(lambda found: f"\\x{ord(found[0]):02x}", text)


def file_and_equation(words):
    """The words behind the command and its options."""
    rest = words[1:]
    while rest and rest[0] in OPTIONS:
        rest = rest[2:]
    return [*rest, "", ""][:2]


def of_words(words, usage):
    """What is wrong with words that are no command, by the usage line."""
    if not words:
        return ""
    command = words[0]
    commands = {part.split()[0]: part for part in usage.partition("invar ")[2].partition(";")[0].strip().split(" | ")}
    if command not in commands:
        near = difflib.get_close_matches(command, commands, 1)
        return f"there is no command `{command}`" + (f"; is it `{near[0]}`?" if near else "")
    for place, word in enumerate(words[2:], 2):
        if word in OPTIONS and words[1] not in OPTIONS:
            rest = [*words[1:place], *words[place + 2 :]]
            return f"an option stands before the file: invar {' '.join([command, *words[place : place + 2], *rest])}"
    if words[1:2] == ["--degree"] and words[3:4] == ["--budget"]:
        return f"--budget stands before --degree: invar {' '.join([command, *words[3:5], *words[1:3], *words[5:]])}"
    for place, word in enumerate(words):
        if word in OPTIONS:
            numbers, number = OPTIONS[word], "".join(words[place + 1 : place + 2])
            if not re.fullmatch("[0-9]{1,7}", number) or int(number) not in numbers:
                return f"{word} takes a number, {numbers[0]} to {numbers[-1]}"
    if "-" in words[1:]:
        return "`-` is no file; standard input is /dev/stdin"
    for word in words[1:]:
        if word.startswith("-") and word not in OPTIONS and os.path.exists(word):
            return f"{visible(word)} is read as an option; the file is ./{visible(word)}"
    return f"the words of this command: invar {commands[command]}"


def answer(program, words):
    """What the program answers, with its status."""
    made = subprocess.run([program, *words], capture_output=True, timeout=SECONDS, errors="surrogateescape")
    return made.returncode, made.stdout


def explanation(program, words):
    status, said = answer(program, words)
    told = TOLD.fullmatch(said)
    if status == 2:
        text = of_words(words, said)
        return f"invar: {text}\n" if text else ""
    if not told:
        return ""
    kind, reason, offset = told[1], told[2], int(told[3])
    file, equation = file_and_equation(words)
    if kind == "equation":
        return shown("EQUATION", equation.encode(errors="surrogateescape"), offset, kind, reason)
    with open(file, "rb") as content:
        return shown(file, content.read(), offset, kind, reason)


def main(words):
    sys.stdout.reconfigure(errors="backslashreplace")
    if not words:
        print(table())
    else:
        try:
            sys.stdout.write(explanation(words[0], words[1:]))
        except (OSError, subprocess.TimeoutExpired):
            # without an explanation the answer is what it was
            pass


if __name__ == "__main__":
    main(sys.argv[1:])
