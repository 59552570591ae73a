#!/usr/bin/env python3
"""What ./invar shows of a fault on standard error, beside the program's answer: rows whose texts were written by hand.

Usage: bench/faults.py        (after ./invar has built a program)

Also compares the table of slips in docs/USING.md with that of tools/explain.py, and that what an answer is, goes through ./invar as it is.
"""
import os
import pathlib
import subprocess
import sys
import tempfile

TOP = pathlib.Path(__file__).resolve().parent.parent
UNPROVED = "invar: nothing has been proved here of the program that answers; ./invar --prove proves it\n"
GOES_ON = "no text of the language goes on with this"

# of a loop: its text, the answer, and of what is shown the line and column, the meaning, the line, the mark below it and the advice
LOOPS = [
    ("vars x; init x=0; branch { x += 1; }", "syntax at 29", "1:30", GOES_ON,
     "vars x; init x=0; branch { x += 1; }",
     "                             ^^",
     "for `x += 1`, `x -= y` write `x = x + 1;`, `x = x - y;`"),
    ("vars x;\nbranch {\n  x++;\n}", "syntax at 20", "3:4", GOES_ON,
     "  x++;",
     "   ^^",
     "for `x++` write `x = x + 1;`"),
    ("vars x;\nbranch { x := 1; }\n", "syntax at 19", "2:12", GOES_ON,
     "branch { x := 1; }",
     "           ^^",
     "for `x := e` write `x = e;`"),
    ("vars x;\nbranch { x == 1; }\n", "syntax at 20", "2:13", GOES_ON,
     "branch { x == 1; }",
     "            ^",
     "for `s == e` write `s = e`, with one `=`"),
    ("vars x; branch { x = x**2; }", "syntax at 23", "1:24", GOES_ON,
     "vars x; branch { x = x**2; }",
     "                       ^",
     "for `x**2` write `x^2`"),
    ("vars x; branch { x = 0.5*x; }", "syntax at 22", "1:23", GOES_ON,
     "vars x; branch { x = 0.5*x; }",
     "                      ^",
     "for `0.5` write `1/2`: numbers are whole, and a fraction is a division by a number"),
    ("vars x; branch { x = 2x; }", "syntax at 22", "1:23", GOES_ON,
     "vars x; branch { x = 2x; }",
     "                      ^",
     "for `2x`, `2(x+y)` write `2*x`, `2*(x+y)`"),
    ("// doubling\nvars x; branch { x = 2*x; }", "syntax at 0", "1:1", GOES_ON,
     "// doubling",
     "^^",
     "for `// text`, `/* text */` write `# text`, up to the end of the line"),
    ("vars x;\nbranch { x = 2*x; // doubling\n}", "syntax at 26", "2:19", GOES_ON,
     "branch { x = 2*x; // doubling",
     "                  ^^",
     "for `// text`, `/* text */` write `# text`, up to the end of the line"),
    ("vars x; branch { x = x // 2; }", "syntax at 24", "1:25", GOES_ON,
     "vars x; branch { x = x // 2; }",
     "                        ^",
     "for `x // 2` write `x/2`, which is exact"),
    ("vars x; branch { x = x % 2; }", "syntax at 23", "1:24", GOES_ON,
     "vars x; branch { x = x % 2; }",
     "                       ^",
     "for `x % 2` write a branch for each remainder: there is no remainder in an expression, a guard may have it"),
    ("vars x y; branch { }", "syntax at 7", "1:8", GOES_ON,
     "vars x y; branch { }",
     "       ^",
     "for `vars x y` write `vars x, y;`"),
    ("vars x, y;\ninit x=0;\ninit y=0;\nbranch { }", "syntax at 21", "3:1", GOES_ON,
     "init y=0;",
     "^^^^",
     "a second `init`: one `init` for all: `init x=0, y=1;`"),
    ("vars x, y; branch { x, y = y, x; }", "syntax at 21", "1:22", GOES_ON,
     "vars x, y; branch { x, y = y, x; }",
     "                     ^",
     "for `x, y = y, x` write `(x, y) = (y, x);`"),
    ("vars x; branch { if (x > 0) { x = 0; } }", "unknown at 17", "1:18", "this name isn't declared",
     "vars x; branch { if (x > 0) { x = 0; } }",
     "                 ^^",
     "for `if`, `while`, `for` write a branch for each case, `branch when x > 0 { .. }`: guards are for people, and are ignored"),
    ("vars x, y; branch { t = x; x = y; y = t; }", "unknown at 20", "1:21", "this name isn't declared",
     "vars x, y; branch { t = x; x = y; y = t; }",
     "                    ^",
     "a name that isn't declared: its name behind `vars`; or, where each branch sets it before it uses it, behind `locals`"),
    ("vars x, y; init x=0, y=x; branch { }", "init uses at 23", "1:24", "`init` sets this name, so its right sides can't use it",
     "vars x, y; init x=0, y=x; branch { }",
     "                       ^",
     "for `init x=0, y=x` write `init x=0, y=0`, what the name is set to"),
    ("vars x; locals t; branch { x = t; t = x; }", "unset at 31", "1:32", "this local name has no value here",
     "vars x; locals t; branch { x = t; t = x; }",
     "                               ^",
     "for `x = t;` before `t = e;` write `t = e;` first in this branch; or t behind `vars`"),
    ("vars x; branch { x = 1/x; }", "divisor at 23", "1:24", "a divisor is a number other than 0",
     "vars x; branch { x = 1/x; }",
     "                       ^",
     "for `1/x`, `x/y` write a loop without it: a divisor is a number"),
    ("vars x; branch { x = 1/0; }", "divisor at 23", "1:24", "a divisor is a number other than 0",
     "vars x; branch { x = 1/0; }",
     "                       ^",
     "a divisor is a number other than 0"),
    ("vars x; branch { x = x + 1 }", "syntax at 27", "1:28", GOES_ON,
     "vars x; branch { x = x + 1 }",
     "                           ^",
     "for `x = e` without `;` write `x = e;`"),
    ("vars x; branch { x = x + 1;\n", "syntax at 28", "1:28", GOES_ON,
     "vars x; branch { x = x + 1;",
     "                           ^",
     "the text ends too soon"),
    ("vars x, x; branch { }", "twice at 8", "1:9", "this name stands a second time",
     "vars x, x; branch { }",
     "        ^",
     "this name stands a second time"),
    ("\ufeffvars x; branch { }", "syntax at 0", "1:1", GOES_ON,
     "\ufeffvars x; branch { }",
     "^",
     "a byte order mark before the text: save the file as UTF-8 without one"),
    ("init x=0; branch { }", "syntax at 0", "1:1", GOES_ON,
     "init x=0; branch { }",
     "^^^^",
     "a text that doesn't begin with `vars`: `vars x, y;` first, then `init ..;`, then the branches"),
    # a name that isn't ASCII stands in the comment: columns count signs, offsets bytes
    ("# für alle\nvars x; branch { x = x +; }", "syntax at 36", "2:25", GOES_ON,
     "vars x; branch { x = x +; }",
     "                        ^",
     GOES_ON),
    # what a terminal would obey
    ("vars x;\nbranch { x \x1b[31m= 1; }", "syntax at 19", "2:12", GOES_ON,
     "branch { x \\x1b[31m= 1; }",
     "           ^^^^",
     GOES_ON),
    ("vars x;\nbranch {\n\tx = x^17;\n}", "limit at 24", "3:8", "this passes a limit",
     "\tx = x^17;",
     "\t      ^^",
     "this passes a limit"),
]

# of an equation about examples/squares.loop: the same
EQUATIONS = [
    ("2*s == a", "syntax at 5", "1:6", GOES_ON, "2*s == a", "     ^", "for `s == e` write `s = e`, with one `=`"),
    ("2s = a", "syntax at 1", "1:2", GOES_ON, "2s = a", " ^", "for `2x`, `2(x+y)` write `2*x`, `2*(x+y)`"),
    ("s - a^2", "syntax at 7", "1:8", GOES_ON, "s - a^2", "       ^", "for `s - a^2` as an equation write `s - a^2 = 0`"),
    ("s >= 0", "syntax at 2", "1:3", GOES_ON, "s >= 0", "  ^^", "for `s >= 0`, `s != 0` write an equation, with one `=`: nothing else can be asked"),
    ("s = b^2", "unknown at 4", "1:5", "this name isn't declared", "s = b^2", "    ^", "an equation with another name: the loop's variables alone"),
]

# of a program: its text, and of each part of a guard that is shown the line and column, the line, the mark below it and why it says nothing
GUARDS = [
    ("vars x, y;\nwhile x != y && x >= 1 {\n}\n", []),
    ("vars x;\nif x == limit { x = 1; }\n",
     [("2:4", "if x == limit { x = 1; }", "   ^^^^^^^^^^", "`limit` isn't declared")]),
    ("vars x, y;\nif (x = 1 || y = 2) {\n}\n",
     [("2:5", "if (x = 1 || y = 2) {", "    ^^^^^^^^^^^^^^", "a comparison inside of `||` says nothing: write an `if` for each case")]),
    ("vars x, y;\nwhile (!(x = 1) && y != 2) { }\n",
     [("2:8", "while (!(x = 1) && y != 2) { }", "       ^^^^^^^^", "a comparison inside of `!( )` says nothing: write `!=` for `=`")]),
    ("vars x;\nif even(x) == 0 && x/x = 1 { }\n",
     [("2:4", "if even(x) == 0 && x/x = 1 { }", "   ^^^^^^^^^^^^", "`even` isn't declared"),
      ("2:20", "if even(x) == 0 && x/x = 1 { }", "                   ^^^^^^^", "a divisor is a number other than 0 here")]),
    ("vars x; # if x = y {\nif x\n  = # a comment\n  z { }\n",
     [("2:4", "if x", "   ^", "`z` isn't declared")]),
]

# words that are no command, and what is said of them; `usage` and `words` come from the program
WORDS = [
    (["basis", "s.loop", "--budget", "5"], "an option stands before the file: invar basis --budget 5 s.loop"),
    (["counter", "s.loop", "s = a^2", "--length", "3"], "an option stands before the file: invar counter --length 3 s.loop s = a^2"),
    (["counter", "--length", "9x", "s.loop", "s = a^2"], "--length takes a number, 0 to 6"),
    (["counter", "--length", "9", "s.loop", "s = a^2"], "--length takes a number, 0 to 6"),
    (["basis", "--budget", "0", "s.loop"], "--budget takes a number, 1 to 1000000"),
    (["basis", "-"], "`-` is no file; standard input is /dev/stdin"),
    (["check", "s.loop"], "the words of this command: invar check LOOP CERT"),
    (["member"], "the words of this command: invar member [--budget N] LOOP EQUATION"),
    (["bassis", "s.loop"], "there is no command `bassis`; is it `basis`?"),
    (["basis", "-dash.loop"], "-dash.loop is read as an option; the file is ./-dash.loop"),
]


def call(*words, **how):
    made = subprocess.run([TOP / "invar", *words], capture_output=True, **how)
    return made.returncode, made.stdout.decode(), made.stderr.decode().replace(UNPROVED, "")


def silent(folder, text):
    """What is shown of the guards of a program."""
    (folder / "row.prog").write_text(text)
    return subprocess.run([TOP / "tools/guards.py", "row.prog"], capture_output=True, text=True, cwd=folder, check=True).stdout


def shown(name, place, meaning, line, mark, advice):
    return f"{name}:{place}: {meaning}\n    {line}\n    {mark}\n    {advice}\n"


def rows(room):
    """Each call with what it has to answer."""
    for text, told, *rest in LOOPS:
        (room / "row.loop").write_text(text)
        for words in (["basis", "row.loop"], ["member", "--budget", "9", "row.loop", "0 = 0"], ["run", "row.loop", "1", "1"], ["chain", "row.loop"]):
            if words[0] not in ("run", "chain") or not told.startswith("limit"):
                yield words, (3, f"loop: {told}\n", shown("row.loop", *rest))
    (room / "s.loop").write_bytes((TOP / "examples/squares.loop").read_bytes())
    for text, told, *rest in EQUATIONS:
        for words in (["member", "s.loop", text], ["counter", "--length", "2", "s.loop", text]):
            yield words, (3, f"equation: {told}\n", shown("EQUATION", *rest))
    (room / "-dash.loop").touch()
    (room / "row.seqs").write_text("sequences f = (1);\nf = 2f;\n")
    meant = shown("row.seqs", "2:6", GOES_ON, "f = 2f;", "     ^", "for `2x`, `2(x+y)` write `2*x`, `2*(x+y)`")
    yield ["relations", "row.seqs"], (3, "sequences: syntax at 24\n", meant)
    usage = call()[1]
    for words, said in WORDS:
        yield words, (2, usage, f"invar: {said}\n")
    # what is no fault goes through without a word more
    yield ["basis", "s.loop"], (0, "a - 1/2*t + 1/2 = 0\nt^2 - 4*s + 2*t + 1 = 0\n", "")
    yield ["member", "s.loop", "s = a^2"], (1, "no\n", "")
    yield ["basis", "none.loop"], (7, "read fault: none.loop\n", "")


def main():
    differ = count = 0
    with tempfile.TemporaryDirectory() as folder:
        room = pathlib.Path(folder)
        for words, wanted in rows(room):
            count += 1
            given = call(*words, cwd=room)
            if given != wanted:
                differ += 1
                print(f"{words}\n  gives {given}\n  not   {wanted}")
        for text, wanted in GUARDS:
            count += 1
            said = "".join(shown("row.prog", place, "this part of the guard says nothing", *rest) for place, *rest in wanted)
            if (given := silent(room, text)) != said:
                differ += 1
                print(f"{text!r}\n  shows {given}\n  not   {said}")
        # standard input goes through: a pipe can be read once, so nothing is shown of it; a file is shown
        with open(room / "row.loop", "w") as row:
            row.write("vars x; branch { x += 1; }")
        with open(room / "row.loop") as row:
            meant = shown("/dev/stdin", "1:20", GOES_ON, "vars x; branch { x += 1; }", "                   ^^", LOOPS[0][-1])
            differ += call("basis", "/dev/stdin", stdin=row) != (3, "loop: syntax at 19\n", meant)
        # nor has a locale of few signs a part in it
        narrow = call("basis", "row.loop", cwd=room, env={**os.environ, "PYTHONIOENCODING": "ascii"})
        differ += narrow[:2] != (3, "loop: syntax at 19\n") or "Traceback" in narrow[2]
        text = "vars x; branch { x += 1; }"
        given, wanted = call("basis", "/dev/stdin", input=text.encode()), (3, "loop: syntax at 19\n", "")
        differ += given != wanted
        given = subprocess.run([TOP / "invar", "basis", room / "s.loop"], stdout=open("/dev/full", "w"), stderr=subprocess.DEVNULL).returncode
        differ += given != 8
        table = subprocess.run([TOP / "tools/explain.py"], capture_output=True, text=True, check=True).stdout
        if table not in (TOP / "docs/USING.md").read_text():
            differ += 1
            print("docs/USING.md has another table of slips than tools/explain.py prints")
    print(f"{count + 3 - differ} rows agree, {differ} differ")
    return 1 if differ else 0


if __name__ == "__main__":
    sys.exit(main())
