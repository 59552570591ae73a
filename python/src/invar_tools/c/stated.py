"""What the author states in annotations, written as C that the parser reads: assertions, postconditions, and equations at loops."""
from __future__ import annotations

import re
from dataclasses import dataclass, field

from pycparser import c_ast, c_parser

ASSERTION = "_assert"
"""The name under which an ACSL assertion stands in a syntax tree, as a call."""

QUESTION = "_invar"
"""The name under which an equation stands that is asked of a loop, as a call."""

PROMISE = "ensures"
"""The message under which a postcondition stands before its function, as a static assertion."""

RESULT, OLD, AT = "_result", "_old", "_at"
"""What stands for the words of ACSL that begin with a backslash."""

COMMENT = re.compile(r"/\*(?P<mark>@?)(?P<text>.*?)@?\*/|//(?P<mark_of_line>@?)(?P<text_of_line>.*)", re.DOTALL)
ASSERTED = re.compile(r"\s*assert\b(.*?);\s*", re.DOTALL)
ASKED = re.compile(r"\s*invar\s*:(.*?);?\s*", re.DOTALL)
PROMISED = re.compile(r"\bensures\b(.*?);", re.DOTALL)
BEHAVIORS = re.compile(r"\b(?:behavior|complete|disjoint)\b")
"""Behind such a word postconditions have a condition of their own."""

LOGIC = re.compile(r"==>|\|\||\?|\^\^|\\(?:forall|exists|let|lambda)\b")
"""Of a predicate with one of these the parts between `&&` don't hold each by itself."""

EFFECTS = re.compile(r"""[{};"'#\\]|\+\+|--|(?<![=!<>])=(?!=)""")
"""What no polynomial has, nor any predicate that is read here."""

PARSER = c_parser.CParser()


@dataclass
class Reader:
    """Makes C of annotations; `shown` is the text around them with blanks for comments, directives and quoted texts."""

    shown: str
    unread: list[tuple[int, str]] = field(default_factory=list)
    """The lines of equations that are asked of a loop and aren't read, and why."""

    def in_c(self, comment: str, at: int) -> str:
        """What stands for a comment at a place of the text: as many lines, and the same where it states nothing that is read."""
        parts = COMMENT.fullmatch(comment)
        if parts is None:
            return comment
        marked, text = parts["mark"] or parts["mark_of_line"], parts["text"] or parts["text_of_line"] or ""
        asserted, asked = ASSERTED.fullmatch(text), ASKED.fullmatch(text)
        said = None
        if asked:
            said = self.question(asked[1], at)
        elif marked and asserted and self.is_statement(at):
            said = call(ASSERTION, predicate(asserted[1]))
        elif marked and PROMISED.search(text) and self.depth(at) == 0 and not self.is_behind_head(at):
            return promises(text)
        return comment if said is None else said + "\n" * comment.count("\n")

    def question(self, text: str, at: int) -> str | None:
        """The call for an equation that is asked; where there is no place for it, or it is none, this is told."""
        said = predicate(text)
        if said is not None and self.is_statement(at) and self.depth(at) > 0:
            return call(QUESTION, said)
        why = "it stands where no statement can" if said is not None else "it is no equation that is read here"
        self.unread.append((self.shown.count("\n", 0, at) + 1, f"not asked: {' '.join(text.split())}: {why}"))
        return None

    def is_statement(self, at: int) -> bool:
        """Whether a statement may stand at a place without being the one that a test before it guards."""
        return self.shown[:at].rstrip()[-1:] in tuple(";{}:")

    def is_behind_head(self, at: int) -> bool:
        """Whether a place outside of functions stands between the head of one and its body."""
        return self.shown[:at].rstrip().endswith(")")

    def depth(self, at: int) -> int:
        return self.shown.count("{", 0, at) - self.shown.count("}", 0, at)


def promises(text: str) -> str:
    """The postconditions of a contract as static assertions in their lines, but for those of its behaviors."""
    limit = BEHAVIORS.search(text)
    made = ""
    for found in PROMISED.finditer(text, 0, limit.start() if limit else len(text)):
        said = predicate(found[1])
        made += "\n" * (text.count("\n", 0, found.start()) - made.count("\n"))
        made += f' _Static_assert({said}, "{PROMISE}");' if said is not None else ""
    return made + "\n" * (text.count("\n") - made.count("\n"))


def call(name: str, said: str | None) -> str | None:
    return None if said is None else f" {name}({said});"


def predicate(text: str) -> str | None:
    """A predicate of ACSL with equations as an expression of C on one line; of a conjunction the parts that are one.

    None where there is no such part.
    """
    text = re.sub(r"//[^\n]*|^\s*@", " ", text, flags=re.MULTILINE)
    text = re.sub(r"^[A-Za-z_]\w*\s*:", "", " ".join(text.split())).strip()
    text = re.sub(r"\\result\b", RESULT, re.sub(r"\\(old|at)\s*\(", r"_\1(", text))
    if is_expression(text):
        return text if "==" in text else None
    parts = [] if LOGIC.search(text) else [part for part in text.split("&&") if "==" in part and is_expression(part)]
    return " && ".join(f"({part.strip()})" for part in parts) or None


def is_expression(text: str) -> bool:
    """Whether a text is one expression of C, without effects but for those of calls."""
    if EFFECTS.search(text):
        return False
    try:
        tree = PARSER.parse(f"int _ = ({text});")
    except (c_parser.ParseError, RecursionError, AssertionError, AttributeError):
        return False
    return len(tree.ext) == 1 and isinstance(tree.ext[0], c_ast.Decl)
