"""Equations that the author states, as polynomials."""
from __future__ import annotations

from collections.abc import Callable, Iterator

from pycparser import c_ast, c_generator

from ..polynomials import Polynomial
from .stated import AT, OLD, RESULT
from .statements import Equation
from .terms import literal

Known = Callable[[str], Polynomial | None]
"""The value of a name of C, if it is that of a variable for whole numbers or of a constant."""


def conjuncts(node: c_ast.Node) -> Iterator[c_ast.Node]:
    """The parts of a conjunction."""
    if isinstance(node, c_ast.BinaryOp) and node.op == "&&":
        yield from conjuncts(node.left)
        yield from conjuncts(node.right)
    else:
        yield node


def is_remainder(node: c_ast.Node) -> bool:
    """Whether a node says which remainder a variable leaves, as `x % 2 == 0`."""
    if not isinstance(node, c_ast.BinaryOp) or node.op != "==" or not isinstance(node.left, c_ast.BinaryOp) or node.left.op != "%":
        return False
    numbers = isinstance(node.left.right, c_ast.Constant) and isinstance(node.right, c_ast.Constant)
    return isinstance(node.left.left, c_ast.ID) and numbers


def equations_of(node: c_ast.Node, word: str, line: int, here: Known, before: Known) -> list[Equation]:
    """The equations of a predicate. A name has one value where the predicate stands, and one where the function begins."""
    found = []
    for part in conjuncts(node):
        if isinstance(part, c_ast.BinaryOp) and part.op == "==" and not is_remainder(part):
            left, right = polynomial(part.left, here, before), polynomial(part.right, here, before)
            value = left - right if left is not None and right is not None else None
            found.append(Equation(line, word, spelled(part), value))
        elif word == "invar":
            found.append(Equation(line, word, spelled(part), None))
    return found


def spelled(node: c_ast.Node) -> str:
    """A predicate as the author writes it."""
    text: str = c_generator.CGenerator(reduce_parentheses=True).visit(node)
    for name in (RESULT, OLD, AT):
        text = text.replace(name, "\\" + name[1:])
    return text


def polynomial(node: c_ast.Node, here: Known, before: Known) -> Polynomial | None:
    """The polynomial that an expression of an annotation is: its numbers are whole and have no bounds, and its quotients are exact."""
    if isinstance(node, c_ast.Constant):
        return literal(node).value
    if isinstance(node, c_ast.ID):
        return here(node.name)
    if isinstance(node, c_ast.FuncCall):
        return at_beginning(node, before)
    if isinstance(node, c_ast.UnaryOp) and node.op in ("+", "-"):
        inside = polynomial(node.expr, here, before)
        return inside if inside is None or node.op == "+" else inside.scaled(-1)
    if not isinstance(node, c_ast.BinaryOp) or node.op not in ("+", "-", "*", "/"):
        return None
    left, right = polynomial(node.left, here, before), polynomial(node.right, here, before)
    if left is None or right is None:
        return None
    if node.op == "/":
        number = right.value()
        return left.scaled(1 / number) if number else None
    return left * right if node.op == "*" else left + right if node.op == "+" else left - right


def at_beginning(node: c_ast.FuncCall, before: Known) -> Polynomial | None:
    """The value of `\\old(x)` and of `\\at(x, Pre)`."""
    arguments = [getattr(one, "name", None) for one in node.args.exprs] if node.args is not None else []
    name, first = getattr(node.name, "name", None), arguments[0] if arguments else None
    is_of_beginning = name == OLD and len(arguments) == 1 or name == AT and arguments[1:] == ["Pre"]
    return before(first) if is_of_beginning and isinstance(first, str) else None
