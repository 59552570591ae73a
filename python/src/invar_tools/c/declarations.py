"""What a file declares outside of functions: types, constants, variables and functions."""
from __future__ import annotations

from collections.abc import Iterable, Mapping
from dataclasses import dataclass, field

from pycparser import c_ast

from .effects import has_effects
from .sources import nodes
from .statements import Term
from .terms import bits, combined, constant, converted, literal, quotient, settled
from .whole import INT, Whole, common, named


@dataclass(frozen=True)
class Variable:
    """What a name is: the key of a variable that is followed, or None of another, and its type if it is one for whole numbers; or the number of a
    constant of an enumeration."""

    key: str | None
    type: Whole | None
    declared: c_ast.Node | None = None
    number: int | None = None

    def is_fixed(self) -> bool:
        """Whether it is declared as one that never changes."""
        return "const" in (getattr(self.declared, "quals", None) or [])


@dataclass
class Declarations:
    """What a file declares outside of functions."""

    types: dict[str, c_ast.Node | None] = field(default_factory=dict)
    constants: dict[str, int] = field(default_factory=dict)
    globals: dict[str, Variable] = field(default_factory=dict)
    functions: set[str] = field(default_factory=set)
    whole: bool = True
    """Whether all headers are there: else a call of what isn't declared may be a macro that assigns."""

    def take(self, tree: Iterable[c_ast.Node]) -> None:
        for node in tree:
            outside = node.decl.type.type if isinstance(node, c_ast.FuncDef) else node
            self.constants.update((name, number) for name, number in enumerated(outside, self.constants).items() if number is not None)
            if isinstance(node, c_ast.Typedef):
                self.types[node.name] = node.type
            elif isinstance(node, c_ast.FuncDef):
                self.functions.add(node.decl.name)
            elif isinstance(node, c_ast.Decl) and isinstance(node.type, c_ast.FuncDecl):
                self.functions.add(node.name)
            elif isinstance(node, c_ast.Decl) and node.name:
                self.globals[node.name] = self.variable(node, node.name)

    def variable(self, node: c_ast.Decl, key: str) -> Variable:
        """A declared variable; one that isn't for whole numbers, or is volatile, isn't followed."""
        whole = self.whole_type(node.type)
        return Variable(key if whole else None, whole, node.type)

    def stores_inside(self, target: c_ast.Node, base: c_ast.Node | None) -> bool:
        """Whether a part of a variable that is declared so is a part of its own memory, and not where a pointer points."""
        path = []
        while isinstance(target, (c_ast.ArrayRef, c_ast.StructRef)):
            path.append(target)
            target = target.name
        shape = self.shape(base)
        for part in reversed(path):
            if isinstance(part, c_ast.ArrayRef):
                if not isinstance(shape, c_ast.ArrayDecl):
                    return False
                shape = self.shape(shape.type)
            else:
                whole = getattr(shape, "type", None)
                if part.type != "." or not isinstance(shape, c_ast.TypeDecl) or not isinstance(whole, (c_ast.Struct, c_ast.Union)):
                    return False
                fields = [one.type for one in whole.decls or [] if isinstance(one, c_ast.Decl) and one.name == part.field.name]
                shape = self.shape(fields[0]) if fields else None
        return isinstance(target, c_ast.ID)

    def shape(self, node: c_ast.Node | None) -> c_ast.Node | None:
        """A type with names of types resolved."""
        for _ in range(100):
            names = node.type.names if isinstance(node, c_ast.TypeDecl) and isinstance(node.type, c_ast.IdentifierType) else []
            if len(names) != 1 or names[0] not in self.types:
                return node
            node = self.types[names[0]]
        return None

    def whole_type(self, node: c_ast.Node | None) -> Whole | None:
        """The type of whole numbers that a type is."""
        for _ in range(100):
            if isinstance(node, c_ast.Typename):
                node = node.type
            if not isinstance(node, c_ast.TypeDecl) or {"volatile", "_Atomic"} & {*(node.quals or [])}:
                return None
            if not isinstance(node.type, c_ast.IdentifierType):
                return None
            if len(node.type.names) != 1 or node.type.names[0] not in self.types:
                return named(node.type.names)
            node = self.types[node.type.names[0]]
        return None


def enumerated(node: c_ast.Node, constants: Mapping[str, int]) -> dict[str, int | None]:
    """The constants of the enumerations in a declaration, with their numbers as far as these are known; others are in scope there."""
    known, found = dict(constants), dict[str, int | None]()
    for part in nodes(node):
        following: int | None = 0
        for one in part.enumerators if isinstance(part, c_ast.EnumeratorList) else []:
            if one.value is not None:
                following = number_of(one.value, known)
            if following is not None and not INT.has(following):
                following = None
            found[one.name] = following
            known.pop(one.name, None)
            if following is not None:
                known[one.name] = following
                following += 1
    return found


def number_of(node: c_ast.Node, constants: Mapping[str, int]) -> int | None:
    """The value of an expression that is a number for the compiler."""
    term = None if has_effects(node) else constant_term(node, constants)
    if term is None or term.value is None or settled(term).needs:
        return None
    value = term.value.value()
    return int(value) if value is not None and value.denominator == 1 else None


def constant_term(node: c_ast.Node, constants: Mapping[str, int]) -> Term | None:
    """The value of an expression of constants; None of any other."""
    if isinstance(node, c_ast.Constant):
        return literal(node)
    if isinstance(node, c_ast.ID) and node.name in constants:
        return constant(constants[node.name])
    if isinstance(node, c_ast.UnaryOp) and node.op in ("+", "-"):
        return constant_term(c_ast.BinaryOp(node.op, c_ast.Constant("int", "0"), node.expr), constants)
    if not isinstance(node, c_ast.BinaryOp):
        return None
    left, right = constant_term(node.left, constants), constant_term(node.right, constants)
    if left is None or right is None or left.value is None or right.value is None or left.type is None or right.type is None:
        return None
    if node.op in ("<<", ">>", "&", "|", "^"):
        return bits(node.op, left, right, 0)
    kind = common(left.type, right.type)
    left, right = converted(left, kind, ""), converted(right, kind, "")
    if node.op in ("/", "%"):
        return quotient(node.op, settled(left), settled(right), kind, 0)
    return combined(node.op, left, right) if node.op in ("+", "-", "*") else None
