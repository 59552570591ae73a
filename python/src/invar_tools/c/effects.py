"""Effects inside of expressions: which variables an expression reads and changes, and whether an order of evaluation is given."""
from __future__ import annotations

from .acsl import RESERVED
from pycparser import c_ast
from .sources import Refusal, is_stated, line_of, nodes, statements
from .statements import Turns

STEPS = {"++": 1, "p++": 1, "--": -1, "p--": -1}


def has_effects(node: c_ast.Node) -> bool:
    """Whether an expression has a call or changes a variable."""
    return any(isinstance(part, c_ast.FuncCall) or modified(part) is not None for part in nodes(node))


def has_sequence(node: c_ast.Node) -> bool:
    """Whether an expression has parts that are done before others: a call, a comma, a choice."""
    kinds = (c_ast.FuncCall, c_ast.ExprList, c_ast.TernaryOp)
    return any(isinstance(part, kinds) or isinstance(part, c_ast.BinaryOp) and part.op in ("&&", "||") for part in nodes(node))


def sized_by_effects(node: c_ast.Node) -> list[int]:
    """The lines of arrays whose size has effects, wherever their types stand."""
    return [line_of(part) for part in nodes(node) if isinstance(part, c_ast.ArrayDecl) and part.dim is not None and has_effects(part.dim)]


def enumerations_within(node: c_ast.Node) -> list[int]:
    """The lines of enumerations in the types that casts and sizes name."""
    types = [part for part in nodes(node) if isinstance(part, c_ast.Typename)]
    return [line_of(part) for one in types for part in nodes(one) if isinstance(part, c_ast.EnumeratorList)]


def modified(node: c_ast.Node) -> c_ast.Node | None:
    """What an expression changes by itself."""
    if isinstance(node, c_ast.Assignment):
        return node.lvalue
    return node.expr if isinstance(node, c_ast.UnaryOp) and node.op in STEPS else None


def accesses(node: c_ast.Node, hidden: set[str]) -> tuple[set[str], set[str]]:
    """The names that an expression reads, and those that it changes, where an order of evaluation is given."""
    children = [child for _, child in node.children()]
    if isinstance(node, c_ast.FuncCall):
        children = [node.name, *(node.args.exprs if node.args is not None else [])]
    elif isinstance(node, c_ast.StructRef):
        children = [node.name]
    parts = [accesses(child, hidden) for child in children]
    reads = {name for part in parts for name in part[0]} | ({node.name} if isinstance(node, c_ast.ID) else set())
    writes = {name for part in parts for name in part[1]}
    if isinstance(node, (c_ast.TernaryOp, c_ast.ExprList)) or isinstance(node, c_ast.BinaryOp) and node.op in ("&&", "||"):
        called = any(isinstance(part, c_ast.FuncCall) for part in nodes(node))
        return reads, writes | hidden if called else writes
    target = modified(node)
    own = {target.name} if isinstance(target, c_ast.ID) else set()
    clash = own & writes
    for place, (_, changed) in enumerate(parts):
        others = [part for other, part in enumerate(parts) if other != place]
        clash |= changed & {name for part in others for name in part[0] | part[1]}
    if clash:
        raise Refusal(line_of(node), f"{min(clash)}, which is changed and read in one expression,")
    return reads, writes | own


def assigned(loop: Turns) -> tuple[str, ...] | None:
    """The names at a head that its turns assign; None where they may also assign what has no name there, or none in an annotation."""
    node = loop.node
    turn = [node.stmt, *statements(node.next if isinstance(node, c_ast.For) else None), *([node.cond] if node.cond is not None else [])]
    parts = [part for one in turn for part in nodes(one)]
    if any(isinstance(part, c_ast.FuncCall) and not is_stated(part) for part in parts):
        return None
    targets = [target for part in parts if (target := modified(part)) is not None]
    if not all(isinstance(target, c_ast.ID) for target in targets):
        return None
    inside = {part.name for part in parts if isinstance(part, c_ast.Decl)}
    lasting = {part.name for part in parts if isinstance(part, c_ast.Decl) and part.storage}
    names = dict.fromkeys(target.name for target in targets)
    unclear = {name for name in names if name in lasting or name in inside and name in loop.visible.values()}
    found = tuple(name for name in names if name not in inside)
    return None if unclear or RESERVED & {*found} else found
