"""C functions as statements without effects inside of expressions, each value with its type."""
from __future__ import annotations

from collections.abc import Callable, Iterable, Mapping
from dataclasses import dataclass, field, replace

from pycparser import c_ast, c_generator

from .declarations import Declarations, Variable, enumerated, number_of
from .effects import STEPS, accesses, enumerations_within, has_effects, has_sequence, sized_by_effects
from .equations import conjuncts, equations_of, is_remainder
from ..polynomials import Polynomial
from .scopes import Scopes
from .sources import LOOPS, Loop, Refusal, flattened, is_stated, line_of, nodes, statements
from .stated import PROMISE, QUESTION, RESULT
from .statements import (
    BEFORE, Arm, AtLeast, Block, Cases, Choice, Claim, Declared, Equation, Fact, Leave, Rest, Set, Statement, Target, Term, Test, Touch, Turns,
    every, once,
)
from .terms import bits, combined, compared, constant, converted, literal, quotient, settled, unknown
from .whole import Whole, common

ORDERS = {"<", ">", "<=", ">=", "==", "!="}


@dataclass
class Lowering(Scopes):
    """Makes statements of a function's code."""

    out: list[Statement] = field(default_factory=list)
    behind: list[Statement] = field(default_factory=list)
    """What is done once the value of an expression is known."""
    has_sequence: bool = False
    """Whether the expression at hand has parts that are done before others, so that what waits may be done in its midst."""
    temporaries: int = 0
    loops: int = 0
    begins: Mapping[str, str] = field(default_factory=dict)
    """The variables that have values where the function begins."""
    promised: tuple[Equation, ...] = ()
    """What the author states of the end of the function."""
    result: Variable | None = None
    waiting: list[c_ast.FuncCall] = field(default_factory=list)
    """The equations before the next statement that are asked of a loop."""
    asked: list[list[c_ast.FuncCall]] = field(default_factory=list)
    """For each loop around the statement the equations that are asked of it."""
    homeless: list[c_ast.FuncCall] = field(default_factory=list)
    """The equations that are asked where no loop is."""

    def emit(self, item: Statement) -> None:
        self.out.append(item)

    def flush(self) -> None:
        self.out += self.behind
        self.behind = []

    def listed(self, items: Iterable[c_ast.Node | None]) -> tuple[Statement, ...]:
        """The statements of C statements, in the order of the text."""
        outer, self.out = self.out, []
        waiting, self.behind = self.behind, []
        for item in items:
            if item is not None:
                self.statement(item)
                self.flush()
        self.settle()
        result, self.out, self.behind = tuple(self.out), outer, waiting
        return result

    def block(self, items: Iterable[c_ast.Node | None]) -> Block:
        """The statements of a block with a scope of its own."""
        self.scopes.append({})
        inside = self.listed(items)
        own = frozenset(variable.key for variable in self.scopes.pop().values() if variable.key is not None)
        return Block(inside, own)

    def statement(self, node: c_ast.Node) -> None:
        if is_stated(node):
            self.stated(node)
            return
        if not isinstance(node, LOOPS):
            self.settle()
        if isinstance(node, c_ast.Compound):
            self.emit(self.block(node.block_items or []))
        elif isinstance(node, c_ast.DeclList):
            for part in node.decls:
                self.statement(part)
        elif isinstance(node, c_ast.Decl):
            self.declaration(node)
        elif isinstance(node, c_ast.If):
            self.branch(node.cond, lambda: (self.block([node.iftrue]),), lambda: (self.block([node.iffalse]),))
        elif isinstance(node, LOOPS):
            self.loop(node)
        elif isinstance(node, c_ast.Switch):
            self.switch(node)
        elif isinstance(node, (c_ast.Break, c_ast.Continue)):
            self.emit(Leave(type(node).__name__.lower()))
        elif isinstance(node, c_ast.Return):
            self.returned(node)
            self.emit(Leave("return"))
        elif isinstance(node, c_ast.Goto):
            self.emit(Leave("return"))
        elif isinstance(node, (c_ast.Label, c_ast.Case, c_ast.Default)):
            self.emit(Target(self.in_scope(), line_of(node), "a label"))
            for part in [node.stmt] if isinstance(node, c_ast.Label) else node.stmts or []:
                self.statement(part)
        elif isinstance(node, c_ast.Typedef):
            known = self.declared.types
            self.declared.types = {**known, node.name: None if node.name in known else node.type}
            self.enumerate(node)
        elif not isinstance(node, (c_ast.EmptyStatement, c_ast.Pragma, c_ast.StaticAssert)):
            self.effects(node)

    # what annotations state

    def value_here(self, name: str) -> Polynomial | None:
        """The value of a name where an annotation stands."""
        variable, constants = self.resolve(name), self.constants()
        if name in constants:
            return Polynomial.constant(constants[name])
        return None if variable is None or variable.key is None else Polynomial.variable(variable.key)

    def value_before(self, name: str) -> Polynomial | None:
        """The value of a parameter or of a global variable where the function begins."""
        variable = self.resolve(name)
        if variable is None:
            return self.value_here(name)
        return Polynomial.variable(variable.key + BEFORE) if variable.key is not None and variable.key in self.begins else None

    def value_behind(self, name: str) -> Polynomial | None:
        """The value of a name where the function ends: a parameter keeps that of its beginning."""
        if name == RESULT:
            return Polynomial.variable(RESULT)
        return self.value_before(name) if name in self.scopes[0] else self.value_here(name)

    def stated(self, node: c_ast.FuncCall) -> None:
        """An assertion, or an equation that is asked of the loop that follows, or of the one around."""
        inside = node.args.exprs[0]
        if node.name.name == QUESTION:
            self.waiting.append(node)
            return
        facts = tuple(fact for part in conjuncts(inside) if is_remainder(part) for fact in self.test(part).holds)
        self.emit(Claim(facts, tuple(equations_of(inside, "assert", line_of(node), self.value_here, self.value_before))))

    def settle(self) -> None:
        """Equations that are asked with no loop behind them are asked of the one around."""
        (self.asked[-1] if self.asked else self.homeless).extend(self.waiting)
        self.waiting = []

    def questions(self, calls: Iterable[c_ast.FuncCall]) -> tuple[Equation, ...]:
        found = [equations_of(one.args.exprs[0], "invar", line_of(one), self.value_here, self.value_before) for one in calls]
        return tuple(equation for part in found for equation in part)

    def returned(self, node: c_ast.Return) -> None:
        """The end of a path, with the function's value, where the author states something of it."""
        if node.expr is not None and self.promised and self.result is not None:
            self.careful(node.expr)
            self.store(self.result, self.term(node.expr), line_of(node))
            self.flush()
        elif node.expr is not None:
            self.effects(node.expr)
        if self.promised:
            self.emit(Claim((), self.promised))

    # statements that declare, and loops

    def declaration(self, node: c_ast.Decl) -> None:
        self.enumerate(node)
        if node.name is None or isinstance(node.type, c_ast.FuncDecl):
            return
        variable = self.declared.variable(node, node.name)
        if "extern" in node.storage:
            self.scopes[-1][node.name] = self.declared.globals.get(node.name, replace(variable, key=None))
            return
        if "static" in node.storage and self.loops:
            variable = replace(variable, key=None)
        variable = self.declare(node.name, variable)
        if "static" in node.storage and variable.key is not None:
            self.hidden.append(variable.key)
            self.emit(Set(variable.key, unknown(f"a static variable in line {line_of(node)}")))
        elif variable.key is None:
            if node.init is not None and "static" not in node.storage:
                self.effects(node.init)
        elif node.init is None:
            self.emit(Declared(variable.key))
        else:
            self.careful(node.init)
            self.store(variable, self.term(node.init), line_of(node))

    def enumerate(self, node: c_ast.Node) -> None:
        """The constants of the enumerations that a declaration has are names of the innermost scope."""
        for name, number in enumerated(node, self.constants()).items():
            self.scopes[-1][name] = Variable(None, None, number=number)

    def loop(self, node: Loop) -> None:
        around = self.in_scope()
        self.scopes.append({})
        self.asked.append(self.waiting)
        self.waiting = []
        self.loops += 1
        init = self.listed([node.init]) if isinstance(node, c_ast.For) else ()
        own = frozenset(variable.key for variable in self.scopes[-1].values() if variable.key is not None)
        visible = self.keys()
        leave: tuple[Statement, ...] = (Leave("break"),)
        body: tuple[Statement, ...]

        def inside() -> tuple[Statement, ...]:
            return (self.block([node.stmt]),)

        if isinstance(node, c_ast.DoWhile):
            body = inside()
            following = self.captured(lambda: self.branch(node.cond, lambda: (), lambda: leave))
        else:
            body = self.captured(lambda: self.branch(node.cond, inside, lambda: leave)) if node.cond is not None else inside()
            following = self.listed([node.next]) if isinstance(node, c_ast.For) else ()
        self.loops -= 1
        asked = self.questions(self.asked.pop())
        self.scopes.pop()
        self.emit(Turns(node, init, body, following, own, around, visible, asked))

    def captured(self, make: Callable[[], object]) -> tuple[Statement, ...]:
        """The statements that a call emits."""
        outer, self.out = self.out, []
        make()
        result, self.out = tuple(self.out), outer
        return result

    def switch(self, node: c_ast.Switch) -> None:
        """A choice between the cases, each with those behind it, up to a break."""
        self.effects(node.cond)
        flat = flattened(statements(node.stmt))
        deeper = [part for label, item in flat if not label for part in nodes(item) if isinstance(part, (c_ast.Case, c_ast.Default))]
        if deeper:
            self.emit(Target(self.in_scope(), line_of(node), "a case inside of another statement"))
        self.scopes.append({})
        parts = [() if label else self.listed([item]) for label, item in flat]
        own = frozenset(variable.key for variable in self.scopes.pop().values() if variable.key is not None)
        fresh = tuple(Declared(key) for key in sorted(own))
        entries = [fresh + tuple(one for part in parts[place:] for one in part) for place, (label, _) in enumerate(flat) if label]
        default = any(isinstance(item, c_ast.Default) for _, item in flat)
        self.emit(Block((Cases((*entries, *(() if default else (fresh,)))),), own))

    # tests

    def branch(self, node: c_ast.Node, yes: Arm, no: Arm) -> None:
        """A choice by a test, whose effects come before or behind it; the arms are made where they are wanted."""
        if isinstance(node, c_ast.UnaryOp) and node.op == "!":
            self.branch(node.expr, no, yes)
        elif isinstance(node, c_ast.BinaryOp) and node.op in ("&&", "||") and has_effects(node):
            once_yes, once_no = once(yes), once(no)

            def behind() -> tuple[Statement, ...]:
                return self.captured(lambda: self.branch(node.right, once_yes, once_no))

            self.branch(node.left, *((behind, once_no) if node.op == "&&" else (once_yes, behind)))
        elif isinstance(node, c_ast.ExprList):
            for part in node.exprs[:-1]:
                self.effects(part)
            self.branch(node.exprs[-1], yes, no)
        else:
            outer = self.careful(node)
            known = number_of(node, self.constants())
            waiting, self.behind = self.behind, []
            test = self.test(node)
            self.has_sequence = outer
            effects, self.behind = tuple(self.behind), []
            arms = (*yes(),), (*no(),)
            if known is None or any(isinstance(one, (Turns, Target)) for one in every(arms[known != 0])):
                self.emit(Choice(test, effects + arms[0], effects + arms[1]))
            else:
                self.out += [*effects, *arms[known == 0]]
            self.behind = waiting

    def test(self, node: c_ast.Node) -> Test:
        """A test with what it says; effects inside of it are emitted."""
        text = c_generator.CGenerator().visit(node)
        if isinstance(node, c_ast.UnaryOp) and node.op == "!":
            inside = self.test(node.expr)
            return Test(text, inside.fails, inside.holds)
        if isinstance(node, c_ast.BinaryOp) and node.op in ("&&", "||"):
            left, right = self.test(node.left), self.test(node.right)
            if node.op == "&&":
                return Test(text, left.holds + right.holds)
            return Test(text, (), left.fails + right.fails)
        if isinstance(node, c_ast.BinaryOp) and node.op in ORDERS:
            if isinstance(node.left, c_ast.BinaryOp) and node.left.op == "%" and node.op in ("==", "!="):
                return self.test_of_rest(text, node.left, self.term(node.right), node.op == "==")
            return Test(text, *compared(node.op, self.term(node.left), self.term(node.right)))
        if isinstance(node, c_ast.BinaryOp) and node.op == "%":
            return self.test_of_rest(text, node, constant(0), False)
        return Test(text, *compared("!=", self.term(node), constant(0)))

    def test_of_rest(self, text: str, node: c_ast.BinaryOp, right: Term, equal: bool) -> Test:
        """What a comparison of a rest says. Of an odd number the rest may be 1 and -1."""
        value, divisor = self.term(node.left), self.term(node.right)
        modulus = divisor.value.value() if divisor.value is not None else None
        rest = right.value.value() if right.value is not None else None
        if value.value is None or value.type is None or divisor.type is None or not modulus or rest is None:
            return Test(text)
        value = settled(converted(value, common(value.type, divisor.type), ""))
        if value.value is None or value.type is None:
            return Test(text)
        size = abs(int(modulus))
        same = (Rest(value.value, size, int(rest), value.needs),)
        other: tuple[Fact, ...] = ()
        if size == 2 and (rest == 0 or rest == 1 and not value.type.signed):
            other = (Rest(value.value, 2, 1 - int(rest), value.needs),)
        if not value.type.signed and rest == 0:
            nonzero: tuple[Fact, ...] = (AtLeast(value.value - Polynomial.constant(1), value.needs),)
            other += nonzero
        return Test(text, same, other) if equal else Test(text, other, same)

    # expressions

    def effects(self, node: c_ast.Node) -> None:
        """An expression for its effects alone."""
        if isinstance(node, c_ast.ExprList):
            for part in node.exprs:
                self.effects(part)
            return
        if isinstance(node, c_ast.Cast) and isinstance(node.to_type, c_ast.Typename):
            self.effects(node.expr)
            return
        outer = self.careful(node)
        self.term(node)
        self.flush()
        self.has_sequence = outer

    def careful(self, node: c_ast.Node) -> bool:
        """Refuses an expression that changes a variable and reads it elsewhere, with no order between the two. Gives whether that around it has
        parts that are done before others."""
        accesses(node, {*self.hidden, *self.declared.globals, *self.addressed})
        outer, self.has_sequence = self.has_sequence, has_sequence(node)
        return outer

    def term(self, node: c_ast.Node) -> Term:
        """The value of an expression; its effects are emitted."""
        if isinstance(node, c_ast.Constant):
            return literal(node)
        if isinstance(node, c_ast.ID):
            return self.name(node)
        if isinstance(node, c_ast.UnaryOp):
            return self.unary(node)
        if isinstance(node, c_ast.BinaryOp):
            return self.binary(node)
        if isinstance(node, c_ast.Assignment):
            return self.assignment(node)
        if isinstance(node, c_ast.TernaryOp):
            return self.conditional(node)
        if isinstance(node, c_ast.FuncCall):
            return self.call(node)
        if isinstance(node, c_ast.Cast):
            inside = self.term(node.expr)
            return converted(inside, self.declared.whole_type(node.to_type), f"a cast in line {line_of(node)}")
        if isinstance(node, c_ast.ExprList):
            for part in node.exprs[:-1]:
                self.effects(part)
            return self.term(node.exprs[-1])
        if isinstance(node, c_ast.Compound):
            raise Refusal(line_of(node), "a statement inside of an expression")
        for _, part in node.children():
            if isinstance(part, (c_ast.Typename, c_ast.TypeDecl)) or isinstance(node, c_ast.StructRef) and part is node.field:
                continue
            self.term(part)
        what = {c_ast.ArrayRef: "an array", c_ast.StructRef: "a member of a structure"}.get(type(node), "what is no number")
        return unknown(f"{what} in line {line_of(node)}")

    def name(self, node: c_ast.ID) -> Term:
        variable = self.resolve(node.name)
        constants = self.constants()
        if node.name in constants:
            return constant(constants[node.name])
        if variable is None or variable.key is None:
            return unknown(f"{node.name}, which is no variable for whole numbers, in line {line_of(node)}")
        return Term(Polynomial.variable(variable.key), variable.type)

    def unary(self, node: c_ast.UnaryOp) -> Term:
        if node.op in STEPS:
            return self.step(node)
        if node.op in ("sizeof", "_Alignof"):
            return unknown(f"a size in line {line_of(node)}")
        if node.op == "&":
            if not isinstance(node.expr, c_ast.ID):
                self.term(node.expr)
            return unknown(f"an address in line {line_of(node)}")
        inside = self.term(node.expr)
        if node.op == "*":
            return unknown(f"a pointer in line {line_of(node)}")
        if node.op not in ("+", "-") or inside.value is None or inside.type is None:
            return inside if inside.value is None and node.op in "+-" else unknown(f"the operator {node.op} in line {line_of(node)}")
        kind = inside.type.promoted()
        inside = converted(inside, kind, "")
        if node.op == "+" or inside.value is None:
            return inside
        return replace(inside, value=inside.value.scaled(-1), settled=kind.signed)

    def step(self, node: c_ast.UnaryOp) -> Term:
        """`x++` and its like; the value behind is that before."""
        if not isinstance(node.expr, c_ast.ID):
            self.stored_elsewhere(node.expr)
            return unknown(f"the operator {node.op.removeprefix('p')} in line {line_of(node)}")
        variable = self.resolve(node.expr.name)
        old = self.name(node.expr)
        if variable is None or variable.key is None:
            self.emit(Touch((), old.reason))
            return old
        new = combined("+", old, constant(STEPS[node.op]))
        kept = Set(variable.key, for_variable(new, variable, f"{node.expr.name} in line {line_of(node)}"))
        if node.op.startswith("p") and not self.has_sequence:
            self.behind.append(kept)
            return old
        if node.op.startswith("p"):
            old = self.held(old)
            self.emit(kept)
            return old
        self.emit(kept)
        return self.name(node.expr)

    def held(self, term: Term) -> Term:
        """A value as that of a temporary, which nothing changes."""
        if term.value is None or term.type is None:
            return term
        self.temporaries += 1
        key = f"?:{self.temporaries}"
        self.types[key] = term.type
        self.emit(Set(key, settled(term)))
        return Term(Polynomial.variable(key), term.type)

    def binary(self, node: c_ast.BinaryOp) -> Term:
        line = line_of(node)
        if node.op in ("&&", "||"):
            self.term_of_choice(node)
            return unknown(f"the operator {node.op} in line {line}")
        left, right = self.term(node.left), self.term(node.right)
        if left.value is None or right.value is None or left.type is None or right.type is None:
            return left if left.value is None else right
        if node.op in ORDERS:
            return unknown(f"a comparison in line {line}")
        if node.op in ("<<", ">>", "&", "|", "^"):
            return bits(node.op, left, right, line)
        kind = common(left.type, right.type)
        left, right = converted(left, kind, ""), converted(right, kind, "")
        if node.op in ("/", "%"):
            return quotient(node.op, settled(left), settled(right), kind, line)
        return combined(node.op, left, right)

    def term_of_choice(self, node: c_ast.BinaryOp) -> None:
        """`a && b` and `a || b` for their effects."""
        if has_effects(node):
            self.branch(node, tuple, tuple)

    def assignment(self, node: c_ast.Assignment) -> Term:
        line = line_of(node)
        right = self.term(node.rvalue)
        if not isinstance(node.lvalue, c_ast.ID):
            self.stored_elsewhere(node.lvalue)
            return unknown(f"what is stored in no variable in line {line}")
        variable = self.resolve(node.lvalue.name)
        if variable is None or variable.key is None:
            self.emit(Touch((), self.name(node.lvalue).reason))
            return self.name(node.lvalue)
        if node.op != "=":
            right = self.operated(node, right)
        self.store(variable, right, line)
        return self.name(node.lvalue)

    def operated(self, node: c_ast.Assignment, right: Term) -> Term:
        """The value that `x += ..` and its like store."""
        left, line, sign = self.name(node.lvalue), line_of(node), node.op.removesuffix("=")
        if right.value is None or right.type is None:
            return right
        if left.type is None:
            return left
        if sign in ("<<", ">>", "&", "|", "^"):
            return bits(sign, left, right, line)
        kind = common(left.type, right.type)
        left, right = converted(left, kind, ""), converted(right, kind, "")
        return quotient(sign, settled(left), settled(right), kind, line) if sign in "/%" else combined(sign, left, right)

    def store(self, variable: Variable, value: Term, line: int) -> None:
        if variable.key is not None:
            where = f"{variable.key.partition(chr(39))[0]} in line {line}"
            self.emit(Set(variable.key, for_variable(value, variable, where)))

    def stored_elsewhere(self, target: c_ast.Node) -> None:
        """A store in a part of an array or of a structure, or where a pointer points."""
        self.term(target)
        base = target
        while isinstance(base, (c_ast.ArrayRef, c_ast.StructRef)):
            base = base.name
        variable = self.resolve(base.name) if isinstance(base, c_ast.ID) else None
        if variable is None or not self.declared.stores_inside(target, variable.declared):
            self.touch(f"what is stored through a pointer in line {line_of(target)}")

    def touch(self, reason: str, more: Iterable[str] = ()) -> None:
        """What a call or a pointer may reach has any value."""
        known = self.in_scope()
        keys = [key for key in dict.fromkeys([*self.declared_keys(), *self.hidden, *more]) if key in known]
        self.emit(Touch(tuple(keys), reason))

    def declared_keys(self) -> list[str]:
        return [variable.key for variable in self.declared.globals.values() if variable.key is not None and not variable.is_fixed()]

    def call(self, node: c_ast.FuncCall) -> Term:
        reason = f"a call in line {line_of(node)}"
        name = getattr(node.name, "name", None)
        arguments = node.args.exprs if node.args is not None else []
        if not isinstance(node.name, c_ast.ID):
            self.term(node.name)
        for argument in arguments:
            self.term(argument)
        self.flush()
        known = name in self.declared.functions or isinstance(name, str) and self.resolve(name) is not None
        self.touch(reason, [] if known or self.declared.whole else sorted(self.in_scope()))
        return unknown(reason)

    def conditional(self, node: c_ast.TernaryOp) -> Term:
        """`a ? b : c`: a choice that gives a temporary its value."""
        kinds: list[Whole | None] = []
        self.temporaries += 1
        key = f"?:{self.temporaries}"

        def arm(part: c_ast.Node) -> Arm:
            def make() -> tuple[Statement, ...]:
                outer, self.out = self.out, []
                waiting, self.behind = self.behind, []
                value = self.term(part)
                kinds.append(value.type if value.value is not None else None)
                self.emit(Set(key, settled(value)))
                self.flush()
                result, self.out, self.behind = tuple(self.out), outer, waiting
                return result

            return make

        self.branch(node.cond, arm(node.iftrue), arm(node.iffalse))
        known = [kind for kind in kinds if kind is not None]
        if not known or len(known) < len(kinds):
            return unknown(f"a conditional expression in line {line_of(node)}")
        kind = known[0] if len(known) == 1 else common(known[0], known[1])
        if any(not kind.holds(one) for one in known):
            return unknown(f"a conditional expression in line {line_of(node)}")
        self.types[key] = kind
        return Term(Polynomial.variable(key), kind)


def for_variable(term: Term, variable: Variable, where: str) -> Term:
    """A value as it is stored in a variable."""
    reason = f"{'its type' if variable.type is None else variable.type.name} {where} may not hold it"
    return settled(converted(term, variable.type, reason), reason)


@dataclass(frozen=True)
class Function:
    """A function as statements, with the types of its variables by their keys, and those that have values where it begins."""

    items: tuple[Statement, ...]
    types: Mapping[str, Whole]
    begins: Mapping[str, str]
    homeless: tuple[Equation, ...] = ()
    """The equations that are asked where no loop is."""


def lowered(function: c_ast.FuncDef, declared: Declarations, promised: Iterable[c_ast.Node] = ()) -> Function:
    """The statements of a function, of which an author states predicates at its end."""
    lowering = Lowering(replace(declared, constants=dict(declared.constants)))
    lowering.types = {variable.key: variable.type for variable in declared.globals.values() if variable.key is not None and variable.type is not None}
    pointed = [node.expr for node in nodes(function) if isinstance(node, c_ast.UnaryOp) and node.op == "&"]
    lowering.addressed = {node.name for node in pointed if isinstance(node, c_ast.ID)}
    lowering.scopes.append({})
    arguments = function.decl.type.args.params if function.decl.type.args is not None else []
    for node in [*arguments, *(function.param_decls or [])]:
        if isinstance(node, c_ast.Decl) and node.name is not None:
            lowering.declare(node.name, replace(declared.variable(node, node.name), declared=None))
    lowering.begins = begins = {key: key for key in lowering.in_scope()}
    kind = declared.whole_type(function.decl.type.type)
    if kind is not None:
        lowering.result = Variable(RESULT, kind)
        lowering.types[RESULT] = kind
    found = [equations_of(one, PROMISE, line_of(one), lowering.value_behind, lowering.value_before) for one in promised]
    lowering.promised = tuple(equation for part in found for equation in part)
    for line in sized_by_effects(function):
        raise Refusal(line, "an effect in the size of an array")
    for line in enumerations_within(function):
        raise Refusal(line, "an enumeration inside of an expression")
    block = lowering.block(function.body.block_items or [])
    return Function((block, Claim((), lowering.promised)), lowering.types, begins, lowering.questions(lowering.homeless))
