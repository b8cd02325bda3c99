"""Statements of a source, as records."""

from __future__ import annotations

import ast
from collections.abc import Sequence

from designer.expressions import Expressions, check_level
from designer.language import CONTEXT, MOST_ARGUMENTS, MOST_LOCALS
from designer.meanings import ARTICLES, Meanings
from designer.source import Mistake
from designer.tree import FIRST_LOCAL, LESS, PLUS
from designer.tree import Binary, Block, Constant, Expression, For, If, IfElse, Require, Return, Set, Statement
from designer.tree import Transfer, While, value_of

ALLOWED = (
    "statements are NAME = VALUE, transfer(ACCOUNT, AMOUNT), require(CONDITION), return VALUE, if, elif, else, while, "
    "for NAME in range(FIRST, END), with loop(..) and with block"
)
# What to write for the statements that people try.
ADVICE: dict[type[ast.AST], str] = {
    ast.Pass: "there is no empty statement: write require(1), which does nothing",
    ast.Break: "a loop ends by its condition, an action by return VALUE",
    ast.Continue: "write the rest of the loop below an if",
    ast.Assert: "write require(CONDITION)",
    ast.Raise: "write require(0), which refuses the call",
    ast.AnnAssign: "a name is set by NAME = VALUE, and locals are declared by locals(NAME, ..), first in the action",
    ast.FunctionDef: "an action holds no other",
    ast.Global: "variables can be set in every action",
}
LOOP = "with loop(NAME := VALUE, CONDITION, NAME := VALUE)"


def called(node: ast.AST) -> str | None:
    """The word of a call such as require(..), whether it stands alone or after `with`."""
    match node:
        case ast.Expr(value=ast.Call(func=ast.Name(id=word))) | ast.Call(func=ast.Name(id=word)):
            return word
    return None


def words_of(call: ast.Call, form: str, *counts: int) -> list[ast.expr]:
    """What stands between the parentheses of a form: so many words as it takes, and no keywords."""
    for pair in call.keywords:
        raise Mistake(pair, f"no keyword '{pair.arg}' is known here: write {form}" if pair.arg else f"write {form}")
    for word in call.args:
        if isinstance(word, ast.Starred):
            raise Mistake(word, f"one word stands here: write {form}")
    if counts and len(call.args) not in counts:
        raise Mistake(call, f"{len(call.args)} given, {' or '.join(map(str, counts))} expected: write {form}")
    return call.args


class Action:
    """The action of one `def`, with the names of its arguments and locals."""

    def __init__(self, node: ast.FunctionDef, above: Meanings) -> None:
        self.node = node
        self.meanings = Meanings(CONTEXT, above)
        self.arguments = self.declare_arguments()
        self.locals, self.body = self.declare_locals()
        self.expressions = Expressions(self.meanings)

    def declare_arguments(self) -> tuple[str, ...]:
        given = self.node.args
        for default in (*given.defaults, *filter(None, given.kw_defaults)):
            raise Mistake(default, "an argument has no default: a row says what is passed")
        for parameter in getattr(self.node, "type_params", ()):
            raise Mistake(parameter, "arguments are written def NAME(ARGUMENT, ..)")
        if self.node.returns:
            raise Mistake(self.node.returns, "no kind of value is written here: values are numbers")
        for extra in (given.vararg, given.kwarg, *given.kwonlyargs, *given.posonlyargs):
            if extra:
                raise Mistake(extra, "arguments are written def NAME(ARGUMENT, ..)")
        for index, argument in enumerate(given.args):
            if argument.annotation:
                raise Mistake(argument.annotation, "no kind of value is written here: values are numbers")
            if index >= MOST_ARGUMENTS:
                raise Mistake(argument, f"{len(given.args)} arguments, at most {MOST_ARGUMENTS}")
            self.meanings.declare(argument, argument.arg, "argument", index)
        return tuple(argument.arg for argument in given.args)

    def declare_locals(self) -> tuple[tuple[str, ...], list[ast.stmt]]:
        """The locals that the first statement declares, and the other statements."""
        first, *rest = self.node.body
        if called(first) != "locals":
            return (), self.node.body
        assert isinstance(first, ast.Expr) and isinstance(first.value, ast.Call)
        words = words_of(first.value, "locals(NAME, ..)")
        for index, word in enumerate(words):
            if not isinstance(word, ast.Name):
                raise Mistake(word, "a name is expected here: write locals(NAME, ..)")
            if index >= MOST_LOCALS:
                raise Mistake(word, f"{len(words)} locals, at most {MOST_LOCALS}")
            self.meanings.declare(word, word.id, "local", index)
        if not words or not rest:
            raise Mistake(first, "a name is missing: write locals(NAME, ..)" if rest else "the action has no statement after this")
        return tuple(word.id for word in words if isinstance(word, ast.Name)), rest

    def record(self, level: int) -> Statement:
        return self.suite(self.body, level)

    def guard(self, node: ast.expr, level: int) -> Expression:
        return self.expressions.value(node, level)

    def suite(self, nodes: Sequence[ast.stmt], level: int) -> Statement:
        """What stands below a colon: one statement stands alone, several make a block."""
        if len(nodes) == 1:
            return self.statement(nodes[0], level)
        return self.block(nodes, level)

    def block(self, nodes: Sequence[ast.stmt], level: int) -> Block:
        check_level(nodes[0], level)
        return Block(tuple(self.statement(node, level + 1) for node in nodes))

    def statement(self, node: ast.stmt, level: int) -> Statement:
        check_level(node, level)
        value = self.expressions.value
        match node:
            case ast.Assign() | ast.AugAssign():
                return self.assignment(node, level)
            case ast.Expr():
                return self.called(node, level)
            case ast.Return():
                return self.returned(node, level)
            case ast.If(test=test, body=body, orelse=[]):
                return If(value(test, level + 1), self.suite(body, level + 1))
            case ast.If(test=test, body=body, orelse=otherwise):
                return IfElse(value(test, level + 1), self.suite(body, level + 1), self.suite(otherwise, level + 1))
            case ast.While(test=test, body=body, orelse=[]):
                return While(value(test, level + 1), self.suite(body, level + 1))
            case ast.For(orelse=[]):
                return self.counted(node, level)
            case ast.While(orelse=[first, *_]) | ast.For(orelse=[first, *_]):
                raise Mistake(first, "a loop has no else")
            case ast.With(items=[ast.withitem(context_expr=head, optional_vars=None)], body=body):
                return self.headed(head, body, level)
        advice = ADVICE.get(type(node))
        raise Mistake(node, f"no such statement: {advice}" if advice else f"no such statement; {ALLOWED}")

    # Sets.

    def target(self, node: ast.expr) -> int:
        if not isinstance(node, ast.Name):
            raise Mistake(node, "one name is set by one statement, NAME = VALUE")
        try:
            meaning = self.meanings.of(node, "variable", "local")
        except Mistake as mistake:
            raise Mistake(node, f"{mistake} (locals are declared by locals(NAME, ..), first in the action)") from None
        if meaning.kind not in ("variable", "local"):
            raise Mistake(node, f"'{node.id}' is {ARTICLES[meaning.kind]}; only variables and locals can be set")
        return meaning.index + (FIRST_LOCAL if meaning.kind == "local" else 0)

    def assignment(self, node: ast.Assign | ast.AugAssign, level: int) -> Set:
        if isinstance(node, ast.Assign):
            if len(node.targets) > 1:
                raise Mistake(node, "one name is set by one statement, NAME = VALUE")
            return Set(self.target(node.targets[0]), self.expressions.any(node.value, level + 1))
        target = self.target(node.target)
        operator = self.expressions.operator(node, node.op)
        check_level(node, level + 2)
        return Set(target, Binary(operator, value_of(target), self.expressions.value(node.value, level + 2)))

    def walrus(self, node: ast.expr, level: int) -> Set:
        if not isinstance(node, ast.NamedExpr):
            raise Mistake(node, f"a set is expected here: write {LOOP}")
        return Set(self.target(node.target), self.expressions.any(node.value, level + 1))

    # Statements that are written as calls, and returns.

    def called(self, node: ast.Expr, level: int) -> Statement:
        word, call = called(node), node.value
        if word == "transfer" and isinstance(call, ast.Call):
            account, amount = words_of(call, "transfer(ACCOUNT, AMOUNT)", 2)
            return Transfer(self.expressions.account(account, level + 1), self.expressions.value(amount, level + 1))
        if word == "require" and isinstance(call, ast.Call):
            (condition,) = words_of(call, "require(CONDITION)", 1)
            return Require(self.expressions.value(condition, level + 1))
        if word == "locals":
            raise Mistake(node, "locals are declared once, first in the action")
        if isinstance(call, ast.Constant) and isinstance(call.value, str):
            raise Mistake(node, "text has no meaning here: write a comment, which begins with #")
        if isinstance(call, ast.Compare):
            raise Mistake(node, "a comparison does nothing: write NAME = VALUE to set, require(CONDITION) to demand")
        raise Mistake(node, f"no such statement; {ALLOWED}")

    def returned(self, node: ast.Return, level: int) -> Return:
        if node.value is None:
            raise Mistake(node, "a return has a value: write return 0; only an action without a return answers 'no value'")
        return Return(self.expressions.any(node.value, level + 1))

    # Loops and blocks.

    def counted(self, node: ast.For, level: int) -> For:
        """for NAME in range(FIRST, END): NAME = FIRST; while NAME < END; NAME = NAME + 1."""
        form = "for NAME in range(FIRST, END)"
        if called(node.iter) != "range" or not isinstance(node.iter, ast.Call):
            raise Mistake(node.iter, f"a for counts: write {form}, or {LOOP}")
        first, end = words_of(node.iter, form, 2)
        check_level(node, level + 3)
        target = self.target(node.target)
        return For(
            Set(target, self.expressions.value(first, level + 2)),
            Binary(LESS, value_of(target), self.expressions.value(end, level + 2)),
            Set(target, Binary(PLUS, value_of(target), Constant(1))),
            self.suite(node.body, level + 1),
        )

    def headed(self, head: ast.expr, body: Sequence[ast.stmt], level: int) -> Statement:
        if isinstance(head, ast.Name) and head.id == "block":
            return self.block(body, level)
        if called(head) != "loop" or not isinstance(head, ast.Call):
            raise Mistake(head, f"after 'with' comes block or a loop: write with block, or {LOOP}")
        initial, condition, closing = words_of(head, LOOP, 3)
        check_level(head, level + 1)
        return For(
            self.walrus(initial, level + 1),
            self.expressions.value(condition, level + 1),
            self.walrus(closing, level + 1),
            self.suite(body, level + 1),
        )
