"""Expressions of a source, as records."""

from __future__ import annotations

import ast

from designer.language import MOST, MOST_LEVELS, OPERATOR_NODES, OPERATORS
from designer.meanings import ARTICLES, Meanings, number
from designer.source import Mistake
from designer.tree import AT_MOST, EQUAL, LESS, UNEQUAL
from designer.tree import Argument, Binary, Constant, Context, Expression, Local, Not, Variable

LEAVES: dict[str, type[Variable | Local | Argument | Context | Constant]] = {
    "variable": Variable,
    "local": Local,
    "argument": Argument,
    "context": Context,
    "state": Constant,
    "account": Constant,
}
NAMED = ("state", "account")
# What the words of the context are, where they meet the name of a state or account.
CONTEXT_KINDS = {"sender": "account", "coins": "amount", "own": "amount", "state": "state"}
EXCHANGED = {ast.Gt: LESS, ast.GtE: AT_MOST}

# What to write for the operators and expressions that people try.
ADVICE: dict[type[ast.AST], str] = {
    ast.Div: "division of whole numbers is written //",
    ast.Pow: "there is no power: write it as a product",
    ast.BitAnd: "write 'and'",
    ast.BitOr: "write 'or'",
    ast.BitXor: "write != for 'not the same'",
    ast.Is: "write ==",
    ast.IsNot: "write !=",
    ast.In: "write one == for each value, joined by 'or'",
    ast.NotIn: "write one != for each value, joined by 'and'",
    ast.USub: "no number is below zero; a difference is written A - B, and fails where it would be",
    ast.UAdd: "leave the + out",
    ast.Invert: "write 'not'",
    ast.IfExp: "write an if statement",
    ast.NamedExpr: "a name is set by a statement of its own, NAME = VALUE",
    ast.Call: "there are no functions in expressions",
    ast.Tuple: "one value stands here",
    ast.List: "there are no lists",
    ast.Subscript: "there are no lists: a variable holds one number",
    ast.Attribute: "there are no parts of a name",
    ast.JoinedStr: "values are whole numbers",
    ast.Starred: "one value stands here",
}
ALLOWED = "expressions are numbers, names, " + " ".join((*OPERATORS, "not"))


def check_level(node: ast.AST, level: int) -> None:
    if level > MOST_LEVELS:
        raise Mistake(node, f"the record of this stands on level {level}, at most {MOST_LEVELS}: nest less deeply")


class Expressions:
    """Translates expressions that may use these names. A level is that of the record to be made."""

    def __init__(self, meanings: Meanings) -> None:
        self.meanings = meanings

    def value(self, node: ast.expr, level: int) -> Expression:
        """An expression that is no state's or account's name alone, as these are no numbers to reckon with."""
        kind = self.named(node)
        if kind:
            raise Mistake(
                node,
                f"'{ast.unparse(node)}' is {ARTICLES[kind]}: it can be compared by == and !=, set and returned"
                + (", and be paid by transfer" if kind == "account" else ""),
            )
        return self.any(node, level)

    def account(self, node: ast.expr, level: int) -> Expression:
        """An expression that gives an account: an account's name, or a number that is reckoned."""
        if self.named(node) == "state":
            raise Mistake(node, f"'{ast.unparse(node)}' is a state; an account is expected here")
        return self.any(node, level)

    def any(self, node: ast.expr, level: int) -> Expression:
        check_level(node, level)
        match node:
            case ast.Constant():
                return Constant(self.constant(node))
            case ast.Name():
                return self.name(node)
            case ast.BinOp(left=left, op=op, right=right):
                return Binary(self.operator(node, op), self.value(left, level + 1), self.value(right, level + 1))
            case ast.Compare():
                return self.comparison(node, level)
            case ast.BoolOp():
                return self.joined(node, level)
            case ast.UnaryOp(op=ast.Not(), operand=operand):
                return Not(self.value(operand, level + 1))
            case ast.UnaryOp(op=op):
                raise Mistake(node, f"no such operator: {ADVICE[type(op)]}")
        advice = ADVICE.get(type(node))
        raise Mistake(node, f"no such expression: {advice}" if advice else f"no such expression; {ALLOWED}")

    def constant(self, node: ast.Constant) -> int:
        if isinstance(node.value, bool):
            raise Mistake(node, f"values are numbers: write {int(node.value)} for {node.value}")
        if type(node.value) is not int:
            raise Mistake(node, f"values are whole numbers from 0 to {MOST:,}, and there is nothing else")
        return number(node)

    def name(self, node: ast.Name) -> Expression:
        meaning = self.meanings.of(node)
        if meaning.kind not in LEAVES:
            raise Mistake(node, f"'{node.id}' is {ARTICLES[meaning.kind]}, which has no value")
        return LEAVES[meaning.kind](meaning.index)

    def operator(self, node: ast.AST, op: ast.AST) -> int:
        if type(op) in OPERATOR_NODES:
            return OPERATOR_NODES.index(type(op))
        advice = ADVICE.get(type(op), "operators are " + " ".join((*OPERATORS, "not")))
        raise Mistake(node, f"no such operator: {advice}")

    def joined(self, node: ast.BoolOp, level: int) -> Expression:
        """`a and b and c` is `(a and b) and c`: the first two stand deepest."""
        operator = self.operator(node, node.op)
        deepest = level + len(node.values) - 1
        made = self.value(node.values[0], deepest)
        for position, part in enumerate(node.values[1:]):
            made = Binary(operator, made, self.value(part, deepest - position))
        return made

    def comparison(self, node: ast.Compare, level: int) -> Expression:
        if len(node.ops) > 1:
            raise Mistake(node, "one comparison joins two values: write A < B and B < C")
        op, left, right = node.ops[0], node.left, node.comparators[0]
        if type(op) in EXCHANGED:
            return Binary(EXCHANGED[type(op)], self.value(right, level + 1), self.value(left, level + 1))
        operator = self.operator(node, op)
        if operator in (EQUAL, UNEQUAL):
            self.check_alike(left, right)
            return Binary(operator, self.any(left, level + 1), self.any(right, level + 1))
        return Binary(operator, self.value(left, level + 1), self.value(right, level + 1))

    def named(self, node: ast.expr) -> str | None:
        """Whether an expression is the name of a state or of an account."""
        if isinstance(node, ast.Name) and node.id in self.meanings.names:
            kind = self.meanings.names[node.id].kind
            return kind if kind in NAMED else None
        return None

    def check_alike(self, left: ast.expr, right: ast.expr) -> None:
        """A state's or account's name is compared with what can be one."""
        for node, other in ((left, right), (right, left)):
            kind = self.named(node)
            against = self.named(other) or (CONTEXT_KINDS.get(other.id) if isinstance(other, ast.Name) else None)
            if kind and against and kind != against:
                word = ARTICLES.get(against, "an amount")
                raise Mistake(node, f"'{ast.unparse(node)}' is {ARTICLES[kind]}, '{ast.unparse(other)}' is {word}")
