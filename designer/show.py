"""An agreement as source: `make` of what `show` prints gives the same bytes."""

from __future__ import annotations

from collections.abc import Iterator, Sequence
from dataclasses import dataclass

from designer import tree
from designer.language import CONTEXT, OPERATORS
from designer.names import Names, Who, calls_of, transition_names
from designer.tree import Agreement, Argument, Binary, Block, Constant, Context, Expression, For, If, IfElse, Local, Not
from designer.tree import Require, Return, Row, Rule, Set, Statement, Transfer, Transition, Variable, While

LABEL = "# An agreement file as a source, printed by `agreement show`, which is not proved."
WIDTH = 100
INDENT = "    "

# How firmly an expression's text holds together, in Python's order; and/or share one so that mixing them takes parentheses.
LOOSE, NEGATED, COMPARED, ADDED, MULTIPLIED, WHOLE = range(6)


@dataclass(frozen=True)
class Scope:
    """The names that an expression may use: in a rule there are no arguments or locals."""

    names: Names
    arguments: tuple[str, ...] = ()
    locals: tuple[str, ...] = ()


def scope_of(names: Names, who: Who, call: Who) -> Scope:
    """Of the action of a transition at a position, with its call's number, or of `initial` or `fallback`."""
    return Scope(names, names.arguments[call], names.locals[who])


# Expressions.


def expression_text(expression: Expression, scope: Scope) -> str:
    return _text(expression, scope)[0]


def _text(expression: Expression, scope: Scope) -> tuple[str, int]:
    match expression:
        case Constant(value):
            return str(value), WHOLE
        case Variable(index):
            return scope.names.variables[index], WHOLE
        case Local(index):
            return scope.locals[index], WHOLE
        case Argument(index):
            return scope.arguments[index], WHOLE
        case Context(index):
            return CONTEXT[index], WHOLE
        case Not(operand):
            return f"not {_held(operand, scope, WHOLE)}", NEGATED
        case Binary():
            return _binary_text(expression, scope)


def _held(expression: Expression, scope: Scope, firmly: int) -> str:
    """The text, in parentheses where it holds less firmly."""
    text, firmness = _text(expression, scope)
    return text if firmness >= firmly else f"({text})"


def _binary_text(expression: Binary, scope: Scope) -> tuple[str, int]:
    operator, left, right = expression.operator, expression.left, expression.right
    if operator in (tree.AND, tree.OR):
        same = isinstance(left, Binary) and left.operator == operator
        sides = _held(left, scope, LOOSE if same else NEGATED), _held(right, scope, NEGATED)
        firmness = LOOSE
    elif operator in (tree.PLUS, tree.MINUS):
        sides = _held(left, scope, ADDED), _held(right, scope, MULTIPLIED)
        firmness = ADDED
    elif operator in (tree.TIMES, tree.DIVIDE, tree.REMAINDER):
        sides = _held(left, scope, MULTIPLIED), _held(right, scope, WHOLE)
        firmness = MULTIPLIED
    else:
        sides = _compared(left, right, operator, scope), _compared(right, left, operator, scope)
        firmness = COMPARED
    return f"{sides[0]} {OPERATORS[operator]} {sides[1]}", firmness


def _compared(side: Expression, other: Expression, operator: int, scope: Scope) -> str:
    """A side of a comparison: a number that the caller or the state is compared with has its name."""
    if operator in (tree.EQUAL, tree.UNEQUAL) and isinstance(side, Constant) and isinstance(other, Context):
        named = {tree.SENDER: scope.names.accounts, tree.STATE: scope.names.states}.get(other.index, ())
        if side.value < len(named):
            return named[side.value]
    return _held(side, scope, ADDED)


# Statements.


def _target(target: int, scope: Scope) -> str:
    return scope.names.variables[target] if target < tree.FIRST_LOCAL else scope.locals[target - tree.FIRST_LOCAL]


def _account(expression: Expression, scope: Scope) -> str:
    if isinstance(expression, Constant) and expression.value < len(scope.names.accounts):
        return scope.names.accounts[expression.value]
    return expression_text(expression, scope)


def statement_lines(statement: Statement, scope: Scope) -> list[str]:
    """The lines of a statement, the first not indented."""

    def text(expression: Expression) -> str:
        return expression_text(expression, scope)

    match statement:
        case Set(target, value):
            return [f"{_target(target, scope)} = {text(value)}"]
        case Transfer(account, amount):
            return [f"transfer({_account(account, scope)}, {text(amount)})"]
        case Require(condition):
            return [f"require({text(condition)})"]
        case Return(value):
            return [f"return {text(value)}"]
        case Block(statements):
            return ["with block:", *_indented(line for part in statements for line in statement_lines(part, scope))]
        case If(condition, body):
            return [f"if {text(condition)}:", *_suite(body, scope)]
        case IfElse(condition, body, otherwise):
            return [f"if {text(condition)}:", *_suite(body, scope), *_otherwise(otherwise, scope)]
        case While(condition, body):
            return [f"while {text(condition)}:", *_suite(body, scope)]
        case For():
            return [_for_line(statement, scope), *_suite(statement.body, scope)]


def _indented(lines: Iterator[str] | Sequence[str]) -> list[str]:
    return [INDENT + line for line in lines]


def _suite(statement: Statement, scope: Scope) -> list[str]:
    """What stands below a colon: the statements of a block of several, or the one statement."""
    several = statement.statements if isinstance(statement, Block) and len(statement.statements) > 1 else (statement,)
    return _indented(line for part in several for line in statement_lines(part, scope))


def _otherwise(statement: Statement, scope: Scope) -> list[str]:
    if isinstance(statement, If | IfElse):
        first, *rest = statement_lines(statement, scope)
        return [f"el{first}", *rest]
    return ["else:", *_suite(statement, scope)]


def _for_line(statement: For, scope: Scope) -> str:
    initial, condition, closing = statement.initial, statement.condition, statement.closing
    target = initial.target
    counter = tree.value_of(target)
    word = _target(target, scope)
    first = expression_text(initial.value, scope)
    match condition:
        case Binary(tree.LESS, left, end) if left == counter and closing == Set(
            target, Binary(tree.PLUS, counter, Constant(1))
        ):
            return f"for {word} in range({first}, {expression_text(end, scope)}):"
    last = f"{_target(closing.target, scope)} := {expression_text(closing.value, scope)}"
    return f"with loop({word} := {first}, {expression_text(condition, scope)}, {last}):"


# The whole.


def _listed(word: str, items: Sequence[str]) -> str:
    line = f"{word}({', '.join(items)})"
    if len(line) <= WIDTH:
        return line
    return f"{word}(\n" + "".join(f"{INDENT}{item},\n" for item in items) + ")"


def _declarations(agreement: Agreement, names: Names) -> list[str]:
    balances = [f"{name}={balance}" for name, balance in zip(names.accounts, agreement.balances)]
    numbers = {"units": agreement.limit, "depth": agreement.depth, "bound": agreement.bound}
    settings = [f"start={names.states[agreement.start]}", *(f"{word}={value}" for word, value in numbers.items())]
    lines = [_listed("states", names.states)]
    if names.variables:
        lines.append(_listed("variables", names.variables))
    lines += [_listed("accounts", balances), _listed("settings", settings)]
    if not _numbered_by_default(agreement):
        lines.append(_listed("calls", [f"{names.calls[call]}={call}" for call in calls_of(agreement)]))
    return lines


def _numbered_by_default(agreement: Agreement) -> bool:
    """Whether the calls are numbered from 1 by their first transitions, and every row's has a transition."""
    order = list(dict.fromkeys(transition.name for transition in agreement.transitions))
    return order == list(range(1, len(order) + 1)) and set(calls_of(agreement)) == transition_names(agreement)


def _definition(word: str, action: Statement, scope: Scope) -> list[str]:
    lines = [f"def {word}({', '.join(scope.arguments)}):"]
    if scope.locals:
        lines += _indented([f"locals({', '.join(scope.locals)})"])
    return lines + _suite(action, scope)


def _grouped(agreement: Agreement, names: Names) -> list[list[int]]:
    """The positions of the transitions; those of one call, action and locals that follow each other stand together."""
    groups: list[list[int]] = []
    for position, item in enumerate(agreement.transitions):
        last = agreement.transitions[groups[-1][0]] if groups else None
        if last and (last.name, last.action) == (item.name, item.action):
            if names.locals[groups[-1][0]] == names.locals[position]:
                groups[-1].append(position)
                continue
        groups.append([position])
    return groups


def _decorator(item: Transition, scope: Scope) -> str:
    ends = [scope.names.states[item.from_state], scope.names.states[item.to_state]]
    guard = [] if item.guard == Constant(1) else [expression_text(item.guard, scope)]
    return f"@transition({', '.join(ends + guard)})"


def row_text(row: Row, names: Names) -> str:
    words = [str(value) for value in row.arguments[: len(names.arguments[row.name])]]
    words += [f"pays={row.coins}"] if row.coins else []
    return f"{names.accounts[row.sender]}.{names.calls[row.name]}({', '.join(words)})"


def rule_text(rule: Rule, names: Names) -> str:
    if rule.expression is not None:
        return f"always({expression_text(rule.expression, Scope(names))})"
    word = "not_after" if rule.type == tree.NOT_AFTER else "only_after"
    return f"{word}({names.calls[rule.p]}, {names.calls[rule.q]})"


def show(agreement: Agreement, names: Names) -> str:
    """The source of an agreement, with names that fit it."""
    parts = ["\n".join([LABEL, *_declarations(agreement, names)])]
    for word, action in (("initial", agreement.initial), ("fallback", agreement.fallback)):
        parts.append("\n".join(_definition(word, action, scope_of(names, word, word))))
    for group in _grouped(agreement, names):
        items = [agreement.transitions[position] for position in group]
        scope = scope_of(names, group[0], items[0].name)
        definition = _definition(names.calls[items[0].name], items[0].action, scope)
        parts.append("\n".join([*(_decorator(item, scope) for item in items), *definition]))
    rows = [f"{row_text(row, names)}  # row {number}" for number, row in enumerate(agreement.rows)]
    rules = [f"{rule_text(rule, names)}  # rule {number}" for number, rule in enumerate(agreement.rules)]
    parts += ["\n".join(lines) for lines in (rows, rules) if lines]
    return "\n\n\n".join(parts) + "\n"
