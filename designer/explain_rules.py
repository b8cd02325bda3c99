"""What a rule says of a run, evaluated here beside the library: `explain` holds the library's verdicts to it."""

from __future__ import annotations

import operator
from collections.abc import Callable, Iterator, Sequence
from dataclasses import dataclass

from agreement import Record

from designer import tree
from designer.language import MOST, OPERATORS
from designer.names import Names
from designer.show import Scope, expression_text
from designer.tree import Binary, Constant, Context, Expression, Not, Rule, Variable

_OPERATIONS: tuple[Callable[[int, int], int], ...] = (
    operator.add,
    operator.sub,
    operator.mul,
    operator.floordiv,
    operator.mod,
    operator.eq,
    operator.ne,
    operator.lt,
    operator.le,
    lambda left, right: bool(left) and bool(right),
    lambda left, right: bool(left) or bool(right),
)


_PROBLEMS = {
    tree.PLUS: f"over {MOST:,}",
    tree.MINUS: "below zero",
    tree.TIMES: f"over {MOST:,}",
    tree.DIVIDE: "a zero divisor",
    tree.REMAINDER: "a zero divisor",
}


class Fails(Exception):
    """An operation that document 01 lets fail, with its sides' values."""

    def __init__(self, expression: Binary, left: int, right: int) -> None:
        super().__init__()
        self.expression = expression
        self.sides = left, right


def _applied(expression: Binary, left: int, right: int) -> int:
    if expression.operator in (tree.DIVIDE, tree.REMAINDER) and right == 0:
        raise Fails(expression, left, right)
    value = int(_OPERATIONS[expression.operator](left, right))
    if not 0 <= value <= MOST:
        raise Fails(expression, left, right)
    return value


def value_of(expression: Expression, record: Record) -> int:
    """The value of a rule's expression on a state record; both sides of every operator are evaluated."""
    match expression:
        case Constant(value):
            return value
        case Variable(index):
            return record.variables[index]
        case Context(index):
            return record.own if index == tree.OWN else record.state
        case Not(operand):
            return int(not value_of(operand, record))
        case Binary(_, left, right):
            return _applied(expression, value_of(left, record), value_of(right, record))
        case _:
            raise ValueError("an accepted rule has no locals or arguments")


def is_kept(expression: Expression, record: Record) -> bool:
    """Whether a rule's expression is true on a record."""
    try:
        return value_of(expression, record) != 0
    except Fails:
        return False


# Where and why a rule breaks.


@dataclass(frozen=True)
class Failing:
    """An operation that fails: its source text, the same with its sides' values, and why it fails."""

    source: str
    values: str
    problem: str


@dataclass(frozen=True)
class Break:
    """`after` counts the calls of the list; 0 is the start. `why` is "false" or "fails" for an expression, with what it
    reads; "late" for a p after q, with the call that completed q, and "early" for a p with no q before it."""

    after: int
    why: str
    reads: dict[str, int | str] | None = None
    failing: Failing | None = None
    earlier: int | None = None


def _reads(expression: Expression, record: Record, names: Names) -> dict[str, int | str]:
    found: dict[str, int | str] = {}
    for part in tree.walk(expression):
        match part:
            case Variable(index):
                found[names.variables[index]] = record.variables[index]
            case Context(tree.OWN):
                found["own"] = record.own
            case Context(tree.STATE):
                found["state"] = names.states[record.state]
    return found


def _expression_break(after: int, expression: Expression, record: Record, names: Names) -> Break | None:
    reads = _reads(expression, record, names)
    try:
        return None if value_of(expression, record) else Break(after, "false", reads)
    except Fails as fails:
        left, right = fails.sides
        sign = fails.expression.operator
        values = f"{left} {OPERATORS[sign]} {right}"
        failing = Failing(expression_text(fails.expression, Scope(names)), values, _PROBLEMS[sign])
        return Break(after, "fails", reads, failing)


def _order_break(rule: Rule, completed: Iterator[tuple[int, int]]) -> Break | None:
    """Of completed calls, each with its place in the list and its name. A call is judged as p before it counts as q."""
    earlier = None
    for after, name in completed:
        if name == rule.p and rule.type == tree.NOT_AFTER and earlier is not None:
            return Break(after, "late", earlier=earlier)
        if name == rule.p and rule.type == tree.ONLY_AFTER and earlier is None:
            return Break(after, "early")
        if name == rule.q and earlier is None:
            earlier = after
    return None


def first_break(rule: Rule, fresh: Record, calls: Sequence[tuple[int, Record | None]], names: Names) -> Break | None:
    """Where a run breaks a rule. A call has its name and the record that it left; None: it was refused."""
    completed = [(after, name, record) for after, (name, record) in enumerate(calls, 1) if record is not None]
    if rule.expression is None:
        return _order_break(rule, ((after, name) for after, name, _ in completed))
    records = [(0, fresh), *((after, record) for after, _, record in completed)]
    breaks = (_expression_break(after, rule.expression, record, names) for after, record in records)
    return next((found for found in breaks if found), None)
