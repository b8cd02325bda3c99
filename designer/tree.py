"""The records of an agreement file (document 01, "The agreement file") as a tree: `decode` reads an accepted file, `encode` writes.

Each record has its file offset, `at`. Two trees are equal where their files are: offsets are not compared.
"""

from __future__ import annotations

from dataclasses import dataclass, field
from struct import pack

from designer.language import MOST_ARGUMENTS

PLUS, MINUS, TIMES, DIVIDE, REMAINDER, EQUAL, UNEQUAL, LESS, AT_MOST, AND, OR = range(11)
SENDER, COINS, OWN, STATE = range(4)
ALWAYS, NOT_AFTER, ONLY_AFTER = 1, 2, 3
FIRST_LOCAL = 256


def _offset() -> int:
    return field(default=0, compare=False)


# Expressions.


@dataclass(frozen=True)
class Constant:
    value: int
    at: int = _offset()


@dataclass(frozen=True)
class Variable:
    index: int
    at: int = _offset()


@dataclass(frozen=True)
class Local:
    index: int
    at: int = _offset()


@dataclass(frozen=True)
class Argument:
    index: int
    at: int = _offset()


@dataclass(frozen=True)
class Context:
    """0 sender, 1 coins paid, 2 the agreement's own balance, 3 the state before the call."""

    index: int
    at: int = _offset()


@dataclass(frozen=True)
class Binary:
    operator: int
    left: Expression
    right: Expression
    at: int = _offset()


@dataclass(frozen=True)
class Not:
    operand: Expression
    at: int = _offset()


Expression = Constant | Variable | Local | Argument | Context | Binary | Not


# Statements.


@dataclass(frozen=True)
class Set:
    """Targets from 0 on are variables, from 256 on locals."""

    target: int
    value: Expression
    at: int = _offset()


@dataclass(frozen=True)
class Transfer:
    account: Expression
    amount: Expression
    at: int = _offset()


@dataclass(frozen=True)
class Require:
    condition: Expression
    at: int = _offset()


@dataclass(frozen=True)
class Return:
    value: Expression
    at: int = _offset()


@dataclass(frozen=True)
class Block:
    statements: tuple[Statement, ...]
    at: int = _offset()


@dataclass(frozen=True)
class If:
    condition: Expression
    body: Statement
    at: int = _offset()


@dataclass(frozen=True)
class IfElse:
    condition: Expression
    body: Statement
    otherwise: Statement
    at: int = _offset()


@dataclass(frozen=True)
class While:
    condition: Expression
    body: Statement
    at: int = _offset()


@dataclass(frozen=True)
class For:
    initial: Set
    condition: Expression
    closing: Set
    body: Statement
    at: int = _offset()


Statement = Set | Transfer | Require | Return | Block | If | IfElse | While | For


def value_of(target: int) -> Variable | Local:
    """The expression for what a set's target holds."""
    return Variable(target) if target < FIRST_LOCAL else Local(target - FIRST_LOCAL)


# The agreement and its parts.


@dataclass(frozen=True)
class Transition:
    name: int
    from_state: int
    to_state: int
    guard: Expression
    action: Statement
    at: int = _offset()


@dataclass(frozen=True)
class Row:
    name: int
    sender: int
    coins: int
    arguments: tuple[int, ...]
    at: int = _offset()


@dataclass(frozen=True)
class Rule:
    """Type 1 has an expression, and p and q are 0; types 2 and 3 have none."""

    type: int
    p: int = 0
    q: int = 0
    expression: Expression | None = None
    at: int = _offset()


@dataclass(frozen=True)
class Agreement:
    states: int
    variables: int
    start: int
    depth: int
    limit: int
    bound: int
    balances: tuple[int, ...]
    initial: Statement
    fallback: Statement
    transitions: tuple[Transition, ...] = ()
    rows: tuple[Row, ...] = ()
    rules: tuple[Rule, ...] = ()
    at: int = _offset()

    @property
    def accounts(self) -> int:
        return len(self.balances)


Record = Agreement | Transition | Row | Rule | Statement | Expression


# What a record consists of: its kind, the bytes of its fields, and its children.

Parts = tuple[int, bytes, tuple[Record, ...]]


def parts(record: Record) -> Parts:
    match record:
        case Agreement():
            return _agreement_parts(record)
        case Transition(name, from_state, to_state, guard, action):
            return 2, pack("<BBBB", name, from_state, to_state, 0), (guard, action)
        case Row(name, sender, coins, arguments):
            return 3, pack("<BBBB5I", name, sender, 0, 0, coins, *arguments), ()
        case Rule(kind, p, q, expression):
            return 4, pack("<HBB", kind, p, q), () if expression is None else (expression,)
        case Set() | Transfer() | Require() | Return() | Block() | If() | IfElse() | While() | For():
            return _statement_parts(record)
        case _:
            return _expression_parts(record)


def _agreement_parts(record: Agreement) -> Parts:
    counts = pack("<BBBBBB", record.states, record.variables, record.accounts, record.start, record.depth, 0)
    amounts = pack(f"<HI{record.accounts}I", record.limit, record.bound, *record.balances)
    return 1, counts + amounts, (record.initial, record.fallback, *record.transitions, *record.rows, *record.rules)


def _statement_parts(record: Statement) -> Parts:
    match record:
        case Set(target, value):
            return 16, pack("<H", target), (value,)
        case Transfer(account, amount):
            return 17, b"", (account, amount)
        case Require(condition):
            return 18, b"", (condition,)
        case Return(value):
            return 19, b"", (value,)
        case Block(statements):
            return 32, b"", statements
        case If(condition, body):
            return 33, b"", (condition, body)
        case IfElse(condition, body, otherwise):
            return 34, b"", (condition, body, otherwise)
        case While(condition, body):
            return 35, b"", (condition, body)
        case For(initial, condition, closing, body):
            return 36, b"", (initial, condition, closing, body)


def _expression_parts(record: Expression) -> Parts:
    match record:
        case Constant(value):
            return 64, pack("<I", value), ()
        case Variable(index):
            return 65, pack("<H", index), ()
        case Local(index):
            return 66, pack("<H", index), ()
        case Argument(index):
            return 67, pack("<H", index), ()
        case Context(index):
            return 68, pack("<H", index), ()
        case Binary(operator, left, right):
            return 80, pack("<H", operator), (left, right)
        case Not(operand):
            return 81, b"", (operand,)


def size(record: Record) -> int:
    """The length of a record in bytes."""
    _, fields, children = parts(record)
    return 4 + len(fields) + sum(size(child) for child in children)


def steps(action: Statement) -> int:
    """The steps of a statement in the expanded form."""
    match action:
        case Block(statements):
            return sum(steps(statement) for statement in statements)
        case If(_, body) | While(_, body):
            return 2 + steps(body)
        case IfElse(_, body, otherwise):
            return 2 + steps(body) + steps(otherwise)
        case For(_, _, _, body):
            return 4 + steps(body)
        case _:
            return 1


def walk(record: Record) -> list[Record]:
    """A record and all records in it, in the order of the file."""
    found = [record]
    for child in parts(record)[2]:
        found += walk(child)
    return found


def encode(record: Record) -> bytes:
    """The bytes of a record within the format's limits."""
    kind, fields, children = parts(record)
    body = fields + b"".join(encode(child) for child in children)
    return pack("<HH", 4 + len(body), kind) + body


# Reading. The file is an accepted one, so that nothing is tested here.


def number(data: bytes, at: int, size: int) -> int:
    return int.from_bytes(data[at : at + size], "little")


def kind_of(data: bytes, at: int) -> int:
    return number(data, at + 2, 2)


def children_of(data: bytes, at: int, fields: int) -> list[int]:
    """The offsets of a record's children, which follow so many bytes of fields."""
    found, end = [], at + number(data, at, 2)
    child = at + 4 + fields
    while child < end:
        found.append(child)
        child += number(data, child, 2)
    return found


def decode(data: bytes) -> Agreement:
    """The tree of an accepted file."""
    states, variables, accounts, start, depth = data[4:9]
    balances = tuple(number(data, 16 + 4 * index, 4) for index in range(accounts))
    initial, fallback, *others = children_of(data, 0, 12 + 4 * accounts)
    return Agreement(
        states=states,
        variables=variables,
        start=start,
        depth=depth,
        limit=number(data, 10, 2),
        bound=number(data, 12, 4),
        balances=balances,
        initial=_statement(data, initial),
        fallback=_statement(data, fallback),
        transitions=tuple(_transition(data, at) for at in others if kind_of(data, at) == 2),
        rows=tuple(_row(data, at) for at in others if kind_of(data, at) == 3),
        rules=tuple(_rule(data, at) for at in others if kind_of(data, at) == 4),
    )


def _transition(data: bytes, at: int) -> Transition:
    guard, action = children_of(data, at, 4)
    name, from_state, to_state = data[at + 4 : at + 7]
    return Transition(name, from_state, to_state, _expression(data, guard), _statement(data, action), at)


def _row(data: bytes, at: int) -> Row:
    arguments = tuple(number(data, at + 12 + 4 * index, 4) for index in range(MOST_ARGUMENTS))
    return Row(data[at + 4], data[at + 5], number(data, at + 8, 4), arguments, at)


def _rule(data: bytes, at: int) -> Rule:
    inner = [_expression(data, child) for child in children_of(data, at, 4)]
    return Rule(number(data, at + 4, 2), data[at + 6], data[at + 7], inner[0] if inner else None, at)


def _set(data: bytes, at: int) -> Set:
    (value,) = children_of(data, at, 2)
    return Set(number(data, at + 4, 2), _expression(data, value), at)


def _statement(data: bytes, at: int) -> Statement:
    kind = kind_of(data, at)
    if kind == 16:
        return _set(data, at)
    children = children_of(data, at, 0)
    if kind == 32:
        return Block(tuple(_statement(data, child) for child in children), at)
    if kind == 36:
        initial, condition, closing, body = children
        return For(_set(data, initial), _expression(data, condition), _set(data, closing), _statement(data, body), at)
    first = _expression(data, children[0])
    match kind:
        case 17:
            return Transfer(first, _expression(data, children[1]), at)
        case 18:
            return Require(first, at)
        case 19:
            return Return(first, at)
        case 33:
            return If(first, _statement(data, children[1]), at)
        case 34:
            return IfElse(first, _statement(data, children[1]), _statement(data, children[2]), at)
        case 35:
            return While(first, _statement(data, children[1]), at)
    raise ValueError(f"the record at byte {at} is no statement")


def _expression(data: bytes, at: int) -> Expression:
    kind = kind_of(data, at)
    match kind:
        case 64:
            return Constant(number(data, at + 4, 4), at)
        case 80:
            left, right = children_of(data, at, 2)
            return Binary(number(data, at + 4, 2), _expression(data, left), _expression(data, right), at)
        case 81:
            (operand,) = children_of(data, at, 0)
            return Not(_expression(data, operand), at)
    leaves: dict[int, type[Variable | Local | Argument | Context]] = {65: Variable, 66: Local, 67: Argument, 68: Context}
    if kind not in leaves:
        raise ValueError(f"the record at byte {at} is no expression")
    return leaves[kind](number(data, at + 4, 2), at)
