"""Each form of the language against the record that document 01 has for it, written out here by its numbers."""

from __future__ import annotations

from collections.abc import Iterator
from functools import partial

from cases import Test, altered, made
from designer.make import make
from designer.tree import encode

PLAIN = "    require(1)\n"
LINE = "\n        "


def record(kind: int, fields: bytes, *children: bytes) -> bytes:
    body = fields + b"".join(children)
    return (4 + len(body)).to_bytes(2, "little") + kind.to_bytes(2, "little") + body


def short(value: int) -> bytes:
    return value.to_bytes(2, "little")


def long(*values: int) -> bytes:
    return b"".join(value.to_bytes(4, "little") for value in values)


def binary(operator: int, left: bytes, right: bytes) -> bytes:
    return record(80, short(operator), left, right)


def target(number: int, value: bytes) -> bytes:
    return record(16, short(number), value)


ZERO, ONE, TWO = (record(64, long(value)) for value in range(3))
DUE, PAID = record(65, short(0)), record(65, short(1))
LEFT = record(66, short(0))
X, Y = record(67, short(0)), record(67, short(1))
DUE_1, PAID_2 = target(0, ONE), target(1, TWO)
BOTH = record(32, b"", DUE_1, PAID_2)

EXPRESSIONS = {
    "0": ZERO,
    "4294967295": record(64, b"\xff\xff\xff\xff"),
    "due": DUE,
    "paid": PAID,
    "left": LEFT,
    "part": record(66, short(1)),
    "x": X,
    "y": Y,
    "sender": record(68, short(0)),
    "coins": record(68, short(1)),
    "own": record(68, short(2)),
    "state": record(68, short(3)),
    "due + 1": binary(0, DUE, ONE),
    "due - 1": binary(1, DUE, ONE),
    "due * 1": binary(2, DUE, ONE),
    "due // 1": binary(3, DUE, ONE),
    "due % 1": binary(4, DUE, ONE),
    "due == 1": binary(5, DUE, ONE),
    "due != 1": binary(6, DUE, ONE),
    "due < 1": binary(7, DUE, ONE),
    "due <= 1": binary(8, DUE, ONE),
    "due > 1": binary(7, ONE, DUE),
    "due >= 1": binary(8, ONE, DUE),
    "due and 1": binary(9, DUE, ONE),
    "due or 1": binary(10, DUE, ONE),
    "not due": record(81, b"", DUE),
    "due == alice": binary(5, DUE, ONE),
    "shut != due": binary(6, ONE, DUE),
    "due and paid and x": binary(9, binary(9, DUE, PAID), X),
    "due or paid and x": binary(10, DUE, binary(9, PAID, X)),
    "due - paid - x": binary(1, binary(1, DUE, PAID), X),
    "due - (paid - x)": binary(1, DUE, binary(1, PAID, X)),
    "due + paid * x": binary(0, DUE, binary(2, PAID, X)),
    "not due == paid": record(81, b"", binary(5, DUE, PAID)),
}
STATEMENTS = {
    "due = 1": DUE_1,
    "paid = 2": PAID_2,
    "left = x": target(256, X),
    "part = y": target(257, Y),
    "paid = alice": target(1, ONE),
    "due += x": target(0, binary(0, DUE, X)),
    "left -= 1": target(256, binary(1, LEFT, ONE)),
    "transfer(alice, due)": record(17, b"", ONE, DUE),
    "transfer(x, y)": record(17, b"", X, Y),
    "require(due)": record(18, b"", DUE),
    "return due": record(19, b"", DUE),
    "due = 1\n    paid = 2": BOTH,
    f"with block:{LINE}due = 1": record(32, b"", DUE_1),
    f"with block:{LINE}due = 1{LINE}paid = 2": BOTH,
    f"due = 1\n    with block:{LINE}due = 1{LINE}paid = 2": record(32, b"", DUE_1, BOTH),
    f"if x:{LINE}due = 1": record(33, b"", X, DUE_1),
    f"if x:{LINE}due = 1{LINE}paid = 2": record(33, b"", X, BOTH),
    f"if x:{LINE}due = 1\n    else:{LINE}paid = 2": record(34, b"", X, DUE_1, PAID_2),
    f"if x:{LINE}due = 1\n    elif y:{LINE}paid = 2": record(34, b"", X, DUE_1, record(33, b"", Y, PAID_2)),
    f"while x:{LINE}due = 1": record(35, b"", X, DUE_1),
    f"with loop(due := 1, x, paid := 2):{LINE}due = 1": record(36, b"", DUE_1, X, PAID_2, DUE_1),
    f"for left in range(x, y):{LINE}paid = 2": record(
        36, b"", target(256, X), binary(7, LEFT, Y), target(256, binary(0, LEFT, ONE)), PAID_2
    ),
}
ROWS = {
    "alice.pay(2, 3, pays=1)": record(3, bytes([1, 1, 0, 0]), long(1, 2, 3, 0, 0)),
    "house.pay(alice, shut)": record(3, bytes([1, 0, 0, 0]), long(0, 1, 1, 0, 0)),
    "alice.gift(9)": record(3, bytes([200, 1, 0, 0]), long(0, 9, 0, 0, 0)),
    "house.close()": record(3, bytes([2, 0, 0, 0]), long(0, 0, 0, 0, 0)),
}
RULES = {
    "always(paid <= due)": record(4, short(1) + bytes(2), binary(8, PAID, DUE)),
    "always(state == shut)": record(4, short(1) + bytes(2), binary(5, record(68, short(3)), ONE)),
    "not_after(pay, close)": record(4, short(2) + bytes([1, 2])),
    "only_after(close, pay)": record(4, short(3) + bytes([2, 1])),
}
TRANSITIONS = {
    "@transition(open, shut)": record(2, bytes([2, 0, 1, 0]), ONE, record(18, b"", ONE)),
    "@transition(shut, open, due)": record(2, bytes([2, 1, 0, 0]), DUE, record(18, b"", ONE)),
}
# S, V, A, start, depth, zero, unit limit, bound and the balances of base.txt.
FIELDS = bytes([2, 2, 2, 0, 2, 0]) + short(60) + long(100, 5, 3)


def check_statement(text: str, expected: bytes) -> None:
    source = altered("def close():", "def close(x, y):").replace("house.close()", "house.close(0, 0)")
    source = source.replace(PLAIN, f"    locals(left, part)\n    {text}\n")
    made(source)
    assert encode(make(source)[0].transitions[1].action) == expected, make(source)[0].transitions[1].action


def check_row(text: str, expected: bytes) -> None:
    assert encode(make(altered("house.close()", text))[0].rows[2]) == expected


def check_rule(text: str, expected: bytes) -> None:
    assert encode(make(altered("not_after(pay, close)", text))[0].rules[1]) == expected


def check_transition(text: str, expected: bytes) -> None:
    assert encode(make(altered("@transition(open, shut)", text))[0].transitions[1]) == expected


def check_whole() -> None:
    """The agreement's fields, and its parts in the order of the file, also where the source has them otherwise."""
    source = altered("not_after(pay, close)\n", "not_after(pay, close)\n\n\ndef initial():\n    due = 1\n")
    source = source.replace("def initial():\n    due = 0\n\n\n", "")
    tree = make(source)[0]
    parts = [tree.initial, tree.fallback, *tree.transitions, *tree.rows, *tree.rules]
    assert made(source) == record(1, FIELDS, *(encode(part) for part in parts))
    assert encode(tree.initial) == DUE_1 and encode(tree.fallback) == target(1, X)
    assert [encode(row) for row in tree.rows] == [ROWS["alice.pay(2, 3, pays=1)"], ROWS["alice.gift(9)"], ROWS["house.close()"]]


def check_numbers_of_calls() -> None:
    """Calls without a number are numbered from 1 in the order of their first transitions, past numbers that are taken."""
    tree = make(altered("calls(gift=200)", "calls(gift=1, close=0)"))[0]
    assert [item.name for item in tree.transitions] == [2, 0]
    assert [row.name for row in tree.rows] == [2, 1, 0]


def tests() -> Iterator[Test]:
    for text, expected in EXPRESSIONS.items():
        yield f"the record of {text}", partial(check_statement, f"require({text})", record(18, b"", expected))
    for text, expected in STATEMENTS.items():
        yield f"the record of {text!r}", partial(check_statement, text, expected)
    for check, table in ((check_row, ROWS), (check_rule, RULES), (check_transition, TRANSITIONS)):
        for text, expected in table.items():
            yield f"the record of {text}", partial(check, text, expected)
    yield "the whole file", check_whole
    yield "numbers of calls", check_numbers_of_calls
