"""A refused file's refusal in words: number and place from the library, the text from its table, refusal 4 with its field."""

from __future__ import annotations

from collections.abc import Iterator
from functools import partial

import agreement
from cases import COUNTER, Test, corpus, library
from designer import refused, tree
from designer.tree import Binary, Constant, Context, Not, Require, Rule, Set, Transition, Variable

FOURS = 200

# Bytes of the counter agreement altered, by their offsets, and what is said. Its records: initial set at 20, fallback at 34,
# transition at 46, row at 112, rules at 140 and 168.
BYTES: dict[tuple[tuple[int, int], ...], str] = {
    ((4, 0),): "refusal 4 at byte 0: the agreement's number of states is 0, at least 1",
    ((4, 65),): "refusal 4 at byte 0: the agreement's number of states is 65, at most 64",
    ((5, 17),): "refusal 4 at byte 0: the agreement's number of variables is 17, at most 16",
    ((6, 0),): "refusal 4 at byte 0: the agreement's number of accounts is 0, at least 1",
    ((6, 9),): "refusal 4 at byte 0: the agreement's number of accounts is 9, at most 8",
    ((7, 2),): "refusal 4 at byte 0: the agreement's start state is 2, at most 1",
    ((4, 1), (7, 1)): "refusal 4 at byte 0: the agreement's start state is 1, it must be 0",
    ((8, 9),): "refusal 4 at byte 0: the agreement's depth is 9, at most 8",
    ((9, 3),): "refusal 4 at byte 0: the agreement's zero byte is 3, it must be 0",
    ((10, 0),): "refusal 4 at byte 0: the agreement's unit limit is 0, at least 1",
    ((11, 255),): "refusal 4 at byte 0: the agreement's unit limit is 65286, at most 4096",
    ((12, 0),): "refusal 4 at byte 0: the agreement's bound is 0, at least 1",
    ((15, 1),): "refusal 4 at byte 0: the agreement's bound is 16777226, at most 1000000",
    ((24, 1),): "refusal 4 at byte 20: the set's target is 1, allowed are 0 to 0 for the variables and 256 to 263 for the locals",
    ((5, 0),): "refusal 4 at byte 20: the set's target is 0, allowed are 256 to 263 for the locals",
    ((51, 2),): "refusal 4 at byte 46: the transition's from is 2, at most 1",
    ((52, 2),): "refusal 4 at byte 46: the transition's to is 2, at most 1",
    ((53, 1),): "refusal 4 at byte 46: the transition's zero byte is 1, it must be 0",
    ((70, 11),): "refusal 4 at byte 66: the operator is 11, at most 10",
    ((76, 1),): "refusal 4 at byte 72: the variable's index is 1, the agreement has 1 variables",
    ((117, 1),): "refusal 4 at byte 112: the row's sender is 1, it must be 0",
    ((118, 1),): "refusal 4 at byte 112: the row's first zero byte is 1, it must be 0",
    ((119, 1),): "refusal 4 at byte 112: the row's second zero byte is 1, it must be 0",
    ((144, 0),): "refusal 4 at byte 140: the rule's type is 0, at least 1",
    ((144, 4),): "refusal 4 at byte 140: the rule's type is 4, at most 3",
    ((146, 1),): "refusal 4 at byte 140: the rule's p is 1, it must be 0",
    ((147, 1),): "refusal 4 at byte 140: the rule's q is 1, it must be 0",
    ((174, 9),): "refusal 4 at byte 168: the rule's p is 9, which no transition has as its name",
    ((175, 9),): "refusal 4 at byte 168: the rule's q is 9, which no transition has as its name",
    ((0, 0),): "refusal 1 at byte 0: under 4 or over 32,768 bytes, or first length not the file's",
    ((2, 2),): "refusal 3 at byte 0: kind not allowed here",
    ((20, 3),): "refusal 2 at byte 20: length under 4 or past the parent, field incomplete, child absent, or left-over bytes",
}


def changed(**fields: object) -> bytes:
    """The counter agreement with other parts."""
    return tree.encode(tree.Agreement(**(vars(tree.decode(COUNTER)) | fields)))


def nots(count: int) -> Require:
    made: tree.Expression = Constant(1)
    for _ in range(count):
        made = Not(made)
    return Require(made)


def many(item: Transition | tree.Row | Rule, count: int) -> tuple[object, ...]:
    named = [Transition(name, 0, 1, Constant(1), Require(Constant(1))) for name in range(count)]
    return tuple(named) if isinstance(item, Transition) else (item,) * count


def parts() -> dict[str, bytes]:
    """What is said, and the file."""
    counter = tree.decode(COUNTER)
    transition, row, rule = counter.transitions[0], counter.rows[0], counter.rules[1]
    leaf = {"local": tree.Local(8), "argument": tree.Argument(4), "context": Context(4)}
    return {
        "refusal 4 at byte 1838: this is transition number 65, at most 64": changed(transitions=many(transition, 65)),
        "refusal 4 at byte 560: this is row number 17, at most 16": changed(rows=many(row, 17)),
        "refusal 4 at byte 204: this is rule number 9, at most 8": changed(rules=many(rule, 9)),
        "refusal 4 at byte 24: the local's index is 8, at most 7": changed(initial=Require(leaf["local"])),
        "refusal 4 at byte 24: the argument's index is 4, at most 3": changed(initial=Require(leaf["argument"])),
        "refusal 4 at byte 24: the context is 4, at most 3": changed(initial=Require(leaf["context"])),
        "refusal 4 at byte 148: the context is 1, in a rule at least 2": changed(rules=(Rule(1, expression=Context(1)),)),
        "refusal 4 at byte 26: the variable's index is 16, the agreement has 1 variables": changed(initial=Set(0, Variable(16))),
        "refusal 5 at byte 80: level 17": changed(initial=nots(14)),
        "refusal 6 at byte 112: name and from repeated": changed(transitions=(transition, transition)),
        "refusal 7 at byte 0: balances sum too large": changed(balances=(4_294_967_295, 1)),
        "refusal 8 at byte 0: over 1,024 steps": changed(initial=tree.Block((Require(Constant(1)),) * 1_020)),
        "refusal 3 at byte 148: kind not allowed here": changed(rules=(Rule(1, expression=tree.Local(0)),)),
        "refusal 4 at byte 24: the operator is 99, at most 10": changed(initial=Require(Binary(99, Constant(1), Constant(1)))),
    }


def said_of(data: bytes) -> str:
    reading = library().read(data)
    assert not reading.accepted
    return refused.sentence(reading.refusal, reading.place, data)


def check_bytes(changes: tuple[tuple[int, int], ...], expected: str) -> None:
    data = bytearray(COUNTER)
    for at, value in changes:
        data[at] = value
    assert said_of(bytes(data)) == expected, said_of(bytes(data))


def check_part(data: bytes, expected: str) -> None:
    assert said_of(data) == expected, said_of(data)


def check_damaged() -> None:
    """Every refused file has its words, and every refusal 4 its field."""
    fours = 0
    for data in corpus():
        reading = library().read(data)
        if reading.accepted:
            continue
        said = refused.sentence(reading.refusal, reading.place, data)
        text = agreement.refusals.text(reading.refusal)
        head = f"refusal {reading.refusal} at byte {reading.place}: "
        assert said.startswith(head) and "\n" not in said, said
        assert (said == head + text) == (reading.refusal != 4), said
        fours += reading.refusal == 4
    assert fours >= FOURS, f"only {fours} files with refusal 4"


def tests() -> Iterator[Test]:
    for changes, expected in BYTES.items():
        yield expected, partial(check_bytes, changes, expected)
    for expected, data in parts().items():
        yield expected, partial(check_part, data, expected)
    yield "every damaged file has its words", check_damaged
