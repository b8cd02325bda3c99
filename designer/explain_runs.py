"""A list of rows, replayed through the library: what each call does, by name."""

from __future__ import annotations

from collections.abc import Sequence
from dataclasses import dataclass

from agreement import Call, Outcome, Record

from designer.accepted import Accepted
from designer.names import Names
from designer.tree import Row


@dataclass(frozen=True)
class Change:
    """`what` is "variable", "balance" or "own balance"; the own balance's name is "own"."""

    what: str
    name: str
    before: int
    after: int


@dataclass(frozen=True)
class Made:
    """A call of the list. A refused one has its refusal's number and text, and no value or change."""

    row: int
    caller: str
    call: str
    coins: int
    arguments: dict[str, int]
    refusal: int | None
    reason: str | None
    value: int | None
    units: int
    state_before: str
    state_after: str
    changes: tuple[Change, ...]


@dataclass(frozen=True)
class Fresh:
    """The agreement after its start."""

    state: str
    variables: dict[str, int]
    balances: dict[str, int]
    own: int
    units: int


@dataclass(frozen=True)
class Run:
    """`left` has each call's number and the record that it left, None where it was refused."""

    fresh: Fresh
    fresh_record: Record
    made: tuple[Made, ...]
    left: tuple[tuple[int, Record | None], ...]


def call_of(row: Row) -> Call:
    return Call(row.name, row.sender, row.coins, row.arguments)


def arguments_of(row: Row, names: Names) -> dict[str, int]:
    return dict(zip(names.arguments[row.name], row.arguments))


def _changes(before: Record, after: Record, names: Names) -> tuple[Change, ...]:
    listed = [
        *(("variable", *entry) for entry in zip(names.variables, before.variables, after.variables)),
        *(("balance", *entry) for entry in zip(names.accounts, before.balances, after.balances)),
        ("own balance", "own", before.own, after.own),
    ]
    return tuple(Change(*entry) for entry in listed if entry[2] != entry[3])


def _fresh(outcome: Outcome, names: Names) -> Fresh:
    record = outcome.record
    variables = dict(zip(names.variables, record.variables))
    balances = dict(zip(names.accounts, record.balances))
    return Fresh(names.states[record.state], variables, balances, record.own, outcome.units)


def _made(position: int, row: Row, before: Record, outcome: Outcome, names: Names) -> Made:
    return Made(
        row=position,
        caller=names.accounts[row.sender],
        call=names.calls[row.name],
        coins=row.coins,
        arguments=arguments_of(row, names),
        refusal=None if outcome.completed else outcome.refusal,
        reason=None if outcome.completed else outcome.text,
        value=outcome.value,
        units=outcome.units,
        state_before=names.states[before.state],
        state_after=names.states[outcome.record.state],
        changes=_changes(before, outcome.record, names),
    )


def replay(accepted: Accepted, positions: Sequence[int]) -> Run:
    """The run of the rows at these positions, from a fresh start."""
    names = accepted.names
    rows = [accepted.tree.rows[position] for position in positions]
    fresh, *outcomes = accepted.agreement.run(call_of(row) for row in rows)
    befores = [fresh.record, *(outcome.record for outcome in outcomes)]
    made = [_made(*entry, names) for entry in zip(positions, rows, befores, outcomes)]
    left = [(row.name, outcome.record if outcome.completed else None) for row, outcome in zip(rows, outcomes)]
    return Run(_fresh(fresh, names), fresh.record, tuple(made), tuple(left))
