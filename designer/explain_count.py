"""What the lists tried contain, counted and not proved: which rows, calls and states they ever come to.

Lists are tried by length, within a length in dictionary order, up to the bound. A refused call changes nothing, so that all
lists within so many rows of a place come to what is found by running every row once on each record, the records with most
rows left first. Where the bound cuts a length short, the lists of that length that were tried are those that begin as the
first list not tried does, up to some row, and go on with a smaller row and any rows after it.
"""

from __future__ import annotations

from collections.abc import Sequence
from dataclasses import dataclass, field

from agreement import Record

from designer import tree
from designer.accepted import Accepted
from designer.explain_rules import is_kept
from designer.explain_runs import call_of
from designer.tree import Agreement, Rule

# Rows tried on positions, each of which runs at most one call.
COUNT_LIMIT = 100_000

# A record, and which of the calls that rules name as q were completed on the way to it.
Position = tuple[Record, frozenset[int]]


class Differs(Exception):
    """The library's verdict is not what is found here."""


class Stopped(Exception):
    """More steps than the count may take."""


@dataclass(frozen=True)
class Count:
    """Row positions, call numbers and states that were met in the lists tried; where the count was stopped, `finished` is
    false and others may be met too. `runs` is the number of calls made through the library."""

    lists: int
    runs: int
    finished: bool
    rows: frozenset[int]
    calls: frozenset[int]
    states: frozenset[int]


def lists_within(rows: int, depth: int) -> int:
    return sum(rows**length for length in range(depth + 1))


def lists_tried(agreement: Agreement) -> int:
    """Of a rule that no list breaks within the bound."""
    return min(lists_within(len(agreement.rows), agreement.depth), agreement.bound)


def whole_length(rows: int, tried: int) -> tuple[int, int]:
    """The greatest length of which all lists were tried, and how many lists of the next were."""
    length, left = 0, tried - 1
    while rows and left >= rows ** (length + 1):
        length += 1
        left -= rows**length
    return length, left


def digits(number: int, rows: int, length: int) -> list[int]:
    """The list of rows at this place, from 0, in dictionary order."""
    return [number // rows**place % rows for place in reversed(range(length))]


@dataclass
class _Search:
    accepted: Accepted
    rules: Sequence[tuple[int, Rule]]
    rows: set[int] = field(default_factory=set)
    states: set[int] = field(default_factory=set)
    steps: int = 0
    left_by: dict[tuple[Record, int], Record | None] = field(default_factory=dict)
    ahead: dict[int, list[Position]] = field(default_factory=dict)

    def call(self, record: Record, row: int) -> Record | None:
        """What a row leaves of a record; None: it is refused. Each is run once."""
        if (record, row) not in self.left_by:
            outcome = self.accepted.agreement.call(record, call_of(self.accepted.tree.rows[row]))
            self.left_by[record, row] = outcome.record if outcome.completed else None
        return self.left_by[record, row]

    def arrive(self, record: Record) -> None:
        self.states.add(record.state)
        for number, rule in self.rules:
            if rule.expression is not None and not is_kept(rule.expression, record):
                raise Differs(f"the library does not call rule {number} broken, and a list that it tried breaks it")

    def step(self, position: Position, row: int) -> Position | None:
        """The position after a row; None where its call is refused."""
        self.steps += 1
        if self.steps > COUNT_LIMIT:
            raise Stopped
        record, happened = position
        left = self.call(record, row)
        if left is None:
            return None
        self.rows.add(row)
        self.arrive(left)
        name = self.accepted.tree.rows[row].name
        self.judge(name, happened)
        named = any(rule.expression is None and name == rule.q for _, rule in self.rules)
        return left, (happened | {name} if named else happened)

    def judge(self, name: int, happened: frozenset[int]) -> None:
        """Holds the rules of order to a completed call."""
        for number, rule in self.rules:
            ordered = rule.expression is None and name == rule.p
            if ordered and (rule.q in happened) == (rule.type == tree.NOT_AFTER):
                raise Differs(f"the library does not call rule {number} broken, and a list that it tried breaks it")

    def seed(self, fresh: Position, tried: int) -> None:
        """Puts the beginnings of all lists tried ahead, by the number of rows that may follow."""
        count = len(self.accepted.tree.rows)
        whole, more = whole_length(count, tried)
        self.ahead = {left: [] for left in range(whole + 1)}
        self.ahead[whole].append(fresh)
        first_not_tried = digits(more, count, whole + 1) if more else []
        position = fresh
        for left, row in zip(range(whole, -1, -1), first_not_tried):
            following = [self.step(position, smaller) for smaller in range(row)]
            self.ahead[left] += [found for found in following if found is not None]
            after = self.step(position, row) if left else None
            if after is None:
                return  # with a refused call a list comes to no more than a shorter one, which was tried
            position = after

    def search(self) -> None:
        seen: set[Position] = set()
        for left in range(max(self.ahead), 0, -1):
            for position in self.ahead[left]:
                if position in seen:
                    continue
                seen.add(position)
                following = (self.step(position, row) for row in range(len(self.accepted.tree.rows)))
                self.ahead[left - 1] += [found for found in following if found is not None and found not in seen]


def count(accepted: Accepted, rules: Sequence[tuple[int, Rule]]) -> Count:
    """Counts over the lists tried for these rules, by their numbers, which the library calls held or spent."""
    search = _Search(accepted, rules)
    tried = lists_tried(accepted.tree)
    fresh = accepted.agreement.start().record
    search.arrive(fresh)
    finished = True
    try:
        search.seed((fresh, frozenset()), tried)
        search.search()
    except Stopped:
        finished = False
    calls = frozenset(accepted.tree.rows[row].name for row in search.rows)
    return Count(tried, len(search.left_by), finished, frozenset(search.rows), calls, frozenset(search.states))
