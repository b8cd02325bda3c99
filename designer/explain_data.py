"""An explanation as data: `explain` prints it as sentences, or with --json as it is here (explain.schema.json)."""

from __future__ import annotations

from collections.abc import Sequence
from dataclasses import dataclass, replace

from agreement import Verdict

from designer import tree
from designer.accepted import Accepted
from designer.explain_count import Count, Differs, count, lists_within
from designer.explain_rules import Break, first_break
from designer.explain_runs import Fresh, Made, replay
from designer.names import Names
from designer.show import Scope, expression_text, row_text, rule_text
from designer.tree import Rule


@dataclass(frozen=True)
class Explained:
    """A rule. `claim` is the expression of a rule of type 1; p and q are the calls of another. A broken rule has the run
    of its list and where that breaks it; one that is not has those of its calls that no list tried completes, or None
    where they were not counted to the end."""

    rule: int
    type: int
    source: str
    claim: str | None
    p: str | None
    q: str | None
    verdict: str
    tried: int
    rows: tuple[int, ...]
    start: Fresh | None = None
    calls: tuple[Made, ...] = ()
    broken: Break | None = None
    never_completed: tuple[str, ...] | None = None


@dataclass(frozen=True)
class RowName:
    row: int
    source: str


@dataclass(frozen=True)
class Counted:
    """What the lists tried come to, counted by so many calls through the library and not proved; None where the count was
    stopped."""

    lists: int
    runs: int
    finished: bool
    rows_never_completed: tuple[RowName, ...] | None
    states_never_reached: tuple[str, ...] | None


@dataclass(frozen=True)
class Explanation:
    """`rows` and `states` are their numbers, `lists` is the number of lists within the depth."""

    rows: int
    states: int
    depth: int
    bound: int
    lists: int
    rules: tuple[Explained, ...]
    count: Counted | None


def _explained(accepted: Accepted, number: int, verdict: Verdict) -> Explained:
    rule, names = accepted.tree.rules[number], accepted.names
    ordered = rule.expression is None
    explained = Explained(
        rule=number,
        type=rule.type,
        source=rule_text(rule, names),
        claim=None if rule.expression is None else expression_text(rule.expression, Scope(names)),
        p=names.calls[rule.p] if ordered else None,
        q=names.calls[rule.q] if ordered else None,
        verdict=verdict.verdict,
        tried=verdict.tried,
        rows=verdict.rows,
    )
    return _with_run(accepted, explained, rule) if verdict.verdict == "broken" else explained


def _with_run(accepted: Accepted, explained: Explained, rule: Rule) -> Explained:
    """A broken rule with its run, which must break it at the last call and not before."""
    run = replay(accepted, explained.rows)
    broken = first_break(rule, run.fresh_record, run.left, accepted.names)
    if broken is None or broken.after != len(explained.rows):
        rows = " ".join(str(row) for row in explained.rows)
        raise Differs(f"the library calls rule {explained.rule} broken by rows {rows}, and evaluated here it is not")
    return replace(explained, start=run.fresh, calls=run.made, broken=broken)


def _never_completed(rule: Rule, counted: Count, names: Names) -> tuple[str, ...] | None:
    if not counted.finished:
        return None
    named = [] if rule.expression is not None else dict.fromkeys((rule.p, rule.q))
    return tuple(names.calls[call] for call in named if call not in counted.calls)


def _by_name(accepted: Accepted, counted: Count) -> Counted:
    names, rows = accepted.names, accepted.tree.rows
    missing = [RowName(row, row_text(rows[row], names)) for row in range(len(rows)) if row not in counted.rows]
    unreached = [name for state, name in enumerate(names.states) if state not in counted.states]
    return Counted(
        lists=counted.lists,
        runs=counted.runs,
        finished=counted.finished,
        rows_never_completed=tuple(missing) if counted.finished else None,
        states_never_reached=tuple(unreached) if counted.finished else None,
    )


def explanation(accepted: Accepted, numbers: Sequence[int]) -> Explanation:
    """Judges these rules by the library and explains them."""
    agreement = accepted.tree
    rules = [_explained(accepted, number, accepted.agreement.verdict(number)) for number in numbers]
    kept = [(rule.rule, agreement.rules[rule.rule]) for rule in rules if rule.verdict != "broken"]
    counted = count(accepted, kept) if kept else None
    if counted:
        missing = {number: _never_completed(rule, counted, accepted.names) for number, rule in kept}
        rules = [replace(rule, never_completed=missing.get(rule.rule)) for rule in rules]
    return Explanation(
        rows=len(agreement.rows),
        states=agreement.states,
        depth=agreement.depth,
        bound=agreement.bound,
        lists=lists_within(len(agreement.rows), agreement.depth),
        rules=tuple(rules),
        count=_by_name(accepted, counted) if counted else None,
    )
