"""An explanation in sentences."""

from __future__ import annotations

from collections.abc import Iterable, Sequence

from designer import tree
from designer.explain_data import Counted, Explained, Explanation
from designer.explain_rules import Break
from designer.explain_runs import Change, Fresh, Made

NOT_PROVED = "Verdicts, and what each call does, are answers of the proved library. Sentences and counts are not proved."
ENDINGS = {1: "st", 2: "nd", 3: "rd"}


def ordinal(number: int) -> str:
    ending = "th" if number % 100 in (11, 12, 13) else ENDINGS.get(number % 10, "th")
    return f"{number:,}{ending}"


def amount(number: int, word: str) -> str:
    return f"{number:,} {word}" + ("" if number == 1 else "s")


def listed(items: Iterable[str]) -> str:
    return ", ".join(items)


# The run of a broken rule's list.


def fresh_line(fresh: Fresh) -> str:
    balances = listed(f"{name} {balance}" for name, balance in fresh.balances.items())
    variables = [f"{name} {value}" for name, value in fresh.variables.items() if value]
    if len(variables) < len(fresh.variables):
        variables.append("all others 0" if variables else "all 0")
    known = f"variables {listed(variables)}; " if variables else ""
    return f"  start: state {fresh.state}; {known}balances {balances}; own balance {fresh.own}"


def _call_words(made: Made) -> str:
    arguments = listed(f"{name}={value}" for name, value in made.arguments.items())
    paid = f", paying {amount(made.coins, 'coin')}" if made.coins else ""
    return f"row {made.row}: {made.caller} calls {made.call}({arguments}){paid}"


def _answer_words(made: Made) -> str:
    if made.refusal is not None:
        return f"refused, {made.reason} (refusal {made.refusal})"
    return "completed, no value" if made.value is None else f"completed, value {made.value}"


def _state_words(made: Made) -> str:
    same = made.state_before == made.state_after
    return f"state {made.state_after}" if same else f"state {made.state_before} -> {made.state_after}"


def _change_words(change: Change) -> str:
    name = {"variable": change.name, "balance": f"balance of {change.name}"}.get(change.what, change.what)
    return f"{name} {change.before} -> {change.after}"


def made_line(number: int, made: Made) -> str:
    changes = listed(map(_change_words, made.changes)) or "nothing else changes"
    return f"  {number}. {_call_words(made)}: {_answer_words(made)}; {_state_words(made)}; {changes}"


def break_line(rule: Explained, broken: Break) -> str:
    if broken.why == "late":
        return f"  Call {broken.after} breaks the rule: {rule.p} is completed, and call {broken.earlier} has completed {rule.q}."
    if broken.why == "early":
        return f"  Call {broken.after} breaks the rule: {rule.p} is completed, and no call before it has completed {rule.q}."
    where = f"After call {broken.after}" if broken.after else "At the start"
    values = listed(f"{name} = {value}" for name, value in (broken.reads or {}).items())
    read = f", with {values}" if values else ""
    if broken.failing is None:
        return f"  {where} the rule is broken: {rule.claim} is false{read}."
    failing = f"{broken.failing.source} is {broken.failing.values}, {broken.failing.problem}"
    return f"  {where} the rule is broken: {rule.claim} fails{read}: {failing}."


def _broken_lines(rule: Explained) -> list[str]:
    rows = f"rows {' '.join(str(row) for row in rule.rows)}" if rule.rows else "the empty list"
    first = f"Broken by {rows}, the {ordinal(rule.tried)} list tried."
    if len(rule.rows) > 1:
        first += " No list before it breaks the rule, so no shorter one does."
    calls = [made_line(number, made) for number, made in enumerate(rule.calls, 1)]
    start = [fresh_line(rule.start)] if rule.start else []
    return [first, *start, *calls, *([break_line(rule, rule.broken)] if rule.broken else [])]


# Rules.


def says(rule: Explained) -> str:
    if rule.claim is not None:
        return f"It says: at the start and after every completed call, {rule.claim}."
    if rule.type == tree.NOT_AFTER:
        return f"It says: {rule.p} is not completed " + ("twice." if rule.p == rule.q else f"after {rule.q}.")
    return f"It says: {rule.p} is " + ("never completed." if rule.p == rule.q else f"completed only after {rule.q}.")


def _kept_lines(rule: Explained, explanation: Explanation) -> list[str]:
    lists = amount(rule.tried, "list")
    if rule.verdict == "held":
        lines = [f"Held: {lists} tried, all that are within the depth, and none breaks it."]
    else:
        lines = [f"Spent: {lists} tried of {explanation.lists:,} within the depth, as the bound allows, and none breaks it."]
    if rule.never_completed:
        calls = " or ".join(rule.never_completed)
        lines.append(f"  For want of trying: no list tried completes {calls}, so none could break it (counted, not proved).")
    return lines


def rule_lines(rule: Explained, explanation: Explanation) -> list[str]:
    lines = _broken_lines(rule) if rule.verdict == "broken" else _kept_lines(rule, explanation)
    return [f"Rule {rule.rule}: {rule.source}", says(rule), *lines]


# What is said once.


def _meaning_lines(explanation: Explanation) -> list[str]:
    """What held and spent say and do not say."""
    verdicts = {rule.verdict for rule in explanation.rules}
    lines = []
    if "held" in verdicts:
        calls = amount(explanation.depth, "call")
        lines += [
            f'"Held" says: no list of up to {calls} breaks the rule, each call being one of the rows.',
            "It does not speak of longer lists, other callers, coins or arguments, or other opening balances.",
        ]
    if "spent" in verdicts:
        left = explanation.lists - explanation.bound
        lines += [
            f'"Spent" says: the lists tried keep the rule; they are the first {explanation.bound:,}, shortest first.',
            f"It does not speak of the other {left:,} within the depth: the very next may break the rule.",
        ]
    return lines


def _met_line(what: str, met: str, missing: Sequence[str]) -> str:
    return f"  {what}s {met} in no list: {listed(missing)}" if missing else f"  every {what} is {met} in some list"


def count_lines(count: Counted) -> list[str]:
    runs = amount(count.runs, "call")
    lines = [f"Counted over the {amount(count.lists, 'list')} tried, by {runs} through the library; not proved:"]
    if count.rows_never_completed is None or count.states_never_reached is None:
        return [*lines, "  stopped, as it takes too many calls: it is not known what the lists come to"]
    rows = [f"{row.row} ({row.source})" for row in count.rows_never_completed]
    lines.append(_met_line("row", "completed", rows))
    lines.append(_met_line("state", "reached", count.states_never_reached))
    return lines


def text(explanation: Explanation) -> str:
    verdicts = [rule.verdict for rule in explanation.rules]
    tally = listed(f"{verdicts.count(word)} {word}" for word in ("broken", "held", "spent") if word in verdicts)
    head = f"{amount(len(verdicts), 'rule')}: {tally}." if verdicts else "The agreement has no rule."
    parts = [[head, NOT_PROVED], *(rule_lines(rule, explanation) for rule in explanation.rules)]
    parts += [_meaning_lines(explanation)] + ([count_lines(explanation.count)] if explanation.count else [])
    return "\n\n".join("\n".join(lines) for lines in parts if lines) + "\n"
