"""A refused file's refusal in words. The library gives its number and place, its table the text; here refusal 4 gets its field."""

from __future__ import annotations

from agreement import refusals

from designer.language import CHILDREN, CONTEXT, COUNTS, MOST_ARGUMENTS, MOST_LOCALS, OPERATORS, RULES, SETTINGS
from designer.tree import FIRST_LOCAL, OWN, kind_of, number

FIELD = 4
KINDS = {2: "transition", 3: "row", 4: "rule"}
# By the kind of a record: its field, and how many values this has from 0 on.
INDEXED = {
    66: ("the local's index", MOST_LOCALS),
    67: ("the argument's index", MOST_ARGUMENTS),
    80: ("the operator", len(OPERATORS)),
}


def sentence(refusal: int, place: int, data: bytes) -> str:
    text = refusals.text(refusal)
    if refusal == FIELD:
        text = _field_text(data, place) or text
    return f"refusal {refusal} at byte {place}: {text}"


def _outside(what: str, value: int, least: int, most: int) -> str | None:
    """What is wrong with a value, if anything is."""
    if value < least:
        return f"{what} is {value}, at least {least}"
    if value > most:
        return f"{what} is {value}, " + (f"at most {most}" if most > least else f"it must be {most}")
    return None


def _first(*answers: str | None) -> str | None:
    return next((answer for answer in answers if answer), None)


def _field_text(data: bytes, at: int) -> str | None:
    """The field of the record at this place that is out of its range; those before it were found right."""
    kind = kind_of(data, at)
    if at == 0:
        return _agreement_text(data)
    if kind in KINDS:
        return _child_text(data, at, kind)
    index = number(data, at + 4, 2)
    if kind == 16:
        locals_ = f"{FIRST_LOCAL} to {FIRST_LOCAL + MOST_LOCALS - 1} for the locals"
        return f"the set's target is {index}, allowed are {_variables(data[5])}{locals_}"
    if kind == 65:
        return f"the variable's index is {index}, the agreement has {data[5]} variables"
    if kind == 68:
        return _outside("the context", index, 0, len(CONTEXT) - 1) or f"the context is {index}, in a rule at least {OWN}"
    return _outside(INDEXED[kind][0], index, 0, INDEXED[kind][1] - 1) if kind in INDEXED else None


def _variables(count: int) -> str:
    return f"0 to {count - 1} for the variables and " if count else ""


def _agreement_text(data: bytes) -> str | None:
    states, variables, accounts, start, depth, zero = (*data[4:10], *bytes(6))[:6]
    return _first(
        _outside("the agreement's number of states", states, *COUNTS["states"]),
        _outside("the agreement's number of variables", variables, *COUNTS["variables"]),
        _outside("the agreement's number of accounts", accounts, *COUNTS["accounts"]),
        _outside("the agreement's start state", start, 0, states - 1),
        _outside("the agreement's depth", depth, *SETTINGS["depth"]),
        _outside("the agreement's zero byte", zero, 0, 0),
        _outside("the agreement's unit limit", number(data, 10, 2), *SETTINGS["units"]),
        _outside("the agreement's bound", number(data, 12, 4), *SETTINGS["bound"]),
    )


def _siblings(data: bytes, at: int) -> list[int]:
    """The offsets of the agreement's children before this one."""
    found, child = [], 16 + 4 * data[6]
    while child < at:
        found.append(child)
        child += max(number(data, child, 2), 4)
    return found


def _child_text(data: bytes, at: int, kind: int) -> str | None:
    word = KINDS[kind]
    most = CHILDREN[word + "s"]
    before = [child for child in _siblings(data, at) if kind_of(data, child) == kind]
    if len(before) >= most:
        return f"this is {word} number {len(before) + 1}, at most {most}"
    first, second, third, fourth = (*data[at + 4 : at + 8], *bytes(4))[:4]
    states, accounts = data[4], data[6]
    if kind == 2:
        return _first(
            _outside("the transition's from", second, 0, states - 1),
            _outside("the transition's to", third, 0, states - 1),
            _outside("the transition's zero byte", fourth, 0, 0),
        )
    if kind == 3:
        return _first(
            _outside("the row's sender", second, 0, accounts - 1),
            _outside("the row's first zero byte", third, 0, 0),
            _outside("the row's second zero byte", fourth, 0, 0),
        )
    return _outside("the rule's type", number(data, at + 4, 2), 1, len(RULES)) or _ends_text(data, at, third, fourth)


def _ends_text(data: bytes, at: int, p: int, q: int) -> str | None:
    """What is wrong with p or q of a rule."""
    if number(data, at + 4, 2) == 1:
        return _outside("the rule's p", p, 0, 0) or _outside("the rule's q", q, 0, 0)
    names = {data[child + 4] for child in _siblings(data, at) if kind_of(data, child) == 2}
    wrong = [(word, name) for word, name in (("p", p), ("q", q)) if name not in names]
    return f"the rule's {wrong[0][0]} is {wrong[0][1]}, which no transition has as its name" if wrong else None
