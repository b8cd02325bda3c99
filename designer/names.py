"""The names of an agreement's numbers: the table beside a file, `FILE.names`, and the default names where it has none.

A line of the table has a word and names:

    states NAME ..            all of them, in order; so also `variables` and `accounts`
    call NUMBER NAME          a call
    arguments WHO NAME ..     of the call of a number, or of `initial` or `fallback`
    locals WHO NAME ..        of the transition at a position, from 0, or of `initial` or `fallback`
"""

from __future__ import annotations

import keyword
import os
import unicodedata
from collections.abc import Iterable, Sequence
from dataclasses import dataclass, field
from pathlib import Path

from designer import files
from designer.errors import Failure
from designer.language import ACTIONS, COUNTS, MOST_ARGUMENTS, MOST_LOCALS, MOST_NAME, RESERVED
from designer.tree import FIRST_LOCAL, Agreement, Argument, Expression, Local, Set, Statement, walk

HEADING = "# Names for the numbers of the agreement file beside this one. The file itself has numbers only.\n"

# A call's number or a transition's position, or "initial" or "fallback".
Who = int | str


@dataclass
class Names:
    """As a table has them, some may be missing; after `fit` every number of the agreement has its name."""

    states: tuple[str, ...] = ()
    variables: tuple[str, ...] = ()
    accounts: tuple[str, ...] = ()
    calls: dict[int, str] = field(default_factory=dict)
    arguments: dict[Who, tuple[str, ...]] = field(default_factory=dict)
    locals: dict[Who, tuple[str, ...]] = field(default_factory=dict)

    def everywhere(self) -> list[str]:
        """The names that have their meaning in the whole source."""
        return [*self.states, *self.variables, *self.accounts, *self.calls.values()]


# What an agreement uses.


def calls_of(tree: Agreement) -> list[int]:
    return sorted(transition_names(tree) | {row.name for row in tree.rows})


def transition_names(tree: Agreement) -> set[int]:
    return {transition.name for transition in tree.transitions}


def _used(parts: Iterable[Statement | Expression], kind: type[Local | Argument]) -> int:
    """One more than the highest local or argument in these parts."""
    records = [record for part in parts for record in walk(part)]
    indices = [record.index for record in records if isinstance(record, (Local, Argument)) and isinstance(record, kind)]
    if kind is Local:
        indices += [record.target - FIRST_LOCAL for record in records if isinstance(record, Set)]
    return max(indices, default=-1) + 1


def _passed(tree: Agreement, calls: Iterable[int]) -> int:
    """How many arguments the rows of these calls need: those after the last that is not zero may be left out."""
    wanted = set(calls)
    rows = [row.arguments for row in tree.rows if row.name in wanted]
    return max((index + 1 for row in rows for index, value in enumerate(row) if value), default=0)


def _arguments_needed(tree: Agreement, call: int) -> int:
    parts = [part for item in tree.transitions if item.name == call for part in (item.guard, item.action)]
    return max(_used(parts, Argument), _passed(tree, [call]))


# Filling in.


def _filled(word: str, given: Sequence[str], count: int) -> tuple[str, ...]:
    return (*given, *(f"{word}{index}" for index in range(len(given), count)))


def _counted(word: str, given: tuple[str, ...], count: int) -> tuple[str, ...]:
    if given and len(given) != count:
        raise Failure(f"{len(given)} {word}s are named, the agreement has {count}")
    return _filled(word, given, count)


def _fit_arguments(given: Names, tree: Agreement) -> dict[Who, tuple[str, ...]]:
    known = transition_names(tree)
    others = [call for call in calls_of(tree) if call not in known]
    needed: dict[Who, int] = {call: _arguments_needed(tree, call) for call in sorted(known)}
    needed["initial"] = _used([tree.initial], Argument)
    needed["fallback"] = max(_used([tree.fallback], Argument), _passed(tree, others))
    for who in given.arguments:
        if who not in needed:
            raise Failure(f"arguments of call {who} are named, and no transition has that name")
    fitted = {who: _filled("argument", given.arguments.get(who, ()), count) for who, count in needed.items()}
    return fitted | {call: fitted["fallback"] for call in others}


def _fit_locals(given: Names, tree: Agreement) -> dict[Who, tuple[str, ...]]:
    parts: dict[Who, list[Statement | Expression]] = {"initial": [tree.initial], "fallback": [tree.fallback]}
    parts |= {position: [item.guard, item.action] for position, item in enumerate(tree.transitions)}
    for who in given.locals:
        if who not in parts:
            raise Failure(f"locals of transition {who} are named, the agreement has {len(tree.transitions)} transitions")
    return {who: _filled("local", given.locals.get(who, ()), _used(part, Local)) for who, part in parts.items()}


def _distinct(names: Iterable[str]) -> None:
    seen: set[str] = set()
    for name in names:
        if name in seen:
            raise Failure(f"'{name}' names two things")
        seen.add(name)


def fit(given: Names, tree: Agreement) -> Names:
    """The names of every number of an agreement: those given, which must fit it, and default ones."""
    fitted = Names(
        states=_counted("state", given.states, tree.states),
        variables=_counted("variable", given.variables, tree.variables),
        accounts=_counted("account", given.accounts, tree.accounts),
        calls={call: given.calls.get(call, f"call{call}") for call in calls_of(tree)},
        arguments=_fit_arguments(given, tree),
        locals=_fit_locals(given, tree),
    )
    _distinct(fitted.everywhere())
    calls: dict[Who, Who] = {"initial": "initial", "fallback": "fallback"}
    calls |= {position: item.name for position, item in enumerate(tree.transitions)}
    for who, call in calls.items():
        _distinct([*fitted.everywhere(), *fitted.arguments[call], *fitted.locals[who]])
    return fitted


# The table.


def text(names: Names) -> str:
    """The table of these names."""
    lists = {"states": names.states, "variables": names.variables, "accounts": names.accounts}
    lines = [" ".join([word, *listed]) for word, listed in lists.items() if listed]
    lines += [f"call {number} {name}" for number, name in sorted(names.calls.items())]
    lines += [" ".join(["arguments", str(who), *listed]) for who, listed in names.arguments.items() if listed]
    lines += [" ".join(["locals", str(who), *listed]) for who, listed in names.locals.items() if listed]
    return HEADING + "".join(line + "\n" for line in lines)


def _checked(words: Sequence[str], most: int) -> tuple[str, ...]:
    if len(words) > most:
        raise Failure(f"{len(words)} names, at most {most}")
    for word in words:
        if not word.isidentifier() or keyword.iskeyword(word) or unicodedata.normalize("NFKC", word) != word:
            raise Failure(f"'{word}' is no name: letters, digits and _ make one, and it begins with no digit")
        if word in RESERVED:
            raise Failure(f"'{word}' is a word of the language and names nothing else")
    return tuple(words)


def _number(word: str) -> int:
    if not (word.isascii() and word.isdigit() and len(word) <= 3 and int(word) <= MOST_NAME):
        raise Failure(f"'{word}' is no number from 0 to {MOST_NAME}")
    return int(word)


def _add_line(names: Names, words: list[str]) -> None:
    match words:
        case ["states" | "variables" | "accounts" as word, *listed] if not getattr(names, word):
            setattr(names, word, _checked(listed, COUNTS[word][1]))
        case ["call", number, name] if _number(number) not in names.calls:
            names.calls[_number(number)] = _checked([name], 1)[0]
        case ["arguments" | "locals" as word, who, *listed]:
            table = getattr(names, word)
            key: Who = who if who in ACTIONS else _number(who)
            if key in table:
                raise Failure(f"'{word} {who}' stands here for the second time")
            table[key] = _checked(listed, MOST_ARGUMENTS if word == "arguments" else MOST_LOCALS)
        case _:
            raise Failure(
                f"'{' '.join(words)[:60]}' is no line of a table of names, or stands here for the second time; lines are "
                "'states NAME ..', 'variables NAME ..', 'accounts NAME ..', 'call NUMBER NAME', 'arguments WHO NAME ..' "
                "and 'locals WHO NAME ..'"
            )


def parse(table: str) -> Names:
    """The names of a table; a failure tells the line."""
    names = Names()
    for number, line in enumerate(table.split("\n"), 1):
        words = line.split("#")[0].split()
        try:
            if words:
                _add_line(names, words)
        except Failure as failure:
            raise Failure(f"line {number}: {failure}") from None
    return names


def path_of(file: Path) -> Path:
    return Path(f"{file}.names")


def load(file: Path, tree: Agreement) -> Names:
    """The names of an agreement file: from the table beside it, where there is one."""
    path = path_of(file)
    given = files.read_text(path) if os.path.exists(path) else ""
    try:
        return fit(parse(given), tree)
    except Failure as failure:
        raise Failure(f"{path}: {failure}") from None
