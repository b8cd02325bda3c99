"""`make` of what `show` prints gives the same bytes: on the examples and on random files that are accepted."""

from __future__ import annotations

from collections.abc import Iterator
from functools import partial
from pathlib import Path

from cases import BASE, EXAMPLES, Test, altered, corpus, library, made
from designer import names, tree
from designer.language import ACTIONS
from designer.make import make
from designer.show import show

ACCEPTED = 2_000
PLAIN = "    require(1)\n"
# Two ways to write one record, as statements in the place of PLAIN.
SAME = {
    "due > paid": "paid < due",
    "due >= paid": "paid <= due",
    "due < 1 or (paid < 1 and not (due == 2))": "due < 1 or paid < 1 and not due == 2",
    "(due < 1 or paid < 1) or own": "due < 1 or paid < 1 or own",
    "(due - 1) - 1": "due - 1 - 1",
    "0x10 + 1_000": "16 + 1000",
    "sender == alice": "sender == 1",
    "shut != state": "1 != state",
}
SAME_STATEMENTS = {
    "due += 2": "due = due + 2",
    "due //= 2": "due = due // 2",
    "for due in range(1, paid):\n        own_ = 1": "with loop(due := 1, due < paid, due := due + 1):\n        own_ = 1",
    "if due:\n        paid = 1\n    elif paid:\n        due = 1": (
        "if due:\n        paid = 1\n    else:\n        if paid:\n            due = 1"
    ),
    "transfer(alice, 1)": "transfer(1, 1)",
    "return alice": "return 1",
    "due = 1; paid = 2": "due = 1\n    paid = 2",
}
# Two records that are easily taken for one.
OTHER_STATEMENTS = {
    "with block:\n        due = 1": "due = 1",
    "with block:\n        due = 1\n        paid = 1": "with block:\n        with block:\n            due = 1\n            paid = 1",
    "require(due < 1 or (paid < 1 or own))": "require(due < 1 or paid < 1 or own)",
    "require(due - (1 - 1))": "require(due - 1 - 1)",
    "require(not due == 1)": "require((not due) == 1)",
    "with loop(due := 1, due < paid, due := 1 + due):\n        paid = 1": "for due in range(1, paid):\n        paid = 1",
}


def check_made(path: Path) -> None:
    """The example's file and table are what its source makes."""
    agreement, table = make(path.with_suffix(".txt").read_text(encoding="utf-8"))
    assert tree.encode(agreement) == path.read_bytes()
    assert names.text(table) == names.path_of(path).read_text(encoding="utf-8")


def check_shown(data: bytes, table: names.Names) -> None:
    agreement = tree.decode(data)
    assert tree.encode(agreement) == data
    fitted = names.fit(table, agreement)
    again, named = make(show(agreement, fitted))
    assert tree.encode(again) == data, show(agreement, fitted)
    assert names.fit(named, again) == fitted


def check_example(path: Path) -> None:
    data = path.read_bytes()
    check_shown(data, names.load(path, tree.decode(data)))
    check_shown(data, names.Names())


def check_source_again(path: Path) -> None:
    """What is shown of an example is its source, but for comments and spaces."""
    data = path.read_bytes()
    shown = show(tree.decode(data), names.load(path, tree.decode(data)))
    source = path.with_suffix(".txt").read_text(encoding="utf-8")
    assert bare(shown) == bare(source), shown


def bare(source: str) -> str:
    """A source without comments, spaces, separators in numbers and commas after the last of a list."""
    lines = [line.split("#")[0].rstrip() for line in source.split("\n")]
    return "".join("\n".join(lines).split()).replace(",)", ")").replace("1_000_000", "1000000").replace("20_000", "20000")


def invented(data: bytes) -> names.Names:
    """A table with another name for every number."""
    agreement = tree.decode(data)
    default = names.fit(names.Names(), agreement)

    def other(words: tuple[str, ...]) -> tuple[str, ...]:
        return tuple(f"{word}_ü" for word in words)

    return names.Names(
        states=other(default.states),
        variables=other(default.variables),
        accounts=other(default.accounts),
        calls={call: f"{name}_ü" for call, name in default.calls.items()},
        arguments={who: other(words) for who, words in default.arguments.items() if who in ACTIONS},
        locals={who: other(words) for who, words in default.locals.items()},
    )


def check_corpus() -> None:
    accepted = [data for data in corpus() if library().read(data).accepted]
    assert len(accepted) >= ACCEPTED, f"only {len(accepted)} of the files are accepted"
    for number, data in enumerate(accepted):
        table = names.Names() if number % 4 else names.parse(names.text(invented(data)))
        check_shown(data, table)


def statement(text: str) -> bytes:
    return made(altered(PLAIN, f"    {text}\n").replace("own_", "paid"))


def check_same(one: str, other: str) -> None:
    assert statement(one) == statement(other)
    check_shown(statement(one), make(BASE)[1])


def check_other(one: str, other: str) -> None:
    assert statement(one) != statement(other)
    for text in (one, other):
        check_shown(statement(text), make(BASE)[1])


def tests() -> Iterator[Test]:
    for path in EXAMPLES:
        yield f"{path.name} is what its source makes", partial(check_made, path)
        yield f"{path.name} shown and made", partial(check_example, path)
        yield f"{path.name} shown is its source", partial(check_source_again, path)
    for one, other in SAME.items():
        yield f"{one} is {other}", partial(check_same, f"require({one})", f"require({other})")
    for one, other in SAME_STATEMENTS.items():
        yield f"{one!r} is {other!r}", partial(check_same, one, other)
    for one, other in OTHER_STATEMENTS.items():
        yield f"{one!r} is not {other!r}", partial(check_other, one, other)
    yield f"{ACCEPTED:,} and more random files shown and made", check_corpus
