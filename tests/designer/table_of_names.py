"""The table of names beside a file: what is written is read again, and a wrong table is told of in one line."""

from __future__ import annotations

from collections.abc import Iterator
from functools import partial

from cases import BASE, Test
from designer.errors import Failure
from designer.make import make
from designer.names import Names, fit, parse, text
from designer.show import show

# A table, and what is said of it where it stands beside the file of base.txt.
WRONG = {
    "states open": "1 states are named, the agreement has 2",
    "variables a b c": "3 variables are named, the agreement has 2",
    "accounts a b c d": "4 accounts are named, the agreement has 2",
    "call 1 open\nstates open shut": "'open' names two things",
    "states open open": "'open' names two things",
    "states call1 shut": "'call1' names two things",
    "arguments 9 a": "arguments of call 9 are named, and no transition has that name",
    "arguments 1 a a": "'a' names two things",
    "arguments 1 a\nlocals 0 b a": "'a' names two things",
    "arguments 1 a\nvariables a b": "'a' names two things",
    "locals 2 a": "locals of transition 2 are named, the agreement has 2 transitions",
    "locals 0 a b c d e f g h i": "line 1: 9 names, at most 8",
    "arguments 1 a b c d e": "line 1: 5 names, at most 4",
    f"states {' '.join(f's{index}' for index in range(65))}": "line 1: 65 names, at most 64",
    f"variables {' '.join(f'v{index}' for index in range(17))}": "line 1: 17 names, at most 16",
    f"accounts {' '.join(f'a{index}' for index in range(9))}": "line 1: 9 names, at most 8",
    "states open shut\nstates open shut": "line 2: 'states open shut' is no line of a table of names, or",
    "locals 0 a\nlocals 0 b": "line 2: 'locals 0' stands here for the second time",
    "call 1 pay\n\ncall 1 pay": "line 3: 'call 1 pay' is no line of a table of names, or stands here for the second time",
    "call 256 pay": "line 1: '256' is no number from 0 to 255",
    "call one pay": "line 1: 'one' is no number from 0 to 255",
    "call ² pay": "line 1: '²' is no number from 0 to 255",
    "call 1": "line 1: 'call 1' is no line of a table of names",
    "call 1 pay back": "line 1: 'call 1 pay back' is no line of a table of names",
    "locals end a": "line 1: 'end' is no number from 0 to 255",
    "rules a b": "line 1: 'rules a b' is no line of a table of names",
    "states op-en shut": "line 1: 'op-en' is no name",
    "states 1open shut": "line 1: '1open' is no name",
    "states while shut": "line 1: 'while' is no name",
    "states ﬁnal shut": "line 1: 'ﬁnal' is no name",
    "states sender shut": "line 1: 'sender' is a word of the language and names nothing else",
}
# A table with only some names; the others have their default ones.
PARTLY = "# by hand\n\nstates open shut # two\ncall 1 pay\nlocals 0 left\n"


def check_wrong(table: str, message: str) -> None:
    tree = make(BASE)[0]
    try:
        fit(parse(table), tree)
    except Failure as failure:
        said = str(failure)
        assert said.startswith(message) and "\n" not in said, said
    else:
        raise AssertionError("nothing was said of the table")


def check_partly() -> None:
    tree = make(BASE)[0]
    names = fit(parse(PARTLY), tree)
    assert names.states == ("open", "shut")
    assert names.variables == ("variable0", "variable1")
    assert names.accounts == ("account0", "account1")
    assert names.calls == {1: "pay", 2: "call2", 200: "call200"}
    assert names.arguments[1] == ("argument0", "argument1")
    assert names.arguments[200] == names.arguments["fallback"] == ("argument0",)
    assert names.locals[0] == ("left", "local1")
    assert make(show(tree, names))[0] == tree


def check_default() -> None:
    tree = make(BASE)[0]
    first = show(tree, fit(Names(), tree)).split("\n")
    assert first[1:6] == [
        "states(state0, state1)",
        "variables(variable0, variable1)",
        "accounts(account0=5, account1=3)",
        "settings(start=state0, units=60, depth=2, bound=100)",
        "calls(call1=1, call2=2, call200=200)",
    ], first


def check_written() -> None:
    tree, names = make(BASE)
    assert text(names).split("\n")[1:] == [
        "states open shut",
        "variables due paid",
        "accounts house alice",
        "call 1 pay",
        "call 2 close",
        "call 200 gift",
        "arguments fallback amount",
        "arguments 1 amount day",
        "locals 0 left part",
        "",
    ], text(names)
    assert fit(parse(text(names)), tree) == fit(names, tree)


def tests() -> Iterator[Test]:
    yield "what make writes", check_written
    yield "default names", check_default
    yield "some names given", check_partly
    for table, message in WRONG.items():
        yield f"the table {table!r}", partial(check_wrong, table, message)
