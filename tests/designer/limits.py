"""Each limit of the format: what is at it is accepted by the library, what is past it is a mistake at its place."""

from __future__ import annotations

from collections.abc import Callable, Iterator
from functools import partial

from cases import BASE, Test, altered, failure_of, made
from designer import tree
from designer.make import make

PLAIN = "    require(1)\n"
FILE_FIELDS = "accounts(house=5, alice=3)"

Build = Callable[[int], str]


def listed(text: str, count: int, between: str = ", ") -> str:
    """A text so many times, with the number in the place of #."""
    return between.join(text.replace("#", str(index)) for index in range(count))


def states(count: int) -> str:
    return altered("states(open, shut)", f"states(open, shut, {listed('s#', count - 2)})")


def variables(count: int) -> str:
    return altered("variables(due, paid)", f"variables(due, paid, {listed('v#', count - 2)})")


def accounts(count: int) -> str:
    return altered(FILE_FIELDS, f"accounts(house=5, alice=3, {listed('a#=1', count - 2)})")


def transitions(count: int) -> str:
    more = listed("@transition(open, shut)\ndef c#():\n    require(1)\n", count - 2, "\n")
    return altered("alice.pay(2, 3, pays=1)", f"{more}\nalice.pay(2, 3, pays=1)")


def rows(count: int) -> str:
    return altered("alice.gift(9)\n", listed("alice.gift(#)", count - 2, "\n") + "\n")


def rules(count: int) -> str:
    return altered("not_after(pay, close)\n", listed("not_after(pay, close)", count - 1, "\n") + "\n")


def arguments(count: int) -> str:
    words = listed("x#", count)
    return altered("def close():", f"def close({words}):").replace("house.close()", f"house.close({listed('#', count)})")


def local_names(count: int) -> str:
    return altered(PLAIN, f"    locals({listed('l#', count)})\n{PLAIN}")


def levels_by_not(count: int) -> str:
    """The transition's statement stands on level 3, its condition on level 4."""
    return altered(PLAIN, f"    require({'not ' * (count - 4)}1)\n")


def levels_by_and(count: int) -> str:
    return altered(PLAIN, f"    require({listed('1', count - 3, ' and ')})\n")


def levels_by_block(count: int) -> str:
    """A require has its condition one level below it."""
    lines = ["    " * (depth + 1) + "with block:" for depth in range(count - 4)]
    return altered(PLAIN, "\n".join(lines) + "\n" + "    " * (count - 3) + "require(1)\n")


def levels_by_elif(count: int) -> str:
    """Each elif is an if in the part below the one before; the last has its body's condition two levels below it."""
    parts = [f"    {'el' if index else ''}if due == {index}:\n        require(1)\n" for index in range(count - 4)]
    return altered(PLAIN, "".join(parts))


def levels_by_range(count: int) -> str:
    """A for in a range has the sum of its closing set, whose sides stand three levels below it."""
    lines = ["    " * (depth + 1) + "with block:" for depth in range(count - 6)]
    inner = "    " * (count - 5)
    return altered(PLAIN, "\n".join(lines) + f"\n{inner}for due in range(0, 2):\n{inner}    paid = 1\n")


def levels_by_loop(count: int) -> str:
    lines = ["    " * (depth + 1) + "with block:" for depth in range(count - 5)]
    inner = "    " * (count - 4)
    return altered(PLAIN, "\n".join(lines) + f"\n{inner}with loop(due := 0, due, due := 1):\n{inner}    paid = 1\n")


def levels_by_change(count: int) -> str:
    """NAME += VALUE is a set of a sum."""
    lines = ["    " * (depth + 1) + "with block:" for depth in range(count - 5)]
    return altered(PLAIN, "\n".join(lines) + "\n" + "    " * (count - 4) + "due += 1\n")


def levels_in_rule(count: int) -> str:
    return altered("always(paid <= due)", f"always({'not ' * (count - 3)}due)")


def levels_in_guard(count: int) -> str:
    return altered("@transition(open, shut)", f"@transition(open, shut, {'not ' * (count - 3)}due)")


def steps(count: int) -> str:
    made_of = make(BASE)[0]
    actions = [made_of.initial, made_of.fallback, *(part.action for part in made_of.transitions)]
    there = sum(tree.steps(action) for action in actions) + len(made_of.transitions)
    return altered(PLAIN, PLAIN * (count - there + 1))


def size(count: int) -> str:
    """Many statements of 54 bytes, then some of 10 and 12, in a block of 4 bytes more than they have."""
    left = count - tree.size(make(BASE)[0]) + 12 - 4
    wide = (left - 200) // 54
    left -= 54 * wide
    narrow = next(number for number in range(6) if (left - 10 * number) % 12 == 0)
    plain = (left - 10 * narrow) // 12
    lines = "    require((1 + 1) * (1 + 1))\n" * wide + "    require(due)\n" * narrow + PLAIN * plain
    return altered(PLAIN, lines)


# The source of a count, the most that is allowed, the step to what is past it, and the mistake's line, column and message.
LIMITS: dict[str, tuple[Build, int, int, str]] = {
    "states": (states, 64, 1, "2:320: 65 states, at most 64"),
    "variables": (variables, 16, 1, "3:82: 17 variables, at most 16"),
    "accounts": (accounts, 8, 1, "4:64: 9 accounts, at most 8"),
    "transitions": (transitions, 64, 1, "280:2: 65 transitions, at most 64"),
    "rows": (rows, 16, 1, "48:1: 17 rows, at most 16"),
    "rules": (rules, 8, 1, "44:1: 9 rules, at most 8"),
    "arguments": (arguments, 4, 1, "28:27: 5 arguments, at most 4"),
    "locals": (local_names, 8, 1, "29:44: 9 locals, at most 8"),
    "levels, by not": (levels_by_not, 16, 1, "29:65: the record of this stands on level 17, at most 16"),
    "levels, by and": (levels_by_and, 16, 1, "29:13: the record of this stands on level 17, at most 16"),
    "levels, by block": (levels_by_block, 16, 1, "42:65: the record of this stands on level 17, at most 16"),
    "levels, by elif": (levels_by_elif, 16, 1, "53:10: the record of this stands on level 17, at most 16"),
    "levels, by range": (levels_by_range, 16, 1, "40:49: the record of this stands on level 17, at most 16"),
    "levels, by loop": (levels_by_loop, 16, 1, "41:70: the record of this stands on level 17, at most 16"),
    "levels, by a change": (levels_by_change, 16, 1, "41:53: the record of this stands on level 17, at most 16"),
    "levels, in a rule": (levels_in_rule, 16, 1, "36:64: the record of this stands on level 17, at most 16"),
    "levels, in a guard": (levels_in_guard, 16, 1, "27:81: the record of this stands on level 17, at most 16"),
    "steps": (steps, 1_024, 1, "27:2: the agreement has 1,025 steps, at most 1,024"),
    # Every record has an even number of bytes, so that no source has 32,769.
    "bytes": (size, 32_768, 2, "650:1: the agreement has 32,770 bytes, at most 32,768"),
}
# Fields at their least and most.
FIELDS = {
    "depth=2": ("depth=0", "depth=8"),
    "units=60": ("units=1", "units=4096"),
    "bound=100": ("bound=1", "bound=1_000_000"),
    "gift=200": ("gift=0", "gift=255"),
    FILE_FIELDS: ("accounts(house=0, alice=0)", "accounts(house=0, alice=4294967295)"),
    "pays=1": ("pays=0", "pays=4294967295"),
    PLAIN: ("    due = 0\n", "    due = 0xffff_ffff\n"),
}


def check_past(source: str, message: str) -> None:
    said = failure_of(source).split("\n")[0]
    assert said.startswith(f"sale.txt:{message}"), said


def check_size(build: Build, most: int) -> None:
    assert len(made(build(most))) == most


def check_wide() -> None:
    """A record of more than 65,535 bytes is too long for its own length, and still only a mistake."""
    wide = "1"
    for _ in range(13):
        wide = f"({wide} + {wide})"
    check_past(altered("    due = 0\n", f"    due = {wide}\n"), "9:1: the agreement has 115,010 bytes, at most 32,768")


def tests() -> Iterator[Test]:
    for label, (build, most, step, message) in LIMITS.items():
        yield f"{most} {label}", partial(made, build(most))
        yield f"{most + step} {label}", partial(check_past, build(most + step), message)
    yield "the largest file has 32,768 bytes", partial(check_size, size, 32_768)
    for part, others in FIELDS.items():
        for other in others:
            yield f"{other.strip()} is in range", partial(made, altered(part, other))
    yield "a record of more than 65,535 bytes", check_wide
