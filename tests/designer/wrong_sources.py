"""Every mistake gets its place, the offending text and what is allowed; and no source gets anything but a file or a mistake."""

from __future__ import annotations

import random
import re
from collections.abc import Iterator
from functools import partial

from cases import BASE, EXAMPLES, Test, altered, failure_of, made
from designer.errors import Failure
from mistakes import ALTERED, STATEMENTS

PLAIN = "    require(1)\n"
# What Python's own parser cannot read, by the line that it is told of.
UNREADABLE = {
    "300 parentheses": "(" * 300 + "1" + ")" * 300,
    "20,000 nots": "not " * 20_000 + "1",
    "20,000 sums": " + ".join(["1"] * 20_000),
    "5,000 digits": "9" * 5_000,
}
# Characters that let a source look other than it is read: controls, separators of lines, directions, and what has no width.
UNSEEN = "\x01\b\v\f\x1b\x7f\x85\xad\u200b\u200c\u200d\u200e\u200f\u2028\u2029\u202a\u202b\u202c\u202d\u202e"
UNSEEN += "\u2060\u2066\u2067\u2068\u2069\ufeff\ud800"
# Where they may stand: a part of base.txt, what replaces it with ? for the character, and the place.
STANDING = {
    "a comment": ("calls(gift=200)", "calls(gift=200)  # só? more", "6:22"),
    "a name": ("variables(due, paid)", "variables(due, pa?id)", "3:18"),
    "a row": ("alice.pay(2, 3", "alice.pay(2,?3", "32:13"),
}
MUTATIONS = 1_500


def check(source: str, place: str, message: str) -> None:
    first, *rest = failure_of(source).split("\n")
    assert first.startswith(f"sale.txt:{place}: {message}"), first
    line = source.split("\n")[int(place.split(":")[0]) - 1]
    if line:
        assert rest[0] == "    " + line[:160].rstrip(), rest
        column = int(place.split(":")[1])
        assert re.fullmatch(rf" {{{3 + column}}}\^+", rest[1]), rest


def check_unreadable(text: str) -> None:
    first = failure_of(altered(PLAIN, f"    due = {text}\n")).split("\n")[0]
    assert re.match(r"sale\.txt:29:\d+: .", first), first


def check_unseen(mark: str, part: str, other: str, place: str) -> None:
    head, line, marks = failure_of(altered(part, other.replace("?", mark))).split("\n")
    assert head.startswith(f"sale.txt:{place}: the character U+{ord(mark):04X} is not allowed: "), head
    assert marks.strip(" ") == "^" and len(marks) == 4 + int(place.split(":")[1]), marks
    assert line[len(marks) - 1] == "\ufffd", line


def check_line_ends() -> None:
    """LF and CR LF end lines; after a CR alone some programs go on with the line."""
    assert made(BASE.replace("\n", "\r\n").replace("calls(gift=200)", "calls(gift=200)\t# ½\tﬁ")) == made(BASE)
    said = failure_of(altered("calls(gift=200)", "# more\rcalls(gift=200)")).split("\n")[0]
    assert said.startswith("sale.txt:6:7: the character U+000D is not allowed: "), said


def check_columns() -> None:
    """Columns are counted in characters, and tabs stay below tabs."""
    said = failure_of(altered(PLAIN, "\tdue = 'ä' + zz\n").replace("due", "fällig"))
    assert said == (
        "sale.txt:29:11: values are whole numbers from 0 to 4,294,967,295, and there is nothing else\n"
        "    \tfällig = 'ä' + zz\n    \t         ^^^"
    ), said


def mutated(source: str, seed: int) -> str:
    """A source with some words exchanged, doubled or left out."""
    chance = random.Random(seed)
    words = re.findall(r"\w+|\s+|.", source)
    for _ in range(chance.randint(1, 3)):
        at, other = chance.randrange(len(words)), chance.choice(words)
        words[at] = chance.choice([other, words[at] * 2, "", words[at] + other])
    return "".join(words)


def check_mutations() -> None:
    """Whatever the source, either there is a mistake with its place or the library accepts the file."""
    sources = [path.with_suffix(".txt").read_text(encoding="utf-8") for path in EXAMPLES] + [BASE]
    wrong = 0
    for seed in range(MUTATIONS):
        source = mutated(sources[seed % len(sources)], seed)
        try:
            made(source)
        except Failure as failure:
            assert re.match(r"source:\d+:\d+: .", str(failure)), failure
            wrong += 1
    assert MUTATIONS // 4 < wrong < MUTATIONS, f"{wrong} of {MUTATIONS} are wrong: too few of one kind"


def tests() -> Iterator[Test]:
    yield "base.txt is accepted", partial(made, BASE)
    for part, mistakes in ALTERED.items():
        for other, place, message in mistakes:
            yield f"{part!r} altered to {other[:100]!r}", partial(check, altered(part, other), place, message)
    for statement, place, message in STATEMENTS:
        yield f"the statement {statement[:100]!r}", partial(check, altered(PLAIN, f"    {statement}\n"), place, message)
    for label, text in UNREADABLE.items():
        yield f"an expression of {label}", partial(check_unreadable, text)
    for standing, (part, other, place) in STANDING.items():
        for mark in UNSEEN:
            yield f"U+{ord(mark):04X} in {standing}", partial(check_unseen, mark, part, other, place)
    yield "line ends", check_line_ends
    yield "columns", check_columns
    yield f"{MUTATIONS} altered sources", check_mutations
