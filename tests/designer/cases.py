"""What the tests share: the sources and files that they work on, and the library."""

from __future__ import annotations

import subprocess
from collections.abc import Callable
from functools import cache
from pathlib import Path

import agreement
from designer import tree
from designer.errors import Failure
from designer.make import make

Test = tuple[str, Callable[[], None]]

ROOT = Path(__file__).resolve().parents[2]
EXAMPLES = sorted((ROOT / "examples" / "agreements").glob("*.agreement"))
BASE = (ROOT / "tests" / "designer" / "base.txt").read_text(encoding="utf-8")
COUNTER = (ROOT / "examples" / "agreements" / "counter.agreement").read_bytes()
COUNT, SEED = 1_200, 1
INTERPRETER = ROOT / "tests" / "interpreter" / "target" / "release" / "interpreter"


@cache
def library() -> agreement.Library:
    return agreement.Library()


def altered(part: str, other: str) -> str:
    """The base source with one part replaced."""
    assert BASE.count(part) == 1, f"{part!r} stands {BASE.count(part)} times in base.txt"
    return BASE.replace(part, other)


def failure_of(source: str, path: str = "sale.txt") -> str:
    """What `make` says of a source that has a mistake."""
    try:
        make(source, path)
    except Failure as failure:
        assert failure.status == 2
        return str(failure)
    raise AssertionError("no mistake was seen in:\n" + source)


def made(source: str) -> bytes:
    """The file of a source, which the library accepts."""
    data = tree.encode(make(source)[0])
    reading = library().read(data)
    assert reading.accepted, f"refused {reading.refusal} {reading.place}: what was made of\n{source}"
    return data


@cache
def corpus() -> tuple[bytes, ...]:
    """Files at every limit, the largest ones, and so many random, damaged and deeply nested ones."""
    command = [str(INTERPRETER), "corpus", str(COUNT), str(SEED)]
    data = subprocess.run(command, stdout=subprocess.PIPE, check=True).stdout
    found, at = [], 0
    while at < len(data):
        length = int.from_bytes(data[at : at + 4], "little")
        found.append(data[at + 4 : at + 4 + length])
        at += 4 + length
    return tuple(found)
