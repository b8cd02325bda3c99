"""The refusals of document 01: their numbers and texts, from the table that the C header includes."""

import re
from functools import cache
from pathlib import Path

TABLE = Path(__file__).resolve().parents[2] / "include" / "agreement_refusals.def"
_LINE = re.compile(r'^AGREEMENT_REFUSAL\((\d+), "([^"\\]*)"\)$', re.MULTILINE)


@cache
def texts() -> dict[int, str]:
    """The text of each refusal, by its number."""
    return {int(number): text for number, text in _LINE.findall(TABLE.read_text(encoding="utf-8"))}


def text(number: int) -> str:
    """The text of a refusal."""
    if number not in texts():
        raise ValueError(f"{number!r} is no refusal's number")
    return texts()[number]


def has_place(number: int) -> bool:
    """Whether a refusal carries a place: one of a file's bytes does."""
    return 1 <= number <= 8


class Refused(Exception):
    """A refusal: its number, its place (0 where it has none), its text and the units charged with it."""

    def __init__(self, number: int, place: int = 0, units: int = 0) -> None:
        self.number = number
        self.place = place
        self.units = units
        self.text = text(number)
        super().__init__(number, place, units)  # what an exception is copied by

    def __str__(self) -> str:
        where = f" at byte {self.place}" if has_place(self.number) else ""
        return f"refusal {self.number}{where}: {self.text}"
