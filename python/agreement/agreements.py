"""One agreement: the bytes of an accepted file, and what can be done with them."""

import os
from collections.abc import Iterable, Iterator, Sequence
from pathlib import Path

from .library import Library
from .refusals import Refused
from .values import Call, Outcome, Record, Step, Verdict, steps_of


class Agreement:
    """An accepted file. Making one of bytes that are refused raises `Refused`."""

    def __init__(self, file: bytes, library: Library | None = None) -> None:
        self.library = library or Library()
        reading = self.library.read(file)
        if not reading.accepted:
            raise Refused(reading.refusal, reading.place)
        self.file = bytes(file)

    @classmethod
    def load(cls, path: str | os.PathLike[str], library: Library | None = None) -> "Agreement":
        """The agreement in a file."""
        return cls(Path(path).read_bytes(), library)

    def words(self) -> tuple[int, ...]:
        """The words of the expanded form, as `start` and `call` take them."""
        return self.library.expand(self.file)

    def steps(self) -> tuple[Step, ...]:
        """The steps of the expanded form."""
        return steps_of(self.words())

    def start(self, words: Sequence[int] | None = None) -> Outcome:
        """A fresh start; on the expanded form where words are given."""
        return self.library.start(self.file, words)

    def call(self, record: Record, call: Call, words: Sequence[int] | None = None) -> Outcome:
        """A call on a record; on the expanded form where words are given."""
        return self.library.call(self.file, record, call, words)

    def run(self, calls: Iterable[Call]) -> Iterator[Outcome]:
        """A fresh start, then each call on the record that the one before it handed back."""
        outcome = self.start()
        yield outcome
        for call in calls:
            outcome = self.call(outcome.record, call)
            yield outcome

    def verdict(self, rule: int) -> Verdict:
        """The verdict on a rule, counted from 0."""
        return self.library.verdict(self.file, rule)
