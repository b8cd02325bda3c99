"""What goes into the library and comes out of it. Every number is held to document 01's range when a value is made."""

from collections.abc import Iterable, Sequence
from dataclasses import dataclass, fields

from . import refusals

BYTE = 0xFF
WORD = 0xFFFFFFFF
VARIABLES = 16
BALANCES = 8
ARGUMENTS = 4
STEP = 5
VERDICTS = ("broken", "held", "spent")


def in_range(what: str, value: int, most: int) -> int:
    """The value, which must be an integer from 0 to `most`."""
    if not isinstance(value, int) or isinstance(value, bool) or not 0 <= value <= most:
        raise ValueError(f"{what} is {value!r}; it must be an integer from 0 to {most}")
    return value


def words(what: str, values: Iterable[int]) -> tuple[int, ...]:
    """The values, each of which must be an integer of 32 bits."""
    return tuple(in_range(f"{what} {index}", value, WORD) for index, value in enumerate(values))


def exactly(what: str, values: Sequence[int], count: int) -> tuple[int, ...]:
    if len(values) != count:
        raise ValueError(f"there are {len(values)} of {what}; there must be {count}")
    return words(what, values)


@dataclass(frozen=True)
class Record:
    """A state record: the state, 16 variables, 8 balances and the own balance; unused entries are zero."""

    state: int
    variables: tuple[int, ...]
    balances: tuple[int, ...]
    own: int

    def __post_init__(self) -> None:
        in_range("state", self.state, WORD)
        object.__setattr__(self, "variables", exactly("variables", self.variables, VARIABLES))
        object.__setattr__(self, "balances", exactly("balances", self.balances, BALANCES))
        in_range("own balance", self.own, WORD)

    def words(self) -> tuple[int, ...]:
        """The record as the library's functions take it."""
        return (self.state, *self.variables, *self.balances, self.own)

    @classmethod
    def of_words(cls, entries: Sequence[int]) -> "Record":
        variables = 1 + VARIABLES
        balances = variables + BALANCES
        return cls(entries[0], tuple(entries[1:variables]), tuple(entries[variables:balances]), entries[balances])


RECORD = 1 + VARIABLES + BALANCES + 1


@dataclass(frozen=True)
class Call:
    """A call: its name and sender (bytes), the coins paid and up to four arguments; those not given are zero."""

    name: int
    sender: int = 0
    coins: int = 0
    arguments: tuple[int, ...] = ()

    def __post_init__(self) -> None:
        in_range("name", self.name, BYTE)
        in_range("sender", self.sender, BYTE)
        in_range("coins", self.coins, WORD)
        given = words("argument", self.arguments)
        if len(given) > ARGUMENTS:
            raise ValueError(f"there are {len(given)} arguments; there may be up to {ARGUMENTS}")
        object.__setattr__(self, "arguments", given + (0,) * (ARGUMENTS - len(given)))


@dataclass(frozen=True)
class Reading:
    """What reading a file says: the refusal's number (0: accepted) and its place."""

    refusal: int
    place: int

    @property
    def accepted(self) -> bool:
        return self.refusal == 0

    @property
    def text(self) -> str:
        return refusals.text(self.refusal) if self.refusal else "accepted"


@dataclass(frozen=True)
class Outcome:
    """What a start or a call hands back: the refusal's number (0: completed), the value returned (None: no value), the
    units charged, and the record afterwards, which is the one before where the call is refused."""

    refusal: int
    value: int | None
    units: int
    record: Record

    @property
    def completed(self) -> bool:
        return self.refusal == 0

    @property
    def text(self) -> str:
        return refusals.text(self.refusal) if self.refusal else "completed"


@dataclass(frozen=True)
class Verdict:
    """The verdict on a rule: "broken", "held" or "spent", the lists tried, and the rows of the list that breaks it."""

    verdict: str
    tried: int
    rows: tuple[int, ...]


@dataclass(frozen=True)
class Step:
    """A step of the expanded form."""

    origin: int
    target: int
    kind: int
    name: int
    at: int

    def words(self) -> tuple[int, ...]:
        return tuple(getattr(self, field.name) for field in fields(self))


def steps_of(lent: Sequence[int]) -> tuple[Step, ...]:
    """The steps that words hold, five to a step."""
    return tuple(Step(*lent[at : at + STEP]) for at in range(0, len(lent), STEP))
