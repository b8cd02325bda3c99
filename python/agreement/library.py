"""The library's seven functions, by way of a shared library made from the proved archives."""

import ctypes
import os
import subprocess
from collections.abc import Iterable, Sequence
from pathlib import Path
from typing import Any

from . import values
from .refusals import Refused
from .values import Call, Outcome, Reading, Record, Verdict

ROOT = Path(__file__).resolve().parents[2]
VARIABLE = "AGREEMENT_SHARED"
MOST_STEPS = 1024
FROM_THE_STATE = 20

_Answer = tuple[int, ...]
_Types = list[Any]  # of ctypes, whose classes have no type in common that is open to others
_BYTES: _Types = [ctypes.c_char_p, ctypes.c_size_t]
_WORDS: _Types = [ctypes.POINTER(ctypes.c_uint32), ctypes.c_size_t]
_RECORD = ctypes.c_uint32 * values.RECORD
_ARGUMENTS = ctypes.c_uint32 * values.ARGUMENTS
_CALL: _Types = [ctypes.c_uint8, ctypes.c_uint8, ctypes.c_uint32, _ARGUMENTS]

# What each function takes before its answer, and how many entries its answer has.
_FUNCTIONS: dict[str, tuple[_Types, int]] = {
    "read": (_BYTES, 2),
    "expand": (_BYTES + _WORDS, 3),
    "start": (_BYTES + [_RECORD], 5),
    "call": (_BYTES + [_RECORD] + _CALL, 5),
    "start_expanded": (_BYTES + _WORDS + [_RECORD], 5),
    "call_expanded": (_BYTES + _WORDS + [_RECORD] + _CALL, 5),
    "verdict": (_BYTES + [ctypes.c_uint32] + _WORDS, 13),
}


class LibraryMissing(Exception):
    """There is no shared library, or it lacks a function."""


def built() -> Path:
    """The shared library that `scripts/library shared` builds; the first time it proves the archives, and says so."""
    script = ROOT / "scripts" / "library"
    try:
        made = subprocess.run([str(script), "shared"], stdout=subprocess.PIPE, text=True, check=False)
    except OSError as error:
        raise LibraryMissing(f"{script} cannot be run: {error.strerror}") from error
    if made.returncode != 0:
        raise LibraryMissing("scripts/library could not build the shared library")
    return Path(made.stdout.strip())


def _file(file: bytes) -> tuple[bytes, int]:
    if not isinstance(file, (bytes, bytearray, memoryview)):
        raise TypeError(f"a file is bytes, not {type(file).__name__}")
    data = bytes(file)
    return data, len(data)


def _lent(words: Sequence[int]) -> tuple[ctypes.Array[ctypes.c_uint32], int]:
    checked = values.words("word", words)
    return (ctypes.c_uint32 * len(checked))(*checked), len(checked)


def _room() -> tuple[ctypes.Array[ctypes.c_uint32], int]:
    """Words enough for every expansion."""
    room = values.STEP * MOST_STEPS
    return (ctypes.c_uint32 * room)(), room


def _refuse(answer: _Answer, units: int = 0) -> None:
    if answer[0]:
        raise Refused(answer[0], answer[1], units)


def _outcome(answer: _Answer, record: Iterable[int]) -> Outcome:
    refusal, _, has_value, value, units = answer
    return Outcome(refusal, value if has_value else None, units, Record.of_words(tuple(record)))


class Library:
    """The library. Its file is `path`; or what the variable AGREEMENT_SHARED of the environment names; or the one that
    `scripts/library shared` builds from the proved archives. One made from the runner's archive alone has no verdicts."""

    def __init__(self, path: str | os.PathLike[str] | None = None) -> None:
        self.path = Path(path or os.environ.get(VARIABLE) or built())
        try:
            self._library = ctypes.CDLL(os.fspath(self.path.resolve()))
        except OSError as error:
            raise LibraryMissing(f"the shared library '{self.path}' cannot be loaded: {error}") from error

    def _run(self, name: str, *arguments: object) -> _Answer:
        """Calls a function, which writes its answer into its last argument."""
        takes, count = _FUNCTIONS[name]
        answer = (ctypes.c_uint32 * count)()
        try:
            function = getattr(self._library, "agreement_" + name)
        except AttributeError:
            raise LibraryMissing(f"the shared library '{self.path}' has no function agreement_{name}") from None
        function.argtypes = [*takes, type(answer)]
        function.restype = None
        function(*arguments, answer)
        return tuple(answer)

    def read(self, file: bytes) -> Reading:
        """Whether a file is accepted, or its refusal with its place."""
        return Reading(*self._run("read", *_file(file)))

    def expand(self, file: bytes) -> tuple[int, ...]:
        """The words of the steps, five each."""
        words, room = _room()
        answer = self._run("expand", *_file(file), words, room)
        _refuse(answer)
        return tuple(words[: values.STEP * answer[2]])

    def start(self, file: bytes, words: Sequence[int] | None = None) -> Outcome:
        """A start; on the expanded form where words are given."""
        record = _RECORD()
        if words is None:
            answer = self._run("start", *_file(file), record)
        else:
            answer = self._run("start_expanded", *_file(file), *_lent(words), record)
        _refuse(answer, units=answer[4])
        return _outcome(answer, record)

    def call(self, file: bytes, record: Record, call: Call, words: Sequence[int] | None = None) -> Outcome:
        """A call on a record; on the expanded form where words are given."""
        after = _RECORD(*record.words())
        made = call.name, call.sender, call.coins, _ARGUMENTS(*call.arguments)
        if words is None:
            answer = self._run("call", *_file(file), after, *made)
        else:
            answer = self._run("call_expanded", *_file(file), *_lent(words), after, *made)
        if answer[0] < FROM_THE_STATE:
            _refuse(answer)
        return _outcome(answer, after)

    def verdict(self, file: bytes, rule: int) -> Verdict:
        """The verdict on a rule, counted from 0."""
        number = values.in_range("rule", rule, values.WORD)
        answer = self._run("verdict", *_file(file), number, *_room())
        _refuse(answer)
        _, _, verdict, tried, length = answer[:5]
        return Verdict(values.VERDICTS[verdict - 1], tried, answer[5 : 5 + length])
