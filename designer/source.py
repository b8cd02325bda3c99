"""The text of a source: its syntax, read by Python's parser and never executed, and what is wrong with it at a place."""

from __future__ import annotations

import ast
import re
import unicodedata
import warnings
from collections.abc import Iterator
from dataclasses import dataclass

from designer.errors import Failure
from designer.language import MOST, MOST_LEVELS

WIDEST = 160
# Control, format and surrogate characters, and the separators of lines and paragraphs, as Unicode has its categories.
UNSEEN = ("Cc", "Cf", "Cs", "Zl", "Zp")
# A name may also have marks that are no letters, so that a word ends only at a space or an ASCII sign other than _.
WORD = re.compile(r"[^\s!-/:-@\[-^`{-~]+")
DECIMAL = re.compile(r"(?<![\w.])[0-9][0-9_]*")
TOO_LARGE = f"a number has too many digits: it is at most {MOST:,}"


class Mistake(Exception):
    """What is wrong with a part of a source, and what is allowed."""

    def __init__(self, node: ast.AST, message: str) -> None:
        super().__init__(message)
        self.node = node


@dataclass(frozen=True)
class Place:
    """Line and column from 1, in characters, and how many characters the part has on that line."""

    line: int
    column: int
    length: int


@dataclass(frozen=True)
class Source:
    path: str
    text: str

    def line(self, number: int) -> str:
        """A line by its number, from 1; none is empty."""
        lines = self.lines()
        return lines[number - 1] if 0 < number <= len(lines) else ""

    def parse(self) -> list[ast.stmt]:
        self.check_characters()
        try:
            with warnings.catch_warnings():
                warnings.simplefilter("ignore")
                return ast.parse(self.text).body
        except SyntaxError as error:
            # Python has a limit of its own for the digits of a number, without a place and in words that do not help here.
            if error.msg.startswith("Exceeds the limit"):
                raise self.failure(self.longest_number(), TOO_LARGE) from None
            raise self.failure(Place(error.lineno or 1, max(error.offset or 1, 1), 1), error.msg) from None
        except (RecursionError, MemoryError):
            message = f"this is nested too deeply, most likely on this line: records stand on at most {MOST_LEVELS} levels"
            raise self.failure(Place(self.longest(), 1, 1), message) from None

    def lines(self) -> list[str]:
        """Python's parser ends lines by these characters and by no others."""
        return re.split(r"\r\n|\r|\n", self.text)

    def code(self) -> Iterator[tuple[int, str]]:
        """The lines without comments, by number. Text in quotes may hold a #, but is a mistake wherever it stands."""
        for number, line in enumerate(self.lines(), 1):
            yield number, line.split("#")[0]

    def longest(self) -> int:
        lengths = [len(line) for line in self.lines()]
        return lengths.index(max(lengths)) + 1

    def longest_number(self) -> Place:
        """Where the number with the most digits begins."""
        numbers = ((number, digits) for number, line in self.code() for digits in DECIMAL.finditer(line))
        places = (Place(number, digits.start() + 1, len(digits[0])) for number, digits in numbers)
        found = max(places, key=lambda place: place.length, default=Place(1, 1, 1))
        return Place(found.line, found.column, 1)

    def check_characters(self) -> None:
        """Refuses what makes a source look other than it is read."""
        for number, line in enumerate(self.text.split("\n"), 1):
            if not line.isprintable():
                self.check_seen(number, line.removesuffix("\r"))
        for number, line in self.code():
            if not line.isascii():
                self.check_plain(number, line)

    def check_seen(self, number: int, line: str) -> None:
        for column, mark in enumerate(line, 1):
            if mark != "\t" and unicodedata.category(mark) in UNSEEN:
                allowed = "of control and format characters a source has tabs and line ends (LF, CR LF) only"
                raise self.failure(Place(number, column, 1), f"the character U+{ord(mark):04X} is not allowed: {allowed}")

    def check_plain(self, number: int, line: str) -> None:
        """Python's parser reads a name in Unicode's form NFKC, so that two that differ in the source would be one."""
        for word in WORD.finditer(line):
            plain = unicodedata.normalize("NFKC", word[0])
            if plain != word[0]:
                message = f"'{word[0]}' is not in Unicode's form NFKC, in which names are written: '{plain}'"
                raise self.failure(Place(number, word.start() + 1, len(word[0])), message)

    def last_word(self, node: ast.Attribute) -> ast.Name:
        """The word after the point, as a part of its own."""
        line, end = node.end_lineno or node.lineno, node.end_col_offset or node.col_offset
        before = self.line(line).encode()[:end]
        begin = end - len(before[before.rfind(b".") + 1 :].lstrip())
        return ast.Name(id=node.attr, lineno=line, col_offset=begin, end_lineno=line, end_col_offset=end)

    def place(self, node: ast.AST) -> Place:
        """Where a part stands; a part without a place is the whole source."""
        number = getattr(node, "lineno", 1)
        line = self.line(number).encode()
        begin = getattr(node, "col_offset", 0)
        end = getattr(node, "end_col_offset", begin)
        if getattr(node, "end_lineno", number) != number:
            end = len(line)
        return Place(number, len(line[:begin].decode()) + 1, len(line[begin:end].decode()))

    def failure(self, place: Place, message: str) -> Failure:
        """The message with its place, the line that it is about, and marks below the offending text."""
        line = "".join(mark if mark.isprintable() or mark == "\t" else "\ufffd" for mark in self.line(place.line))
        head = f"{self.path}:{place.line}:{place.column}: {message}"
        if not line.strip() or place.column + place.length > WIDEST:
            cut = line[place.column - 1 :][:WIDEST].strip()
            return Failure(f"{head}\n    {cut}" if cut else head)
        indent = re.sub(r"[^\t]", " ", line[: place.column - 1])
        return Failure(f"{head}\n    {line[:WIDEST].rstrip()}\n    {indent}{'^' * max(place.length, 1)}")
