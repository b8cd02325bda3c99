"""What the names of a source mean. A name has one meaning wherever it can be seen."""

from __future__ import annotations

import ast
import difflib
from dataclasses import dataclass

from designer.language import CONTEXT, MOST, RESERVED
from designer.source import Mistake

ARTICLES = {
    "state": "a state",
    "variable": "a variable",
    "account": "an account",
    "call": "a call",
    "argument": "an argument",
    "local": "a local",
    "context": "a word of the language",
}


@dataclass(frozen=True)
class Meaning:
    kind: str
    index: int
    line: int


def nearest(name: str, known: list[str]) -> str:
    """The end of a message: which of the known names is likely meant, if any is."""
    near = difflib.get_close_matches(name, known, 1)
    return f"; did you mean '{near[0]}'?" if near else ""


class Meanings:
    """The meanings of names, by name: those above, and the words of the context that have a value here."""

    def __init__(self, words: tuple[str, ...] = (), above: Meanings | None = None) -> None:
        self.names: dict[str, Meaning] = dict(above.names) if above else {}
        self.names |= {word: Meaning("context", CONTEXT.index(word), 0) for word in words}

    def declare(self, node: ast.AST, name: str, kind: str, index: int) -> None:
        if name in RESERVED:
            raise Mistake(node, f"'{name}' is a word of the language and names nothing else")
        if name in self.names:
            known = self.names[name]
            raise Mistake(node, f"'{name}' has a meaning already: {ARTICLES[known.kind]}, declared at line {known.line}")
        self.names[name] = Meaning(kind, index, getattr(node, "lineno", 0))

    def of(self, node: ast.Name, *kinds: str) -> Meaning:
        """The meaning of a name. Of these kinds, or of any, is the name that is proposed where it has none."""
        if node.id not in self.names:
            raise Mistake(node, self.unknown(node.id, kinds))
        return self.names[node.id]

    def unknown(self, name: str, kinds: tuple[str, ...]) -> str:
        if name in CONTEXT:
            return f"'{name}' has no value outside an action"
        if name in RESERVED:
            return f"'{name}' is a word of the language and has no value"
        known = [word for word, meaning in self.names.items() if not kinds or meaning.kind in kinds]
        return f"'{name}' is not declared{nearest(name, known)}"

    def index(self, node: ast.AST, kind: str) -> int:
        """The number of a name that must be of a kind."""
        if not isinstance(node, ast.Name) or node.id in RESERVED:
            raise Mistake(node, f"the name of {ARTICLES[kind]} is expected here")
        meaning = self.of(node, kind)
        if meaning.kind != kind:
            raise Mistake(node, f"'{node.id}' is {ARTICLES[meaning.kind]}; the name of {ARTICLES[kind]} is expected here")
        return meaning.index

    def indices(self, kind: str) -> dict[str, int]:
        return {name: meaning.index for name, meaning in self.names.items() if meaning.kind == kind}


# Numbers.


def spelled(value: int) -> str:
    """A number in decimal, unless it would fill the line."""
    return f"{value:,}" if value.bit_length() <= 64 else "a number over 64 bits"


def number(node: ast.AST, what: str = "the number", least: int = 0, most: int = MOST) -> int:
    """The value of a number within these bounds."""
    if isinstance(node, ast.UnaryOp) and isinstance(node.op, ast.USub):
        raise Mistake(node, f"{what} is below zero; it is a number from {least:,} to {most:,}")
    if not isinstance(node, ast.Constant) or type(node.value) is not int:
        raise Mistake(node, f"{what} is written as a number from {least:,} to {most:,}")
    if node.value > most:
        raise Mistake(node, f"{what} is {spelled(node.value)}, at most {most:,}")
    if node.value < least:
        raise Mistake(node, f"{what} is {spelled(node.value)}, at least {least:,}")
    return node.value
