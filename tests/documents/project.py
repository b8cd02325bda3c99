"""What is there: the files of the project and the names that they declare."""

import os
import re
from collections import Counter
from collections.abc import Iterator
from functools import cache
from pathlib import Path

# Folders that hold what a build or a test run has left.
LEFT = {".git", "target", "out", "found", "__pycache__"}

DECLARED = re.compile(r"\s*(?:(?:unfoldable|abbrev)\s+)?pub\s+(?:(?:data|record)\s+)?([^\s:({]+)")
RECORD = re.compile(r"\s*pub\s+record\b")
CLOSED = re.compile(r"^abbrev pub (\w+) : Type 0$", re.MULTILINE)
PROVED = re.compile(r"^\s*pub ([\w-]+) : (\w+)$", re.MULTILINE)
FUNCTION = re.compile(r'\s*(?:pub\s+)?(?:extern "C"\s+)?fn\s+(\w+)')
CYCLE = re.compile(r"#\[cycle\((\w+)\)\]\s*(?:#\[.*\]\s*)*(?:pub\s+)?fn\s+(\w+)")
TYPE = re.compile(r"^\s*(?:pub\s+)?(?:struct|enum)\s+(\w+)", re.MULTILINE)
TEST = re.compile(r"#\[test\]\s*fn\s+(\w+)")


def indent(line: str) -> int:
    return len(line) - len(line.lstrip())


def declared(text: str) -> set[str]:
    """The public names of a file of definitions or proofs, without the fields of its records."""
    names: set[str] = set()
    record = -1
    for line in text.splitlines():
        if not line.strip() or 0 <= record < indent(line):
            continue
        record = indent(line) if RECORD.match(line) else -1
        if found := DECLARED.match(line):
            names.add(found[1])
    return names - {"mod"}


def functions(text: str) -> dict[str, str]:
    """The functions of a source file, each with its head: what stands before its body, contract included. The brace of a body
    ends its line, and the braces of the clauses are closed before it."""
    heads: dict[str, str] = {}
    name = ""
    for line in text.splitlines():
        if found := FUNCTION.match(line):
            name = found[1]
            heads[name] = ""
        if name:
            heads[name] += line + "\n"
            opened = heads[name].count("{") - heads[name].count("}")
            name = "" if line.endswith("{") and opened == 1 else name
    return heads


class Project:
    def __init__(self, root: Path) -> None:
        self.root = root
        self.paths = set(self._walk())
        self.files = sorted(p for p in self.paths if (root / p).is_file())
        self.stems = {Path(p).stem for p in self.files}
        self.crates = sorted(p.name for p in (root / "crates").iterdir() if p.is_dir())

    def _walk(self) -> Iterator[str]:
        for folder, folders, files in os.walk(self.root):
            folders[:] = sorted(set(folders) - LEFT)
            for name in folders + files:
                yield str((Path(folder) / name).relative_to(self.root))

    @cache
    def text(self, path: str) -> str:
        return (self.root / path).read_text(encoding="utf-8") if path in self.paths else ""

    @cache
    def declared(self, path: str) -> set[str]:
        return declared(self.text(path))

    @cache
    def functions(self, path: str) -> dict[str, str]:
        return functions(self.text(path))

    @cache
    def cycles(self, path: str) -> dict[str, str]:
        """The functions of a source file that call each other, each with the name of their cycle."""
        return {function: name for name, function in CYCLE.findall(self.text(path))}

    def documents(self) -> list[str]:
        """The documents, but for the page of the port, which sets names that are gone beside those of today."""
        return [p for p in self.files if p.endswith(".md") and p not in ("docs/PORT.md", "docs/DESIGN-PASS.md")]

    def under(self, folder: str, suffix: str) -> list[str]:
        return [p for p in self.files if p.startswith(f"{folder}/") and p.endswith(suffix)]

    def of_crates(self, part: str, suffix: str) -> list[str]:
        """The files of one part (specs, proofs or src) of every crate."""
        return [p for crate in self.crates for p in self.under(f"crates/{crate}/{part}", suffix)]

    def exporting(self) -> list[str]:
        """The crates that export the functions of another crate to C."""
        return [crate for crate in self.crates if crate.endswith("_c")]

    @cache
    def types(self, crate: str) -> set[str]:
        return {name for p in self.under(f"crates/{crate}/src", ".rt") for name in TYPE.findall(self.text(p))}

    @cache
    def statements(self) -> list[str]:
        """What is stated to be proved of the rules."""
        return CLOSED.findall(self.text("crates/rules/specs/Demands.antt"))

    @cache
    def proved(self) -> dict[str, str]:
        """The statements that are proved, each with the file of its theorem."""
        return {what: p for p in self.of_crates("proofs", ".antt") for _, what in PROVED.findall(self.text(p))}

    @cache
    def interpreter_tests(self) -> set[str]:
        return {name for p in self.under("tests/interpreter/tests", ".rs") for name in TEST.findall(self.text(p))}

    @cache
    def edits(self) -> list[str]:
        """The must-fail edits, as crate/name."""
        return [f"{p.split('/')[1]}/{Path(p).stem}" for p in self.of_crates("must-fail", ".edit")]

    @cache
    def doubles(self) -> list[str]:
        """The names that two files of definitions, or one and a source, declare."""
        declared = [name for p in self.of_crates("specs", ".antt") for name in self.declared(p)]
        counts = Counter(declared + [name for crate in self.crates for name in self.types(crate)])
        return sorted(name for name, count in counts.items() if count > 1 and re.fullmatch(r"\w+", name))
