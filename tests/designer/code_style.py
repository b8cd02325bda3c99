"""Every function is annotated; every word of the language and every public name in the code has its entry in LANGUAGE.md."""

from __future__ import annotations

import ast
import re
from collections.abc import Iterator
from functools import partial
from pathlib import Path

from cases import ROOT, Test
from designer.language import CONTEXT, RESERVED, SETTINGS

PAGE = ROOT / "docs" / "LANGUAGE.md"
# The part of the page that has a package's names, and the package's modules.
NAMED = {
    "Names in the designer's code": sorted((ROOT / "designer").glob("*.py")),
    "Names in the Python package": sorted((ROOT / "python" / "agreement").glob("*.py")),
}
ANNOTATED = sorted(path for folder in ("designer", "python", "tests/designer") for path in (ROOT / folder).rglob("*.py"))


def parsed(path: Path) -> ast.Module:
    return ast.parse(path.read_text(encoding="utf-8"), str(path))


def unannotated(function: ast.FunctionDef | ast.AsyncFunctionDef) -> list[str]:
    """The arguments without a type, and `return`; a method's first argument needs none."""
    given = function.args
    every = [*given.posonlyargs, *given.args, *given.kwonlyargs, *filter(None, (given.vararg, given.kwarg))]
    missing = [argument.arg for argument in every if argument.annotation is None and argument.arg not in ("self", "cls")]
    return missing + (["return"] if function.returns is None else [])


def check_annotations(path: Path) -> None:
    functions = [node for node in ast.walk(parsed(path)) if isinstance(node, ast.FunctionDef | ast.AsyncFunctionDef)]
    missing = {function.name: unannotated(function) for function in functions if unannotated(function)}
    assert not missing, missing


def part(heading: str) -> str:
    """What stands below a heading of the page."""
    return PAGE.read_text(encoding="utf-8").split(f"## {heading}\n")[1].split("\n## ")[0]


def entries(text: str) -> set[str]:
    """The words in backticks."""
    return {word for code in re.findall(r"`([^`\n]+)`", text) for word in re.findall(r"\w+", code)}


def is_public(name: str) -> bool:
    return name == "__main__" or not name.startswith("_")


def names_in(path: Path) -> Iterator[str]:
    """A module's name and the names at its top."""
    yield path.stem
    for node in parsed(path).body:
        if isinstance(node, ast.FunctionDef | ast.ClassDef):
            yield node.name
        elif isinstance(node, ast.Assign | ast.AnnAssign):
            targets = node.targets if isinstance(node, ast.Assign) else [node.target]
            yield from (part.id for target in targets for part in ast.walk(target) if isinstance(part, ast.Name))


def check_names(heading: str, path: Path) -> None:
    known = entries(part(heading))
    missing = [name for name in names_in(path) if is_public(name) and name not in known]
    assert not missing, f"no entry in docs/LANGUAGE.md: {missing}"


def methods_in(path: Path) -> dict[str, set[str]]:
    """The public methods of a module's public classes, by the classes that have any."""
    classes = [node for node in parsed(path).body if isinstance(node, ast.ClassDef) and is_public(node.name)]
    methods = {
        f"{path.stem}.{node.name}": {item.name for item in node.body if isinstance(item, ast.FunctionDef) and is_public(item.name)}
        for node in classes
    }
    return {name: found for name, found in methods.items() if found}


def check_methods(heading: str) -> None:
    """The page's tables have each class with its methods and no others."""
    rows = re.findall(r"^\| `(\w+\.\w+)` \| (.*) \|$", part(heading), re.MULTILINE)
    listed = {name: set(re.findall(r"`(\w+)`", cell)) for name, cell in rows}
    there = {name: methods for path in NAMED[heading] for name, methods in methods_in(path).items()}
    differing = {name: listed.get(name, set()) ^ there.get(name, set()) for name in {*listed, *there}}
    assert len(rows) == len(listed) and not any(differing.values()), differing


def check_entries(heading: str) -> None:
    """A part of the page has no name that the package's code has not."""
    folder = NAMED[heading][0].parent
    text = "".join(path.read_text(encoding="utf-8") + path.name for path in folder.iterdir() if path.is_file())
    gone = set(re.findall(r"`(\w+)`", part(heading))) - set(re.findall(r"\w+", text))
    assert not gone, gone


def check_words() -> None:
    missing = {*RESERVED, *CONTEXT, *SETTINGS, "start", "pays"} - entries(PAGE.read_text(encoding="utf-8"))
    assert not missing, missing


def tests() -> Iterator[Test]:
    for path in ANNOTATED:
        yield f"annotations of {path.relative_to(ROOT)}", partial(check_annotations, path)
    for heading, paths in NAMED.items():
        for path in paths:
            yield f"names of {path.relative_to(ROOT)}", partial(check_names, heading, path)
        yield f"{heading}: methods", partial(check_methods, heading)
        yield f"{heading}: entries of names that are gone", partial(check_entries, heading)
    yield "words of the language", check_words
