"""The other way round: what is there is named in the documents."""

import re
from collections.abc import Iterator

from documents import GLOSSARY, NUMBERED, POINT, Check, coded
from project import Project
from words import OTHER

STATEMENTS = "crates/rules/specs/Demands.antt"


def proved(project: Project, statements: list[str]) -> Iterator[Check]:
    """What is stated is proved."""
    for name in statements:
        yield Check(STATEMENTS, name, "the statement of a theorem", name in project.proved())


def promised(project: Project, promises: str) -> Iterator[Check]:
    """What is stated is promised."""
    cited = set(coded(promises))
    for name in project.statements():
        yield Check(STATEMENTS, name, "cited in docs/PROMISES.md", name in cited)


def traced(project: Project, trace: str) -> Iterator[Check]:
    """Every must-fail edit shows some sentence."""
    cited = set(coded(trace))
    for edit in project.edits():
        yield Check("crates/*/must-fail", edit, "cited in docs/TRACE.md", edit in cited)


def listed(project: Project, document: str, text: str) -> Iterator[Check]:
    """Every crate stands in the README, and every folder of tests in theirs."""
    cited = set(coded(text))
    crates = [f"crates/{crate}" for crate in project.crates]
    tests = [p.split("/")[1] for p in project.files if re.fullmatch("tests/[^/]+/test", p)]
    for name in crates if document == "README.md" else tests:
        yield Check(document, name, f"a folder that {document} lists", name in cited)


def clauses(head: str) -> str:
    """A function's head without its layout, and without what says that it is exported."""
    return "".join(head.replace('extern "C" ', "").split()).replace(",)", ")")


def restated(exports: dict[str, str], called: dict[str, str]) -> Iterator[Check]:
    """Every exported function has the clauses of the function of its name that it hands on to."""
    for name, head in exports.items():
        found = clauses(called.get(name, "")) == clauses(head)
        yield Check("crates/*_c/src/lib.rt", name, "exported with the clauses of the function that it calls", found)


def numbered(document: str, text: str) -> Iterator[Check]:
    """Points are numbered one after the other, and there are some."""
    numbers = POINT.findall(text)
    yield Check(document, "1", "the number of a point", "1" in numbers)
    for place, number in enumerate(numbers, 1):
        yield Check(document, f"point {number}", f"point {place}, as its place is", number == str(place))


def told_apart(project: Project, glossary: str) -> Iterator[Check]:
    """A name that definitions declare twice stands in the glossary."""
    cited = set(coded(glossary))
    for name in project.doubles():
        yield Check("crates/*/specs", name, f"a name that is told apart in {GLOSSARY}", name in cited)


def used(document: str, text: str) -> Iterator[Check]:
    """The other words of a document are used there."""
    cited = set(coded(text))
    for word in OTHER[document]:
        yield Check("tests/documents/words.py", word, f"a word of {document}", word in cited)


def backwards(project: Project) -> Iterator[Check]:
    yield from proved(project, project.statements())
    yield from promised(project, project.text("docs/PROMISES.md"))
    yield from traced(project, project.text("docs/TRACE.md"))
    yield from told_apart(project, project.text(GLOSSARY))
    for document in NUMBERED:
        yield from numbered(document, project.text(document))
    for crate in project.exporting():
        below = crate.removesuffix("_c")
        exports = project.functions(f"crates/{crate}/src/lib.rt")
        yield from restated(exports, project.functions(f"crates/{below}/src/interface.rt"))
    for document in ("README.md", "tests/README.md"):
        yield from listed(project, document, project.text(document))
    for document in OTHER:
        yield from used(document, project.text(document))
