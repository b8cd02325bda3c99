"""The names that the documents give, each with whether it is there."""

import re
from collections.abc import Iterator
from pathlib import PurePosixPath
from typing import NamedTuple

import names
from project import Project
from words import OTHER

CODE = re.compile(r"`([^`]+)`")
LINK = re.compile(r"\]\(([^)#]+)[^)]*\)")
REMARK = re.compile(r"\([^)]*\)")
PATH = re.compile(r"[\w.+-]+(?:/[\w.+*-]+)+/?")
HOLDER = re.compile(r"(?:^|/)([A-Z]{2,})(?=$|[/.])")
HEADING = re.compile(r"\|(?:-+\||.*\| definition \|)")
POINT = re.compile(r"^(\d+)\. ", re.MULTILINE)
POINTED = re.compile(r"(?:`(?:docs/)?(\w+\.md)`, )?\bpoints? (\d+(?:, \d+)*(?: and \d+)?)")
MEANING = re.compile(r"\| `")
PLACED = re.compile(r"`([A-Z]\w*\.\w+)`(?: \(`crates/(\w+)/specs/\w+\.antt`\))?")
CARRIED = re.compile(r"`([^`]+)`: (found|`[^`]+`(?: `[^`]+`)*)")
STANDING = re.compile(r"^Where the proofs stand:(.*?)\n\n", re.MULTILINE | re.DOTALL)
# The documents whose points are numbered, and cited by their number.
NUMBERED = ("docs/DECISIONS.md", "docs/ARCHITECTURE.md")
GLOSSARY = "docs/GLOSSARY.md"
# What a test may be in TRACE.md beside the folders of tests/.
TESTS = {"edit", "edits", "the stored output"}
EVERY_ROW = re.compile(r"Tests of every row[^:]*: (.+)\.$", re.MULTILINE)
# What a row of TRACE.md may have, so that it can be read: characters in a cell, and definitions.
WIDEST = 160
MOST = 3


class Check(NamedTuple):
    """A name that a document gives, what it is said to be, and whether that is there."""

    document: str
    name: str
    expected: str
    found: bool


def coded(text: str) -> list[str]:
    """What a text sets as code, between backquotes."""
    return [" ".join(word.split()) for word in CODE.findall(text) if word.strip()]


def blocks(text: str) -> Iterator[str]:
    """The indented lines that stand after an empty line."""
    code = False
    before = ""
    for line in text.splitlines():
        code = line.startswith("    ") and (code or not before.strip())
        before = line
        if code:
            yield line


def general(project: Project, name: str, folder: str) -> tuple[str, bool]:
    """What a name of any kind is by its form, and whether it is there."""
    if names.SUFFIX.fullmatch(name) and "/" not in name:
        return "a file", names.lone_file(project, name) or names.path(project, name, folder)
    if names.QUALIFIED.fullmatch(name):
        return "a definition", names.definition(project, name, project.crates)
    if "::" in name:
        return "a function with a contract, or a type", names.contract(project, name) or names.type_of(project, name)
    if names.EDIT.fullmatch(name) and name in project.edits():
        return "a must-fail edit", True
    if "/" in name.split()[0] and " " in name:
        return "a command", names.path(project, name.split()[0])
    if "/" in name:
        return "a path or a must-fail edit", names.path(project, name, folder) or names.in_crates(project, name)
    if name.startswith("["):
        return "an array type of the sources", names.in_sources(project, name)
    if name[0].isupper():
        return "a type or a statement", names.type_of(project, name) or names.statement(project, name)
    return "a crate, a folder of tests, a command, a function or a theorem", names.lower(project, name)


def strict(project: Project, document: str, text: str) -> Iterator[Check]:
    """Every word that is set as code is a name or one of the other words."""
    folder = str(PurePosixPath(document).parent)
    for name in coded(text):
        if name not in OTHER[document]:
            yield Check(document, name, *general(project, name, folder))


def standing(project: Project, document: str, text: str) -> Iterator[Check]:
    """Where the proofs of statements are said to stand: before each crate its statements."""
    for part in (p for paragraph in STANDING.findall(text) for p in paragraph.split(";")):
        named = coded(part)
        for name in named[:-1]:
            found = project.proved().get(name, "").startswith(f"{named[-1]}/")
            yield Check(document, name, f"proved in {named[-1]}", found)


def promises(project: Project, document: str, text: str) -> Iterator[Check]:
    """In PROMISES.md definitions are those of the rules, and contracts ask nothing."""
    yield from standing(project, document, text)
    for check in strict(project, document, text):
        if names.QUALIFIED.fullmatch(check.name) and check.expected == "a definition":
            found = names.definition(project, check.name, ["rules"])
            yield check._replace(expected="a definition of the rules", found=found)
        elif names.FUNCTION.fullmatch(check.name):
            found = names.open_contract(project, check.name)
            yield check._replace(expected="a function whose contract requires nothing", found=found)
        else:
            yield check


def defined(project: Project, cell: str) -> Iterator[tuple[str, str, bool]]:
    for name in coded(cell):
        found = names.definition(project, name, ["rules"]) or name in project.types("rules")
        yield name, "a definition or type of the rules", found


def carried(project: Project, cell: str) -> Iterator[tuple[str, str, bool]]:
    """A contract, and after the colon where its proof is, or that Rattle finds it, or a file and its theorems about the definition."""
    found = CARRIED.fullmatch(cell)
    if found is None:
        yield cell, "a contract, and after a colon its proof", False
        return
    function, proof = found.groups()
    if not names.contract(project, function):
        yield function, "a function with a contract", False
    elif proof == "found":
        yield function, "a function of whose proof nothing is written", names.unwritten(project, function)
    else:
        path, *theorems = coded(proof)
        yield from proved(project, function, path, theorems)


def proved(project: Project, function: str, path: str, theorems: list[str]) -> Iterator[tuple[str, str, bool]]:
    file = f"crates/{path}"
    if not path.endswith(".antt"):
        yield path, f"a folder with the proof of {function}", not theorems and names.proof_of(project, function, file)
        return
    yield path, "a file of proofs, with a theorem", names.proof(project, file) and theorems != []
    for name in theorems:
        yield f"{file} {name}", "a theorem of that file", names.theorem(project, name, file)


def tested(project: Project, cell: str) -> Iterator[tuple[str, str, bool]]:
    """Lists of worked cases, edits, paths, names of interpreter tests; and beside them words for tests."""
    for name in coded(cell):
        if names.QUALIFIED.fullmatch(name):
            yield name, "a list of worked cases", names.case(project, name)
        elif names.EDIT.fullmatch(name):
            yield name, "a must-fail edit", name in project.edits()
        elif "/" in name:
            yield name, "a path", names.path(project, name)
        else:
            yield name, "a test of the interpreter", name in project.interpreter_tests()
    cases = any(names.QUALIFIED.fullmatch(name) for name in coded(cell))
    for word in filter(None, map(str.strip, re.split("[,;]", REMARK.sub("", CODE.sub("", cell))))):
        if word == "Cases":
            yield word, "followed by a list of worked cases", cases
        else:
            yield word, "a word for a test", word in TESTS or f"tests/{word}/test" in project.files


def traced(project: Project, document: str, row: str) -> Iterator[Check]:
    """A row of TRACE.md: the sentence, and in each further column names of one kind."""
    sentence, *cells = [cell.strip() for cell in row.strip("|").split("|")]
    if len(cells) != 3:
        yield Check(document, row, "a row of four columns", False)
        return
    for cell in (sentence, *cells):
        yield Check(document, cell, f"a cell of at most {WIDEST} characters", len(cell) <= WIDEST)
    yield Check(document, cells[0], f"a cell of at most {MOST} definitions", len(coded(cells[0])) <= MOST)
    yield from strict(project, document, sentence)
    for column, cell in zip((defined, carried, tested), cells):
        yield from (Check(document, *found) for found in column(project, cell) if found[0] not in OTHER[document])


def trace(project: Project, document: str, text: str) -> Iterator[Check]:
    """In TRACE.md the columns of the tables say what a name is."""
    lines = text.splitlines()
    yield from strict(project, document, "\n".join(line for line in lines if not line.startswith("|")))
    for line in lines:
        if line.startswith("|") and not HEADING.match(line):
            yield from traced(project, document, line)
    for cell in EVERY_ROW.findall(text):
        yield from (Check(document, *found) for found in tested(project, cell))


def glossary(project: Project, document: str, text: str) -> Iterator[Check]:
    """In GLOSSARY.md definitions are those of the rules, or of the file that is named after them. The table of names that mean two
    things has a name, the file that declares it, and what it says there."""
    for name, crate in PLACED.findall(" ".join(text.split())):
        if name not in OTHER[document] and not names.SUFFIX.fullmatch(name):
            placed = crate or "rules"
            yield Check(document, name, f"a definition of crates/{placed}", names.definition(project, name, [placed]))
    lines = text.splitlines()
    rows = [line for line in lines if MEANING.match(line)]
    yield from strict(project, document, "\n".join(line for line in lines if line not in rows))
    for row in rows:
        name, file, said = [cell.strip() for cell in row.strip("|").split("|")]
        yield from strict(project, document, said)
        for path in coded(file):
            yield Check(document, f"{path} {' '.join(coded(name))}", "a name of that file", names.occurs(project, coded(name), path))


def loose(project: Project, document: str, text: str) -> Iterator[Check]:
    """What looks like a path, a definition or a function of a crate is one."""
    folder = str(PurePosixPath(document).parent)
    for link in LINK.findall(text):
        if "://" not in link:
            yield Check(document, link, "a path", names.path(project, link, folder))
    for name in folders(text):
        yield Check(document, name, "a folder", names.path(project, name, folder))
    for word in (w for part in [*coded(text), *blocks(text)] for w in part.split()):
        if check := looked_for(project, word, folder):
            yield Check(document, word, *check)


def folders(text: str) -> Iterator[str]:
    """What the first column of a table has, if the table is one of folders."""
    table = False
    for line in text.splitlines():
        table = line.startswith("| folder |") or table and line.startswith("|")
        if table:
            yield from coded(line.split("|")[1])


def holds_place(project: Project, word: str) -> bool:
    """Some part of a path is in capitals and names no file: it stands for any name."""
    return not word.endswith(".md") and any(part not in project.stems for part in HOLDER.findall(word))


def looked_for(project: Project, word: str, folder: str) -> tuple[str, bool] | None:
    """What a word of a loosely checked document is by its form, and whether it is there; none if it is no name."""
    if holds_place(project, word):
        return None
    if word.split("::")[0] in project.crates and names.FUNCTION.fullmatch(word):
        return general(project, word, folder)
    if names.SUFFIX.fullmatch(word) and "/" not in word or word.endswith(".md"):
        return general(project, word, folder)
    if PATH.fullmatch(word) and not word.startswith("-"):
        return "a path", names.path(project, word, folder) or names.in_crates(project, word)
    if (found := names.QUALIFIED.fullmatch(word)) and names.in_crates(project, f"specs/{found[1]}.antt"):
        return general(project, word, folder)
    return None


def points(project: Project, document: str, text: str) -> Iterator[Check]:
    """The points that a document refers to by number are there: those of the document that stands before them, or else its own."""
    for named, numbers in POINTED.findall(" ".join(text.split())):
        cited = f"docs/{named}" if named else document
        there = POINT.findall(project.text(cited)) if cited in NUMBERED else []
        for number in re.findall(r"\d+", numbers):
            yield Check(document, f"point {number}", f"a point of {cited}", number in there)


def checks(project: Project, document: str, text: str) -> Iterator[Check]:
    """All names of one document."""
    by_name = {"docs/TRACE.md": trace, "docs/PROMISES.md": promises, GLOSSARY: glossary}
    by_default = strict if document in OTHER else loose
    yield from by_name.get(document, by_default)(project, document, text)
    yield from points(project, document, text)
