"""Made-up names, one for each kind: the checks have to find each of them missing, or they could not fail."""

from collections.abc import Iterator

from backwards import listed, numbered, promised, proved, restated, told_apart, traced, used
from documents import GLOSSARY, Check, checks
from project import Project

TRACE = "docs/TRACE.md"
PROMISES = "docs/PROMISES.md"
DECISIONS = "docs/DECISIONS.md"
ARCHITECTURE = "docs/ARCHITECTURE.md"
README = "README.md"


def row(
    definition: str = "`Calling.call`",
    contract: str = "`reader::read`",
    proof: str = "`reader/proofs/read`",
    test: str = "bench",
) -> str:
    return f"| a sentence | {definition} | {contract}: {proof} | {test} |"


# A document, a text for it, and the one name in that text that is not there.
MADE_UP: list[tuple[str, str, str]] = [
    (TRACE, row(definition="`Calling.nothing`"), "Calling.nothing"),
    (TRACE, row(definition="`Nothing.call`"), "Nothing.call"),
    (TRACE, row(definition="`Nothing`"), "Nothing"),
    (TRACE, row(definition="`Syntax.at`"), "Syntax.at"),
    (TRACE, row(contract="`reader::nothing`"), "reader::nothing"),
    (TRACE, row(contract="`nothing::read`"), "nothing::read"),
    (TRACE, row(proof="`reader/proofs/nothing`"), "reader/proofs/nothing"),
    (TRACE, row(proof="`reader/src`"), "reader/src"),
    (TRACE, row(proof="`access/specs`"), "access/specs"),
    (TRACE, row(proof="`reader/proofs/accept`"), "reader/proofs/accept"),
    (TRACE, row(proof="`reader/proofs/read` `read`"), "reader/proofs/read"),
    (TRACE, row(proof="`rules/proofs/Cases.antt`"), "rules/proofs/Cases.antt"),
    (TRACE, row(proof="`access/specs/FoundAnswers.antt` `elsewhere`"), "access/specs/FoundAnswers.antt"),
    (TRACE, row(proof="`rules/proofs/Cases.antt` `nothing`"), "crates/rules/proofs/Cases.antt nothing"),
    (TRACE, row(proof="found"), "reader::read"),
    (TRACE, row(contract="`records::statements::check_block`", proof="found"), "records::statements::check_block"),
    (TRACE, row(contract="`emitter::statements::expand_statement`", proof="found"), "emitter::statements::expand_statement"),
    (TRACE, row(contract="`walker::walk::enter`", proof="found"), "walker::walk::enter"),
    (TRACE, row(contract="`reader::read`, `reader::accept`"), "`reader::read`, `reader::accept`: `reader/proofs/read`"),
    (TRACE, row(proof="nothing"), "`reader::read`: nothing"),
    (TRACE, row(test="Cases `Counter.nothing`"), "Counter.nothing"),
    (TRACE, row(test="Cases `Calling.call`"), "Calling.call"),
    (TRACE, row(test="Cases"), "Cases"),
    (TRACE, row(test="edit `rules/nothing`"), "rules/nothing"),
    (TRACE, row(test="interpreter `nothing`"), "nothing"),
    (TRACE, row(test="examples (`examples/nothing.c`)"), "examples/nothing.c"),
    (TRACE, row(test="nothing"), "nothing"),
    (TRACE, "| a | b |", "| a | b |"),
    (TRACE, row(definition=", ".join(["`State`"] * 4)), ", ".join(["`State`"] * 4)),
    (TRACE, row(test="bench, " * 30 + "guard"), "bench, " * 30 + "guard"),
    (TRACE, "Tests of every row but the last: bench, nothing.", "nothing"),
    (TRACE, "`DECISIONS.md`, points 1 and 1000", "point 1000"),
    (TRACE, "point 1", "point 1"),
    (PROMISES, "`Runs.ran`", "Runs.ran"),
    (PROMISES, "`Nothing`", "Nothing"),
    (PROMISES, "`crates/nothing`", "crates/nothing"),
    (PROMISES, "`access::entries::rule`", "access::entries::rule"),
    (PROMISES, "Where the proofs stand: `TenCases` in `crates/forms`.\n\n", "TenCases"),
    (DECISIONS, "`Nothing.antt`", "Nothing.antt"),
    (DECISIONS, "`Flows.nothing`", "Flows.nothing"),
    (DECISIONS, "`machine::Nothing`", "machine::Nothing"),
    (DECISIONS, "`nothing`", "nothing"),
    (DECISIONS, "`no-such-theorem`", "no-such-theorem"),
    (DECISIONS, "`[u32; 999]`", "[u32; 999]"),
    (DECISIONS, "`machine/nothing`", "machine/nothing"),
    (DECISIONS, "`scripts/nothing FILE`", "scripts/nothing FILE"),
    (DECISIONS, "point 1000", "point 1000"),
    (DECISIONS, "`ARCHITECTURE.md`, points 1, 1000 and 2", "point 1000"),
    (ARCHITECTURE, "`Flows.nothing`", "Flows.nothing"),
    (ARCHITECTURE, "points 1 and 1000", "point 1000"),
    (GLOSSARY, "`Calling.nothing`", "Calling.nothing"),
    (GLOSSARY, "`Runs.ran`", "Runs.ran"),
    (GLOSSARY, "`Runs.ran` (`crates/walker/specs/Runs.antt`)", "Runs.ran"),
    (GLOSSARY, "`searcher::Nothing`", "searcher::Nothing"),
    (GLOSSARY, "| `Nothing` | `crates/rules/specs/Tasks.antt` | `State` |", "crates/rules/specs/Tasks.antt Nothing"),
    (GLOSSARY, "| `Holds` | `crates/rules/specs/Nothing.antt` | `State` |", "crates/rules/specs/Nothing.antt Holds"),
    (GLOSSARY, "| `Holds` | `crates/rules/specs/Tasks.antt` | `Nothing` |", "Nothing"),
    (README, "`docs/DECISIONS.md`,\n    point 1000", "point 1000"),
    (README, "`docs/NOTHING.md`", "docs/NOTHING.md"),
    (README, "\n    scripts/nothing\n", "scripts/nothing"),
    (README, "[nothing](docs/NOTHING.md)", "docs/NOTHING.md"),
    (README, "`nothing.antt`", "nothing.antt"),
    (README, "`Calling.nothing`", "Calling.nothing"),
    (README, "`runner::nothing`", "runner::nothing"),
    (README, "`crates/*/nothing`", "crates/*/nothing"),
    (README, "| folder | what it holds |\n|---|---|\n| `nothing` | nothing |\n", "nothing"),
]


def found_missing(project: Project) -> Iterator[Check]:
    for document, text, name in MADE_UP:
        missing = {check.name for check in checks(project, document, text) if not check.found}
        yield Check("a made-up name", name, f"found missing in {document}", missing == {name})
    for what, found in [
        ("a statement without a theorem", proved(project, ["Nothing"])),
        ("a statement that is not promised", promised(project, "")),
        ("an edit that is not traced", traced(project, "")),
        ("a crate that is not listed", listed(project, README, "")),
        ("a test that is not listed", listed(project, "tests/README.md", "")),
        ("an export with another clause", restated({"f": "fn f()\n    ensures { a }\n{"}, {"f": "fn f()\n{"})),
        ("a number twice", numbered(DECISIONS, "1. one\n1. two\n")),
        ("no point", numbered(ARCHITECTURE, "one, two\n")),
        ("a name that is not told apart", told_apart(project, "")),
        ("a word that is not used", used(DECISIONS, "")),
    ]:
        yield Check("a made-up document", what, "found", any(not check.found for check in found))
