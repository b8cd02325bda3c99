"""The command `explain`: the verdicts in sentences or as data, a broken rule's list call by call. Not proved.

Exit status: 0 all rules held, 1 some broken, 3 some spent and none broken, 4 the file, its start or the rule's number is
refused, 2 wrong words on the command line, 70 the library and the evaluation here differ, which is a fault of one of them.
"""

from __future__ import annotations

import json
from dataclasses import asdict, dataclass
from pathlib import Path

from agreement import LibraryMissing, Refused, refusals
from agreement.values import WORD

from designer.accepted import Accepted, load
from designer.errors import INTERNAL, REFUSED, Failure
from designer.explain_count import Differs
from designer.explain_data import Explanation, explanation
from designer.explain_text import text

USAGE = "usage: agreement explain FILE [RULE] [--json]"
HELD, BROKEN, SPENT = 0, 1, 3
NO_SUCH_RULE = 10


@dataclass(frozen=True)
class Wanted:
    path: Path
    rule: int | None
    as_json: bool


def _wanted(arguments: list[str]) -> Wanted:
    words = [word for word in arguments if word != "--json"]
    if not 1 <= len(words) <= 2 or "" in words or words[0].startswith("-") or len(arguments) > len(words) + 1:
        raise Failure(USAGE)
    rule = None
    if len(words) == 2:
        if not (words[1].isascii() and words[1].isdigit() and len(words[1]) <= 10 and int(words[1]) <= WORD):
            raise Failure(f"{USAGE}: RULE is a rule's number, counted from 0, not '{words[1][:60]}'")
        rule = int(words[1])
    return Wanted(Path(words[0]), rule, len(arguments) > len(words))


def status_of(explained: Explanation) -> int:
    verdicts = {rule.verdict for rule in explained.rules}
    if "broken" in verdicts:
        return BROKEN
    return SPENT if "spent" in verdicts else HELD


def _judged(accepted: Accepted, rule: int | None) -> Explanation:
    rules = accepted.tree.rules
    try:
        if rule is None:
            accepted.agreement.start()  # also where there is no rule, a failed start is a refusal
        return explanation(accepted, range(len(rules)) if rule is None else [rule])
    except Refused as refused:
        known = f"; the agreement has {len(rules)} rules, counted from 0" if refused.number == NO_SUCH_RULE else ""
        raise Failure(f"{refused}{known}", REFUSED) from refused
    except Differs as differs:
        raise Failure(f"agreement: INTERNAL ERROR: {differs}", INTERNAL) from None
    except LibraryMissing as missing:
        raise Failure(f"agreement: {missing}") from None


def _print_json(data: dict[str, object]) -> None:
    print(json.dumps(data, indent=2))


def _print_refusal(failure: Failure, refused: Refused) -> None:
    place = refused.place if refusals.has_place(refused.number) else None
    _print_json({"status": failure.status, "refused": {"number": refused.number, "place": place, "text": str(failure)}})


def main(arguments: list[str]) -> int:
    wanted = _wanted(arguments)
    try:
        explained = _judged(load(wanted.path), wanted.rule)
    except Failure as failure:
        if not (wanted.as_json and isinstance(failure.__cause__, Refused)):
            raise
        _print_refusal(failure, failure.__cause__)
        return failure.status
    status = status_of(explained)
    if wanted.as_json:
        _print_json({"status": status, **asdict(explained)})
    else:
        print(text(explained), end="")
    return status
