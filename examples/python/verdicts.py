"""Judges the rules of the counter agreement and prints what document 01 says of them.

usage: verdicts.py FILE
"""

import sys
from pathlib import Path

sys.path.insert(0, str(Path(__file__).resolve().parents[2] / "python"))
from agreement import Agreement, Refused

DEPTH, BOUND = 8, 12  # their places in a file


def judge(label: str, agreement: Agreement, rule: int) -> None:
    """Prints the report's line for a rule."""
    try:
        answer = agreement.verdict(rule)
    except Refused as refused:
        print(f"{label}refused {refused.number}")
        return
    rows = "".join(f" {row}" for row in answer.rows)
    print(f"{label}rule {rule} {answer.verdict} {answer.tried}{rows}")


def changed(agreement: Agreement, place: int, byte: int) -> Agreement:
    file = agreement.file
    return Agreement(file[:place] + bytes([byte]) + file[place + 1 :], agreement.library)


def main(path: str) -> None:
    agreement = Agreement.load(path)
    judge("", agreement, 0)
    judge("", agreement, 1)
    judge("bound 1: ", changed(agreement, BOUND, 1), 0)
    judge("depth 0: ", changed(agreement, DEPTH, 0), 0)
    judge("bound 3: ", changed(agreement, BOUND, 3), 1)
    judge("bound 2: ", changed(agreement, BOUND, 2), 1)
    judge("no such rule: ", agreement, 2)


main(*sys.argv[1:])
