"""Runs the counter agreement on both forms and prints what document 01 says of it.

usage: counter.py FILE
"""

import sys
from collections.abc import Callable, Sequence
from pathlib import Path

sys.path.insert(0, str(Path(__file__).resolve().parents[2] / "python"))
from agreement import Agreement, Call, Library, Outcome, steps_of

LIMIT = 10  # the unit limit's place in a file


def print_reading(library: Library, file: bytes) -> None:
    reading = library.read(file)
    print("accepted" if reading.accepted else f"refused {reading.refusal} at {reading.place}")


def print_steps(words: Sequence[int]) -> None:
    steps = steps_of(words)
    print("steps", len(steps))
    for step in steps:
        print(*step.words())


def both_forms(run: Callable[[Sequence[int] | None], Outcome], words: Sequence[int]) -> Outcome:
    """The outcome on the unexpanded form, which the expanded one must share."""
    outcome = run(None)
    if run(words) != outcome:
        sys.exit("the two forms differ")
    return outcome


def show(label: str, outcome: Outcome) -> None:
    answer = "completed" if outcome.completed else f"refused {outcome.refusal}"
    record = outcome.record
    print(f"{label}: {answer}, {outcome.units} units, ", end="")
    print(f"state {record.state}, v0 = {record.variables[0]}, own balance {record.own}")


def main(path: str) -> None:
    file = Path(path).read_bytes()
    library = Library()
    print_reading(library, file)
    agreement = Agreement(file, library)
    words = agreement.words()
    print_steps(words)

    def call(before: Outcome, name: int, coins: int = 0, agreement: Agreement = agreement) -> Outcome:
        return both_forms(lambda lent: agreement.call(before.record, Call(name, coins=coins), lent), words)

    fresh = both_forms(agreement.start, words)
    show("start", fresh)
    once = call(fresh, 1)
    show("call 1", once)
    show("call 1 again", call(once, 1))
    other = Agreement(file[:LIMIT] + b"\x05" + file[LIMIT + 1 :], library)
    show("limit 5, call 1", call(fresh, 1, agreement=other))
    show("call 9", call(fresh, 9))
    show("coins 5 with call 1", call(fresh, 1, 5))
    show("coins 6 with call 1", call(fresh, 1, 6))
    print("without its last byte: ", end="")
    print_reading(library, file[:-1])


main(*sys.argv[1:])
