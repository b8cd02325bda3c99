"""The proved library of deposit agreements, in Python.

    from agreement import Agreement, Call

    agreement = Agreement.load("examples/agreements/counter.agreement")
    fresh = agreement.start()
    outcome = agreement.call(fresh.record, Call(name=1))
    print(outcome.completed, outcome.units, outcome.record.variables[0])
    print(agreement.verdict(0))

`Library` finds the shared library (see its own words), `Agreement` is one accepted file.

What is refused, and how it is told:

- A call that is refused from the state (document 01's 20 to 26) is an `Outcome` like any other, with the refusal's number
  and the record as it was: a list of calls goes on after it.
- Every other refusal raises `Refused`, with its number, place and text: of a file (1 to 8), a sender that is no account
  (9), a rule that is not there (10), lent words (11, 12), and of a start (27), after which there is nothing to go on with.
- `Library.read` alone hands back a file's refusal, since that is what it is asked for.
- A value that document 01's ranges cannot hold, such as 2**32 coins or a sender of -1, never reaches the library: it raises
  `ValueError`.
- `LibraryMissing` is raised where there is no shared library, or it lacks a function.
"""

from . import refusals
from .agreements import Agreement
from .library import Library, LibraryMissing
from .refusals import Refused
from .values import Call, Outcome, Reading, Record, Step, Verdict, steps_of

__all__ = [
    "Agreement",
    "Call",
    "Library",
    "LibraryMissing",
    "Outcome",
    "Reading",
    "Record",
    "Refused",
    "Step",
    "Verdict",
    "refusals",
    "steps_of",
]
