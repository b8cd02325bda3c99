"""Runs the tests of the other files here and counts them."""

from __future__ import annotations

import sys
import traceback
from collections.abc import Iterator

import code_style
import commands
import forms
import limits
import refusals_in_words
import round_trip
import table_of_names
import wrong_sources
from cases import Test


def tests() -> Iterator[Test]:
    for part in (wrong_sources, forms, limits, table_of_names, round_trip, refusals_in_words, commands, code_style):
        yield from part.tests()


def passes(test: Test) -> bool:
    name, run = test
    try:
        run()
        return True
    except Exception:
        print(f"FAILED: {name}")
        print("    " + traceback.format_exc(limit=-2).replace("\n", "\n    ").rstrip())
        return False


def main() -> int:
    results = [passes(test) for test in tests()]
    failed = results.count(False)
    print(f"{len(results) - failed} passed, {failed} failed")
    return 1 if failed else 0


if __name__ == "__main__":
    sys.exit(main())
