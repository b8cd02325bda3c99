"""The command line behind scripts/agreement."""

from __future__ import annotations

import os
import sys
from io import TextIOWrapper
from pathlib import Path
from typing import TextIO

from designer.errors import INTERNAL, USAGE, Failure

HELP = """usage: agreement make SOURCE FILE              write the agreement file of a source, and its names to FILE.names
       agreement show FILE                     print an agreement file as a source
       agreement explain FILE [RULE] [--json]  say what the verdicts are and how a broken rule breaks
       agreement --help                        print this

These commands are not proved; docs/LANGUAGE.md has the language of the sources, examples/README.md some agreements.
Exit status: 0 done, 2 the words or a file given are wrong, 4 `show` or `explain` of a file that is refused; for `explain`
also 0 all rules held, 1 some broken, 3 some spent and none broken; 70 a fault of the program itself."""


def _two_paths(words: list[str]) -> tuple[Path, Path]:
    if len(words) != 2 or "" in words:
        raise Failure("usage: agreement make SOURCE FILE")
    if words[1].endswith(os.sep):
        raise Failure(f"{words[1]}: cannot be written: this names a folder, not a file")
    return Path(words[0]), Path(words[1])


def _make(words: list[str]) -> int:
    from designer.make import make_file

    make_file(*_two_paths(words))
    return 0


def _show(words: list[str]) -> int:
    if len(words) != 1 or "" in words:
        raise Failure("usage: agreement show FILE")
    from designer.accepted import load
    from designer.show import show

    accepted = load(Path(words[0]))
    print(show(accepted.tree, accepted.names), end="")
    return 0


def _explain(words: list[str]) -> int:
    from designer.explain import main as explain

    return explain(words)


COMMANDS = {"make": _make, "show": _show, "explain": _explain}


def run(words: list[str]) -> int:
    """Runs a command and gives its exit status; a failure is told of on standard error."""
    try:
        if words and words[0] in ("--help", "-h", "help"):
            print(HELP)
            return 0
        if not words:
            raise Failure(HELP)
        if words[0] not in COMMANDS:
            raise Failure(f"agreement: there is no command '{words[0]}'; commands are {', '.join(COMMANDS)}")
        if "--help" in words[1:]:
            print(HELP)
            return 0
        return COMMANDS[words[0]](words[1:])
    except Failure as failure:
        _tell(str(failure))
        return failure.status


def _tell(message: str) -> None:
    """A line on standard error. Where that is closed or full the exit status alone has to say it."""
    try:
        print(message, file=sys.stderr, flush=True)
    except OSError:
        _drop(sys.stderr)


def _drop(stream: TextIO | None) -> None:
    """Nothing more can be printed there, also not at the end of the program."""
    if stream is not None:
        os.dup2(os.open(os.devnull, os.O_WRONLY), stream.fileno())


def main() -> int:
    # A source is UTF-8 wherever it is printed; a path that is not still has to be told of. A closed stream is None.
    for stream in (sys.stdout, sys.stderr):
        if isinstance(stream, TextIOWrapper):
            stream.reconfigure(encoding="utf-8", errors="backslashreplace")
    try:
        status = run(sys.argv[1:])
        print(end="", flush=True)
        return status
    except BrokenPipeError:
        _drop(sys.stdout)
        return USAGE
    except OSError as error:
        _drop(sys.stdout)
        _tell(f"agreement: the output cannot be written: {error.strerror}")
        return USAGE
    except KeyboardInterrupt:
        return 130
    except Exception as fault:
        _tell(f"agreement: a fault of this program, not of what it was given: {type(fault).__name__}: {fault}")
        return INTERNAL


if __name__ == "__main__":
    sys.exit(main())
