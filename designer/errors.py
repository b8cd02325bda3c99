"""What ends a command early."""

from __future__ import annotations

USAGE = 2
REFUSED = 4
INTERNAL = 70


class Failure(Exception):
    """What cannot be done, in words for the person who asked, and the exit status of the command."""

    def __init__(self, message: str, status: int = USAGE) -> None:
        super().__init__(message)
        self.status = status
