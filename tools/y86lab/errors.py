"""What ends a command before its work is done."""
from __future__ import annotations

# The exit statuses of `y86` (docs/COMMANDS.md) that the lab uses too.
DONE, REFUSED, USAGE, UNREADABLE, FAULT, MEMORY, TOO_LONG = 0, 1, 2, 3, 5, 6, 7
# A check without an answer in time ends as `timeout` does.
OUT_OF_TIME = 124
# There is no program to ask.
NO_PROGRAM = 127


class LabError(Exception):
    """The line for standard error, and the exit status."""

    def __init__(self, message: str, status: int = REFUSED) -> None:
        super().__init__(message)
        self.status = status
