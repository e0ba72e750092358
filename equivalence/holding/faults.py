"""Faults that end a run without a result."""

from __future__ import annotations

DIFFERS, USAGE, FAILED, NOT_PROVED, NOTHING_HELD = range(1, 6)


class Fault(Exception):
    """An input is invalid or a tool failed; with the exit status."""

    def __init__(self, text: str, status: int = DIFFERS) -> None:
        super().__init__(text)
        self.status = status
