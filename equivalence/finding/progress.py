"""What a search that takes long prints to standard error: how far it is."""

from __future__ import annotations

import sys
import time
from dataclasses import dataclass

from playing.printing import number

EVERY = 10.0  # seconds between two lines, and before the first one
# the learner's words for its work
WORK = {
    "reading": "reading both controllers",
    "playing": "playing",
    "guessing": "looking for what is equal in all states that were played",
    "checking": "playing again, to refute guesses",
    "resetting": "asking what holds after a reset",
    "proving": "proving the outputs",
    "reducing": "leaving out what their proof doesn't need",
    "counting": "playing again, to look for the states that are shown",
}


@dataclass(frozen=True)
class Counts:
    """How far some work is, as the learner prints it; what is proved and needed are groups of guesses."""

    round: int = 0
    questions: int = 0
    refuted: int = 0
    proved: int = 0
    needed: int = 0


class Progress:
    """The lines of one search, with seconds since it began."""

    def __init__(self, begun: float) -> None:
        self.begun = self.last = begun
        self.work, self.refuted = "", 0  # in the last line

    def show(self, work: str, counts: Counts = Counts()) -> None:
        """Prints a line if the last one is some seconds ago."""
        now = time.monotonic()
        if now < self.last + EVERY:
            return
        before = self.refuted if work == self.work else 0
        self.last, self.work, self.refuted = now, work, counts.refuted
        said = [WORK.get(work, work)]
        said += [f"round {counts.round}"] if counts.round else []
        said += [f"{number(counts.questions)} questions answered"] if counts.questions else []
        said += [f"{number(counts.proved)} of {number(counts.needed)} groups of guesses proved"] * bool(counts.needed)
        said += [f"guesses refuted since the last line: {number(counts.refuted - before)}"] * bool(counts.refuted)
        print(f"hold: {now - self.begun:.0f} s: {', '.join(said)}", file=sys.stderr, flush=True)
