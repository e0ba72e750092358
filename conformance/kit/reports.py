"""The output of a run: verdicts, a summary by family, and their results for a CI system."""

from __future__ import annotations

from dataclasses import dataclass
from typing import Iterable

from .choices import words_of
from .documents import Case, Transcript
from .junit import ERROR, FAIL, PASS, SKIP, Result
from .playing import seen_levels

KINDS = ("pass", "fail", "void", "skip")
_WORDS = {"pass": "passed", "fail": "failed", "void": "void", "skip": "skipped"}


@dataclass(frozen=True)
class Verdict:
    """The verdict on one case. Its kind is `played` if there was nothing to compare with."""

    case: Case
    kind: str
    detail: str = ""
    seconds: float = 0.0

    def line(self) -> str:
        """The line that a run prints."""
        if self.kind == "fail":
            words = words_of(self.case, self.detail.partition(": ")[2])
            note = "".join(f"; choice {word}" for word in words)
            return f"fail {self.case.name} at {self.detail}{note}"
        return f"{self.kind} {self.case.name}" + (f": {self.detail}" if self.detail else "")


SHOWN_BEFORE, SHOWN_AFTER = 40, 10


def window_lines(case: Case, time: int, given: Transcript, expected: Transcript) -> list[str]:
    """The levels around a bit time: what the tester drove, what the controller drove, and what was expected."""
    front = max(0, time - SHOWN_BEFORE)
    end = time + SHOWN_AFTER
    rows = (("tester", seen_levels(case)), ("drove", given.drove), ("due", expected.drove))
    lines = [f"  {name:6} {levels[front:end]}" for name, levels in rows]
    return [*lines, f"  {' ' * (7 + time - front)}^ {time}"]


def event_lines(time: int, given: Transcript, expected: Transcript) -> list[str]:
    """The events around a bit time, reported and due, if they differ."""
    if given.events is None:
        return []
    reported, due = dict(given.events), dict(expected.events or [])
    times = [it for it in sorted({*reported, *due}) if time - SHOWN_BEFORE <= it < time + SHOWN_AFTER]
    rows = [(str(it), reported.get(it, "nothing"), due.get(it, "nothing")) for it in times]
    if all(one == other for _, one, other in rows):
        return []
    width = max(len(one) for _, one, _ in rows)
    return [f"  {at:6} {one:{width}}  {other}" for at, one, other in [("event", "reported", "due"), *rows]]


def shown_lines(case: Case, time: int, given: Transcript, expected: Transcript) -> list[str]:
    """What --show prints after the line of a failure: the purpose of the case, the levels, and events that differ."""
    purpose = [f"  {case.purpose}"] if case.purpose else []
    return purpose + window_lines(case, time, given, expected) + event_lines(time, given, expected)


def count_line(verdicts: Iterable[Verdict]) -> str:
    """The last line of a run: the number of verdicts of each kind."""
    kinds = [verdict.kind for verdict in verdicts]
    counts = [f"{_WORDS[kind]} {kinds.count(kind)}" for kind in KINDS]
    if "played" in kinds:
        counts.append(f"played {kinds.count('played')}")
    return f"{' '.join(counts)} of {len(kinds)}"


def summary_lines(verdicts: Iterable[Verdict]) -> list[str]:
    """A line for each family, in the order of their first cases."""
    families: dict[str, list[Verdict]] = {}
    for verdict in verdicts:
        families.setdefault(verdict.case.family, []).append(verdict)
    width = max(map(len, families), default=0)
    return [f"  {name:{width}}  {count_line(of)}" for name, of in families.items()]


NOTHING_COMPARED = 5


def exit_status(verdicts: Iterable[Verdict], only_plays: bool = False) -> int:
    """0 if all passed or were skipped, 1 if one failed, 3 if one is void, 5 if nothing was compared.

    A run that only plays, to write transcripts, needs at least one played case for 0.
    """
    kinds = {verdict.kind for verdict in verdicts}
    if "void" in kinds:
        return 3
    if "fail" in kinds:
        return 1
    return 0 if "pass" in kinds or only_plays and "played" in kinds else NOTHING_COMPARED


# The result of a verdict in a CI system. A case that was only played has passed.
_RESULTS = {"pass": PASS, "fail": FAIL, "void": ERROR, "skip": SKIP, "played": PASS}


def results(verdicts: Iterable[Verdict]) -> list[Result]:
    """The results for a CI system: each family is a class, each case a test."""
    made = []
    for verdict in verdicts:
        case, kind = verdict.case, _RESULTS[verdict.kind]
        made.append(Result(case.family, case.name, kind, verdict.line(), case.purpose, seconds=verdict.seconds))
    return made
