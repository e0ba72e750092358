"""Plays a case against an adapter, and records its transcript."""

from __future__ import annotations

from typing import Iterator

from .adapter import MOST_LEVELS, Adapter
from .documents import Case, Event, Transcript


def seen_levels(case: Case) -> str:
    """The tester's levels for the protocol, with `f` in forced bit times."""
    levels = list(case.levels)
    for time in case.forced:
        levels[time] = "f"
    return "".join(levels)


def cuts(case: Case, batch: int = MOST_LEVELS) -> Iterator[tuple[int, int]]:
    """The bounds of the `play` lines: cut at each offer and request, none longer than the batch."""
    marks = {time for time, _ in case.offers} | {time for time, _ in case.holds}
    time, bits = 0, len(case.levels)
    while time < bits:
        later = [mark for mark in marks if mark > time]
        end = min([time + batch, bits] + later)
        yield time, end
        time = end


def play(case: Case, adapter: Adapter, batch: int = MOST_LEVELS) -> Transcript:
    """Plays the case on a new controller. Raises Skip or Void."""
    adapter.begin(case.name, case.start)
    levels = seen_levels(case)
    drove: list[str] = []
    events: list[Event] = []
    for time, end in cuts(case, batch):
        for _, frame in (offer for offer in case.offers if offer[0] == time):
            adapter.offer(frame)
        for _, overloads in (hold for hold in case.holds if hold[0] == time):
            adapter.hold(overloads)
        driven, reported = adapter.play(levels[time:end])
        drove.append(driven)
        events += [(time + place, event) for place, event in reported]
    return Transcript(case.name, "".join(drove), events or None, None, adapter.end())
