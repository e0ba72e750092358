"""Compares a transcript with an expected one: the first difference in time.

In one bit time a level comes before an event and an event before counters; the end is last.
"""

from __future__ import annotations

from typing import Sequence, Tuple

from .documents import Event, State, Transcript

LEVEL, EVENT, COUNTERS, END = range(4)
Difference = Tuple[int, int, str]


def _level_difference(drove: str, expected: str) -> Difference | None:
    if drove == expected:
        return None
    for time, (one, other) in enumerate(zip(drove, expected)):
        if one != other:
            return time, LEVEL, f"drove {one} not {other}"
    if len(drove) < len(expected):
        return len(drove), LEVEL, "drove nothing"
    if len(drove) > len(expected):
        return len(expected), LEVEL, "drove too long"
    return None


def _event_difference(events: Sequence[Event], expected: Sequence[Event]) -> Difference | None:
    reported, due = dict(events), dict(expected)
    for time in sorted(set(reported) | set(due)):
        if reported.get(time) != due.get(time):
            text = f"reported {reported.get(time, 'nothing')} not {due.get(time, 'nothing')}"
            return time, EVENT, text
    return None


def _counter_difference(
    counters: Sequence[tuple[int, int, int]], expected: Sequence[tuple[int, int, int]]
) -> Difference | None:
    counted: dict[int, tuple[int, int]] = {time: (tec, rec) for time, tec, rec in counters}
    due = {time: (tec, rec) for time, tec, rec in expected}
    held = wanted = (0, 0)
    for time in sorted(set(counted) | set(due)):
        held, wanted = counted.get(time, held), due.get(time, wanted)
        if held != wanted:
            return time, COUNTERS, f"counted {held[0]} {held[1]} not {wanted[0]} {wanted[1]}"
    return None


def _state_text(state: State) -> str:
    return " ".join(map(str, state))


def differences(given: Transcript, expected: Transcript) -> list[Difference]:
    """The first difference in each of levels, events, counters and end, if both have it; the earliest one first."""
    found = [_level_difference(given.drove, expected.drove)]
    if given.events is not None:
        found.append(_event_difference(given.events, expected.events or []))
    if given.counters is not None and expected.counters is not None:
        found.append(_counter_difference(given.counters, expected.counters))
    if given.end is not None and expected.end is not None and given.end != expected.end:
        text = f"end {_state_text(given.end)} not {_state_text(expected.end)}"
        found.append((len(expected.drove), END, text))
    return sorted(difference for difference in found if difference is not None)
