"""What the theorem on networks claims about a call of `Bus::play_disturbed`.

The claims follow from the offers, the hits, and the state of the ports before the call: which attempt sends which frame
when, the levels, the logs and the counters.

Standard library only, written from docs/FRAMES.md and the section "Networks" of docs/BUS.md. It has no ports, no phases
and no steps. Levels are 0 (dominant) and 1 (recessive).
"""

from __future__ import annotations

import functools
from collections.abc import Iterable, Iterator
from typing import NamedTuple

from repair_claims import (
    DELIMITER_AND_INTERMISSION,
    DOMINANT,
    INTERMISSION,
    RECESSIVE,
    Counts,
    Entry,
    Frame,
    arbitration_field,
    counted,
    lateness,
    spelled,
)


class Offer(NamedTuple):
    """A frame that is offered to the port with this number at this time."""

    time: int
    node: int
    frame: Frame


class Attempt(NamedTuple):
    """An attempt: its start, the offer that it sends, the offset of its hit if any, its levels with intermission."""

    time: int
    offer: Offer
    offset: int | None
    levels: list[int]

    def ended(self) -> int:
        """When its frame has ended; if it is hit, the end of its levels."""
        return self.time + len(self.levels) - (0 if self.offset is not None else len(INTERMISSION))


@functools.lru_cache(maxsize=4096)
def attempt_levels(frame: Frame, offset: int | None) -> list[int]:
    """The levels of an attempt that is hit at this offset, or not at all, with intermission."""
    wire = spelled(frame).wire
    if offset is None:
        return wire + INTERMISSION
    flags = [DOMINANT] * (6 + lateness(spelled(frame), offset))
    return wire[:offset] + [1 - wire[offset]] + flags + DELIMITER_AND_INTERMISSION


def course(offers: Iterable[Offer], hits: dict[int, int]) -> list[Attempt]:
    """The attempts for these offers, which are in the order of time; `hits` has the offset of each attempt hit."""
    attempts: list[Attempt] = []
    left, free = list(offers), 0
    while left:
        time = max(free, min(offer.time for offer in left))
        offered = [offer for offer in left if offer.time <= time]
        # the lowest field, and the first of its offers
        offer = min(offered, key=lambda offer: arbitration_field(offer.frame))
        offset = hits.get(len(attempts))
        levels = attempt_levels(offer.frame, offset)
        attempts.append(Attempt(time, offer, offset, levels))
        if offset is None:
            left.remove(offer)
        free = time + len(levels)
    return attempts


def are_in_windows(attempts: Iterable[Attempt]) -> bool:
    """Whether each hit is in the window of the frame of its attempt."""
    return all(attempt.offset is None or attempt.offset in spelled(attempt.offer.frame).window for attempt in attempts)


def line(attempts: Iterable[Attempt], length: int) -> list[int]:
    """The first `length` levels of the bus."""
    levels = [RECESSIVE] * length
    for attempt in attempts:
        part = attempt.levels[: max(0, length - attempt.time)]
        levels[attempt.time : attempt.time + len(part)] = part
    return levels


def log(attempts: Iterable[Attempt], node: int, time: int | None = None) -> list[Entry]:
    """The log of a port, frames and whether it sent them, for the attempts whose frame has ended by this time."""
    return [
        (attempt.offer.frame, attempt.offer.node == node)
        for attempt in attempts
        if attempt.offset is None and (time is None or attempt.ended() <= time)
    ]


def tallies(attempts: Iterable[Attempt], counters: Iterable[Counts]) -> list[list[Counts]]:
    """The counters of each port, (TEC, REC), after each number of attempts, starting from these."""
    tallies = [list(counters)]
    for attempt in attempts:
        slot = len(spelled(attempt.offer.frame).wire) - 9
        tallies.append(
            [counted(it, node == attempt.offer.node, attempt.offset, slot) for node, it in enumerate(tallies[-1])]
        )
    return tallies


def are_borne(tallies: Iterable[list[Counts]]) -> bool:
    """Whether no counter reaches 128."""
    return all(counter < 128 for tally in tallies for port in tally for counter in port)


def waiting_bounds(offers: list[Offer], attempts: list[Attempt]) -> Iterator[tuple[int, int]]:
    """For each offer that is sent: when its attempt starts, and the upper bound on that time."""
    fields: dict[tuple[int, ...], list[int]] = {}
    for place, offer in enumerate(offers):
        fields.setdefault(tuple(arbitration_field(offer.frame)), []).append(place)
    for field, places in fields.items():
        sends = [a for a in attempts if a.offset is None and tuple(arbitration_field(a.offer.frame)) == field]
        for place, attempt in zip(places, sends):
            offer = offers[place]
            left = next(
                (a.time + len(a.levels) - offer.time for a in attempts if a.time < offer.time < a.time + len(a.levels)),
                0,
            )
            sent = {id(a.offer) for a in attempts if a.offset is None and a.time < offer.time}
            ahead = sum(
                len(spelled(o.frame).wire) + 3
                for n, o in enumerate(offers)
                if id(o) not in sent
                and (
                    (arbitration_field(o.frame) < list(field) and o.time < attempt.time)
                    or (n < place and tuple(arbitration_field(o.frame)) == field)
                )
            )
            hit = sum(len(a.levels) for a in attempts if a.offset is not None and offer.time <= a.time < attempt.time)
            yield attempt.time, offer.time + left + ahead + hit
