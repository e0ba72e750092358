"""What the response-time analysis claims about the messages of a network: their worst-case response times.

Standard library only, written from docs/PLANNING.md. All times are whole bit times.
"""

from __future__ import annotations

from collections.abc import Callable
from typing import NamedTuple

from longest_frames import longest_wire
from repair_claims import INTERMISSION, Frame, spelled


class Message(NamedTuple):
    """The longest time that a frame occupies the bus, the least time between releases, and the queuing jitter."""

    longest: int
    period: int
    jitter: int


class HitRate(NamedTuple):
    """The error model: `burst` hits in any interval, and one more for each `spacing` in it, unless that is 0."""

    burst: int
    spacing: int

    def most(self, long: int) -> int:
        """The greatest number of hits in this many bit times."""
        return self.burst + (long // self.spacing if self.spacing else 0)


def busy_time(frame: Frame) -> int:
    """How long a frame occupies the bus: its levels, and the intermission."""
    return len(spelled(frame).wire) + len(INTERMISSION)


def longest_busy(frame: Frame) -> int:
    """The longest time that a frame with this identifier, kind and DLC occupies the bus."""
    return longest_wire(frame) + len(INTERMISSION)


def arrivals(message: Message, long: int) -> int:
    """The greatest number of frames that are offered in this many bit times."""
    return -(-(long + message.jitter) // message.period)


def least(enough: Callable[[int], int], start: int, limit: int) -> int | None:
    """The least number from a start on that is at least what `enough` needs for it; none above a limit."""
    number = start
    while number <= limit:
        needed = enough(number)
        if needed <= number:
            return number
        number = needed
    return None


def widest(messages: list[Message], place: int) -> int:
    """The longest time on the bus of the message at this place and of those with higher priority."""
    return max(message.longest for message in messages[: place + 1])


def hits_until(messages: list[Message], place: int, rate: HitRate, long: int) -> tuple[int, int]:
    """The number of hits in attempts that begin within this many bit times, and the bit times that they cost."""
    wide = widest(messages, place)
    hits = rate.most(long + wide - 5)
    return hits, hits * (wide + 13)


def frames(messages: list[Message], place: int, rate: HitRate, limit: int) -> list[tuple[int, int]] | None:
    """The latest start and end of each frame of the message at this place in a busy period; none above a limit."""
    own, higher = messages[place], messages[:place]
    blocking = max((message.longest - 1 for message in messages[place + 1 :]), default=0)

    def demand(time: int, some: list[Message], long: int) -> int:
        hits = hits_until(messages, place, rate, long)[1]
        return time + sum(arrivals(message, long) * message.longest for message in some) + hits

    def delay(instance: int) -> int | None:
        before = blocking + instance * own.longest
        return least(lambda w: demand(before, higher, w + 1), 0, limit)

    busy = least(lambda long: demand(blocking, [own, *higher], long), 1, limit)
    if busy is None:
        return None
    found = []
    for instance in range(arrivals(own, busy)):
        start = delay(instance)
        if start is None:
            return None
        found.append((start, own.jitter + start + own.longest - 3 - instance * own.period))
    return found


def bound(messages: list[Message], place: int, rate: HitRate, limit: int) -> int | None:
    """The worst-case response time of the message at this place; none above a limit."""
    found = frames(messages, place, rate, limit)
    return None if found is None else max(end for _, end in found)


def first_late(messages: list[Message], deadlines: list[int], rate: HitRate, limit: int) -> int | None:
    """The place of the first message that has no bound, or whose bound exceeds its deadline."""
    for place, deadline in enumerate(deadlines):
        most = bound(messages, place, rate, limit)
        if most is None or most > deadline:
            return place
    return None


def shorter(message: Message, percent: int) -> Message:
    """The same message with a period that is shorter by this many per cent."""
    return message._replace(period=max(1, message.period * (100 - percent) // 100))
