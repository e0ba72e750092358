"""A bus of ports that runs with one call of the library."""

from __future__ import annotations

import contextlib
import ctypes
import operator
from collections.abc import Iterable, Sequence
from typing import NamedTuple

from riddlesage._buffers import Room
from riddlesage._frames import Frame, Refused, Status, demand, in_range, plain_of
from riddlesage._library import HitKind, PlainHit, PlainOffer, PlainPort, lib
from riddlesage._ports import Port


class Played(NamedTuple):
    """The levels of the bus, one per bit time, and how many of the offered frames a full queue refused."""

    levels: bytes
    refused: int


def play(
    ports: Sequence[Port],
    bits: int,
    offers: Iterable[tuple[int, int, Frame]] = (),
    *,
    hit_at: Iterable[int] = (),
    hit_in: Iterable[tuple[int, int]] = (),
    view: Iterable[tuple[int, int]] = (),
) -> Played:
    """Runs a bus of 1 to 64 ports for `bits` bit times with one call of the library.

        >>> from riddlesage import Frame, Port, play
        >>> ports = Port(), Port()
        >>> played = play(ports, 200, [(5, 0, Frame(0x123))], hit_in=[(0, 16)])
        >>> played.levels.index(0), played.refused, ports[0].counters.transmit, len(ports[1].log)
        (5, 0, 7, 1)

    An offer is a time, the index of a port and a frame, which is queued before that bit time. The others are injected
    bit errors: `hit_at` has times, `hit_in` attempts with offsets, `view` times with indices of ports, as the calls of
    these names of a Bus. Bit times and attempts count from 0 within this call; before it the bus counts as recessive
    for eleven bit times. The ports continue from their present state, and keep the state that they reach. If the call
    fails, none of them has changed.
    """
    _demand_bus(ports)
    given = _plain_offers(offers)
    hits = _plain_hits(hit_at, hit_in, view)
    length, refused = count_in(bits), ctypes.c_size_t()
    levels = Room(length)
    with contextlib.ExitStack() as held:
        # always in the same order, so that two threads never wait for each other
        for port in sorted(ports, key=id):
            held.enter_context(port._lock)
        status = lib.riddlesage_play(
            (ctypes.POINTER(PlainPort) * len(ports))(*(ctypes.pointer(port._port) for port in ports)),
            len(ports),
            (PlainOffer * len(given))(*given),
            len(given),
            (PlainHit * len(hits))(*hits),
            len(hits),
            levels.at,
            length,
            refused,
        )
    if status == Status.NO_MEMORY:
        raise MemoryError
    demand(status)
    return Played(levels.filled(), refused.value)


def _demand_bus(ports: Sequence[Port]) -> None:
    """Refuses anything but a Port, and a bus that has a port twice."""
    for port in ports:
        if not isinstance(port, Port):
            raise TypeError(f"expected a Port, got {type(port).__name__}")
    if len({id(port) for port in ports}) < len(ports):
        raise Refused(Status.BAD_BUS)


def _plain_offers(offers: Iterable[tuple[int, int, Frame]]) -> list[PlainOffer]:
    """The offers in the order of their times; those of one time in their given order."""
    given = [PlainOffer(count_in(time), _place(place), plain_of(frame)) for time, place, frame in offers]
    return sorted(given, key=lambda offer: int(offer.time))


def _plain_hits(
    hit_at: Iterable[int], hit_in: Iterable[tuple[int, int]], view: Iterable[tuple[int, int]]
) -> list[PlainHit]:
    """The three lists of hits one after another, each in order and without duplicates."""
    hits = [PlainHit(time=time, kind=HitKind.AT) for time in sorted({count_in(time) for time in hit_at})]
    inside = sorted({(count_in(attempt), count_in(offset)) for attempt, offset in hit_in})
    hits += [PlainHit(attempt=attempt, offset=offset, kind=HitKind.IN) for attempt, offset in inside]
    seen = sorted({(count_in(time), _place(place)) for time, place in view})
    return hits + [PlainHit(time=time, port=place, kind=HitKind.VIEW) for time, place in seen]


def count_in(value: int) -> int:
    """A time, an attempt or an offset."""
    number = operator.index(value)
    if not 0 <= number < 1 << 64:
        raise ValueError(f"{number} is not a number of bit times or attempts, 0 to 2^64 - 1")
    return number


def _place(value: int) -> int:
    return in_range(value, 64, Refused(Status.NO_SUCH_PORT))
