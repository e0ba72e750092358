"""A bus of ports and other controllers, with frames queued at their times and injected bit errors."""

from __future__ import annotations

import ctypes
import heapq
import operator
from collections.abc import Sequence
from typing import NamedTuple, Protocol

from riddlesage._frames import RECESSIVE, Frame, Refused, Status, frame_in
from riddlesage._library import HitKind, PlainHit, PlainWire, lib
from riddlesage._play import count_in
from riddlesage._ports import Event, Reported

_UNKNOWN = -1


class Device(Protocol):
    """A node of a bus: a Port, or a controller of your own with these calls."""

    def offer(self, frame: Frame, /) -> None:
        """Queues a frame for transmission, from this bit time on."""

    def drive(self) -> int:
        """Returns the level that it drives in this bit time, 0 or 1. It depends on earlier samples alone."""

    def sample(self, level: int, /) -> Reported | None:
        """Samples the level that it sees in this bit time, and returns the event, if it reports one."""


class Happened(NamedTuple):
    """An event of one device of a bus: the bit time, the device's index, the event, and its frame if it has one."""

    time: int
    place: int
    event: Event
    frame: Frame | None


class Bus:
    """A bus: dominant if any device drives dominant, and inverted if a hit (a bit error) falls on it.

        >>> from riddlesage import Bus, Frame, Port
        >>> bus = Bus(Port(), Port())
        >>> bus.offer(0, Frame(0x123))
        >>> bus.hit_in(attempt=0, offset=16)
        >>> for happened in bus.run(100):
        ...     print(happened.time, happened.place, happened.event.name)
        16 0 BIT_ERROR
        22 1 STUFF_ERROR
        83 1 RECEIVED
        84 0 SENT

    Bit times count from 0, and so do devices, in the order in which they are given. docs/BUS.md defines a bit time. The
    library computes the levels of the bus; this class calls the devices. A hit may be added at any time; in the past it
    has no effect.
    """

    def __init__(self, *devices: Device) -> None:
        self._devices = devices
        self._offers: list[tuple[int, int, int, Frame]] = []
        self._offered = 0
        self._wire = _Wire(len(devices) + 1)
        self._levels = bytearray()

    @property
    def devices(self) -> Sequence[Device]:
        """The devices on the bus."""
        return self._devices

    @property
    def time(self) -> int:
        """How many bit times have passed."""
        return len(self._levels)

    @property
    def levels(self) -> bytes:
        """The levels of the bus so far, one per bit time."""
        return bytes(self._levels)

    def offer(self, place: int, frame: Frame, time: int | None = None) -> None:
        """Queues a frame at a device, before bit time `time`, or without it before the next one.

        Frames of one bit time are queued in the order of these calls; those of a time in the past, before the next one.
        """
        place = self._place(place)
        due = self.time if time is None else operator.index(time)
        heapq.heappush(self._offers, (due, self._offered, place, frame_in(frame)))
        self._offered += 1

    def hit_at(self, time: int) -> None:
        """Injects a bit error for all devices: the level of the bus is inverted in bit time `time`."""
        time = count_in(time)
        self._wire.hit_at(time, PlainHit(time=time, kind=HitKind.AT))

    def hit_in(self, attempt: int, offset: int) -> None:
        """Injects a bit error for all devices, `offset` bit times after the start of transmission attempt `attempt`.

        Attempts count from 0. There is no error if a later attempt has begun by then.
        """
        attempt = count_in(attempt)
        self._wire.hit_in(attempt, PlainHit(attempt=attempt, offset=count_in(offset), kind=HitKind.IN))

    def view(self, time: int, place: int) -> None:
        """Injects a bit error for one device: it samples the inverse of the bus level in bit time `time`."""
        time = count_in(time)
        self._wire.hit_at(time, PlainHit(time=time, port=self._place(place), kind=HitKind.VIEW))

    def step(self, level: int = RECESSIVE) -> list[Happened]:
        """Passes one bit time, in which a tester drives `level` too. Returns the events."""
        time, place, drives = len(self._levels), 0, self._wire.drives
        while self._offers and self._offers[0][0] <= time:
            _, _, to, frame = heapq.heappop(self._offers)
            self._devices[to].offer(frame)
        for device in self._devices:
            driven = device.drive()
            if driven != 0 and driven != 1:
                raise Refused(Status.BAD_LEVEL)
            drives[place] = driven
            place += 1
        if level != 0 and level != 1:
            raise Refused(Status.BAD_LEVEL)
        drives[place] = level
        self._levels.append(self._wire.step(time))
        happened = []
        seen = self._wire.seen
        for place, device in enumerate(self._devices):
            reported = device.sample(seen[place])
            if reported is not None:
                happened.append(Happened(time, place, *reported))
        return happened

    def run(self, bits: int) -> list[Happened]:
        """Passes `bits` bit times. Returns their events."""
        return [happened for _ in range(bits) for happened in self.step()]

    def _place(self, place: int) -> int:
        place = operator.index(place)
        if not 0 <= place < len(self._devices):
            raise ValueError(f"there is no device {place}: the bus has {len(self._devices)}, counted from 0")
        return place


class _Wire:
    """The library's bus without its nodes: the levels that each drives and samples, the tester last, and all hits."""

    def __init__(self, count: int) -> None:
        self.drives, self.seen = bytearray(count), bytearray(count)
        drives, seen = ((ctypes.c_uint8 * count).from_buffer(levels) for levels in (self.drives, self.seen))
        # It is called in each bit time, so its arguments have the right types already.
        self._step = lib.riddlesage_wire_step
        self._plain, self._level = PlainWire(), ctypes.c_uint8()
        self._before = ctypes.byref(self._plain), drives, ctypes.c_size_t(count)
        self._behind = ctypes.byref(self._level), seen
        self._timed: dict[int, list[PlainHit]] = {}
        self._inside: dict[int, list[PlainHit]] = {}
        # the hits of attempts that may occur before the number of attempts changes, and a call's arguments with them
        self._begun = _UNKNOWN
        self._lasting: list[PlainHit] = []
        self._call = self._arguments([])

    def hit_at(self, time: int, hit: PlainHit) -> None:
        """Adds a hit in a bit time."""
        self._timed.setdefault(time, []).append(hit)

    def hit_in(self, attempt: int, hit: PlainHit) -> None:
        """Adds a hit in an attempt."""
        self._inside.setdefault(attempt, []).append(hit)
        self._begun = _UNKNOWN

    def step(self, time: int) -> int:
        """Passes the next bit time, `time`, and returns the level of the bus.

        The library gets only the hits of this bit time, of the latest attempt, and of the one that may begin.
        """
        begun = self._plain.attempts
        if begun != self._begun:
            self._begun = begun
            self._lasting = [*self._inside.get(begun - 1, ()), *self._inside.get(begun, ())]
            self._call = self._arguments(self._lasting)
        timed = self._timed.get(time)
        status = self._step(*(self._arguments([*self._lasting, *timed]) if timed else self._call))
        if status:
            raise Refused(Status(status))
        return self._level.value

    def _arguments(self, hits: list[PlainHit]) -> tuple[object, ...]:
        return *self._before, (PlainHit * len(hits))(*hits), ctypes.c_size_t(len(hits)), *self._behind
