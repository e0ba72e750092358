"""Ports, and the values that they return."""

from __future__ import annotations

import ctypes
import enum
import operator
import threading
from collections.abc import Iterator
from types import TracebackType
from typing import NamedTuple, NoReturn

from riddlesage._buffers import Buffer, Room, bytes_at
from riddlesage._frames import Frame, Refused, Status, demand, frame_of, in_range, plain_of
from riddlesage._library import SIZE_BITS, PlainFrame, PlainPort, PlainStanding, lib


class Event(enum.IntEnum):
    """The event of a bit time, as a port reports it. riddlesage.h describes each."""

    NOTHING = 0
    SENT = 1
    RECEIVED = 2
    LOST = 3
    BIT_ERROR = 4
    STUFF_ERROR = 5
    CRC_ERROR = 6
    FORM_ERROR = 7
    ACK_ERROR = 8
    OVERLOAD = 9
    WENT_OFF = 10
    RECOVERED = 11


class State(enum.IntEnum):
    """The state of fault confinement (8)."""

    ERROR_ACTIVE = 0
    ERROR_PASSIVE = 1
    BUS_OFF = 2


class Phase(enum.IntEnum):
    """The phase of a port before a bit time. riddlesage.h describes each."""

    IDLE = 0
    JOINING = 1
    STUFFED_PART = 2
    CRC_DELIMITER = 3
    ACK_SLOT = 4
    ACK_DELIMITER = 5
    END_OF_FRAME = 6
    ERROR_FLAG = 7
    PASSIVE_FLAG = 8
    OVERLOAD_FLAG = 9
    AFTER_FLAG = 10
    DELIMITER = 11
    INTERMISSION = 12
    SUSPEND = 13
    BUS_OFF = 14


_WITHOUT_PLACES = (Phase.IDLE, Phase.CRC_DELIMITER, Phase.ACK_SLOT, Phase.ACK_DELIMITER)


class Rule(enum.IntEnum):
    """The rule of docs/ACCESS.md that decides in a bit time."""

    JOINING = 0
    START_OF_FRAME = 1
    KEPT_FRAME = 2
    INTERMISSION = 3
    SUSPEND_TRANSMISSION = 4
    BUS_OFF = 5
    ARBITRATION = 6
    STUFF_PLACES = 7
    FIXED_FORM = 8
    ACKNOWLEDGEMENT = 9
    ERROR_FLAGS = 12
    AFTER_A_FLAG = 14
    DELIMITER = 15
    OVERLOAD_FLAGS = 16


class Standing(NamedTuple):
    """The protocol state of a port before a bit time: phase, place within it, role, and the rule that decides."""

    phase: Phase
    place: int
    sender: bool
    rule: Rule

    def __str__(self) -> str:
        """The text of a verdict of canhold: `error-flag 3, receiver; Error flags`."""
        phase = self.phase.name.lower().replace("_", "-")
        place = "" if self.phase in _WITHOUT_PLACES else f" {self.place}"
        rule = self.rule.name.replace("_", " ").capitalize()
        return f"{phase}{place}, {'sender' if self.sender else 'receiver'}; {rule}"


class Reported(NamedTuple):
    """The event of a bit time, and the frame if one was sent or received."""

    event: Event
    frame: Frame | None = None


class Entry(NamedTuple):
    """An entry of a port's log: a frame, and whether the port sent or received it."""

    frame: Frame
    sent: bool


class Counters(NamedTuple):
    """The error counters (8): TEC, 0 to 263, and REC, 0 to 255."""

    transmit: int
    receive: int


class Run(NamedTuple):
    """The result of Port.run: for each bit time the level that the port drove, and the number of its event."""

    drives: bytes
    events: bytes

    def reported(self) -> Iterator[tuple[int, Event]]:
        """Returns each bit time that has an event, with the event."""
        return ((time, Event(code)) for time, code in enumerate(self.events) if code)


class Port:
    """A CAN node: a controller with a transmit queue, and a log of the frames that it has sent and received.

    Threads may share a port: each call waits until that of another thread has ended. Only `copy` copies a port; it
    cannot be pickled.
    """

    def __init__(self, queue: int = 16, log: int = 64, *, joining: bool = False) -> None:
        """Makes a port that is on the bus and idle; if `joining`, it first waits for eleven recessive levels in a row.

        `queue` is the capacity of its transmit queue in frames, `log` that of its log in entries.
        """
        rooms = operator.index(queue), operator.index(log)
        if min(rooms) < 0:
            raise ValueError("the capacity of queue or log cannot be negative")
        if max(rooms) >= 1 << SIZE_BITS - 1:
            raise MemoryError
        self._lock = threading.Lock()
        # These two are called in each bit time. Their arguments are made once per port, with the right types, so that
        # no call has to convert them.
        self._drive, self._sample = lib.riddlesage_port_drive, lib.riddlesage_port_sample
        self._port = PlainPort()
        self._at = ctypes.byref(self._port)
        self._level = ctypes.c_uint8()
        self._event = ctypes.c_uint8()
        self._frame = PlainFrame()
        self._drive_arguments = (self._at, ctypes.byref(self._level))
        self._levels = (ctypes.c_uint8(0), ctypes.c_uint8(1))
        self._event_at = ctypes.byref(self._event)
        self._frame_at = ctypes.byref(self._frame)
        make = lib.riddlesage_port_joining if joining else lib.riddlesage_port_idle
        status = make(self._port, *rooms)
        if status == Status.NO_MEMORY:
            raise MemoryError
        demand(status)

    def copy(self) -> Port:
        """Copies the port: from then on the copy behaves as this one does."""
        port = Port(0, 0)
        with self._lock:
            status = lib.riddlesage_port_copy(port._port, self._port)
        if status == Status.NO_MEMORY:
            raise MemoryError
        demand(status)
        return port

    def close(self) -> None:
        """Frees the port. Any other call raises Refused afterwards."""
        with self._lock:
            demand(lib.riddlesage_port_free(self._port))

    def __enter__(self) -> Port:
        return self

    def __exit__(
        self,
        kind: type[BaseException] | None,
        error: BaseException | None,
        trace: TracebackType | None,
    ) -> None:
        self.close()

    def __del__(self) -> None:
        if hasattr(self, "_port"):
            lib.riddlesage_port_free(self._port)

    def __reduce__(self) -> NoReturn:
        """A port has to stay at its address."""
        raise TypeError("a Port cannot be pickled; its method copy copies it")

    def offer(self, frame: Frame) -> None:
        """Queues a frame for transmission."""
        plain = plain_of(frame)
        with self._lock:
            demand(lib.riddlesage_port_offer(self._port, plain))

    def hold(self, count: int) -> None:
        """Requests 0 to 2 overload frames, in place of an earlier request (3.2.4)."""
        wish = in_range(count, 8, Refused(Status.BAD_COUNT))
        with self._lock:
            demand(lib.riddlesage_port_hold(self._port, wish))

    def drive(self) -> int:
        """Returns the level that the port drives in this bit time. The port does not change."""
        with self._lock:
            status = self._drive(*self._drive_arguments)
            level = self._level.value
        if status:
            raise Refused(Status(status))
        return level

    def sample(self, level: int) -> Reported | None:
        """Passes one bit time: samples the level of the bus, and returns the event, if there is one."""
        if level != 0 and level != 1:
            raise Refused(Status.BAD_LEVEL)
        with self._lock:
            status = self._sample(self._at, self._levels[level], self._event_at, self._frame_at)
            code = self._event.value
            frame = frame_of(self._frame) if not status and 0 < code <= Event.RECEIVED else None
        if status:
            raise Refused(Status(status))
        return Reported(Event(code), frame) if code else None

    def run(self, levels: Buffer) -> Run:
        """Samples these levels, one per bit time, whatever the port drives.

        They are read in place: no other thread may write to them during the call.
        """
        with bytes_at(levels) as (at, count):
            drives, events = Room(count), Room(count)
            with self._lock:
                demand(lib.riddlesage_port_run(self._port, at, count, drives.at, events.at))
        return Run(drives.filled(), events.filled())

    @property
    def counters(self) -> Counters:
        """The error counters, TEC and REC."""
        transmit, receive = ctypes.c_uint16(), ctypes.c_uint16()
        with self._lock:
            demand(lib.riddlesage_port_counters(self._port, transmit, receive))
        return Counters(transmit.value, receive.value)

    @property
    def state(self) -> State:
        """The state of fault confinement (8)."""
        state = ctypes.c_uint8()
        with self._lock:
            demand(lib.riddlesage_port_state(self._port, state))
        return State(state.value)

    @property
    def phase(self) -> Standing:
        """The phase of the port before the next bit time, and the rule that decides in it."""
        plain = PlainStanding()
        with self._lock:
            demand(lib.riddlesage_port_phase(self._port, plain))
        return Standing(Phase(plain.phase), plain.place, bool(plain.sender), Rule(plain.rule))

    @property
    def missed(self) -> int:
        """The number of entries for which the log had no capacity."""
        count = ctypes.c_uint32()
        with self._lock:
            demand(lib.riddlesage_port_missed(self._port, count))
        return count.value

    @property
    def log(self) -> list[Entry]:
        """The frames that were sent and received, the oldest first."""
        count = ctypes.c_size_t()
        with self._lock:
            demand(lib.riddlesage_port_log_length(self._port, count))
        return [self.entry(number) for number in range(count.value)]

    def entry(self, number: int) -> Entry:
        """The entry of the log with this number, the oldest being 0."""
        frame, sent = PlainFrame(), ctypes.c_uint8()
        place = in_range(number, SIZE_BITS, Refused(Status.NO_ENTRY))
        with self._lock:
            demand(lib.riddlesage_port_entry(self._port, place, frame, sent))
        return Entry(frame_of(frame), bool(sent.value))
