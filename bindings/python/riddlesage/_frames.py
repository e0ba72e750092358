"""Frames, encoding and decoding, and the errors of the package."""

from __future__ import annotations

import ctypes
import enum
import operator
from dataclasses import dataclass

from riddlesage._buffers import Buffer
from riddlesage._library import PlainFrame, PlainHeard, lib

DOMINANT = 0
RECESSIVE = 1

MOST_LEVELS = 157
# The ranges of a frame's fields, as the library has them: a frame is tested without it.
_HIGHEST_STANDARD, _HIGHEST_EXTENDED, _HIGHEST_DLC = (1 << 11) - 1, (1 << 29) - 1, 15


class Status(enum.IntEnum):
    """The result of a call of the library."""

    OK = 0
    NULL_POINTER = 1
    MOVED = 2
    NO_PORT = 3
    NO_MEMORY = 4
    QUEUE_FULL = 5
    NO_ENTRY = 6
    BAD_FLAG = 7
    BAD_IDENTIFIER = 8
    BAD_DLC = 9
    BAD_LEVEL = 10
    BAD_COUNT = 11
    NO_LEVELS = 12
    NO_ROOM = 13
    SHORT = 14
    NO_START = 15
    STUFF = 16
    CRC = 17
    FORM = 18
    BAD_SCENARIO = 19
    BAD_BYTE = 20
    BAD_BUS = 21
    NO_SUCH_PORT = 22
    BAD_ORDER = 23
    BAD_KIND = 24
    BAD_WIRE = 25
    BAD_NETWORK = 26
    NO_MESSAGE = 27
    TOO_LONG = 28


# What each status says, after its name.
_MEANINGS = {
    Status.NULL_POINTER: "a pointer is NULL",
    Status.MOVED: "the port is not at the address at which it was made",
    Status.NO_PORT: "the port is closed",
    Status.NO_MEMORY: "there is no memory",
    Status.QUEUE_FULL: "the transmit queue is full",
    Status.NO_ENTRY: "the log has no entry with this number",
    Status.BAD_FLAG: "extended and remote are 0 or 1",
    Status.BAD_IDENTIFIER: "0 to 0x7ff, or to 0x1fffffff if it is extended",
    Status.BAD_DLC: "0 to 15",
    Status.BAD_LEVEL: "a level is 0 or 1",
    Status.BAD_COUNT: "0 to 2 overload frames can be requested",
    Status.NO_LEVELS: "there are no levels to sample",
    Status.NO_ROOM: "a buffer is too small",
    Status.SHORT: "the levels end before the frame does",
    Status.NO_START: "the first level is recessive, so it is no start of frame",
    Status.STUFF: "stuff error, a sixth equal level in a row",
    Status.CRC: "the CRC sequence is wrong",
    Status.FORM: "form error, a bit of fixed form is dominant",
    Status.BAD_SCENARIO: "the text is not a valid scenario",
    Status.BAD_BYTE: "a byte of a trace is not a level",
    Status.BAD_BUS: "a bus has 1 to 64 ports, each once",
    Status.NO_SUCH_PORT: "an offer, a hit or the caller names a port that the bus or the scenario does not have",
    Status.BAD_ORDER: "offers or hits are not in order",
    Status.BAD_KIND: "there is no such kind of hit",
    Status.BAD_WIRE: "2^64 - 1 bit times have passed",
    Status.BAD_NETWORK: "the text is not a valid network",
    Status.NO_MESSAGE: "no message of the network has this frame; it is written as in the network, such as 'S 300 D'",
    Status.TOO_LONG: "the worst case is longer than a scenario can be, or has no end",
}


def name_of(status: Status) -> str:
    """The name of a status, as the library has it."""
    return status.name.lower().replace("_", " ")


class RiddlesageError(Exception):
    """The base class of this package's exceptions."""


class Refused(RiddlesageError):
    """A call failed, and has changed nothing. `status` says why."""

    def __init__(self, status: Status) -> None:
        super().__init__(f"{name_of(status)}: {_MEANINGS.get(status, 'no error')}")
        self.status = status

    def __reduce__(self) -> tuple[type[Refused], tuple[Status]]:
        """How it is rebuilt when it is unpickled or copied."""
        return type(self), (self.status,)


class BadFrame(Refused, ValueError):
    """The fields are those of no frame: identifier or DLC is out of range."""


class Fault(RiddlesageError):
    """The levels begin with no frame. `place` levels come before the first wrong one."""

    def __init__(self, status: Status, place: int) -> None:
        super().__init__(f"{name_of(status)} at {place}: {_MEANINGS.get(status, 'no error')}")
        self.status = status
        self.place = place

    def __reduce__(self) -> tuple[type[Fault], tuple[Status, int]]:
        """How it is rebuilt when it is unpickled or copied."""
        return type(self), (self.status, self.place)

    @property
    def name(self) -> str:
        """SHORT, NO_START, STUFF, CRC or FORM."""
        return self.status.name


def demand(status: int) -> None:
    """Raises Refused for a status other than OK."""
    if status:
        raise Refused(Status(status))


def in_range(value: int, bits: int, refusal: Refused) -> int:
    """Returns the number if it fits into a field of `bits` bits, otherwise raises this refusal.

    Anything but an integer is a TypeError.
    """
    number = operator.index(value)
    if not 0 <= number < 1 << bits:
        raise refusal
    return number


@dataclass(frozen=True)
class Frame:
    """A data frame or a remote frame.

    Without `dlc`, the DLC is the number of data bytes; for a remote frame 0. Fields out of range raise BadFrame, a
    ValueError; data whose length is not that of the DLC, a ValueError. A DLC of 9 to 15 means eight bytes.
    """

    identifier: int
    data: bytes = b""
    extended: bool = False
    remote: bool = False
    dlc: int = -1

    def __post_init__(self) -> None:
        if isinstance(self.data, int):
            raise TypeError("the data of a frame are bytes, not a number")
        object.__setattr__(self, "data", bytes(self.data))
        object.__setattr__(self, "dlc", len(self.data) if self.dlc == -1 else operator.index(self.dlc))
        if len(self.data) != (0 if self.remote else min(self.dlc, 8)):
            kind = "a remote frame" if self.remote else "a data frame"
            raise ValueError(f"{kind} with DLC {self.dlc} cannot have {len(self.data)} data bytes")
        highest = _HIGHEST_EXTENDED if self.extended else _HIGHEST_STANDARD
        if not 0 <= operator.index(self.identifier) <= highest:
            raise BadFrame(Status.BAD_IDENTIFIER)
        if not 0 <= self.dlc <= _HIGHEST_DLC:
            raise BadFrame(Status.BAD_DLC)

    @classmethod
    def from_text(cls, text: str) -> Frame:
        """The frame of a text such as `S 123 D 2 aa55`. Any other text raises ValueError."""
        if not isinstance(text, str):
            raise TypeError(f"expected the text of a frame, got {type(text).__name__}")
        words = text.split(" ", 4)
        if len(words) < 4:
            raise ValueError(f"not a frame, such as 'S 123 D 2 aa55': {text}")
        kind, identifier, direction, dlc = words[:4]
        frame = cls(int(identifier, 16), bytes.fromhex("".join(words[4:])), kind == "E", direction == "R", int(dlc))
        if frame.text != text:
            raise ValueError(f"not a frame, such as 'S 123 D 2 aa55': {text}")
        return frame

    @property
    def text(self) -> str:
        """The text of the frame, such as `S 123 D 2 aa55`."""
        identifier = f"E {self.identifier:08x}" if self.extended else f"S {self.identifier:03x}"
        data = f" {self.data.hex()}" if self.data else ""
        return f"{identifier} {'R' if self.remote else 'D'} {self.dlc}{data}"

    def _plain(self) -> PlainFrame:
        plain = PlainFrame(operator.index(self.identifier), bool(self.extended), bool(self.remote), self.dlc)
        plain.data[: len(self.data)] = self.data
        return plain


def frame_in(given: Frame) -> Frame:
    """The argument, if it is a Frame; otherwise a TypeError."""
    if not isinstance(given, Frame):
        raise TypeError(f"expected a Frame, got {type(given).__name__}")
    return given


def plain_of(frame: Frame) -> PlainFrame:
    """The frame as the library's struct."""
    return frame_in(frame)._plain()


def frame_of(plain: PlainFrame) -> Frame:
    """The frame of the library's struct."""
    count = 0 if plain.remote else min(plain.dlc, 8)
    return Frame(plain.identifier, bytes(plain.data[:count]), bool(plain.extended), bool(plain.remote), plain.dlc)


@dataclass(frozen=True)
class Heard:
    """A frame as received, with the bits for which a receiver accepts either level, and its length in levels.

    `acknowledged` is whether the ACK slot is dominant, `last` the last bit of the end of frame.
    """

    frame: Frame
    acknowledged: bool
    srr: int
    r1: int
    r0: int
    last: int
    length: int


def encode(frame: Frame) -> bytes:
    """Encodes a frame: the levels that its transmitter drives, with stuff bits, the ACK slot recessive (3.2.1, 6)."""
    levels = ctypes.create_string_buffer(MOST_LEVELS)
    count = ctypes.c_size_t()
    status = lib.riddlesage_encode(plain_of(frame), levels, MOST_LEVELS, count)
    if status:
        raise BadFrame(Status(status))
    return levels.raw[: count.value]


def decode(levels: Buffer) -> Heard:
    """Decodes the frame with which the levels begin. If they begin with none, it raises a Fault, with name and place.

    It reads at most the first 157 levels: no frame has more.
    """
    heard, place = PlainHeard(), ctypes.c_size_t()
    status = lib.riddlesage_decode(bytes(levels[:MOST_LEVELS]), min(len(levels), MOST_LEVELS), heard, place)
    if status >= Status.SHORT:
        raise Fault(Status(status), place.value)
    demand(status)
    return Heard(
        frame_of(heard.frame), bool(heard.acknowledged), heard.srr, heard.r1, heard.r0, heard.last, place.value
    )
