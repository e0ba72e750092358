"""Simulation of scenarios and decoding of traces, as canbit does them; analysis of networks, as canplan does it."""

from __future__ import annotations

import contextlib
import ctypes
from collections.abc import Callable
from typing import NamedTuple

from riddlesage._buffers import Address, Buffer, bytes_at, is_whole, text_at
from riddlesage._frames import Refused, RiddlesageError, Status, demand, in_range
from riddlesage._library import FIELD_ROOM, MOST_BITS, SIZE_BITS, PlainPortTime, PlainWrong, lib
from riddlesage._ports import Counters, Event, Phase

# The first capacity for a text, which suffices for most.
_ROOM = 1 << 16


def _why_bad(field: str) -> str:
    """What is wrong with a field of a scenario, as far as its name says it."""
    if field == "toml":
        return "not a valid TOML document"
    if field.rpartition(".")[2] == "key":
        return "a field of this table is unknown"
    return "missing, or not a valid value"


class BadScenario(RiddlesageError, ValueError):
    """A text is not a valid scenario. `field` is the first one that is wrong, such as `port[0].log`."""

    def __init__(self, field: str) -> None:
        super().__init__(f"bad scenario: {field}: {_why_bad(field)}")
        self.field = field

    def __reduce__(self) -> tuple[type[BadScenario], tuple[str]]:
        """How it is rebuilt when it is unpickled or copied."""
        return type(self), (self.field,)


class BadNetwork(RiddlesageError, ValueError):
    """A text is not a valid network. `field` is the first one that is wrong, `words` say what it must be."""

    def __init__(self, field: str, words: str) -> None:
        super().__init__(f"bad network: {field}: {words}")
        self.field = field
        self.words = words

    def __reduce__(self) -> tuple[type[BadNetwork], tuple[str, str]]:
        """How it is rebuilt when it is unpickled or copied."""
        return type(self), (self.field, self.words)


class BadByte(RiddlesageError, ValueError):
    """A trace has a byte that is not a level. `place` bytes come before it; `lines` are those of the levels there."""

    def __init__(self, place: int, lines: list[str]) -> None:
        super().__init__(f"bad byte at {place}: it is not a level")
        self.place = place
        self.lines = lines

    def __reduce__(self) -> tuple[type[BadByte], tuple[int, list[str]]]:
        """How it is rebuilt when it is unpickled or copied."""
        return type(self), (self.place, self.lines)


class Planned(NamedTuple):
    """The bounds of a network, as `canplan` prints them, and how many messages may miss their deadlines."""

    report: str
    late: int


class PortTime(NamedTuple):
    """What a port of a scenario did in a bit time. The counters and the phase are those before it."""

    counters: Counters
    phase: Phase
    sender: bool
    drives: int
    samples: int
    event: Event | None


def _written(call: Callable[..., int], given: tuple[object, ...], *last: object) -> tuple[Status, str]:
    """The status of a call and the text that it writes, with a larger buffer if the first is too small.

    Its arguments are those given, the buffer, its capacity, the length of the text, and the last ones.
    """
    room, count = _ROOM, ctypes.c_size_t()
    while True:
        text = ctypes.create_string_buffer(room)
        status = Status(call(*given, text, room, count, *last))
        if status == Status.NO_MEMORY:
            raise MemoryError
        if status != Status.NO_ROOM or count.value <= room:
            return status, str(memoryview(text)[: count.value], "ascii")
        room = count.value


def _buffer(given: Buffer) -> Buffer:
    """The argument as a buffer of bytes."""
    if isinstance(given, int):
        raise TypeError("expected a text or bytes, got a number")
    return given if is_whole(given) else bytes(given)


def _document_at(document: str | Buffer) -> contextlib.AbstractContextManager[tuple[Address, int]]:
    """The address of a document, and its length in bytes."""
    return text_at(document) if isinstance(document, str) else bytes_at(_buffer(document))


def run(scenario: str | Buffer) -> str:
    """Simulates a scenario, a TOML document, and returns its report: the output of `canbit run`.

    The module `riddlesage.run` is the command: importing it hides this function as `riddlesage.run`.
    """
    field = ctypes.create_string_buffer(FIELD_ROOM)
    with _document_at(scenario) as document:
        status, report = _written(lib.riddlesage_run, document, field)
    if status == Status.BAD_SCENARIO:
        raise BadScenario(field.value.decode("ascii"))
    demand(status)
    return report


def port_times(scenario: str | Buffer, port: int) -> list[PortTime]:
    """Simulates a scenario, and returns what one of its ports did in each bit time. The first port is 0.

        >>> from riddlesage import port_times
        >>> times = port_times("version = 1\\nbits = 60\\nport = [{ queue = ['S 001 D 0'] }, {}]", 1)
        >>> [(place, time.event.name) for place, time in enumerate(times) if time.event]
        [(45, 'RECEIVED')]
    """
    place = in_range(port, SIZE_BITS, Refused(Status.NO_SUCH_PORT))
    times, count = (PlainPortTime * MOST_BITS)(), ctypes.c_size_t()
    field = ctypes.create_string_buffer(FIELD_ROOM)
    with _document_at(scenario) as document:
        status = lib.riddlesage_port_times(*document, place, times, MOST_BITS, count, field)
    if status == Status.NO_MEMORY:
        raise MemoryError
    if status == Status.BAD_SCENARIO:
        raise BadScenario(field.value.decode("ascii"))
    demand(status)
    return [_port_time_of(times[time]) for time in range(count.value)]


def _port_time_of(plain: PlainPortTime) -> PortTime:
    counters, event = Counters(plain.transmit, plain.receive), Event(plain.event) if plain.event else None
    return PortTime(counters, Phase(plain.phase), bool(plain.sender), plain.drives, plain.samples, event)


def plan_network(network: str | Buffer, *, details: bool = False) -> Planned:
    """Analyses a network, a TOML document, and returns an upper bound on the response time of each message.

        >>> from riddlesage import plan_network
        >>> planned = plan_network("version = 1\\n[[message]]\\nframe = 'S 100 D'\\ndlc = 0\\nperiod = 500")
        >>> planned.report.splitlines()[-1], planned.late
        ('load 0.102 late 0 of 1', 0)

    The report is the output of `canplan`, or of `canplan --details`. (The module `riddlesage.plan` is the command.)
    """
    late, wrong = ctypes.c_size_t(), PlainWrong()
    with _document_at(network) as document:
        status, report = _written(lib.riddlesage_plan, (*document, bool(details)), late, wrong)
    _demand_network(status, wrong)
    return Planned(report, late.value)


def worst_case(network: str | Buffer, message: str) -> str:
    """Returns the worst case of a message of a network, such as `S 300 D`, without bit errors, as a scenario for `run`.

    It is the output of `canplan --timeline`. The message is named by its `frame`, as the network has it. Its port in
    the scenario is its place in the report of `plan_network`, the first being 0, and at most 63. If no message has this
    frame, or its worst case is longer than a scenario can be, it raises Refused with the status NO_MESSAGE or TOO_LONG.
    """
    if not isinstance(message, str):
        raise TypeError(f"expected a message, such as 'S 300 D', got {type(message).__name__}")
    name, wrong = message.encode("utf-8"), PlainWrong()
    with _document_at(network) as document:
        status, scenario = _written(lib.riddlesage_worst_case, (*document, name, len(name)), wrong)
    _demand_network(status, wrong)
    return scenario


def _demand_network(status: Status, wrong: PlainWrong) -> None:
    """Raises the exception for the status of a call that takes a network, unless it is OK."""
    if status == Status.BAD_NETWORK:
        raise BadNetwork(wrong.field.decode("ascii"), wrong.words.decode("ascii"))
    demand(status)


def decode_trace(trace: str | Buffer) -> list[str]:
    """Decodes a trace, and returns a line for each frame and each fault: the output of `canbit decode`.

    A `str` is a text of `0` and `1`, with spaces and line ends; `bytes` are levels, 0 and 1.
    """
    place = ctypes.c_size_t()
    if isinstance(trace, str):
        with text_at(trace) as document:
            status, lines = _written(lib.riddlesage_decode_trace, document, place)
    else:
        with bytes_at(_buffer(trace)) as levels:
            status, lines = _written(lib.riddlesage_decode_levels, levels, place)
    if status == Status.BAD_BYTE:
        raise BadByte(place.value, lines.splitlines())
    demand(status)
    return lines.splitlines()
