"""Compares a log with a network, the document that `canplan` reads: what of its assumptions the log violates.

All times are in whole bit times, rounded as canplan rounds them.
"""

from __future__ import annotations

import array
import functools
import importlib
import re
from collections.abc import Iterator, Sequence
from typing import Any, NamedTuple

from riddlesage._frames import Frame, RiddlesageError, encode, frame_in
from riddlesage.candump import Other

# Recessive levels after each frame, in which no other frame may start.
INTERMISSION = 3
# Moments are nanoseconds times the bit rate, so that they are integers: this many of them are a bit time.
_BIT = 10**9
_SECOND = 10**6
_FIELD = re.compile("S [0-7][0-9a-f]{2} [DR]|E [01][0-9a-f]{7} [DR]")
# The time before the log, as nobody knows when a busy period began that its first frame continues.
_UNKNOWN = -(1 << 62)
# The most pairs of burst and spacing that are listed.
_MOST_PAIRS = 4


class BadPlan(RiddlesageError, ValueError):
    """The text is not a network."""


class Planned(NamedTuple):
    """A message of a network: its name or an empty text, its DLC, and its period and jitter in the document's unit."""

    name: str
    dlc: int
    period: int
    jitter: int


class Plan(NamedTuple):
    """A network: its bit rate, messages by their texts, such as `S 100 D`, and burst and spacing of errors.

    Times are in microseconds, or in bit times if the bit rate is 0.
    """

    rate: int
    messages: dict[str, Planned]
    errors: tuple[int, int]


def read_plan(document: bytes) -> Plan:
    """The network of a document, with no more tests than are needed here: canplan tests all. Otherwise BadPlan."""
    toml = _toml()
    try:
        tables: dict[str, Any] = toml.loads(document.decode("utf-8"))
    except ValueError as wrong:
        raise BadPlan(f"this is not a TOML document: {wrong}") from wrong
    if tables.get("version") != 1:
        raise BadPlan("version is not 1")
    given, messages = tables.get("message"), {}
    if not isinstance(given, list) or not all(isinstance(it, dict) for it in given):
        raise BadPlan("message is not an array of tables")
    for place, table in enumerate(given):
        where, field = f"message[{place}]", table.get("frame")
        if not isinstance(field, str) or not _FIELD.fullmatch(field) or field in messages:
            raise BadPlan(f"{where}.frame is not a frame without DLC and data, such as 'S 100 D', or is there twice")
        dlc, period, jitter = (_number(table, where, it, of) for it, of in (("dlc", 8), ("period", 0), ("jitter", 0)))
        if not period:
            raise BadPlan(f"{where}.period is missing, or 0")
        messages[field] = Planned(str(table.get("name", "")), dlc, period, jitter)
    errors = tables.get("errors", {})
    if not isinstance(errors, dict):
        raise BadPlan("errors is not a table")
    burst, spacing = (_number(errors, "errors", it, 0) for it in ("burst", "spacing"))
    return Plan(_number(tables, "", "rate", 0), messages, (burst, spacing))


def _toml() -> Any:
    """The reader of TOML documents."""
    for module in ("tomllib", "tomli"):
        try:
            return importlib.import_module(module)
        except ModuleNotFoundError:
            pass
    raise BadPlan("reading it needs Python 3.11, or the package tomli")


def _number(table: dict[str, Any], where: str, key: str, otherwise: int) -> int:
    """A whole number of a table."""
    value = table.get(key, otherwise)
    if not isinstance(value, int) or isinstance(value, bool) or not 0 <= value < 1 << 32:
        raise BadPlan(f"{where}{'.' * bool(where)}{key} is not a whole number of 32 bits")
    return value


class _Seen:
    """The frames of a message: when each started, the earliest time at which it can have been queued, all DLCs."""

    def __init__(self) -> None:
        self.starts, self.queued = array.array("q"), array.array("q")
        self.dlcs: set[int] = set()

    def distance(self) -> int:
        """The smallest distance between the starts of two frames."""
        return min(later - earlier for earlier, later in zip(self.starts, self.starts[1:]))

    def jitter(self, period: int) -> int:
        """The least jitter with which releases that are a period apart can explain the frames."""
        least, latest = 0, self.queued[0]
        for start, queued in zip(self.starts, self.queued):
            # the earliest release of this frame without jitter
            latest = max(latest, queued)
            least = max(least, latest - start)
            latest += period
        return least

    def period(self, jitter: int) -> int:
        """The longest period with which releases with this jitter can explain the frames; there are two or more."""
        low, high = 0, self.starts[-1] - self.queued[0] + jitter + 1
        while high - low > 1:
            middle = (low + high) // 2
            low, high = (middle, high) if self.jitter(middle) <= jitter else (low, middle)
        return low


class Comparison:
    """The frames of a log, next to a network.

    A log has the end of each frame, not its release. The start of a frame is its end less its length. A frame cannot
    have been queued before the latest time at which the bus was idle or a frame of lower priority started: it would
    have started then. So waiting for other frames does not count as jitter. If there was an error, or a frame of
    CAN FD, the bus is not taken as idle; and nothing is known of the bus before the first frame. Times of the log that
    are wrong by up to `slack` bit times violate nothing.
    """

    def __init__(self, plan: Plan, bitrate: int, slack: int) -> None:
        self._plan, self._bitrate, self._slack = plan, bitrate, slack
        self._seen: dict[str, _Seen] = {}
        self._errors = array.array("q")
        self._time = self._origin = self._free = 0
        self._is_covered = False
        # the start of the busy period, and its frames that have a lower priority than all later ones
        self._busy = _UNKNOWN
        self._lower: list[tuple[bytes, int]] = []
        self.violated = 0

    def take(self, time: int, what: Frame | Other) -> None:
        """Adds a frame that ends at this time in nanoseconds, or what else the log reports."""
        if time < self._time:
            raise ValueError("its time is before that of an earlier line")
        if not self._time:
            self._origin = time * self._bitrate
        self._time = time
        end = (time * self._bitrate - self._origin) // _BIT
        if isinstance(what, Other):
            self._is_covered |= what is not Other.NOTICE
            if what is Other.ERROR:
                self._errors.append(end)
            return
        message, key, bits = _known(frame_in(what))
        start = end - bits
        if start - self._free > self._slack and not self._is_covered and self._seen:
            self._busy, self._lower = start, []
        while self._lower and self._lower[-1][0] <= key:
            self._lower.pop()
        seen = self._seen.setdefault(message, _Seen())
        seen.starts.append(start)
        seen.queued.append(self._lower[-1][1] if self._lower else self._busy)
        seen.dlcs.add(what.dlc)
        self._lower.append((key, start))
        self._free, self._is_covered = end + INTERMISSION, False

    def lines(self) -> Iterator[str]:
        """The lines of the report; afterwards `violated` is the number of assumptions that are not kept."""
        lines = [self._planned_line(message) for message in self._plan.messages]
        lines += [self._unplanned_line(it) for it in sorted(set(self._seen) - set(self._plan.messages))]
        lines.append(self._errors_line())
        yield from (text for text, _ in lines)
        yield from self._pairs()
        self.violated = sum(not is_ok for _, is_ok in lines)
        yield f"violated {self.violated} of {len(lines)}"

    def _planned_line(self, message: str) -> tuple[str, bool]:
        """The line of a message of the network, and whether the log keeps to it."""
        name, dlc, planned, allowed = self._plan.messages[message]
        period, jitter = self._down(planned), self._up(allowed)
        seen = self._seen.get(message, _Seen())
        text, wrong = f"{message} frames {len(seen.starts)} period {planned} jitter {allowed}", ""
        if len(seen.starts) > 1:
            found = seen.jitter(period)
            text += f" seen distance {self._shown(seen.distance())} jitter {self._shown_up(found)}"
            if found > jitter + self._slack:
                wrong += f" fits period {self._shown(seen.period(jitter + self._slack))}"
        others = sorted(it for it in seen.dlcs if it != dlc and (message.endswith("R") or min(it, 8) >= min(dlc, 8)))
        if others:
            wrong += f" dlc {' '.join(map(str, others))} not {dlc}"
        named = f' name "{name}"' if name else ""
        return f"{text} {'violated' if wrong else 'ok'}{wrong}{named}", not wrong

    def _unplanned_line(self, message: str) -> tuple[str, bool]:
        """The line of a message that the network lacks."""
        seen = self._seen[message]
        distance = f" seen distance {self._shown(seen.distance())}" if len(seen.starts) > 1 else ""
        return f"{message} frames {len(seen.starts)}{distance} unplanned", False

    def _errors_line(self) -> tuple[str, bool]:
        """The line of the error frames, and whether the log keeps to the error model."""
        burst, spacing = self._plan.errors
        times = self._errors
        is_ok = len(times) <= burst or bool(spacing) and _is_kept(times, burst, self._down(spacing), self._slack)
        return f"errors frames {len(times)} burst {burst} spacing {spacing} {'ok' if is_ok else 'violated'}", is_ok

    def _pairs(self) -> Iterator[str]:
        """Bursts, each with the longest spacing that the error frames allow; with 0 there are no others."""
        for burst in range(1, min(_MOST_PAIRS, len(self._errors)) + 1):
            spacing = _longest_spacing(self._errors, burst) if burst < len(self._errors) else 0
            if spacing or burst == len(self._errors):
                yield f"errors fit burst {burst} spacing {self._shown(spacing)}"

    def _down(self, time: int) -> int:
        """A time of the document in bit times, rounded down."""
        return time * self._plan.rate // _SECOND if self._plan.rate else time

    def _up(self, time: int) -> int:
        return -(-time * self._plan.rate // _SECOND) if self._plan.rate else time

    def _shown(self, bits: int) -> int:
        """Bit times in the unit of the document, rounded down."""
        return bits * _SECOND // self._plan.rate if self._plan.rate else bits

    def _shown_up(self, bits: int) -> int:
        return -(-bits * _SECOND // self._plan.rate) if self._plan.rate else bits


def _is_kept(times: Sequence[int], burst: int, spacing: int, slack: int) -> bool:
    """Whether any window has at most `burst` of these times, and one more for each spacing that it is long."""
    latest: int | None = None
    for place, time in enumerate(times):
        # for each earlier one, (number of times - burst) * spacing is at most the distance
        own = time - place * spacing
        latest = own if latest is None else max(latest, own)
        if own + (burst - 1) * spacing < latest - slack:
            return False
    return True


def _longest_spacing(times: Sequence[int], burst: int) -> int:
    """The longest spacing that keeps these times, which are more than the burst."""
    low, high = 0, times[-1] - times[0] + 1
    while high - low > 1:
        middle = (low + high) // 2
        low, high = (middle, high) if _is_kept(times, burst, middle, 0) else (low, middle)
    return low


@functools.lru_cache(maxsize=1 << 16)
def _known(frame: Frame) -> tuple[str, bytes, int]:
    """The message of a frame, such as `S 123 D`; levels that decide arbitration; its length in bit times."""
    # without data, so that they are the same for all frames of the message
    first = encode(Frame(frame.identifier, b"", frame.extended, frame.remote, 0))
    return " ".join(frame.text.split(" ", 3)[:3]), first, len(encode(frame))
