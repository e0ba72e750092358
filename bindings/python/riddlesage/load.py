r"""Measures the bus load of the frames in a log, to the bit.

    python3 -m riddlesage.load LOG --bitrate 500000
    python3 -m riddlesage.load LOG --plan network.toml

A log has any of the formats of `riddlesage.logs`. Each frame takes its encoded length, with the stuff bits that it
really had, and three bit times of intermission. Error flags and destroyed transmission attempts are in no log, and are
not counted. With a plan, a network for canplan, the log is compared with its assumptions instead.

    >>> from riddlesage import Frame
    >>> from riddlesage.load import Load
    >>> load = Load(bitrate=500000)
    >>> for time in (0, 110_000, 2_000_000):
    ...     load.take(time, Frame(0x123))
    >>> print("\n".join(load.lines("can0")))
    bus can0 rate 500000 frames 3 bits 144 of 1048 load 0.137 errors 0 fd 0
    gap 897 bits after 0.000110
    burst 2 frames 96 bits from 0.000000
    S 123 D frames 3 bits 144 share 1.000 load 0.137
    second 0 frames 3 bits 144 of 1048 load 0.137
"""

from __future__ import annotations

import argparse
import collections
import functools
import sys
from collections.abc import Callable, Iterator, Sequence
from typing import NamedTuple, TypeVar

from riddlesage._commands import Refusals, end_with, opened
from riddlesage._frames import Frame, encode, frame_in
from riddlesage._plan import INTERMISSION, BadPlan, Comparison, Plan, read_plan
from riddlesage.candump import Other
from riddlesage.logs import PYTHON_CAN, MissingReader, read_log

__all__ = ["INTERMISSION", "SLACK", "Load", "Stretch", "compare", "main", "measure"]

# The default: at most so many bit times between two frames that count as back to back.
SLACK = 10
# Moments are nanoseconds times the bit rate, so that they are integers: this many of them are a bit time.
_BIT = 10**9


class Stretch(NamedTuple):
    """Consecutive bit times, the frames in them, and the time in the log of one frame, in nanoseconds."""

    bits: int
    frames: int
    time: int


class Load:
    """The load of a bus: each frame takes its encoded length and three bit times of intermission.

    The time of a frame is that of the end of its end of frame, in nanoseconds. Two frames are back to back if the
    second begins at most `slack` bit times after the intermission of the first, because the times of a log are not
    exact.
    """

    def __init__(self, bitrate: int, slack: int = SLACK) -> None:
        if bitrate <= 0:
            raise ValueError("a bit rate must be above 0")
        self.bitrate, self.slack = bitrate, slack
        self.frames = self.bits = self.errors = self.fd = self.early = 0
        self.gap = self.burst = Stretch(0, 0, 0)
        self.messages: dict[str, tuple[int, int]] = {}
        self._seconds: dict[int, tuple[int, int]] = {}
        self._begin = self._free = self._time = 0
        self._run = Stretch(0, 0, 0)

    @property
    def window(self) -> int:
        """The bit times from the start of the first frame to the end of the intermission after the last."""
        return (self._free - self._begin) // _BIT

    @property
    def seconds(self) -> dict[int, tuple[int, int]]:
        """For each second that has bit times of frames: how many frames ended in it, and these bit times.

        Seconds count from the start of the first frame.
        """
        return {number: (frames, taken // _BIT) for number, (frames, taken) in sorted(self._seconds.items())}

    def take(self, time: int, what: Frame | Other) -> None:
        """Adds a frame, or what else the log reports. One that is earlier than the last raises ValueError."""
        if time < self._time and self.frames:
            raise ValueError("its time is before that of an earlier line")
        if isinstance(what, Other):
            self.errors += what is not Other.FD
            self.fd += what is Other.FD
            return
        message, bits = _measured(frame_in(what))
        end = time * self.bitrate + INTERMISSION * _BIT
        begin = end - bits * _BIT
        self._place(time, begin, bits)
        self._spread(max(begin, self._begin), bits * _BIT)
        frames, taken = self.messages.get(message, (0, 0))
        self.messages[message] = (frames + 1, taken + bits)
        self.frames, self.bits, self._free, self._time = self.frames + 1, self.bits + bits, end, time

    def _place(self, time: int, begin: int, bits: int) -> None:
        """Adds the gap before a frame, and the frame to the burst that it continues or begins."""
        if not self.frames:
            self._begin = self._free = begin
        gap = (begin - self._free) // _BIT
        if gap > self.gap.bits:
            self.gap = Stretch(gap, 0, self._time)
        self.early += gap < -self.slack
        if gap > self.slack or not self.frames:
            self._run = Stretch(0, 0, time)
        self._run = Stretch(self._run.bits + bits, self._run.frames + 1, self._run.time)
        if self._run.bits > self.burst.bits:
            self.burst = self._run

    def _spread(self, begin: int, length: int) -> None:
        """Adds a frame to the seconds in which it lies."""
        second = self.bitrate * _BIT
        number, place = divmod(begin - self._begin, second)
        while length:
            part = min(length, second - place)
            length, place = length - part, 0
            frames, taken = self._seconds.get(number, (0, 0))
            self._seconds[number] = (frames + (length == 0), taken + part)
            number += 1

    def lines(self, channel: str) -> Iterator[str]:
        """The lines of the report: the bus, the longest gap and burst, messages by share, and seconds."""
        others = f"errors {self.errors} fd {self.fd}"
        of = f" of {self.window} load {_part(self.bits, self.window)}" if self.frames else ""
        yield f"bus {channel} rate {self.bitrate} frames {self.frames} bits {self.bits}{of} {others}"
        if not self.frames:
            return
        gap, burst = self.gap, self.burst
        yield f"gap {gap.bits} bits" + (f" after {_time_text(gap.time)}" if gap.bits else "")
        yield f"burst {burst.frames} frames {burst.bits} bits from {_time_text(burst.time)}"
        for message, (frames, bits) in sorted(self.messages.items(), key=lambda it: (-it[1][1], it[0])):
            share, load = _part(bits, self.bits), _part(bits, self.window)
            yield f"{message} frames {frames} bits {bits} share {share} load {load}"
        for number, (frames, bits) in self.seconds.items():
            length = max(min(self.bitrate, self.window - number * self.bitrate), 1)
            yield f"second {number} frames {frames} bits {bits} of {length} load {_part(bits, length)}"


@functools.lru_cache(maxsize=1 << 16)
def _measured(frame: Frame) -> tuple[str, int]:
    """The message of a frame, such as `S 123 D`, and how many bit times it takes, intermission included."""
    return " ".join(frame.text.split(" ", 3)[:3]), len(encode(frame)) + INTERMISSION


def _part(bits: int, of: int) -> str:
    """A ratio in thousandths, rounded down."""
    thousandths = bits * 1000 // of
    return f"{thousandths // 1000}.{thousandths % 1000:03}"


def _time_text(time: int) -> str:
    """A time in seconds, in candump's format."""
    return f"{time // 10**9}.{time % 10**9 // 1000:06}"


_Taking = TypeVar("_Taking", Load, Comparison)


def _taken(file: str, make: Callable[[], _Taking], refusals: Refusals) -> dict[str, _Taking]:
    """What takes the lines of a log, by channel. A line that it does not take is refused."""
    by_channel: dict[str, _Taking] = collections.defaultdict(make)
    for number, line in read_log(file, refusals):
        if line.time is None:
            refusals.add(number, "it has no time: candump writes one with -l, -L or -t a")
            continue
        try:
            by_channel[line.channel].take(line.time, line.what)
        except ValueError as refused:
            refusals.add(number, str(refused))
    return by_channel


def measure(file: str, bitrate: int, slack: int, refusals: Refusals) -> dict[str, Load]:
    """The load of each channel of a log."""
    return _taken(file, lambda: Load(bitrate, slack), refusals)


def compare(file: str, plan: Plan, bitrate: int, slack: int, refusals: Refusals) -> dict[str, Comparison]:
    """The comparison of each channel of a log with a plan."""
    return _taken(file, lambda: Comparison(plan, bitrate, slack), refusals)


def _parser() -> argparse.ArgumentParser:
    parser = argparse.ArgumentParser(
        prog="python3 -m riddlesage.load",
        description="Reports the bus load of the frames in a log, to the bit: each frame with the stuff bits that it "
        "had, and three bit times of intermission. With --plan, it compares the log with a network instead: the "
        "smallest distance and the largest jitter of each message, messages that the network lacks, and error frames.",
        epilog="Error frames and CAN FD frames are counted, but not measured. A line that cannot be read is reported "
        "on standard error; then the exit status is 1, and also if the log violates an assumption of the network.",
    )
    add = parser.add_argument
    known = ", ".join(PYTHON_CAN)
    add("log", metavar="LOG", help=f"candump, pcap or pcapng, or - for standard input; {known} need python-can; or .gz")
    add("--bitrate", type=_number, metavar="N", help="bit rate, in bits per second; default that of the plan")
    add("--plan", metavar="NETWORK", help="a network for canplan, of one bus")
    add("--channel", metavar="NAME", help="only this channel; without it all")
    slack = f"frames at most this number of bit times apart count as back to back; default {SLACK}"
    add("--slack", type=_number, default=SLACK, metavar="BITS", help=slack)
    return parser


def _number(text: str) -> int:
    if not (text.isascii() and text.isdigit()):
        raise argparse.ArgumentTypeError(f"{text!r} is not a whole number")
    return int(text)


def _report(loads: dict[str, Load], refusals: Refusals) -> None:
    """Prints the load of each channel."""
    for channel, load in loads.items():
        print("\n".join(load.lines(channel)))
        if load.early:
            faster = f"{load.early} frames follow others sooner than {load.bitrate} bits per second allow"
            print(f"{refusals.file}: {channel}: {faster}", file=sys.stderr)


def _plan_of(parser: argparse.ArgumentParser, options: argparse.Namespace) -> Plan:
    """The plan that the options name. `options.bitrate` becomes its bit rate."""
    with opened(options.plan) as given:
        plan = read_plan(given.read())
    if options.bitrate and plan.rate and options.bitrate != plan.rate:
        parser.error(f"the bit rate of the plan is {plan.rate}")
    options.bitrate = options.bitrate or plan.rate
    return plan


def _of(by_channel: dict[str, _Taking], channel: str | None, refusals: Refusals) -> dict[str, _Taking]:
    """Those of a channel, or all. If there are none, that is reported."""
    chosen = {name: it for name, it in by_channel.items() if channel in (None, name)}
    if not chosen:
        print(f"{refusals.file}: it has no frames of {channel or 'any bus'}", file=sys.stderr)
    return chosen


def main(words: Sequence[str] | None = None) -> int:
    """Reports the load of each bus of a log, or compares it with a plan."""
    parser = _parser()
    options = parser.parse_args(words)
    refusals = Refusals(options.log)
    try:
        plan = _plan_of(parser, options) if options.plan else None
        if not options.bitrate:
            parser.error("a bit rate above 0 is needed: --bitrate")
        if plan is None:
            loads = _of(measure(options.log, options.bitrate, options.slack, refusals), options.channel, refusals)
            _report(loads, refusals)
            return refusals.end() or int(not loads)
        compared = compare(options.log, plan, options.bitrate, options.slack, refusals)
    except MissingReader as missing:
        print(f"{options.log}: {missing}", file=sys.stderr)
        return 2
    except BadPlan as wrong:
        print(f"{options.plan}: {wrong}", file=sys.stderr)
        return 1
    chosen = _of(compared, options.channel, refusals)
    if len(chosen) > 1:
        parser.error(f"a plan is of one bus; --channel names one of {', '.join(sorted(chosen))}")
    for comparison in chosen.values():
        print("\n".join(comparison.lines()))
    return refusals.end() or int(not chosen or any(it.violated for it in chosen.values()))


if __name__ == "__main__":
    end_with(main)
