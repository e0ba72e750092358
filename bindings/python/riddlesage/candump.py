"""Reads and writes the lines of candump, a program of Linux' can-utils.

    python3 -m riddlesage.candump texts [FILE]     converts lines of candump to frame texts, for `canbit encode`
    python3 -m riddlesage.candump lines [FILE]     converts frame texts to lines of candump, for `cansend`

    >>> from riddlesage import Frame
    >>> from riddlesage.candump import read_line, text_of
    >>> read_line("(1436509052.249713) vcan0 123#AB01").what.text
    'S 123 D 2 ab01'
    >>> text_of(Frame.from_text("S 123 D 2 ab01"))
    '123#AB01'

A line is one of a log, as above; or one of the screen, `vcan0  123   [2]  AB 01`, with the additions of candump's
options -a, -t and -x; or a frame alone, `123#AB01`. A DLC above 8 is written as by can-utils since 2021:
`123#0102030405060708_9`.
"""

from __future__ import annotations

import argparse
import datetime
import enum
import functools
import re
from collections.abc import Callable, Sequence
from typing import NamedTuple

from riddlesage._commands import Refusals, end_with, lines_of
from riddlesage._frames import Frame, RiddlesageError

_IDENTIFIER = r"(?P<identifier>[0-9A-Fa-f]{3}|[0-9A-Fa-f]{8})"
_LOGGED = re.compile(rf"(?:\((?P<time>[^)]+)\) +(?P<channel>\S+) +)?{_IDENTIFIER}#(?P<content>\S*)(?: +[RT])?")
_SHOWN = re.compile(
    rf"(?:\((?P<time>[^)]+)\) +)?(?P<channel>\S+) +(?:[RT]X [B-] [E-] +)?{_IDENTIFIER} +"
    r"(?:\[(?P<length>[0-9]{1,2})\]|\{(?P<dlc>[0-9A-F])\}) *(?P<content>.*)"
)
_SHOWN_DATA = re.compile(r"((?:[0-9A-F]{2} )*(?:[0-9A-F]{2})?)(?: *'.*')?")
_SECONDS = re.compile(r"([0-9]{1,18})\.([0-9]+)")
_REMOTE = re.compile(r"[Rr]([0-8]?)(?:(?<=8)_([9A-Fa-f]))?")
_DATA = re.compile(r"((?:\.?[0-9A-Fa-f]{2})*)(?:_([9A-Fa-f]))?")
# Linux marks its error frames by this bit of the identifier. These of its other bits stand for an error on the bus: in
# a frame, in the acknowledgement, of any kind.
_ERROR = 1 << 29
_BUS_ERRORS = 0x08 | 0x20 | 0x80
_EPOCH = datetime.datetime(1970, 1, 1)


class BadLine(RiddlesageError, ValueError):
    """The line is not one of candump."""


class Other(enum.Enum):
    """What a line may report other than a classical frame.

    Linux also writes error frames when only the state of a controller changes, or when it loses an arbitration.
    """

    ERROR = "an error frame"
    NOTICE = "an error frame without an error on the bus"
    FD = "a CAN FD frame"


class Line(NamedTuple):
    """A line: its time in nanoseconds, its channel, and the frame, or what else it reports."""

    time: int | None
    channel: str
    what: Frame | Other


def read_line(line: str) -> Line:
    """Reads a line. One that cannot be read raises BadLine, a ValueError."""
    line = line.strip()
    found = _LOGGED.fullmatch(line)
    if found:
        what = _read_frame(found["identifier"], found["content"])
    else:
        found = _SHOWN.fullmatch(line)
        if not found:
            raise BadLine("this is not a line of candump")
        what = _shown_frame(found)
    return Line(_nanoseconds(found["time"]) if found["time"] else None, found["channel"] or "", what)


def is_empty(line: str) -> bool:
    """Whether a line reports nothing itself: it is empty, or explains an error frame (option -e of candump)."""
    return not line.strip() or line.startswith("\t")


def text_of(frame: Frame) -> str:
    """The frame in the format of candump's log, `123#AB01`."""
    identifier = f"{frame.identifier:08X}" if frame.extended else f"{frame.identifier:03X}"
    length = min(frame.dlc, 8)
    content = f"R{length or ''}" if frame.remote else frame.data.hex().upper()
    return f"{identifier}#{content}" + (f"_{frame.dlc:X}" if frame.dlc > length else "")


# cached, because frames repeat with their identifiers and data
@functools.lru_cache(maxsize=1 << 16)
def _read_frame(identifier: str, content: str) -> Frame | Other:
    """The frame of the texts before and after the first `#`."""
    if _is_error(identifier):
        return error_of(int(identifier, 16))
    if content.startswith("#"):
        return Other.FD
    remote, data = _REMOTE.fullmatch(content), _DATA.fullmatch(content)
    if remote:
        return _made(identifier, b"", int(remote[2] or remote[1] or "0", 16), True)
    if not data:
        raise BadLine(f"these are not data bytes: {content}")
    given = bytes.fromhex(data[1].replace(".", ""))
    return _made(identifier, given, int(data[2], 16) if data[2] else len(given), False)


def _shown_frame(found: re.Match[str]) -> Frame | Other:
    """The frame of a line of candump's screen output."""
    identifier, length, content = found["identifier"], found["length"] or "", found["content"]
    if _is_error(identifier):
        return error_of(int(identifier, 16))
    if len(length) == 2:
        return Other.FD
    dlc = int(length or found["dlc"], 16)
    if content == "remote request":
        return _made(identifier, b"", dlc, True)
    data = _SHOWN_DATA.fullmatch(content)
    if not data:
        raise BadLine(f"these are not data bytes: {content}")
    return _made(identifier, bytes.fromhex(data[1]), dlc, False)


def _is_error(identifier: str) -> bool:
    return len(identifier) > 3 and bool(int(identifier, 16) & _ERROR)


def error_of(identifier: int) -> Other:
    """What an error frame of Linux reports. One that says nothing counts as an error on the bus."""
    classes = identifier & (_ERROR - 1)
    return Other.NOTICE if classes and not classes & _BUS_ERRORS else Other.ERROR


def _made(identifier: str, data: bytes, dlc: int, remote: bool) -> Frame:
    try:
        return Frame(int(identifier, 16), data, len(identifier) > 3, remote, dlc)
    except ValueError as refused:
        raise BadLine(f"this is not a frame: {refused}") from refused


def _nanoseconds(time: str) -> int:
    """The nanoseconds of a time in seconds, or with its date."""
    found = _SECONDS.fullmatch(time)
    if found:
        return int(found[1]) * 10**9 + int(f"{found[2]:0<9.9}")
    try:
        return (datetime.datetime.fromisoformat(time) - _EPOCH) // datetime.timedelta(microseconds=1) * 1000
    except (ValueError, TypeError) as refused:
        raise BadLine(f"this is not a time: {time}") from refused


def _as_text(line: str) -> str:
    """The frame text of a line."""
    what = read_line(line).what
    if isinstance(what, Other):
        raise BadLine(f"{what.value} has no frame text")
    return what.text


def _as_line(text: str) -> str:
    """The line of a frame text."""
    return text_of(Frame.from_text(text))


_DIRECTIONS: dict[str, Callable[[str], str]] = {"texts": _as_text, "lines": _as_line}


def main(words: Sequence[str] | None = None) -> int:
    """Converts each line of a file. One that cannot be converted is reported, and the others are written."""
    parser = argparse.ArgumentParser(
        prog="python3 -m riddlesage.candump",
        description="Converts lines of candump to frame texts, or frame texts to lines of candump.",
        epilog="A line that cannot be converted is reported on standard error; then the exit status is 1.",
    )
    parser.add_argument("into", choices=tuple(_DIRECTIONS), help="texts: S 123 D 2 ab01; lines: 123#AB01")
    parser.add_argument("file", metavar="FILE", nargs="?", default="-", help="the input; without it standard input")
    options = parser.parse_args(words)
    refusals = Refusals(options.file)
    for number, line in lines_of(options.file):
        if is_empty(line):
            continue
        try:
            print(_DIRECTIONS[options.into](line))
        except ValueError as refused:
            refusals.add(number, str(refused))
    return refusals.end()


if __name__ == "__main__":
    end_with(main)
