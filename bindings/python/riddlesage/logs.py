"""Reads logs: lines of candump, captures with SocketCAN frames, and the formats of python-can; also packed with gzip.

    >>> from riddlesage.logs import Refusals, read_log
    >>> for number, line in read_log("bindings/python/examples/boiler.log", Refusals("boiler.log")):  # doctest: +SKIP
    ...     print(number, line.time, line.channel, line.what)

pcap and pcapng are known by their first bytes, and may have any name. Files with the endings of `PYTHON_CAN` are read
by python-can (Debian's package python3-can), which is imported only for them. All others are lines of candump.
"""

from __future__ import annotations

import gzip
import importlib
import os
import shutil
import tempfile
import zlib
from collections.abc import Iterator
from typing import Any, BinaryIO, Protocol

from riddlesage._commands import Refusals, lines_in, unpacked
from riddlesage._frames import Frame, RiddlesageError
from riddlesage._pcap import BadCapture, is_capture, packets, what_of
from riddlesage.candump import BadLine, Line, Other, error_of, is_empty, read_line

__all__ = ["PYTHON_CAN", "MissingReader", "Refusals", "read_log"]

# The endings of files that python-can reads.
PYTHON_CAN = (".asc", ".blf", ".csv", ".db", ".trc")
_PACKED = ".gz"


class MissingReader(RiddlesageError):
    """A log needs python-can, which is not installed."""


def read_log(file: str, refusals: Refusals) -> Iterator[tuple[int, Line]]:
    """The lines, messages or packets of a log, each with its number, counted from 1; `-` is standard input.

    One that cannot be read is refused, and so is the rest of a file that cannot be read on. A file that python-can
    reads raises MissingReader without it; one that cannot be opened, OSError.
    """
    ending = os.path.splitext(file.lower()[: -len(_PACKED)] if file.lower().endswith(_PACKED) else file.lower())[1]
    if ending in PYTHON_CAN:
        yield from _python_can_lines(file, ending, refusals)
        return
    with unpacked(file) as given:
        number = 0
        try:
            read = _packets if is_capture(given.peek(4)[:4]) else _candump_lines
            for number, line in read(given, refusals):
                yield number, line
        except (EOFError, gzip.BadGzipFile, zlib.error):
            refusals.add(number + 1, "gzip cannot read on: the file is cut, or damaged")


def _candump_lines(given: BinaryIO, refusals: Refusals) -> Iterator[tuple[int, Line]]:
    """The lines of a log of candump. Those that cannot be read are refused."""
    for number, text in lines_in(given):
        if is_empty(text):
            continue
        try:
            yield number, read_line(text)
        except BadLine as refused:
            refusals.add(number, str(refused))


def _packets(given: BinaryIO, refusals: Refusals) -> Iterator[tuple[int, Line]]:
    """The packets of a capture. Those that are no SocketCAN frames are refused."""
    number = 0
    try:
        for number, packet in enumerate(packets(given), 1):
            try:
                yield number, Line(packet.time, packet.channel, what_of(packet))
            except ValueError as refused:
                refusals.add(number, f"this is not a frame: {refused}")
    except BadCapture as wrong:
        refusals.add(number + 1, f"the capture cannot be read on: {wrong}")


def _python_can_lines(file: str, ending: str, refusals: Refusals) -> Iterator[tuple[int, Line]]:
    """The messages of a log that python-can reads."""
    try:
        can: Any = importlib.import_module("can")
    except ModuleNotFoundError as missing:
        raise MissingReader(f"a file *{ending} needs python-can, which is missing (python3-can)") from missing
    number = 0
    try:
        with tempfile.TemporaryDirectory() as folder, can.LogReader(_plain(file, ending, folder)) as messages:
            for number, message in enumerate(messages, 1):
                try:
                    what = _what_of_message(message)
                except ValueError as refused:
                    refusals.add(number, f"this is not a frame: {refused}")
                    continue
                channel = "0" if message.channel is None else str(message.channel)
                yield number, Line(round(message.timestamp * 10**6) * 1000, channel, what)
    except OSError:
        raise
    except Exception as wrong:  # its readers may raise anything
        refusals.add(number + 1, f"python-can cannot read on: {wrong}")


def _plain(file: str, ending: str, folder: str) -> str:
    """The name of the file; of its content in this folder if it is packed, because python-can does not unpack all."""
    if not file.lower().endswith(_PACKED):
        return file
    plain = os.path.join(folder, f"log{ending}")
    with unpacked(file) as given, open(plain, "wb") as content:
        shutil.copyfileobj(given, content)
    return plain


class _Message(Protocol):
    """A message of python-can."""

    arbitration_id: int
    data: bytearray
    dlc: int
    is_error_frame: bool
    is_extended_id: bool
    is_fd: bool
    is_remote_frame: bool


def _what_of_message(message: _Message) -> Frame | Other:
    """The frame of a message of python-can, or what else it reports."""
    if message.is_error_frame:
        return error_of(message.arbitration_id)
    if message.is_fd:
        return Other.FD
    data = b"" if message.is_remote_frame else bytes(message.data)
    return Frame(message.arbitration_id, data, message.is_extended_id, message.is_remote_frame, message.dlc)
