"""Bounds the response times of the messages of a network, as canplan does: with the same output, faults and statuses.

    python3 -m riddlesage.plan [--details] [FILE]
    python3 -m riddlesage.plan --timeline MESSAGE [FILE]

The analysis is that of the library, so it is proved as that of canplan is. docs/PLANNING.md describes the document and
the output.
"""

from __future__ import annotations

import contextlib
import os
import sys
from collections.abc import Sequence
from typing import NamedTuple

from riddlesage._commands import end_with, opened
from riddlesage._frames import Refused, Status
from riddlesage._library import version
from riddlesage._texts import BadNetwork, plan_network, worst_case

_HELP = """\
Bounds the response times of the messages of a CAN network, with the proved analysis of canplan

Usage: python3 -m riddlesage.plan [FILE]
       python3 -m riddlesage.plan --details [FILE]
       python3 -m riddlesage.plan --timeline MESSAGE [FILE]
       python3 -m riddlesage.plan --version

FILE has a network, a TOML document (docs/PLANNING.md). Without FILE, or with -, it is read from
standard input. For each message an upper bound on the time from the release of a frame to its end
is printed; with --details also the parts of each bound. With --timeline the worst case of MESSAGE,
such as 'S 300 D', is printed, as a scenario for python3 -m riddlesage.run. MESSAGE is the `frame` of
the document, not the `name`; options come before FILE.

Output, faults and exit statuses are those of canplan: 1 if the document is refused, no message has
this frame, its worst case is too long, or a message may miss its deadline; 2 for unknown arguments;
3 if the input cannot be read or the output cannot be written; 4 without memory. The status is also
2 if FILE cannot be opened, or the library is missing.
"""


class _Asked(NamedTuple):
    """What the arguments ask for; the message, if it is the worst case of one; and the file with the network."""

    option: str
    message: str
    file: str


class _Ended(Exception):
    """The command ends with this exit status, and the line of a fault."""

    def __init__(self, status: int, line: str) -> None:
        super().__init__(line)
        self.status = status


def _asked(words: Sequence[str]) -> _Asked | None:
    """What these words ask for, or None if they are no valid use."""
    if len(words) == 1 and words[0] in ("help", "--help", "-h"):
        return _Asked("--help", "", "")
    if len(words) == 1 and words[0] in ("--version", "-V"):
        return _Asked("--version", "", "")
    option, message, files = "", "", list(words)
    if files[:1] == ["--details"]:
        option, *files = files
    elif files[:1] == ["--timeline"] and len(files) > 1:
        option, message, *files = files
    if len(files) > 1 or any(not file or file.startswith("-") and file != "-" for file in files):
        return None
    return _Asked(option, message, files[0] if files else "-")


def _network(file: str) -> bytes:
    """The document of a file, or of standard input."""
    if file != "-":
        with opened(file) as given:
            return given.read()
    try:
        return sys.stdin.buffer.read()
    except (OSError, AttributeError) as failed:
        # without standard input there is no sys.stdin
        raise _Ended(3, "P3 read: standard input could not be read") from failed


def _write(text: str) -> None:
    """Writes the output. Without a buffer, which the process would try to write again when it ends."""
    rest = memoryview(text.encode("ascii"))
    try:
        while rest:
            rest = rest[os.write(1, rest) :]
    except OSError as failed:
        raise _Ended(3, "P4 write: standard output could not be written") from failed


def _bounds(network: bytes, details: bool) -> None:
    """Prints the bounds of a network."""
    planned = plan_network(network, details=details)
    _write(planned.report)
    if planned.late:
        raise _Ended(1, "deadlines missed")


def _worst_case(network: bytes, message: str) -> None:
    """Prints the worst case of a message."""
    try:
        scenario = worst_case(network, message)
    except Refused as refused:
        if refused.status == Status.NO_MESSAGE:
            words = "message unknown: MESSAGE must be a frame of the document, such as 'S 300 D'"
        elif refused.status == Status.TOO_LONG:
            words = "timeline too long: the busy period has more than 999999 bit times, or no end"
        else:
            raise
        raise _Ended(1, words) from refused
    _write(scenario)


def _do(asked: _Asked | None) -> None:
    """Does what is asked for. Raises _Ended for a fault."""
    if asked is None or not _is_text(asked.message):
        raise _Ended(2, "usage: unknown or missing arguments, see --help")
    if asked.option == "--help":
        _write(_HELP)
    elif asked.option == "--version":
        _write(f"canplan {version()}\n")
    else:
        _analyse(asked)


def _analyse(asked: _Asked) -> None:
    """Prints what is asked for of a network."""
    try:
        network = _network(asked.file)
        if asked.option == "--timeline":
            _worst_case(network, asked.message)
        else:
            _bounds(network, asked.option == "--details")
    except BadNetwork as wrong:
        raise _Ended(1, f"P2 {wrong.field}: {wrong.words}") from wrong
    except MemoryError as full:
        raise _Ended(4, "P5 memory: not enough memory") from full


def _is_text(word: str) -> bool:
    """Whether an argument was given in UTF-8."""
    try:
        word.encode("utf-8")
    except UnicodeEncodeError:
        return False
    return True


def main(words: Sequence[str] | None = None) -> int:
    """Does what canplan does. Returns the exit status."""
    try:
        _do(_asked(sys.argv[1:] if words is None else words))
    except _Ended as ended:
        # a line that standard error does not accept is lost
        with contextlib.suppress(OSError):
            os.write(2, f"canplan: {ended}\n".encode("ascii"))
        return ended.status
    return 0


if __name__ == "__main__":
    end_with(main)
