"""Common to the package's commands: reading files, refusing lines, exit statuses."""

from __future__ import annotations

import contextlib
import gzip
import io
import os
import sys
from collections.abc import Callable, Iterable, Iterator
from typing import Any, BinaryIO, NoReturn

from riddlesage._library import MissingLibrary, version

# The most refused lines of a file that are reported one by one.
_MOST_REPORTED = 20
# How a file of gzip begins.
_GZIP = b"\x1f\x8b"


class Refusals:
    """The lines of a file that are refused: `FILE:LINE: why` on standard error, and how many more there are."""

    def __init__(self, file: str) -> None:
        self.file = "standard input" if file == "-" else file
        self.count = 0

    def add(self, line: int, why: str) -> None:
        """Refuses a line."""
        self.count += 1
        if self.count <= _MOST_REPORTED:
            print(f"{self.file}:{line}: {why}", file=sys.stderr)

    def end(self) -> int:
        """Reports how many more lines were refused, and returns the exit status: 1 if any was."""
        if self.count > _MOST_REPORTED:
            print(f"{self.file}: and {self.count - _MOST_REPORTED} more lines", file=sys.stderr)
        return 1 if self.count else 0


@contextlib.contextmanager
def opened(file: str) -> Iterator[BinaryIO]:
    """A file, or standard input for `-`."""
    if file == "-":
        yield sys.stdin.buffer
        return
    with open(file, "rb") as given:
        yield given


@contextlib.contextmanager
def unpacked(file: str) -> Iterator[io.BufferedReader]:
    """A file, or standard input for `-`; its content if it is compressed with gzip."""
    with opened(file) as given:
        buffered = _buffered(given)
        if buffered.peek(2)[:2] == _GZIP:
            with gzip.GzipFile(fileobj=buffered) as content:
                yield _buffered(content)
        else:
            yield buffered


def _buffered(given: Any) -> io.BufferedReader:
    """What is read from a file with `peek`, which some files do not have."""
    return given if isinstance(given, io.BufferedReader) else io.BufferedReader(given)


def lines_in(given: Iterable[bytes]) -> Iterator[tuple[int, str]]:
    """Each line of an ASCII file with its number, without its line end. A line with other bytes cannot be read."""
    for number, line in enumerate(given, 1):
        yield number, line.decode("ascii", "replace").rstrip("\r\n")


def lines_of(file: str) -> Iterator[tuple[int, str]]:
    """The lines of a file, as `lines_in` has them."""
    with opened(file) as given:
        yield from lines_in(given)


def require_library() -> None:
    """Exits with status 2, as `end_with` does, if the library is missing."""
    try:
        version()
    except MissingLibrary as missing:
        print(missing, file=sys.stderr)
        sys.exit(2)


def end_with(main: Callable[[], int]) -> NoReturn:
    """Runs a command, and exits with its status.

    It is 2 if a file cannot be read, or the library is missing; 1 if nobody reads its output any more.
    """
    try:
        status = main()
        if sys.stdout is not None:
            sys.stdout.flush()
    except BrokenPipeError:
        os.dup2(os.open(os.devnull, os.O_WRONLY), sys.stdout.fileno())
        status = 1
    except OSError as error:
        print(f"{error.filename or 'standard input'}: {error.strerror}", file=sys.stderr)
        status = 2
    except MissingLibrary as missing:
        print(missing, file=sys.stderr)
        status = 2
    sys.exit(status)
