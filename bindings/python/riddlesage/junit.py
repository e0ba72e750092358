r"""Writes what canplan or `canhold judge` prints as a report in JUnit's XML, for CI systems.

    canplan --details < network.toml | python3 -m riddlesage.junit plan.xml
    cat cases.toml transcripts.toml | canhold judge | python3 -m riddlesage.junit verdicts.xml

The report has a test for each message, which fails if the message is late, or for each transcript, which fails if its
verdict does. The lines are also passed on to standard output. The exit status is 1 if a test failed.

    >>> from riddlesage.junit import read_report
    >>> report = read_report(["pass start-first", "passed 1 failed 0 void 0 skipped 0 of 1"])
    >>> [(test.name, test.kind) for test in report.results]
    [('start-first', 'pass')]
"""

from __future__ import annotations

import argparse
import re
import sys
from collections.abc import Iterable, Iterator, Sequence
from dataclasses import dataclass, field
from typing import TYPE_CHECKING, BinaryIO, Protocol

from riddlesage._commands import end_with
from riddlesage._kit import KitNotFoundError, kit

if TYPE_CHECKING:
    from kit.junit import Result

__all__ = ["NotReadError", "Report", "main", "read_report"]

# The exit statuses, as conformance/run and canhold have them.
FAILED, NOT_READ, NOTHING_JUDGED = 1, 2, 5
# No line of canplan or canhold has this number of bytes.
_MOST_BYTES = 4096

_NETWORK = re.compile(r"network messages (\d+) load (\d+\.\d{3}) rate (\d+)")
_MESSAGE = re.compile(
    r"(?P<frame>[SE] [0-9a-f]{3,8} [DR] \d{1,2}) longest \d+ blocking \d+ bound (\d+|none) deadline \d+ "
    r'(slack \d+ ok|(?P<late>late))(?P<name> name "[^"\\]+")?'
)
_LOAD = re.compile(r"load \d+\.\d{3} late (\d+) of (\d+)")
_AFTER_LOAD = re.compile(r"(hits|shorter periods|more hits) (.+)")
_VERDICT = re.compile(r"(pass|fail) ([a-z0-9-]{1,80})( at \d+: .+)?")
_COUNT = re.compile(r"passed (\d+) failed (\d+) void 0 skipped 0 of (\d+)(?:, (\d+) without a transcript)?")


class NotReadError(ValueError):
    """The lines are not what canplan or `canhold judge` prints."""


@dataclass
class Report:
    """The tests, and the properties of all: of a network its load and margins, for example."""

    suite: str
    results: list[Result] = field(default_factory=list)
    properties: dict[str, str] = field(default_factory=dict)

    def status(self) -> int:
        """The exit status: 1 if a test failed, 5 if there is none, otherwise 0."""
        if not self.results:
            return NOTHING_JUDGED
        return FAILED if any(result.kind == "fail" for result in self.results) else 0


class _Reader(Protocol):
    """What takes the lines of a program after the first one."""

    report: Report

    def take(self, line: str) -> None:
        """Takes a line. Raises NotReadError if the program prints no such line there."""

    def missing(self) -> str:
        """What has to follow, or no text."""


class _Network:
    """The output of canplan, also with --details. Its first line was taken."""

    def __init__(self, suite: str, first: re.Match[str]) -> None:
        self.report = Report(suite, properties=dict(zip(("messages", "load", "rate"), first.groups())))
        self._messages: list[re.Match[str]] = []
        self._details: list[list[str]] = []
        self._is_counted = False

    def take(self, line: str) -> None:
        if message := _MESSAGE.fullmatch(line):
            self._add(message)
        elif line.startswith("  ") and self._details and not self._is_counted:
            self._details[-1].append(line)
        elif load := _LOAD.fullmatch(line):
            self._count(load)
        elif (more := _AFTER_LOAD.fullmatch(line)) and self._is_counted:
            self.report.properties[more[1]] = more[2]
        else:
            raise NotReadError("canplan prints no such line here")

    def missing(self) -> str:
        return "" if self._is_counted else "the line `load ..`"

    def _add(self, message: re.Match[str]) -> None:
        if self._is_counted:
            raise NotReadError("a message after the line `load ..`")
        self._messages.append(message)
        self._details.append([message[0]])

    def _count(self, load: re.Match[str]) -> None:
        """Makes the tests, if their number is right."""
        late = sum(message["late"] is not None for message in self._messages)
        due = (str(late), str(len(self._messages)))
        if self._is_counted or load.groups() != due or self.report.properties["messages"] != due[1]:
            raise NotReadError(f"it does not count the lines before: {late} of {len(self._messages)} messages are late")
        self._is_counted = True
        result = kit("junit").Result
        for message, lines in zip(self._messages, self._details):
            kind, why = ("fail", message[0]) if message["late"] else ("pass", "")
            name = message["frame"] + (message["name"] or "")
            self.report.results.append(result(self.report.suite, name, kind, why, output="\n".join(lines)))


class _Verdicts:
    """The output of `canhold judge`."""

    def __init__(self, suite: str) -> None:
        self.report = Report(suite)
        self._is_counted = False

    def take(self, line: str) -> None:
        verdict, count = _VERDICT.fullmatch(line), _COUNT.fullmatch(line)
        if self._is_counted:
            raise NotReadError("a line after the count")
        if count:
            self._count(count)
        elif verdict and (verdict[1] == "fail") == (verdict[3] is not None):
            why = line if verdict[3] else ""
            self.report.results.append(kit("junit").Result(self.report.suite, verdict[2], verdict[1], why))
        else:
            raise NotReadError("canhold judge prints no such line")

    def missing(self) -> str:
        return "" if self._is_counted else "the count"

    def _count(self, count: re.Match[str]) -> None:
        """Compares the count with the lines."""
        failed = sum(result.kind == "fail" for result in self.report.results)
        passed = len(self.report.results) - failed
        if count.groups()[:3] != (str(passed), str(failed), str(passed + failed)):
            raise NotReadError(f"it does not count the lines before: {passed} passed, {failed} failed")
        self._is_counted = True
        if count[4]:
            self.report.properties["cases without a transcript"] = count[4]


def _reader(line: str, suite: str | None) -> _Reader:
    """The reader of the program that begins with this line."""
    if first := _NETWORK.fullmatch(line):
        return _Network(suite or "canplan", first)
    verdicts = _Verdicts(suite or "canhold judge")
    try:
        verdicts.take(line)
    except NotReadError:
        raise NotReadError("neither canplan nor canhold judge begins with this line") from None
    return verdicts


def read_report(lines: Iterable[str], suite: str | None = None) -> Report:
    """The report of these lines, which have no line ends. Raises NotReadError, or KitNotFoundError without the kit."""
    reader: _Reader | None = None
    for number, line in enumerate(lines, 1):
        try:
            if reader is None:
                reader = _reader(line, suite)
            else:
                reader.take(line)
        except NotReadError as refused:
            raise NotReadError(f"line {number}: {refused}") from None
    if reader is None:
        raise NotReadError("it is empty; if the program failed, its fault is on standard error")
    if missing := reader.missing():
        raise NotReadError(f"it ends before {missing}: the output is incomplete")
    return reader.report


def _passed_on(given: BinaryIO, out: BinaryIO) -> Iterator[str]:
    """The lines of a file, which are written to another one. Raises NotReadError if the last one has no end."""
    number = 0
    while line := given.readline(_MOST_BYTES):
        number += 1
        out.write(line)
        out.flush()
        if not line.endswith(b"\n"):
            why = "it has no end" if len(line) < _MOST_BYTES else "too long"
            raise NotReadError(f"line {number}: {why}")
        yield line[:-1].decode("ascii", "replace")


def _arguments(words: Sequence[str] | None) -> argparse.Namespace:
    parser = argparse.ArgumentParser(
        prog="python3 -m riddlesage.junit",
        description="Writes what canplan or canhold judge prints, from standard input, as a report in JUnit's XML. The "
        "lines are also passed on to standard output.",
        epilog="Exit status: 0 if all tests passed; 1 if one failed; 2 for wrong usage, input that is not the whole "
        "output of one of these programs, or a file that cannot be written; 5 if nothing was judged.",
    )
    parser.add_argument("file", metavar="FILE", help="the report")
    parser.add_argument("--suite", metavar="NAME", help="the name of the test suite (default: that of the program)")
    return parser.parse_args(words)


def main(words: Sequence[str] | None = None) -> int:
    """Writes the report. Returns the exit status."""
    options = _arguments(words)
    # First, so that an older report goes, and that nothing is computed for a file that cannot be written.
    open(options.file, "wb").close()
    try:
        report = read_report(_passed_on(sys.stdin.buffer, sys.stdout.buffer), options.suite)
        kit("junit").write_junit(options.file, report.suite, report.results, report.properties)
    except NotReadError as refused:
        print(f"standard input: {refused}", file=sys.stderr)
        return NOT_READ
    except KitNotFoundError as missing:
        print(missing, file=sys.stderr)
        return NOT_READ
    if not report.results:
        print("standard input: nothing was judged: the document has no transcript", file=sys.stderr)
    return report.status()


if __name__ == "__main__":
    end_with(main)
