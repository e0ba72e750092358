r"""Rule coverage: which rules of docs/ACCESS.md a port has applied, in which role and error state.

    python3 -m riddlesage.coverage [LOG]... [--transcripts FILE]... [--cases PATH]... [--junit FILE]

Reads the lines that the monitors of the hardware description languages print with COVERAGE (and pytest with
--can-coverage), and the transcripts of a controller in cases of the conformance kit. It adds the coverage of all, and
prints what was reached and what was not.

    >>> from riddlesage import Frame, Port
    >>> from riddlesage.coverage import Coverage
    >>> coverage, port = Coverage(), Port()
    >>> port.offer(Frame(0x123))
    >>> for _ in range(60):
    ...     event = coverage.sample(port, port.drive())
    >>> coverage.counts["Start of frame, transmitter active"], len(coverage.reached), len(coverage.counts)
    (2, 11, 64)
    >>> coverage.missing["Suspend transmission, transmitter passive"]
    'passive-limit-tec-as-receiver'
"""

from __future__ import annotations

import argparse
import ctypes
import itertools
import pathlib
import re
import sys
from collections.abc import Iterable, Iterator, Sequence
from typing import TYPE_CHECKING

from riddlesage._commands import end_with, opened, require_library
from riddlesage._frames import Refused, Status, demand, frame_of
from riddlesage._kit import KitNotFoundError, kit, played, recorded
from riddlesage._library import COVERAGE_ITEMS, PlainCoverage, PlainFrame, lib
from riddlesage._ports import Event, Port, Reported

if TYPE_CHECKING:
    from kit.documents import Case, Transcript

if __name__ == "__main__":
    require_library()  # which is asked for names as soon as this module is loaded

ITEMS = COVERAGE_ITEMS
# The most frames of a case.
_MOST_QUEUED = 256
_LINE = re.compile(r"\bcoverage ([0-9]{1,20}) ([A-Z][A-Za-z ,]*)")

# Each combination of rule, role and error state, and a case of the conformance kit in which it occurs. A case that the
# standard set does not have is in the long one.
CASES = {
    lib.riddlesage_coverage_name(item).decode("ascii"): lib.riddlesage_coverage_case(item).decode("ascii")
    for item in range(ITEMS)
}
_NAMES = tuple(CASES)


class Coverage:
    """How many bit times each combination of a rule, a role and an error state has decided."""

    def __init__(self) -> None:
        self._plain = PlainCoverage()

    def sample(self, port: Port, level: int) -> Reported | None:
        """Passes one bit time of a port, as its `sample` does, and counts the rules that it applies."""
        if level != 0 and level != 1:
            raise Refused(Status.BAD_LEVEL)
        event, frame = ctypes.c_uint8(), PlainFrame()
        with port._lock:
            demand(lib.riddlesage_coverage_sample(port._port, self._plain, level, event, frame))
        code = Event(event.value)
        heard = frame_of(frame) if code in (Event.SENT, Event.RECEIVED) else None
        return Reported(code, heard) if code else None

    def play(self, case: Case, bit_times: int | None = None) -> None:
        """Plays a case of the conformance kit, or its first bit times, to a new port, and counts."""
        for _ in itertools.islice(played(case, _CoveredPort(self, case)), bit_times):
            pass

    def play_beside(self, case: Case, transcript: Transcript) -> str | None:
        """Plays a case to a new port beside a controller's transcript, and counts as long as both agree.

        Returns the first difference, such as `253: drove 0 not 1`, or None.
        """
        counted = Coverage()
        expected = recorded(case, _CoveredPort(counted, case))
        if transcript.counters is not None:
            expected.counters = _counters(case)
        found = kit("comparing").differences(transcript, expected)
        if found:
            counted = Coverage()
            counted.play(case, found[0][0])
        for name, count in counted.counts.items():
            self.add(name, count)
        return f"{found[0][0]}: {found[0][2]}" if found else None

    def add(self, name: str, count: int) -> None:
        """Adds to the count of a combination. One that does not exist raises ValueError."""
        if name not in CASES:
            raise ValueError(f"there is no combination {name!r}")
        self._plain.counts[_NAMES.index(name)] += count

    @property
    def counts(self) -> dict[str, int]:
        """The count of each combination, such as `Suspend transmission, transmitter passive`."""
        return dict(zip(_NAMES, self._plain.counts))

    @property
    def reached(self) -> list[str]:
        """The combinations that have occurred."""
        return [name for name, count in self.counts.items() if count]

    @property
    def missing(self) -> dict[str, str]:
        """The combinations that have not, each with a case of the conformance kit in which it occurs."""
        return {name: CASES[name] for name, count in self.counts.items() if not count}

    def lines(self) -> Iterator[str]:
        """The report as text: a line for each combination, and their number."""
        for name, count in self.counts.items():
            yield f"coverage {count} {name}" + ("" if count else f"; case {CASES[name]} reaches it")
        yield f"reached {len(self.reached)} of {ITEMS}"

    def junit(self) -> str:
        """The report as JUnit XML: a test for each combination, which is skipped if it has not occurred.

        The conformance kit writes it. Without the kit this raises KitNotFoundError.
        """
        writer = kit("junit")
        results = []
        for name, count in self.counts.items():
            rule, _, column = name.partition(", ")
            kind, message = (writer.PASS, "") if count else (writer.SKIP, f"not reached; case {CASES[name]} reaches it")
            results.append(writer.Result(rule, column or rule, kind, message))
        text: str = writer.junit_text("rule coverage", results)
        return text


class _CoveredPort(Port):
    """A new port for a case, whose bit times are counted."""

    def __init__(self, coverage: Coverage, case: Case) -> None:
        super().__init__(_MOST_QUEUED, 0, joining=case.start == "joining")
        self._coverage = coverage

    def sample(self, level: int) -> Reported | None:
        return self._coverage.sample(self, level)


def _counters(case: Case) -> list[tuple[int, int, int]]:
    """TEC and REC of a port after each bit time of a case."""
    port = Port(_MOST_QUEUED, 0, joining=case.start == "joining")
    return [(time, *port.counters) for time, _, _ in played(case, port)]


def read_lines(lines: Iterable[str], coverage: Coverage) -> int:
    """Adds what lines of a log report. Returns how many report coverage."""
    found = 0
    for line in lines:
        match = _LINE.search(line)
        if match and match[2].rstrip() in CASES:
            coverage.add(match[2].rstrip(), int(match[1]))
            found += 1
    return found


def _arguments(words: Sequence[str] | None) -> argparse.Namespace:
    parser = argparse.ArgumentParser(
        prog="python3 -m riddlesage.coverage",
        description="Adds the rule coverage of logs, transcripts and cases, and prints what was not reached.",
        epilog="Exit status: 1 if a log reports no coverage, if a file has no transcripts or one that differs from the "
        "golden model; 2 if a file cannot be read or written.",
    )
    add = parser.add_argument
    add("logs", metavar="LOG", nargs="*", help="the output of a simulation or of pytest; - is standard input")
    transcripts = "what a controller did in cases of the conformance kit, as `conformance/run --transcripts` writes it"
    add("--transcripts", metavar="FILE", action="append", default=[], help=transcripts)
    cases = "play the cases of these files and folders to a port; `kit` is the standard set. With --transcripts: where "
    cases += "their cases are, if they are not in FILE and not in the standard set"
    add("--cases", metavar="PATH", action="append", default=[], help=cases)
    add("--junit", metavar="FILE", type=pathlib.Path, help="also write the report as JUnit XML")
    options = parser.parse_args(words)
    if not options.logs and not options.transcripts and not options.cases:
        parser.error("name a LOG, transcripts with --transcripts, or cases with --cases")
    return options


class _NotReadError(Exception):
    """Cases or transcripts that cannot be read."""


def _shown(file: str) -> str:
    return "standard input" if file == "-" else file


def _add_log(log: str, coverage: Coverage) -> int:
    """Adds the lines of a log. Returns the exit status."""
    with opened(log) as file:
        found = read_lines((line.decode("utf-8", "replace") for line in file), coverage)
    if not found:
        print(f"{_shown(log)}: it has no lines of coverage", file=sys.stderr)
    return 0 if found else 1


def _read_cases(paths: Sequence[str]) -> list[Case]:
    """The cases of files and folders. Raises _NotReadError."""
    try:
        library, fault = kit("library"), kit("documents").DocumentFault
    except KitNotFoundError as missing:
        raise _NotReadError(str(missing)) from None
    try:
        cases: list[Case] = library.read_library([library.FOLDER if path == "kit" else path for path in paths])[0]
    except (ValueError, fault) as refused:
        raise _NotReadError(str(refused)) from None
    return cases


def _read_transcripts(file: str, known: list[Case]) -> list[tuple[Case, Transcript]]:
    """The transcripts of a file, each with its case: one of the file, or one that is known. Raises _NotReadError."""
    documents = kit("documents")
    with opened(file) as given:
        content = given.read()
    try:
        cases, transcripts = documents.read_document(content.decode("utf-8"), known)
    except UnicodeDecodeError:
        raise _NotReadError(f"{_shown(file)}: {documents.DocumentFault('toml')}") from None
    except documents.DocumentFault as refused:
        hint = "; --cases names where its case is" if refused.place.endswith("].case") else ""
        raise _NotReadError(f"{_shown(file)}: {refused}{hint}") from None
    by_name = {case.name: case for case in [*known, *cases]}
    return [(by_name[transcript.case], transcript) for transcript in transcripts]


def _add_transcripts(file: str, known: list[Case], coverage: Coverage) -> int:
    """Adds the transcripts of a file, and prints where they differ. Returns the exit status."""
    pairs = _read_transcripts(file, known)
    if not pairs:
        print(f"{_shown(file)}: it has no transcripts", file=sys.stderr)
        return 1
    differing = 0
    for case, transcript in pairs:
        difference = coverage.play_beside(case, transcript)
        if difference:
            differing += 1
            print(f"differs {case.name} at {difference}")
    print(f"transcripts {len(pairs)} differing {differing}")
    return 1 if differing else 0


def _add_all(options: argparse.Namespace, coverage: Coverage) -> int:
    """Adds what the arguments name. Returns the exit status. Raises _NotReadError."""
    status = 0
    for log in options.logs:
        status |= _add_log(log, coverage)
    if options.transcripts:
        known = _read_cases(options.cases or ["kit"])
        for file in options.transcripts:
            status |= _add_transcripts(file, known, coverage)
    elif options.cases:
        for case in _read_cases(options.cases):
            coverage.play(case)
    return status


def main(words: Sequence[str] | None = None) -> int:
    """Prints the report. Returns the exit status."""
    options = _arguments(words)
    coverage = Coverage()
    try:
        status = _add_all(options, coverage)
    except _NotReadError as refused:
        print(refused, file=sys.stderr)
        return 2
    print("\n".join(coverage.lines()))
    try:
        if options.junit:
            options.junit.write_text(coverage.junit(), "utf-8")
    except KitNotFoundError as missing:
        print(missing, file=sys.stderr)
        return 2
    return status


if __name__ == "__main__":
    end_with(main)
