"""A pytest plugin that plays the conformance kit to a controller in Python: one test per case.

    def test_my_controller(can_case):
        can_case.hold_against(MyController(joining=can_case.joining))

A test with the fixture `can_case` is run with each case of the kit. The controller has the calls of
`riddlesage.Device`, and `hold(count)` if it can send overload frames. Driven levels are compared; events too, if
`sample` returns any in the case; the final state too, if the controller has `state` and `counters`, as a Port has.

`--can-only WORD` plays the cases whose names begin with WORD; `--can-without forced,hold` skips those that need what
the test bench cannot do. `--can-coverage` reports which rules of docs/ACCESS.md the cases that are played make a
controller apply. The kit is searched for at the environment variable RIDDLESAGE_KIT; without that in this
package, and in the repository. The expected transcripts are those of the proved reference.
"""

from __future__ import annotations

import pathlib
from typing import TYPE_CHECKING, Any, cast

import pytest

from riddlesage import Device
from riddlesage._kit import Holding, KitNotFoundError, kit, recorded

if TYPE_CHECKING:
    from kit.documents import Case, Transcript

    from riddlesage.coverage import Coverage

# The name of the plugin that reports rule coverage.
_COVERAGE = "riddlesage-coverage"


def _kit(module: str) -> Any:
    """A module of the kit."""
    try:
        return kit(module)
    except KitNotFoundError as missing:
        raise pytest.UsageError(str(missing)) from None


class CanCase:
    """A case of the kit, and its expected transcript."""

    def __init__(self, case: Case, expected: Transcript, coverage: Coverage | None = None) -> None:
        self._case, self._expected, self._coverage = case, expected, coverage

    @property
    def name(self) -> str:
        """The case's name."""
        return self._case.name

    @property
    def purpose(self) -> str:
        """What the case tests."""
        return self._case.purpose

    @property
    def joining(self) -> bool:
        """Whether the controller begins with bus integration; otherwise it is idle."""
        return self._case.start == "joining"

    def hold_against(self, device: Device) -> None:
        """Plays the case to a new controller. Fails with the first bit time in which it differs from the transcript."""
        comparing, reports = _kit("comparing"), _kit("reports")
        given = self._play(device)
        found = comparing.differences(given, self._expected)
        if found:
            time, kind, text = found[0]
            lines = [reports.Verdict(self._case, "fail", f"{time}: {text}").line(), f"  {self.purpose}"]
            if kind == comparing.LEVEL:
                lines += reports.window_lines(self._case, time, given, self._expected)
            pytest.fail("\n".join(lines), pytrace=False)

    def _play(self, device: Device) -> Transcript:
        """The transcript of the device in the case."""
        if self._coverage:
            self._coverage.play(self._case)
        return recorded(self._case, cast(Holding, device))


def pytest_addoption(parser: pytest.Parser) -> None:
    """The options of the plugin."""
    group = parser.getgroup("riddlesage")
    group.addoption("--can-coverage", action="store_true", help="report which rules the cases that are played apply")
    group.addoption("--can-coverage-junit", metavar="FILE", help="write this report as JUnit XML")
    group.addoption("--can-only", action="append", metavar="WORD", help="only cases whose names begin so")
    group.addoption(
        "--can-without", default="", metavar="NEEDS", help="what the test bench cannot do: forced,hold,queue,recovery"
    )


class _CoverageReport:
    """The rule coverage of the session, and its report at the end."""

    def __init__(self, coverage: Coverage, junit: str | None) -> None:
        self.coverage, self._junit = coverage, junit

    def pytest_terminal_summary(self, terminalreporter: Any) -> None:
        """Prints the report."""
        terminalreporter.section("rule coverage")
        for line in self.coverage.lines():
            terminalreporter.line(line)
        if self._junit:
            pathlib.Path(self._junit).write_text(self.coverage.junit(), "utf-8")


def pytest_configure(config: pytest.Config) -> None:
    """Counts rule coverage, if an option asks for it."""
    junit = config.getoption("--can-coverage-junit")
    if junit or config.getoption("--can-coverage"):
        from riddlesage.coverage import Coverage

        config.pluginmanager.register(_CoverageReport(Coverage(), junit), _COVERAGE)


def pytest_generate_tests(metafunc: pytest.Metafunc) -> None:
    """Runs a test with the fixture `can_case` once per case."""
    if "can_case" not in metafunc.fixturenames:
        return
    library = _kit("library")
    cases, expected = library.read_library([library.FOLDER, library.TRANSCRIPTS])
    only = tuple(metafunc.config.getoption("--can-only") or ("",))
    lacks = {need for need in metafunc.config.getoption("--can-without").split(",") if need}
    report = metafunc.config.pluginmanager.get_plugin(_COVERAGE)
    coverage = report.coverage if report else None
    chosen = []
    for case in cases:
        missing = sorted(lacks.intersection(case.needs))
        marks = [pytest.mark.skip(reason=f"the test bench has no {' and no '.join(missing)}")] if missing else []
        if case.name.startswith(only):
            chosen.append(pytest.param(CanCase(case, expected[case.name], coverage), id=case.name, marks=marks))
    metafunc.parametrize("can_case", chosen)
