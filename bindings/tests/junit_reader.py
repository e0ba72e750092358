"""Reads reports in JUnit's XML with Debian's junitparser, which shares no code with the writer.

Tests import `read_junit`. As a program it prints a report as JSON: Debian's own Python runs that, because another one
does not have the module.
"""

from __future__ import annotations

import json
import pathlib
import subprocess
import sys
import unittest
from typing import Any, NamedTuple

MODULE = pathlib.Path("/usr/lib/python3/dist-packages/junitparser/__init__.py")
PYTHON = "/usr/bin/python3"
KINDS = {"Failure": "fail", "Error": "error", "Skipped": "skip"}


class Test(NamedTuple):
    """A test, and its result."""

    group: str
    name: str
    kind: str
    message: str
    text: str
    output: str


class Suite(NamedTuple):
    """A suite."""

    name: str
    properties: dict[str, str]
    tests: list[Test]

    def count(self, kind: str) -> int:
        """How many tests have this result."""
        return sum(test.kind == kind for test in self.tests)

    def names(self, kind: str) -> list[str]:
        """The names of the tests with this result."""
        return [test.name for test in self.tests if test.kind == kind]


def read_junit(path: str | pathlib.Path) -> Suite:
    """The only suite of a report, whose counts are those of its tests. Raises SkipTest without junitparser."""
    if not MODULE.exists():
        raise unittest.SkipTest("junitparser is not installed, which reads reports (python3-junitparser)")
    ran = subprocess.run([PYTHON, __file__, str(path)], check=True, capture_output=True, text=True)
    (read,) = json.loads(ran.stdout)
    suite = Suite(read["name"], read["properties"], [Test(*row) for row in read["tests"]])
    counts = [len(suite.tests), *map(suite.count, ("fail", "error", "skip"))]
    if counts != read["counts"]:
        raise AssertionError(f"{path}: the suite counts {read['counts']}, and its tests are {counts}")
    return suite


def _rows(path: str) -> list[dict[str, Any]]:
    """The suites of a report, as junitparser has them."""
    import junitparser

    rows = []
    for suite in junitparser.JUnitXml.fromfile(path):
        tests = []
        for case in suite:
            results = case.result
            kind = KINDS[type(results[0]).__name__] if results else "pass"
            message, text = (results[0].message or "", results[0].text or "") if results else ("", "")
            tests.append([case.classname, case.name, kind, message, text, case.system_out or ""])
        counts = [suite.tests, suite.failures, suite.errors, suite.skipped]
        properties = {it.name: it.value for it in suite.properties()}
        rows.append({"name": suite.name, "properties": properties, "tests": tests, "counts": counts})
    return rows


if __name__ == "__main__":
    print(json.dumps(_rows(sys.argv[1])))
