"""Writes reports in JUnit's XML, which CI systems read.

conformance/run, equivalence/hold and the commands of the Python package use it. It has no rule of CAN.
"""

from __future__ import annotations

import xml.etree.ElementTree as ET
from dataclasses import dataclass
from typing import Mapping, Sequence

PASS, FAIL, ERROR, SKIP = "pass", "fail", "error", "skip"
# The element of a result, if it has one.
_ELEMENTS = {FAIL: "failure", ERROR: "error", SKIP: "skipped"}


@dataclass(frozen=True)
class Result:
    """The result of one test. `group` is its class in the XML, `message` says why it did not pass."""

    group: str
    name: str
    kind: str = PASS
    message: str = ""
    text: str = ""  # more about a failure
    output: str = ""  # what the program printed
    seconds: float = 0.0


def write_junit(path: str, suite: str, results: Sequence[Result], properties: Mapping[str, str] | None = None) -> None:
    """Writes the report to a file."""
    with open(path, "w", encoding="utf-8") as file:
        file.write(junit_text(suite, results, properties))


def junit_text(suite: str, results: Sequence[Result], properties: Mapping[str, str] | None = None) -> str:
    """The report of one suite."""
    kinds = [result.kind for result in results]
    root = ET.Element("testsuites")
    element = ET.SubElement(
        root,
        "testsuite",
        name=_shown(suite),
        tests=str(len(kinds)),
        failures=str(kinds.count(FAIL)),
        errors=str(kinds.count(ERROR)),
        skipped=str(kinds.count(SKIP)),
        time=f"{sum(result.seconds for result in results):.3f}",
    )
    if properties:
        table = ET.SubElement(element, "properties")
        for name, value in properties.items():
            ET.SubElement(table, "property", name=_shown(name), value=_shown(value))
    for result in results:
        _add(element, result)
    _break_lines(root)
    return '<?xml version="1.0" encoding="utf-8"?>\n' + ET.tostring(root, encoding="unicode") + "\n"


def _add(suite: ET.Element, result: Result) -> None:
    """Adds a test to a suite."""
    group, name = _shown(result.group), _shown(result.name)
    test = ET.SubElement(suite, "testcase", classname=group, name=name, time=f"{result.seconds:.3f}")
    if result.kind in _ELEMENTS:
        element = ET.SubElement(test, _ELEMENTS[result.kind], message=_shown(result.message))
        element.text = _shown(result.text) or None
    if result.output:
        ET.SubElement(test, "system-out").text = _shown(result.output)


def _break_lines(root: ET.Element) -> None:
    """Begins each suite, property table and test on a line of its own. Python 3.8 has no `indent`."""
    for element in (root, *root, *root.findall("*/properties")):
        element.text = "\n"
        for child in element:
            child.tail = "\n"


def _shown(text: str) -> str:
    """The text without characters that XML does not have: an adapter's reason may have control characters."""
    return "".join(letter if letter.isprintable() or letter == "\n" else "?" for letter in text)
