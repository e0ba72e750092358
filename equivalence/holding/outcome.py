"""How a call of `hold` ended, and its report in JUnit's XML for a CI system."""

from __future__ import annotations

import pathlib
import sys
import time
from dataclasses import dataclass, field

from holding.faults import DIFFERS, NOT_PROVED

sys.path.insert(0, str(pathlib.Path(__file__).resolve().parent.parent.parent / "conformance"))
from kit.junit import ERROR, FAIL, PASS, SKIP, Result, write_junit

# the result of the whole, by the exit status; any other status is a fault
KINDS = {0: PASS, DIFFERS: FAIL, NOT_PROVED: SKIP}


@dataclass
class Outcome:
    """The exit status, the last line, the parts of the mapping that fail, and the lines of the counterexample."""

    status: int
    said: str
    fails: list[str] = field(default_factory=list)
    shown: list[str] = field(default_factory=list)
    is_fault: bool = False

    @property
    def kind(self) -> str:
        """The result of the whole in a report."""
        return ERROR if self.is_fault else KINDS.get(self.status, ERROR)


@dataclass
class Report:
    """The report of a call, if one is asked for: a test for each comparison same_.., and one for the whole."""

    path: str | None
    suite: str
    mode: str  # the call without its files, which is the class of the tests
    whole: str  # what is to be shown
    outputs: list[str] = field(default_factory=list)
    properties: dict[str, str] = field(default_factory=dict)
    begun: float = field(default_factory=time.monotonic)

    def begin(self) -> None:
        """Empties the file, so that an older report goes, and that no result is lost because of it."""
        if self.path:
            open(self.path, "wb").close()

    def write(self, outcome: Outcome) -> None:
        """Writes the report."""
        if self.path:
            seconds = time.monotonic() - self.begun
            text = "\n".join(outcome.shown)
            said = {"output": outcome.said} if outcome.kind == PASS else {"message": outcome.said, "text": text}
            whole = Result(self.mode, self.whole, outcome.kind, seconds=seconds, **said)
            parts = [self.output(name, outcome) for name in self.outputs]
            write_junit(self.path, self.suite, [*parts, whole], self.properties)

    def output(self, name: str, outcome: Outcome) -> Result:
        """The result of a comparison. Without a proof, one that does not fail is neither passed nor failed."""
        if outcome.kind == PASS:
            return Result(self.mode, name)
        if name in outcome.fails:
            fails = (line.strip() for line in outcome.shown if line.startswith(f"  {name} fails: "))
            return Result(self.mode, name, FAIL, next(fails, f"{name} fails"), "\n".join(outcome.shown))
        return Result(self.mode, name, SKIP, f"no result of its own: {outcome.said}")
