"""Generated mutations of C sources, one at a time.

Each number is increased and decreased by one, each comparison, operator and level replaced by its opposite, and each
statement left out. These operators know nothing of CAN, so nobody has chosen the mutations with the cases in mind.
"""

from __future__ import annotations

import os
import re
from collections import Counter
from dataclasses import dataclass, replace
from typing import Iterator

_NUMBER = re.compile(r"(?<![\w.])(0x[0-9a-f]+|\d+)(?!\w)")
_TURNED = (
    *((r"==", "!="), (r"!=", "==")),
    *((r"(?<![<>=-])<(?![<=])", "<="), (r"(?<![->=])>(?![>=])", ">="), (r">=", ">"), (r"<=", "<")),
    *((r"&&", "||"), (r"\|\|", "&&"), (r"!(?=[\w(])", ""), (r"\+\+", "--")),
    *((r"\btrue\b", "false"), (r"\bfalse\b", "true")),
    *((r"\bDOMINANT\b", "RECESSIVE"), (r"\bRECESSIVE\b", "DOMINANT")),
    *((r"\bBIT_ERROR\b", "FORM_ERROR"), (r"\bFORM_ERROR\b", "BIT_ERROR")),
)
# the first line of a function definition, with its name
_FUNCTION = re.compile(r"[a-z][\w *]*?(\w+)\(")
_DECLARATION = re.compile(r"(return|break|static|const|enum|bool|unsigned|uint|struct|for|case)\b")


@dataclass(frozen=True)
class Change:
    """One line of a source, and what replaces it. Changes with the same text are numbered."""

    path: str
    function: str
    line: int
    old: str
    new: str
    number: int = 1

    def applied(self, texts: dict[str, str]) -> dict[str, str]:
        """The sources with the change."""
        lines = texts[self.path].split("\n")
        lines[self.line] = self.new
        return {**texts, self.path: "\n".join(lines)}

    def text(self) -> str:
        """The change as text, which does not depend on the number of its line."""
        place = os.path.basename(self.path) + (f", {self.function}" if self.function else "")
        number = f" ({self.number})" if self.number > 1 else ""
        return f"{place}: {self.old.strip()} => {self.new.strip()}{number}"


def _variants(line: str) -> Iterator[str]:
    code = line.split("/*")[0]
    for found in _NUMBER.finditer(code):
        number = int(found.group(1), 0)
        for other in (number + 1, number - 1):
            if other >= 0:
                yield line[: found.start(1)] + str(other) + line[found.end(1) :]
    for pattern, new in _TURNED:
        for found in re.finditer(pattern, code):
            yield line[: found.start()] + new + line[found.end() :]
    statement = code.strip()
    if statement.endswith(";") and not _DECLARATION.match(statement):
        yield ";"


def changes(path: str, text: str) -> Iterator[Change]:
    """All changes of a source, line by line."""
    function = ""
    made: Counter[str] = Counter()
    for at, line in enumerate(text.split("\n")):
        begun = _FUNCTION.match(line)
        if begun is not None or line == "}":
            function = begun.group(1) if begun is not None else ""
        if not line.strip().startswith(("/*", "* ", "#")):
            for new in _variants(line):
                change = Change(path, function, at, line, new)
                made[change.text()] += 1
                yield replace(change, number=made[change.text()])
