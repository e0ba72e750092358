"""The choices of the project on which a failure may rest. The standard leaves them; docs/DECISIONS.md lists them.

A case's document has the words of some. It can't have others: choices.txt, beside this module, has for each further
word what a controller shows that chose otherwise, and in which cases. kit/readings.py makes it.
"""

from __future__ import annotations

import functools
import os
import re

from .comparing import END, EVENT, differences
from .documents import Case, Transcript

FURTHER = os.path.join(os.path.dirname(os.path.realpath(__file__)), "choices.txt")
_FRAME = re.compile(r"\b(sent|received) [SE] .*?(?= not |$)")
_END = re.compile(r"end (\w+) (\d+) (\d+) not (\w+) (\d+) (\d+)")


def outcome(difference: str) -> str:
    """What differs, without levels, frames and numbers: `drove`, both events, or as `end REC` parts of the end."""
    end = _END.fullmatch(difference)
    if end is not None:
        names = ("state", "TEC", "REC")
        return " ".join(["end", *(name for place, name in enumerate(names, 1) if end[place] != end[place + 3])])
    return "drove" if difference.startswith("drove ") else _FRAME.sub(r"\1", difference)


def outcomes(given: Transcript, expected: Transcript) -> list[str]:
    """What a run may print first: for adapters that report events and the end, only one of them, or none."""
    found = differences(given, expected)
    missing: tuple[tuple[int, ...], ...] = ((), (EVENT,), (END,), (EVENT, END))
    seen = [[one for one in found if one[1] not in kinds] for kinds in missing]
    return list(dict.fromkeys(outcome(some[0][2]) for some in seen if some))


@functools.lru_cache(maxsize=None)
def _further() -> dict[tuple[str, str], list[str]]:
    """The further words of a case and an outcome."""
    words: dict[tuple[str, str], list[str]] = {}
    with open(FURTHER, encoding="ascii") as file:
        for line in file:
            head, colon, names = line.strip().partition(": ")
            word, comma, what = head.partition(", ")
            if colon and comma and not line.startswith("#"):
                for name in names.split():
                    words.setdefault((name, what), []).append(word)
    return words


def words_of(case: Case, difference: str) -> list[str]:
    """The words of the choices on which this difference may rest."""
    return case.choices + _further().get((case.name, outcome(difference)), [])
