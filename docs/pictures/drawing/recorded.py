"""What programs print, as it was recorded: the data of the pictures."""

from __future__ import annotations

import pathlib
import re
from typing import NamedTuple

TOP = pathlib.Path(__file__).resolve().parents[3]


class NotAsDrawn(ValueError):
    """What is recorded, or a source, isn't what a picture is drawn for."""


def text_of(name: str) -> str:
    """The text of a file of the repository."""
    return (TOP / name).read_text("utf-8")


def asked(holds: bool, what: str) -> None:
    """Refuses data that a picture is not drawn for."""
    if not holds:
        raise NotAsDrawn(what)


def levels_of(tokens: str) -> str:
    """The levels of a text with runs such as `1*8`."""
    return re.sub(r"([01])\*(\d+)", lambda run: run[1] * int(run[2]), tokens).replace(" ", "")


class Transcript(NamedTuple):
    """What a node did, as `canhold expect` prints it: the levels that it drove, its events, and its counters."""

    drove: str
    events: dict[int, str]
    counters: dict[int, tuple[int, int]]


def transcripts(text: str) -> list[Transcript]:
    """The transcripts of a document."""
    found = []
    for part in text.split("[[transcript]]")[1:]:
        drove = re.search(r'^drove = \["(.*)"\]$', part, re.M)
        asked(drove is not None, "a transcript without levels")
        events = {int(time): event for time, event in re.findall(r'^    \[(\d+), "(.*)"\],$', part, re.M)}
        counts = re.findall(r"^    \[(\d+), (\d+), (\d+)\],$", part, re.M)
        counters = {int(time): (int(tec), int(rec)) for time, tec, rec in counts}
        found.append(Transcript(levels_of(drove[1] if drove else ""), events, counters))
    return found
