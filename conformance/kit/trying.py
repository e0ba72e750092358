"""Plays all cases to an adapter of this repository at once, without waiting for each reply."""

from __future__ import annotations

import subprocess

from .documents import Case, Event, Transcript
from .playing import cuts, seen_levels

SECONDS = 20


def script(cases: list[Case]) -> str:
    """All lines that a runner would write for the cases.

    They are sent at once, without waiting for replies: the adapters of this repository read one line after another.
    """
    lines: list[str] = []
    for case in cases:
        lines.append(f"case {case.name} {case.start}")
        levels = seen_levels(case)
        for time, end in cuts(case):
            lines += [f"offer {frame}" for at, frame in case.offers if at == time]
            lines += [f"hold {overloads}" for at, overloads in case.holds if at == time]
            lines.append(f"play {levels[time:end]}")
        lines.append("end")
    return "\n".join(lines + ["quit"]) + "\n"


def answers(text: str, cases: list[Case]) -> list[Transcript]:
    """The transcripts in an adapter's whole output.

    Raises ValueError if it ends too early, or if a reply is an error.
    """
    transcripts: list[Transcript] = []
    drove: str = ""
    events: list[Event] = []
    for line in text.split("\n")[1:]:
        word, _, rest = line.partition(" ")
        if word == "ready":
            drove, events = "", []
        elif word == "event":
            place, _, event = rest.partition(" ")
            events.append((len(drove) + int(place), event))
        elif word == "drove":
            drove += rest
        elif word == "state":
            state, tec, rec = rest.split(" ")
            name = cases[len(transcripts)].name
            transcripts.append(Transcript(name, drove, events, None, (state, int(tec), int(rec))))
        elif word == "error":
            raise ValueError(f"the adapter replied: {line}")
    if len(transcripts) != len(cases):
        raise ValueError(f"the adapter ended in {cases[len(transcripts)].name}")
    return transcripts


def played(program: str, cases: list[Case], text: str) -> list[Transcript]:
    """What the adapter does in the cases; the text is their script."""
    run = subprocess.run([program], input=text, capture_output=True, text=True, timeout=SECONDS)
    return answers(run.stdout, cases)
