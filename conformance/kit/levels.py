"""Levels as text: `0` dominant, `1` recessive; in documents a run of N levels L is `L*N`."""

from __future__ import annotations

import re

_TOKEN = re.compile(r"[01]+|([01])\*([1-9][0-9]{0,5})")
_RUN = re.compile(r"0{8,}|1{8,}")
LONGEST_RUN = 100_000


def read_levels(text: str) -> str:
    """The levels of a string of tokens. Raises ValueError if the text is none."""
    levels = []
    for token in text.split(" "):
        if not token:
            continue
        match = _TOKEN.fullmatch(token)
        if match is None:
            raise ValueError(f"not levels: {token!r}")
        level, times = match.groups()
        if times is not None and int(times) > LONGEST_RUN:
            raise ValueError(f"run too long: {token!r}")
        levels.append(token if times is None else level * int(times))
    if not levels:
        raise ValueError("no levels")
    return "".join(levels)


def write_levels(levels: str) -> str:
    """The levels as tokens: runs of eight or more as `L*N`, the others one by one."""
    spaced = _RUN.sub(lambda run: f" {run.group()[0]}*{len(run.group())} ", levels)
    return " ".join(spaced.split())
