"""Waves of levels, and the fields of a frame in them."""

from __future__ import annotations

from typing import NamedTuple

from drawing.svg import BLUE, GREEN, GREY, INK, ORANGE, RED, YELLOW, Picture, Point

# the fields of a standard data frame up to and including its DLC: how many levels each has, without stuff bits
FIELDS = [("SOF", 1, RED), ("identifier", 11, BLUE), ("RTR", 1, ORANGE), ("IDE", 1, GREEN), ("r0", 1, GREY)]
FIELDS += [("DLC", 4, YELLOW)]


class Band(NamedTuple):
    """A field: its name and colour, its first level, and the one after its last."""

    name: str
    colour: str
    first: int
    end: int


def stuff_places(levels: str) -> list[int]:
    """Where stuff bits are: each follows five equal levels. The levels have to be stuffed."""
    places, run = [], 1
    for place in range(1, len(levels)):
        run = run + 1 if levels[place] == levels[place - 1] else 1
        if run == 1 and levels[max(0, place - 5) : place] in ("00000", "11111"):
            places.append(place)
    return places


def bands(levels: str, start: int) -> list[Band]:
    """The fields of a frame with these levels, the first of which has this number."""
    stuffed, place, found = stuff_places(levels), 0, []
    for name, count, colour in FIELDS:
        first = place
        while count:
            count -= place not in stuffed
            place += 1
        while place in stuffed:
            place += 1
        found.append(Band(name, colour, start + first, start + place))
    return found


def wave(levels: str, x: float, top: float, cell: float, height: float, slope: float = 0) -> list[Point]:
    """The line of levels, each a cell wide: 1 above, 0 below."""
    path: list[Point] = []
    for place, level in enumerate(levels):
        y = top if level == "1" else top + height
        path += [(x + place * cell + (slope if place else 0), y), (x + (place + 1) * cell, y)]
    return path


def draw_wave(
    picture: Picture, levels: str, x: float, top: float, cell: float, height: float, colour: str = INK, slope: float = 0
) -> None:
    """Draws the line of levels, without the points in the middle of a run."""
    path = wave(levels, x, top, cell, height, slope)
    kept = [it for k, it in enumerate(path) if k in (0, len(path) - 1) or not path[k - 1][1] == it[1] == path[k + 1][1]]
    picture.line(kept, colour, 1.8)
