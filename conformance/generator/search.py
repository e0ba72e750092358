"""Finds frames whose levels have a given property, by trying identifiers and data in a fixed order."""

from __future__ import annotations

from typing import Callable, Iterator

from kit.frames import Frame, Wire

_MOST_TRIES = 1 << 16
_MULTIPLIER = 40503


def _frames(kind: str, dlc: int) -> Iterator[Frame]:
    extended = kind == "E"
    for number in range(_MOST_TRIES):
        mixed = number * _MULTIPLIER
        identifier = mixed % (1 << 29) if extended else mixed % (1 << 11)
        data = bytes((mixed >> 3 * place) % 256 for place in range(dlc))
        yield Frame(extended, identifier, False, dlc, data)


def frame_with(kind: str, dlc: int, fits: Callable[[Wire], bool]) -> str:
    """The text of the first data frame of this kind and DLC whose levels fit. `kind` is S or E."""
    for frame in _frames(kind, dlc):
        if fits(frame.wire()):
            return frame.text()
    raise ValueError(f"no {kind} frame with DLC {dlc} has the levels that are looked for")


def stuff_place(wire: Wire, part: str, level: str, number: int = 0) -> int:
    """The place of the stuff bit with this level and number that follows a bit of the part; -1 if there is none."""
    after = {place + 1 for place in wire.places[part]}
    places = [place for place in wire.stuff if wire.levels[place] == level and place in after]
    return places[number] if -len(places) <= number < len(places) else -1


def ends_stuffed(kind: str, dlc: int, level: str) -> str:
    """A frame whose CRC sequence ends with five equal bits, so that a stuff bit of this level follows."""

    def fits(wire: Wire) -> bool:
        return bool(wire.stuff) and wire.stuff[-1] == wire.stuffed - 1 and wire.levels[wire.stuff[-1]] == level

    return frame_with(kind, dlc, fits)


def stuffed_in(kind: str, dlc: int, part: str, level: str) -> str:
    """A frame with a stuff bit of this level after a bit of the part, but not after the CRC sequence."""

    def fits(wire: Wire) -> bool:
        place = stuff_place(wire, part, level)
        return 0 <= place < wire.stuffed - 1

    return frame_with(kind, dlc, fits)
