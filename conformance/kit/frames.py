"""Frames as a tester sends them: their text, and their levels with the places of each part."""

from __future__ import annotations

import re
from dataclasses import dataclass, field

_TEXT = re.compile(r"(?:S ([0-7][0-9a-f]{2})|E ([01][0-9a-f]{7})) ([DR]) ([0-9]|1[0-5])(?: ((?:[0-9a-f]{2})+))?")
_GENERATOR = 0x4599
_CRC_LEVELS = 15


@dataclass(frozen=True)
class Frame:
    """A data or remote frame. The number of data bytes is the one that the DLC means."""

    extended: bool
    identifier: int
    remote: bool
    dlc: int
    data: bytes = b""

    @staticmethod
    def parse(text: str) -> Frame:
        """The frame of this text. Raises ValueError if the text is none."""
        match = _TEXT.fullmatch(text)
        if match is None:
            raise ValueError(f"not the text of a frame: {text!r}")
        standard, extended, direction, dlc, digits = match.groups()
        data = bytes.fromhex(digits or "")
        frame = Frame(standard is None, int(standard or extended, 16), direction == "R", int(dlc), data)
        if len(data) != frame.data_bytes():
            raise ValueError(f"the number of data bytes does not fit the DLC: {text!r}")
        return frame

    def data_bytes(self) -> int:
        """The number of data bytes on the wire."""
        return 0 if self.remote else min(self.dlc, 8)

    def text(self) -> str:
        """Its text, as in docs/FORMATS.md."""
        head = f"E {self.identifier:08x}" if self.extended else f"S {self.identifier:03x}"
        data = f" {self.data.hex()}" if self.data else ""
        return f"{head} {'R' if self.remote else 'D'} {self.dlc}{data}"

    def wire(self, inverted: str = "", **levels: str) -> Wire:
        """Its levels. `srr`, `r1` and `r0` may be given other values.

        `inverted` names one bit, such as `crc-14` or `data-3`. It is inverted after the CRC sequence is computed, and
        before bit stuffing.
        """
        return Wire(self, inverted, levels)


def _bits(number: int, count: int) -> str:
    return format(number, f"0{count}b") if count else ""


def _crc(levels: str) -> str:
    register = 0
    for level in levels:
        divides = (register >> 14 & 1) != int(level)
        register = register << 1 & 0x7FFF
        if divides:
            register ^= _GENERATOR
    return _bits(register, _CRC_LEVELS)


def _parts(frame: Frame, given: dict[str, str]) -> list[tuple[str, str]]:
    """The parts of the head in order, each with its levels."""
    remote = "1" if frame.remote else "0"
    if frame.extended:
        parts = [("sof", "0"), ("base", _bits(frame.identifier >> 18, 11)), ("srr", given.get("srr", "1"))]
        parts += [("ide", "1"), ("extension", _bits(frame.identifier & 0x3FFFF, 18)), ("rtr", remote)]
        parts += [("r1", given.get("r1", "0"))]
    else:
        parts = [("sof", "0"), ("base", _bits(frame.identifier, 11)), ("rtr", remote), ("ide", "0")]
    parts += [("r0", given.get("r0", "0")), ("dlc", _bits(frame.dlc, 4))]
    return parts + [("data", "".join(_bits(byte, 8) for byte in frame.data))]


@dataclass
class Wire:
    """The levels of a frame with a recessive ACK slot, and the place of each part.

    `places` has the indices of each part in `levels`, without stuff bits; `stuff` has those of the stuff bits.
    """

    frame: Frame
    inverted: str
    given: dict[str, str]
    levels: str = ""
    stuffed: int = 0
    places: dict[str, list[int]] = field(default_factory=dict)
    stuff: list[int] = field(default_factory=list)

    def __post_init__(self) -> None:
        parts = _parts(self.frame, self.given)
        parts.append(("crc", _crc("".join(levels for _, levels in parts))))
        out: list[str] = []
        for name, levels in parts:
            self.places[name] = []
            for index, level in enumerate(levels):
                if self.inverted == f"{name}-{index}":
                    level = opposite(level)
                self.places[name].append(len(out))
                out.append(level)
                if len(out) >= 5 and len(set(out[-5:])) == 1:
                    self._put_stuff_bit(out)
        self.stuffed = len(out)
        self.levels = "".join(out) + "1" * 10
        end = self.stuffed
        self.places.update({"crc-delimiter": [end], "ack": [end + 1], "ack-delimiter": [end + 2]})
        self.places["eof"] = list(range(end + 3, end + 10))

    def _put_stuff_bit(self, out: list[str]) -> None:
        self.stuff.append(len(out))
        out.append(opposite(out[-1]))

    def place(self, name: str) -> int:
        """The place of a part, such as `ack`, or of one of its bits, counted from 1: `eof 6`."""
        part, _, index = name.partition(" ")
        return self.places[part][int(index) - 1 if index else 0]

    def acknowledged(self) -> str:
        """The levels with a dominant ACK slot."""
        slot = self.place("ack")
        return self.levels[:slot] + "0" + self.levels[slot + 1 :]


def opposite(level: str) -> str:
    """The other level."""
    return "1" if level == "0" else "0"
