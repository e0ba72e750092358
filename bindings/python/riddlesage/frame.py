"""Prints the fields, stuff bits, CRC sequence and length of frames in candump's notation.

    python3 -m riddlesage.frame 123#AA55 --bitrate 500000
"""

from __future__ import annotations

import argparse
import itertools
from collections.abc import Iterator, Sequence
from typing import NamedTuple

from riddlesage._commands import end_with
from riddlesage._frames import Frame, encode
from riddlesage._marks import Field, Mark, marks
from riddlesage._plan import INTERMISSION
from riddlesage.candump import BadLine, Other, read_line

_NAMES = {
    Field.START_OF_FRAME: "SOF",
    Field.IDENTIFIER: "identifier",
    Field.DATA_LENGTH_CODE: "DLC",
    Field.DATA: "data",
    Field.CRC_SEQUENCE: "CRC",
    Field.CRC_DELIMITER: "CRC delimiter",
    Field.ACK_SLOT: "ACK slot",
    Field.ACK_DELIMITER: "ACK delimiter",
    Field.END_OF_FRAME: "EOF",
    Field.R1: "r1",
    Field.R0: "r0",
}


class Part(NamedTuple):
    """A field of a frame: the place of its first level, its levels and which of them are stuff bits."""

    place: int
    field: Field
    levels: bytes
    stuffed: tuple[bool, ...]

    @property
    def text(self) -> str:
        """Its levels, with stuff bits in brackets."""
        return "".join(f"({level})" if stuffed else str(level) for level, stuffed in zip(self.levels, self.stuffed))

    @property
    def value(self) -> int:
        """The number that its levels have without stuff bits, the first one being the highest."""
        return int("".join(str(level) for level, stuffed in zip(self.levels, self.stuffed) if not stuffed), 2)


def parts(frame: Frame) -> list[Part]:
    """The fields of a frame as its transmitter drives them; the two parts of an extended identifier are two."""
    levels = encode(frame)
    found, place = [], 0
    for field, group in itertools.groupby(marks(levels), key=_field):
        stuffed = tuple(mark.stuffed for mark in group)
        found.append(Part(place, field, levels[place : place + len(stuffed)], stuffed))
        place += len(stuffed)
    return found


def _field(mark: Mark) -> Field:
    return mark.field


def lines(frame: Frame, bitrate: int | None) -> Iterator[str]:
    """The lines for a frame: its lengths with and without intermission, and its fields with their places."""
    found = parts(frame)
    bits = sum(len(part.levels) for part in found)
    stuffed = sum(sum(part.stuffed) for part in found)
    crc = next(part.value for part in found if part.field is Field.CRC_SEQUENCE)
    yield f"frame {frame.text}"
    yield f"bits {_length(bits, bitrate)} stuff {stuffed} crc {crc:04x}"
    yield f"with intermission {_length(bits + INTERMISSION, bitrate)}"
    for part in found:
        yield f"{part.place} {_NAMES.get(part.field, part.field.name)} {part.text}"


def _length(bits: int, bitrate: int | None) -> str:
    """A number of bit times, and if there is a bit rate the microseconds that they take."""
    if bitrate is None:
        return str(bits)
    return f"{bits} microseconds {bits * 10**6 / bitrate:.3f}".rstrip("0").rstrip(".")


def _frame(text: str) -> Frame:
    """The frame of an argument."""
    try:
        what = read_line(text).what
    except BadLine as wrong:
        raise argparse.ArgumentTypeError(f"{text!r}: {wrong}; write a frame as 123#AA55 or 123#R") from wrong
    if isinstance(what, Other):
        raise argparse.ArgumentTypeError(f"{text!r}: {what.value} is not a data frame or a remote frame")
    return what


def _bitrate(text: str) -> int:
    if not (text.isascii() and text.isdigit() and int(text)):
        raise argparse.ArgumentTypeError(f"{text!r} is not a whole number above 0")
    return int(text)


def main(words: Sequence[str] | None = None) -> int:
    """Prints the fields and the length of each frame."""
    parser = argparse.ArgumentParser(
        prog="python3 -m riddlesage.frame",
        description="Prints the fields of frames, as their transmitters drive them: the place of the first level in "
        "the frame, and the levels, with stuff bits in brackets; before that the lengths, and the CRC sequence.",
    )
    parser.add_argument("frames", metavar="FRAME", nargs="+", type=_frame, help="a frame, such as 123#AA55 or 123#R")
    parser.add_argument("--bitrate", type=_bitrate, metavar="N", help="bits per second: prints microseconds too")
    options = parser.parse_args(words)
    for frame in options.frames:
        print("\n".join(lines(frame, options.bitrate)))
    return 0


if __name__ == "__main__":
    end_with(main)
