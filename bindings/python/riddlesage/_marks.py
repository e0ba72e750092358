"""The field of each level of a frame, and its stuff bits."""

from __future__ import annotations

import ctypes
import enum
from typing import NamedTuple

from riddlesage._buffers import Buffer
from riddlesage._frames import MOST_LEVELS, demand
from riddlesage._library import lib


class Field(enum.IntEnum):
    """A field of a frame (3.2.1). RTR_OR_SRR is what RTR and SRR are if the levels end before the IDE bit."""

    START_OF_FRAME = 0
    IDENTIFIER = 1
    RTR_OR_SRR = 2
    RTR = 3
    SRR = 4
    IDE = 5
    R1 = 6
    R0 = 7
    DATA_LENGTH_CODE = 8
    DATA = 9
    CRC_SEQUENCE = 10
    CRC_DELIMITER = 11
    ACK_SLOT = 12
    ACK_DELIMITER = 13
    END_OF_FRAME = 14


class Mark(NamedTuple):
    """What a level is: its field, and whether it is a stuff bit, which has the field of the level before it."""

    field: Field
    stuffed: bool


def marks(levels: Buffer) -> list[Mark]:
    """The marks of levels that begin with a start of frame; none for those after the frame, or after a wrong stuff bit.

        >>> from riddlesage import Frame, encode, marks
        >>> [mark.field.name for mark in marks(encode(Frame(0x123)))[11:15]]
        ['IDENTIFIER', 'RTR', 'IDE', 'R0']

    If the first level is recessive, there are none. It reads at most the first 157 levels.
    """
    given = bytes(levels[:MOST_LEVELS])
    fields, stuffed = (ctypes.create_string_buffer(MOST_LEVELS) for _ in range(2))
    count = ctypes.c_size_t()
    demand(lib.riddlesage_marks(given, len(given), fields, stuffed, count))
    return [
        Mark(Field(field), bool(is_stuffed))
        for field, is_stuffed in zip(fields.raw[: count.value], stuffed.raw[: count.value])
    ]
