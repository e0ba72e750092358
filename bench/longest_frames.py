"""The length of the longest frame with given identifier, kind and DLC, for any data.

Standard library only, written from docs/FRAMES.md and the section on long frames of docs/PLANNING.md. The number of
remaining levels depends on the levels so far only through the current run of equal levels and the CRC register. So it
is computed backwards from the end, for all values of these at once.
"""

from __future__ import annotations

import functools
from operator import itemgetter
from typing import NamedTuple

from repair_claims import DOMINANT, FIXED_FORM, RECESSIVE, Frame, unstuffed

CHECK_BITS = 15
GENERATOR = 0x4599
# the next value of each CRC register below 2 ^ 14, if the generator is added after the shift
ADDED = itemgetter(*(2 * check ^ GENERATOR for check in range(1 << CHECK_BITS - 1)))
# tables that add 0, 1 or 2 to each byte
MORE = [bytes((number + more) % 256 for number in range(256)) for more in range(3)]


class Run(NamedTuple):
    """The level of the current run of equal levels, and its length."""

    level: int
    length: int


# the greatest number of remaining levels for each run, by the value of the CRC register
Row = dict[Run, bytes]


def extended(run: Run, level: int) -> tuple[Run, int]:
    """The run after one more level, and the number of levels that this adds, with its stuff bit if there is one."""
    length = run.length + 1 if level == run.level else 1
    return (Run(1 - level, 1), 2) if length == 5 else (Run(level, length), 1)


@functools.cache
def of_check(run: Run, count: int) -> bytes:
    """The length of the last `count` bits of a CRC sequence with their stuff bits, by the value of these bits."""
    if count == 0:
        return bytes(1)
    halves = []
    for level in (DOMINANT, RECESSIVE):
        then, levels = extended(run, level)
        halves.append(of_check(then, count - 1).translate(MORE[levels]))
    return b"".join(halves)


def with_level(row: Row, run: Run) -> bytes:
    """The greatest number of remaining levels after this run, if one more level of data follows."""
    sides = []
    for level in (DOMINANT, RECESSIVE):
        then, levels = extended(run, level)
        later = row[then].translate(MORE[levels])
        halves = [later[::2], bytes(ADDED(later))]
        sides.append(halves[level] + halves[1 - level])
    return bytes(map(max, *sides))


@functools.cache
def row_of(count: int) -> Row:
    """The row for this number of data bytes."""
    if count == 0:
        runs = [Run(level, length) for level in (DOMINANT, RECESSIVE) for length in range(1, 5)]
        return {run: of_check(run, CHECK_BITS) for run in runs}
    row = row_of(count - 1)
    for _ in range(8):
        row = {run: with_level(row, run) for run in row}
    return row


def longest_wire(frame: Frame) -> int:
    """The greatest number of levels of a frame with this identifier, kind and DLC."""
    levels = unstuffed(frame._replace(data=b""))
    head, check = levels[:-CHECK_BITS], int("".join(map(str, levels[-CHECK_BITS:])), 2)
    run, count = Run(DOMINANT, 0), 0
    for level in head:
        run, more = extended(run, level)
        count += more
    byte_count = 0 if frame.remote else min(frame.dlc, 8)
    return count + row_of(byte_count)[run][check] + len(FIXED_FORM)
