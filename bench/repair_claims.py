"""What the theorem on a disturbed bus claims about a call of `Bus::run`.

The claims follow from the pending frames and the hits: when each attempt begins, its levels on the bus, the entries of
all logs, and the counters of each port.

Standard library only, written from docs/FRAMES.md and the section "A disturbed bus" of docs/BUS.md. It has no ports, no
phases and no steps. Levels are 0 (dominant) and 1 (recessive).
"""

from __future__ import annotations

import functools
from typing import NamedTuple

DOMINANT, RECESSIVE = 0, 1
# CRC delimiter, ACK slot as acknowledged, ACK delimiter, end of frame
FIXED_FORM = [RECESSIVE, DOMINANT, RECESSIVE] + [RECESSIVE] * 7
INTERMISSION = [RECESSIVE] * 3
DELIMITER_AND_INTERMISSION = [RECESSIVE] * 11


# TEC and REC of a port
Counts = tuple[int, int]


class Frame(NamedTuple):
    """A frame of any kind."""

    extended: bool
    identifier: int
    remote: bool
    dlc: int
    data: bytes

    def text(self) -> str:
        """Its text, in the format of docs/FORMATS.md."""
        head = f"E {self.identifier:08x}" if self.extended else f"S {self.identifier:03x}"
        words = [head, "R" if self.remote else "D", str(self.dlc)]
        return " ".join(words + ([self.data.hex()] if self.data else []))


# an entry of a log: a frame, and whether it was sent
Entry = tuple[Frame, bool]


def bits(number: int, count: int) -> list[int]:
    """The lowest bits of a number, the highest of them first."""
    return [number >> place & 1 for place in reversed(range(count))]


def check_sequence(levels: list[int]) -> list[int]:
    """The CRC sequence of these levels: the remainder of a long division by the generator, fifteen bits."""
    rest = levels + [0] * 15
    for place in range(len(levels)):
        if rest[place]:
            for offset, bit in enumerate(bits(0b1100010110011001, 16)):
                rest[place + offset] ^= bit
    return rest[len(levels) :]


@functools.lru_cache(maxsize=4096)
def arbitration_field(frame: Frame) -> list[int]:
    """The levels that arbitration compares."""
    if frame.extended:
        upper, lower = bits(frame.identifier >> 18, 11), bits(frame.identifier, 18)
        return upper + [RECESSIVE, RECESSIVE] + lower + [int(frame.remote)]
    return bits(frame.identifier, 11) + [int(frame.remote), DOMINANT]


def unstuffed(frame: Frame) -> list[int]:
    """The levels from SOF to the CRC sequence, without stuff bits."""
    reserved = [DOMINANT, DOMINANT] if frame.extended else [DOMINANT]
    head = [DOMINANT] + arbitration_field(frame) + reserved + bits(frame.dlc, 4)
    for byte in frame.data:
        head += bits(byte, 8)
    return head + check_sequence(head)


class Spelled(NamedTuple):
    """The levels of a frame on the bus, the places of its stuff bits, and its window."""

    wire: list[int]
    stuffed_part: int
    stuff_places: frozenset[int]
    window: range


def is_stuff_place(levels: list[int]) -> bool:
    """Whether a stuff bit follows these levels: the last five are equal."""
    return len(levels) >= 5 and len(set(levels[-5:])) == 1


@functools.lru_cache(maxsize=4096)
def spelled(frame: Frame) -> Spelled:
    """The levels of a frame on the bus, with its places."""
    levels: list[int] = []
    stuff_places: set[int] = set()
    first = 0
    field = len(arbitration_field(frame))
    for place, level in enumerate(unstuffed(frame)):
        if is_stuff_place(levels):
            stuff_places.add(len(levels))
            levels.append(1 - levels[-1])
        levels.append(level)
        if place == field:
            first = len(levels)
    if is_stuff_place(levels):
        stuff_places.add(len(levels))
        levels.append(1 - levels[-1])
    wire = levels + FIXED_FORM
    # from the level after the arbitration field to the last but one of the end of frame
    return Spelled(wire, len(levels), frozenset(stuff_places), range(first, len(wire) - 1))


def unstuffed_length(levels: list[int]) -> int | None:
    """The number of unstuffed levels of a frame that begins with these, if they determine it."""
    if len(levels) < 14:
        return None
    rtr = 32 if levels[13] == RECESSIVE else 12
    data = rtr + 7
    if len(levels) < data:
        return None
    dlc = int("".join(map(str, levels[data - 4 : data])), 2)
    return data + (0 if levels[rtr] == RECESSIVE else 8 * min(dlc, 8)) + 15


def lateness(frame: Spelled, offset: int) -> int:
    """How many bit times after the transmitter the receivers detect an error, for a hit at this offset."""
    if offset >= frame.stuffed_part or offset in frame.stuff_places:
        return 0
    heard = frame.wire[:offset] + [1 - frame.wire[offset]]
    without = [level for place, level in enumerate(heard) if place not in frame.stuff_places]
    late = 0
    while True:
        late += 1
        # a receiver now detects an error: a sixth dominant level, or a dominant CRC delimiter
        if is_stuff_place(heard):
            if heard[-1] == DOMINANT:
                return late
        elif len(without) == unstuffed_length(without):
            return late
        else:
            without.append(DOMINANT)
        heard.append(DOMINANT)


class Attempt(NamedTuple):
    """The place of its frame, its start, the offset of its hit if any, and the delay of the receivers' error."""

    frame: int
    begin: int
    offset: int | None
    late: int


def counted(counters: Counts, sends: bool, offset: int | None, slot: int) -> Counts:
    """The counters of a port after an attempt at a frame with this ACK slot, hit at this offset or not at all."""
    tec, rec = counters
    if offset is None:
        return (max(tec - 1, 0), rec) if sends else (tec, max(rec - 1, 0))
    if sends:
        return tec + 8, rec
    return tec, (max(rec - 1, 0) if offset > slot else rec) + 1


class Claims:
    """The claims for a list of frames in the order of their priority, the port that sends each of them, and the hits.

    `hits` has the offset of each attempt that is hit.
    """

    def __init__(self, ports: int, frames: list[Frame], holders: list[int], hits: dict[int, int]) -> None:
        self.ports, self.frames, self.holders, self.hits = ports, frames, holders, hits
        self.spelled = [spelled(frame) for frame in frames]
        self.attempts: list[Attempt] = []
        self.line: list[int] = []
        hits_before = 0
        for number in range(len(frames) + len(hits)):
            self._attempt(number - hits_before, hits.get(number))
            hits_before += number in hits
        self.tallies = self._tallies()

    def _attempt(self, place: int, offset: int | None) -> None:
        frame, begin, late = self.spelled[place], len(self.line), 0
        if offset is None:
            self.line += frame.wire + INTERMISSION
        else:
            late = lateness(frame, offset)
            flags = [DOMINANT] * (6 + late)
            self.line += frame.wire[:offset] + [1 - frame.wire[offset]] + flags + DELIMITER_AND_INTERMISSION
        self.attempts.append(Attempt(place, begin, offset, late))

    def _tallies(self) -> list[list[Counts]]:
        """The counters of each port, (TEC, REC), after each number of attempts."""
        tallies: list[list[Counts]] = [[(0, 0)] * self.ports]
        for attempt in self.attempts:
            holder = self.holders[attempt.frame]
            slot = len(self.spelled[attempt.frame].wire) - 9
            tallies.append([counted(it, port == holder, attempt.offset, slot) for port, it in enumerate(tallies[-1])])
        return tallies

    def meets_premises(self) -> bool:
        """Whether each hit is in the window of its frame, and there are at most fifteen, or no counter reaches 128."""
        within = all(
            attempt.offset is None or attempt.offset in self.spelled[attempt.frame].window for attempt in self.attempts
        )
        return within and (len(self.hits) <= 15 or self.most() < 128)

    def most(self) -> int:
        """The highest counter after any number of attempts."""
        return max(max(tec, rec) for tally in self.tallies for tec, rec in tally)

    def span(self) -> int:
        """The greatest number of bit times until all frames are delivered."""
        undisturbed = sum(len(frame.wire) + 3 for frame in self.spelled)
        return undisturbed + sum(offset + 24 for offset in self.hits.values())

    def delays(self) -> list[int]:
        """For each hit the number of bit times until the next attempt begins."""
        return [18 + attempt.late for attempt in self.attempts if attempt.offset is not None]

    def level(self, time: int) -> int:
        """The level of the bus in a bit time."""
        return self.line[time] if time < len(self.line) else RECESSIVE

    def log(self, port: int) -> list[Entry]:
        """The complete log of a port: frames, and whether the port sent them."""
        return [(frame, holder == port) for frame, holder in zip(self.frames, self.holders)]
