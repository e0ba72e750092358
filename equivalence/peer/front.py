"""Frames as words, and what has been received of a frame's stuffed part, level by level."""

from __future__ import annotations

from dataclasses import dataclass

from holding.gates import FALSE
from peer.graph import Graph, Word, constant

PLACES = 103  # levels of the longest frame, from the start of frame to the end of its data
IDE_PLACE = 13
CHECK_LEVELS = 15
GENERATOR = 0x4599


@dataclass
class Frame:
    """A frame's fields as words; byte k of its data is at [8*k +: 8]."""

    extended: Word
    remote: Word
    identifier: Word
    dlc: Word
    data: Word

    def levels(self, graph: Graph) -> Word:
        """The level at each position, up to and including the end of the longest data field."""
        control = [*self.remote, FALSE, FALSE, *reversed(self.dlc)]
        data = [self.data[place ^ 7] for place in range(64)]  # a byte is sent most significant bit first
        standard = [FALSE, *reversed(self.identifier[:11]), *control, *data]
        middle = [*reversed(self.identifier[18:]), 1, 1, *reversed(self.identifier[:18])]
        extended = [FALSE, *middle, *control, *data]
        standard += [FALSE] * (PLACES - len(standard))
        return graph.select(self.extended[0], extended, standard)

    def chosen(self, graph: Graph, test: int, other: Frame) -> Frame:
        """The frame itself if the test is true, otherwise the other one."""
        pairs = zip(vars(self).values(), vars(other).values())
        return Frame(*(graph.select(test, a, b) for a, b in pairs))


def byte_count(graph: Graph, frame: Frame) -> Word:
    """The number of its data bytes."""
    limited = graph.select(frame.dlc[3], constant(8, 4), frame.dlc)
    return graph.select(frame.remote[0], constant(0, 4), limited)


def data_end(graph: Graph, frame: Frame) -> Word:
    """The position after its data."""
    head = graph.select(frame.extended[0], constant(39, 7), constant(19, 7))
    return graph.sum(head, [FALSE] * 3 + byte_count(graph, frame))[0]


def heard_frame(graph: Graph, levels: Word) -> Frame:
    """The frame that has these levels."""
    extended = levels[IDE_PLACE]

    def field(standard: Word, long: Word) -> Word:
        return graph.select(extended, long, standard)

    base, low = levels[11:0:-1], levels[31:13:-1]
    data = [8 * (place // 8) + 7 - place % 8 for place in range(64)]
    return Frame(
        [extended],
        field([levels[12]], [levels[32]]),
        field(base + [FALSE] * 18, low + base),
        field(levels[18:14:-1], levels[38:34:-1]),
        field([levels[19 + place] for place in data], [levels[39 + place] for place in data]),
    )


def masked(graph: Graph, frame: Frame) -> Frame:
    """The frame with 0 for the data bytes past its length."""
    many = byte_count(graph, frame)
    there = [graph.is_under(many, byte + 1) ^ 1 for byte in range(8)]
    data = [graph.both(literal, there[place // 8]) for place, literal in enumerate(frame.data)]
    return Frame(frame.extended, frame.remote, frame.identifier, frame.dlc, data)


@dataclass
class Front:
    """What has been received of a stuffed part."""

    levels: Word
    count: Word
    last: int
    run: Word
    check: Word

    def words(self) -> list[Word]:
        """Its words, in their order."""
        return [self.levels, self.count, [self.last], self.run, self.check]

    def is_stuff_due(self, graph: Graph) -> int:
        """Whether the last five levels are equal, so that a stuff bit is next."""
        return graph.is_number(self.run, 5)

    def hearing(self, graph: Graph, level: int) -> Front:
        """The front after one more level."""
        due = self.is_stuff_due(graph)
        differs = graph.differ(level, self.last)
        seen = graph.both(level, due ^ 1)
        at = [graph.is_number(self.count, place) for place in range(PLACES)]
        levels = [graph.either(old, graph.both(seen, here)) for old, here in zip(self.levels, at)]
        feedback = graph.differ(self.check[0], level)
        shifted = [*self.check[1:], FALSE]
        taps = [GENERATOR >> 14 - place & 1 for place in range(CHECK_LEVELS)]
        check = [graph.differ(old, graph.both(feedback, tap)) for old, tap in zip(shifted, taps)]
        return Front(
            levels,
            graph.select(due, self.count, graph.more(self.count)),
            level,
            graph.select(graph.either(due, differs), constant(1, 4), graph.more(self.run)),
            graph.select(due, self.check, check),
        )

    def chosen(self, graph: Graph, begins: int, hears: int, heard: Front) -> Front:
        """An initial front if a frame begins, the next one if a level is received, otherwise this one."""
        first = Front([FALSE] * PLACES, constant(1, 7), FALSE, constant(1, 4), [FALSE] * CHECK_LEVELS)
        rows = zip(self.words(), heard.words(), first.words())
        made = [graph.select(begins, z, graph.select(hears, y, x)) for x, y, z in rows]
        return Front(made[0], made[1], made[2][0], made[3], made[4])

    def is_whole(self, graph: Graph) -> int:
        """Whether the stuffed part has ended: the CRC sequence is complete, and no stuff bit is due."""
        end = graph.sum(data_end(graph, heard_frame(graph, self.levels)), constant(CHECK_LEVELS, 7))[0]
        return graph.both(graph.is_equal(self.count, end), self.is_stuff_due(graph) ^ 1)

    def next_sent(self, graph: Graph, own: Word) -> int:
        """The next level of the frame with these levels, if no stuff bit is due.

        After the data it is that of the CRC register: a transmitter has received its own levels.
        """
        in_head = graph.is_below(self.count, data_end(graph, heard_frame(graph, own)))
        return graph.choose(in_head, graph.item(own, self.count), self.check[0])

    def in_arbitration(self, graph: Graph, own: Word) -> int:
        """Whether the next level belongs to the arbitration field of the frame with these levels."""
        return graph.choose(own[IDE_PLACE], graph.is_under(self.count, 33), graph.is_under(self.count, 13))
