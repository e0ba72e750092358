"""A bit error that both nodes see: their error flags, and the frame once more.

The picture is in docs/BUS.md.
"""

from __future__ import annotations

from typing import NamedTuple

from drawing.recorded import Transcript, asked, text_of, transcripts
from drawing.svg import BAD, GREY, INK, LILAC, ORANGE, RED, RULE, SOFT, Picture
from drawing.waves import Band, bands, draw_wave, stuff_places

REPORT = "examples/scenarios/bit_error.report"
EXPECTED = "docs/pictures/recorded/two_nodes.expected"
SHOWN, CELL, LEFT, HIGH = 59, 15, 92, 28
# the upper edge of each wave
NODES, BUS = (96, 178), 262
ABOUT = """\
Three waves over bit times 0 to 58. Node 0 transmits the frame S 000 D 0. In bit time 16, at the \
reserved bit, the bus level is inverted to recessive. Node 0 has a bit error there and drives six \
dominant levels from 17 on. Node 1 has a stuff error in bit time 22, the sixth dominant level in a row, \
and drives six dominant levels from 23 on. From 29 on the bus has eight recessive levels of error \
delimiter and three of intermission. Node 0 sends the frame again from bit time 40 on."""


class Times(NamedTuple):
    """When what happens: the hit, the second error, the end of the flags, and the second attempt."""

    hit: int
    late: int
    flags_end: int
    again: int


def data() -> tuple[str, list[Transcript], Times]:
    """The recorded levels, the nodes, and when what happens; all of it agrees with the scenario's report."""
    bus, nodes = text_of(REPORT).splitlines()[1], transcripts(text_of(EXPECTED))
    wired = "".join(min(levels) for levels in zip(*(node.drove for node in nodes)))
    hits = [time for time, levels in enumerate(zip(wired, bus)) if levels[0] != levels[1]]
    errors = [min(time for time, event in node.events.items() if event.endswith(" error")) for node in nodes]
    asked(len(hits) == 1 and hits[0] == errors[0], f"{EXPECTED} and {REPORT} differ")
    flags_end = bus.index("1", errors[1])
    again = bus.index("0", flags_end)
    asked(bus[flags_end:again] == "1" * 11, "no eleven recessive levels after the flags")
    return bus, nodes, Times(hits[0], errors[1], flags_end, again)


def at(time: int) -> int:
    """Where a bit time begins."""
    return LEFT + time * CELL


def draw_axis(picture: Picture, marks: list[int]) -> None:
    """Numbers of bit times, and a line down at each mark."""
    for time in range(0, SHOWN, 10):
        picture.text(at(time) + CELL / 2, 20, str(time), 11, "middle", "m", SOFT)
    picture.note(12, 20, "bit time")
    for time in marks:
        end = BUS + HIGH + (66 if time in (marks[0], marks[-1]) else 24)
        picture.line([(at(time), 58), (at(time), end)], SOFT, 0.8, "3 3")


def draw_bands(picture: Picture, fields: list[Band]) -> None:
    """The fields of the frames, and what is between them."""
    for band in fields:
        end = min(band.end, SHOWN)
        middle = (at(band.first) + at(end)) / 2
        picture.box(at(band.first), 28, (end - band.first) * CELL, 28, band.colour, "#fff")
        if end - band.first == 1:
            picture.text(middle + 3.5, 42, band.name, 10, "middle", "t")
        else:
            picture.text(middle, 46, band.name, 11, "middle")


def draw_node(picture: Picture, top: int, name: str, role: str, levels: str, flag: int) -> None:
    """What a node drives: its flag begins in a bit time, and has six levels."""
    picture.text(12, top + 10, name, 13, kind="b")
    picture.note(12, top + 26, role)
    picture.box(at(flag), top - 6, 6 * CELL, HIGH + 12, RED)
    picture.text(at(flag + 3), top + 12, "error flag", 11, "middle")
    draw_wave(picture, levels[:SHOWN], LEFT, top, CELL, HIGH)


def draw_event(picture: Picture, time: int, top: int, words: str) -> None:
    """What a node reports in a bit time."""
    x = at(time) + CELL / 2
    picture.area([(x, top), (x - 5, top + 8), (x + 5, top + 8)], BAD)
    picture.text(x - 8, top + 9, words, 10, "end", colour=BAD)


def draw_bus(picture: Picture, bus: str, times: Times) -> None:
    """The bus, with its levels as digits, the hit and the stuff bits."""
    picture.text(12, BUS + 10, "Bus", 13, kind="b")
    picture.note(12, BUS + 26, "recorded")
    picture.box(at(times.hit), BUS - 6, CELL, HIGH + 30, ORANGE)
    picture.text(at(times.hit) - 5, BUS + 12, "hit", 11, "end", "b")
    for start in (0, times.again):
        end = times.hit if start == 0 else SHOWN
        for place in stuff_places(bus[start:end]):
            picture.hatch(at(start + place), BUS, CELL, HIGH)
    draw_wave(picture, bus[:SHOWN], LEFT, BUS, CELL, HIGH)
    for time, level in enumerate(bus[:SHOWN]):
        picture.text(at(time) + CELL / 2, BUS + HIGH + 18, level, 11, "middle", "m")


def draw_spans(picture: Picture, times: Times) -> None:
    """How long after the hit the second error and the next attempt come."""
    top = BUS + HIGH + 38
    left, late, again = at(times.hit), times.late - times.hit, times.again - times.hit
    asked(again == 18 + late, "the next attempt does not begin 18 + j bit times after the hit")
    picture.arrow([(left, top), (at(times.late), top)], INK, 1.2, both=True)
    picture.text(left - 8, top + 4, f"node 1 detects the error j = {late} bit times later", 11, "end")
    picture.arrow([(left, top + 20), (at(times.again), top + 20)], INK, 1.2, both=True)
    picture.text(left - 8, top + 24, f"the next attempt begins 18 + j = {again} bit times later", 11, "end")


def picture() -> Picture:
    """The picture."""
    bus, nodes, times = data()
    drawn = Picture(at(SHOWN) + 12, BUS + HIGH + 76, "A bit error, both error flags, and the frame sent again", ABOUT)
    first = bands(bus[times.again :], 0)
    kept = [it._replace(end=min(it.end, times.hit + 1)) for it in first if it.first <= times.hit]
    between = [
        Band("flag of node 0", RED, times.hit + 1, times.late + 1),
        Band("flag of node 1", RED, times.late + 1, times.flags_end),
        Band("error delimiter", GREY, times.flags_end, times.flags_end + 8),
        Band("interm.", LILAC, times.again - 3, times.again),
    ]
    again = [it for it in bands(bus[times.again :], times.again) if it.first < SHOWN]
    draw_bands(drawn, [*kept, *between, *again])
    for top, node, role, flag in zip(NODES, nodes, ("transmitter", "receiver"), (times.hit, times.late)):
        draw_node(drawn, top, f"Node {NODES.index(top)}", role, node.drove, flag + 1)
        tec, rec = node.counters[flag]
        draw_event(drawn, flag, top + HIGH + 8, f"{node.events[flag]}: " + (f"TEC {tec}" if tec else f"REC {rec}"))
    draw_bus(drawn, bus, times)
    draw_axis(drawn, [times.hit, times.late + 1, times.flags_end, times.again])
    draw_spans(drawn, times)
    drawn.line([(LEFT, NODES[1] - 22), (at(SHOWN), NODES[1] - 22)], RULE)
    drawn.line([(LEFT, BUS - 22), (at(SHOWN), BUS - 22)], RULE)
    return drawn
