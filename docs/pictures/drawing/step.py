"""The waveform of some steps of the circuit.

The picture is in docs/CIRCUIT.md.
"""

from __future__ import annotations

from drawing.recorded import asked, text_of
from drawing.svg import BLUE, GREY, INK, ORANGE, RED, RULE, SOFT, Picture, Point
from drawing.waves import draw_wave

WAVES = "docs/pictures/recorded/step.waves"
CELL, LEFT, TOP, ROW, HIGH = 92, 92, 56, 42, 22
ABOUT = """\
Eight clock cycles, two for each of four bit times: idle, SOF, ID 10 and ID 9. The enable input is 1 in \
the second cycle of each bit time. A frame is pending from the third cycle on. The controller drives \
dominant in the third and fourth cycle, and recessive afterwards. The bus is dominant from the third to \
the sixth cycle. The event is 3, arbitration lost, in the sixth cycle, and 0 otherwise. The register \
sender is 1 in the fifth and sixth cycle."""
BANDS = [("idle", GREY), ("SOF", RED), ("ID 10", BLUE), ("ID 9", BLUE)]


def rows() -> dict[str, list[str]]:
    """The value of each signal in each cycle."""
    lines = [it.split() for it in text_of(WAVES).splitlines() if it and not it.startswith("#")]
    asked(all(len(it) == 9 for it in lines), f"{WAVES}: not eight cycles")
    return {it[0]: it[1:] for it in lines}


def draw_vector(picture: Picture, values: list[str], top: float) -> None:
    """The values of a vector: two lines that cross where it changes."""
    for cycle, value in enumerate(values):
        changes = cycle > 0 and values[cycle - 1] != value
        x, end = LEFT + cycle * CELL, LEFT + (cycle + 1) * CELL
        left = x + 4 if changes else x
        fill = ORANGE if value != "0" else "#fff"
        right = end - 4 if cycle + 1 < len(values) and values[cycle + 1] != value else end
        edge: list[Point] = [(left, top), (right, top), (right, top + HIGH), (left, top + HIGH)]
        picture.area(edge, fill)
        for first, second in ((top, top + HIGH), (top + HIGH, top)):
            picture.line([*([(x - 4, first)] if changes else []), (left, second), (right, second)], INK, 1.6)
        picture.text((x + end) / 2, top + 15, value, 12, "middle", "m")


def draw_grid(picture: Picture, count: int) -> None:
    """The bit times, and a line at each rising edge; where the bus is sampled it is shaded."""
    bottom = TOP + count * ROW
    picture.text(12, 28, "bit time", 12, colour=SOFT)
    for time, (name, colour) in enumerate(BANDS):
        x = LEFT + 2 * time * CELL
        picture.box(x, 12, 2 * CELL, 24, colour, "#fff")
        picture.text(x + CELL, 28, name, 12, "middle")
        picture.box(x + CELL, 40, CELL, bottom - 40, "#f4f6f8")
    for edge in range(9):
        picture.line([(LEFT + edge * CELL, 40), (LEFT + edge * CELL, bottom)], RULE, 1, "" if edge % 2 == 0 else "3 3")


def picture() -> Picture:
    """The picture."""
    signals = rows()
    names = list(signals)
    drawn = Picture(LEFT + 8 * CELL + 14, TOP + (len(names) + 1) * ROW + 28, "Four bit times of the circuit", ABOUT)
    draw_grid(drawn, len(names) + 1)
    drawn.text(12, TOP + 16, "clock", 12, kind="m")
    draw_wave(drawn, "10" * 8, LEFT, TOP, CELL / 2, HIGH)
    for row, name in enumerate(names, 1):
        top = TOP + row * ROW
        drawn.text(12, top + 16, name, 12, kind="m")
        values = signals[name]
        if set(values) - {"0", "1"}:
            draw_vector(drawn, values, top)
        else:
            draw_wave(drawn, "".join(values), LEFT, top, CELL, HIGH, slope=4)
    words = "Shaded: the cycle with enable, in which the bus is sampled. Event 3: arbitration lost. sender: a register."
    drawn.note(LEFT, TOP + (len(names) + 1) * ROW + 14, words)
    return drawn
