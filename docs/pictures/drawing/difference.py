"""A run in which a design with a mutation differs from the circuit, as `hold --play` writes it.

The picture is in equivalence/README.md.
"""

from __future__ import annotations

import re

from drawing.recorded import asked, text_of
from drawing.svg import BAD, GREEN, GREY, INK, LILAC, ORANGE, PINK, RED, RULE, SOFT, YELLOW, Picture
from drawing.waves import draw_wave

WAVES = "docs/pictures/recorded/difference.waves"
NAMES = "docs/NAMES.md"
CELL, LEFT, HIGH, BAND = 32, 124, 22, 34
# the upper edge of each row
AXIS, TESTER, BUS, CIRCUIT, DESIGN, WIRING, NOTES = 20, 54, 92, 170, 314, 458, 540
PHASE, EVENT = 32, 76  # below the levels that a controller drives
COLOURS = {
    "idle": "#fff",
    "stuffed-part": GREEN,
    "error-flag": RED,
    "after-flag": GREY,
    "delimiter": GREY,
    "intermission": LILAC,
    "overload-flag": PINK,
}
LOST = 3
LINES = {"intermission": ["inter-", "mission"]}
ABOUT = """\
Waves of the circuit and of a design with a mutation over bit times 0 to 26. Both start a frame in bit time 0, lose \
arbitration in 2, detect a stuff error in 8, and send an error flag from 9 to 14. In 24 the tester \
drives the second bit of intermission dominant. There the circuit has the event overload, and it sends an \
overload flag from 25 on. The design is in the stuffed part of a frame in 25, and in 26 it drives recessive. \
Events are compared one bit time later: event_code is 9 in 25, dut.event_code is 0, and same_event is 0."""


def printed(kind: str) -> dict[int, str]:
    """The names of phases or events, as verdicts print them."""
    section = text_of(NAMES).partition(f"## {kind}\n")[2].partition("\n## ")[0]
    return {int(number): name for number, name in re.findall(r"^\|(\d+)\|`.*?`\|`.*?`\|`(.*?)`\|", section, re.M)}


def data() -> dict[str, list[int]]:
    """The value of each signal in each bit time, without the reset before them."""
    lines = [it.split(" ") for it in text_of(WAVES).splitlines()]
    found = {name: [int(it) for it in values[1:]] for name, *values in lines}
    times = found["run.bit_time"]
    asked(times == list(range(27)), f"{WAVES}: not the bit times 0 to 26")
    return found


def differs(signals: dict[str, list[int]]) -> int:
    """The bit time that differs. What the notes say of it and of the one before is in the waves."""
    asked(0 in signals["same_event"], f"{WAVES}: nothing differs")
    at = signals["same_event"].index(0)
    before, phases = at - 1, printed("Phases")
    for name in ("gates", "dut"):
        asked(phases[signals[f"{name}.phase"][before]] == "intermission", f"{name} is not in intermission")
        asked(signals[f"{name}.place"][before] == 1, f"{name} is not in the second bit of intermission")
        asked(signals[f"{name}.drive"][before] == 1, f"{name} drives dominant in it")
    asked(signals["run.tester"][before] == 0, "the tester does not drive it dominant")
    asked(phases[signals["gates.phase"][at]] == "overload-flag", "the circuit sends no overload flag")
    asked(signals["dut.is_sender"][at] == 1 and signals["gates.sender"][at] == 0, "the design does not transmit alone")
    asked(signals["event_code"][1:] == signals["gates.event_code"][:-1], "event_code is not one bit time later")
    return at


def at(time: float) -> float:
    """Where a bit time begins."""
    return LEFT + time * CELL


def levels(values: list[int]) -> str:
    """Values as levels."""
    return "".join(map(str, values))


def draw_phases(picture: Picture, top: int, values: list[int]) -> None:
    """The phases of a controller, each with its name."""
    names, first = printed("Phases"), 0
    for end in range(1, len(values) + 1):
        if end < len(values) and values[end] == values[first]:
            continue
        name, middle = names[values[first]], (at(first) + at(end)) / 2
        picture.box(at(first), top, (end - first) * CELL, BAND, COLOURS[name], INK)
        lines = [name]
        if 7 * len(name) > (end - first) * CELL:
            lines = LINES.get(name) or re.findall(r"\w+-?", name)
        for row, line in enumerate(lines):
            picture.text(middle, top + (21 if len(lines) == 1 else 15 + 13 * row), line, 11, "middle")
        first = end


def draw_events(picture: Picture, top: int, values: list[int], shown: int = -1) -> None:
    """The events of a controller: codes, and their names besides. One is shown even if it is nothing."""
    names, last = {**printed("Events"), LOST: "arbitration lost"}, len(values) - 1
    picture.line([(at(0), top + HIGH / 2), (at(last + 1), top + HIGH / 2)], RULE, 1.6)
    for time, value in enumerate(values):
        if value or time == shown:
            picture.box(at(time), top, CELL, HIGH, YELLOW if value else "#fff", INK)
            picture.text(at(time) + CELL / 2, top + 15, str(value), 12, "middle", "m")
            x, width = at(time + 1) + 6, 7 * len(names[value]) + 4
            if time > last - 3:
                picture.box(at(time) - 4 - width, top + 2, width, HIGH - 4, "#fff")
                picture.text(at(time) - 6, top + 15, names[value], 11, "end")
            else:
                picture.box(x - 2, top + 2, width, HIGH - 4, "#fff")
                picture.text(x, top + 15, names[value], 11)


def heading(picture: Picture, top: int, title: str, words: str) -> None:
    """The title of some rows, with a line above it."""
    picture.line([(12, top - 32), (at(27), top - 32)], RULE)
    picture.text(12, top - 12, title, 13, kind="b")
    picture.note(LEFT, top - 12, words)


def draw_controller(picture: Picture, top: int, name: str, signals: dict[str, list[int]], shown: int) -> None:
    """What a controller drives, its phases, and its events."""
    for below, signal in ((15, "drive"), (PHASE + 21, "phase"), (EVENT + 15, "event_code")):
        picture.text(12, top + below, f"{name}.{signal}", 11, kind="m")
    draw_wave(picture, levels(signals[f"{name}.drive"]), LEFT, top, CELL, HIGH)
    draw_phases(picture, top + PHASE, signals[f"{name}.phase"])
    draw_events(picture, top + EVENT, signals[f"{name}.event_code"], shown)


def draw_bus(picture: Picture, signals: dict[str, list[int]], time: int) -> None:
    """What the tester drives, and the bus with its levels as digits."""
    for top, words, name in ((TESTER, "Tester", "run.tester"), (BUS, "Bus", "bus")):
        picture.text(12, top + 15, words, 13, kind="b")
        draw_wave(picture, levels(signals[name]), LEFT, top, CELL, HIGH)
    for place, level in enumerate(signals["bus"]):
        picture.text(at(place) + CELL / 2, BUS + HIGH + 14, str(level), 11, "middle", "m", SOFT)
    picture.text(at(time - 1) - 8, TESTER + 17, "dominant in the second bit of intermission", 11, "end")


def draw_wiring(picture: Picture, signals: dict[str, list[int]]) -> None:
    """The wiring's register with the circuit's event, and whether it is that of the design."""
    picture.text(12, WIRING + 15, "event_code", 11, kind="m")
    draw_events(picture, WIRING, signals["event_code"])
    picture.text(12, WIRING + 47, "same_event", 11, kind="m")
    draw_wave(picture, levels(signals["same_event"]), LEFT, WIRING + 32, CELL, HIGH, BAD)


def draw_axis(picture: Picture, times: list[int], time: int) -> None:
    """The numbers of the bit times; the one that differs is marked."""
    picture.box(at(time), AXIS + 8, CELL, WIRING + 62 - AXIS - 8, ORANGE)
    picture.line([(at(time - 1), TESTER - 6), (at(time - 1), WIRING + 62)], SOFT, 0.8, "3 3")
    picture.note(12, AXIS, "bit time")
    for place in times:
        kind, colour = ("bm", BAD) if place == time else ("m", SOFT)
        picture.text(at(place) + CELL / 2, AXIS, str(place), 11, "middle", kind, colour)
    picture.text(at(time) - 8, AXIS + 22, f"fail at {time}: the event differs", 11, "end", colour=BAD)


def picture() -> Picture:
    """The picture."""
    signals = data()
    time = differs(signals)
    drawn = Picture(int(at(27)) + 12, NOTES + 28, "A design with a mutation differs from the circuit", ABOUT)
    draw_axis(drawn, signals["run.bit_time"], time)
    draw_bus(drawn, signals, time)
    heading(drawn, CIRCUIT, "Circuit", "the verified controller")
    draw_controller(drawn, CIRCUIT, "gates", signals, -1)
    heading(drawn, DESIGN, "Design", "with the mutation BREAK_INTERMISSION; it reports an event one bit time later")
    draw_controller(drawn, DESIGN, "dut", signals, time)
    heading(drawn, WIRING, "Wiring", "its register event_code has the circuit's event of the bit time before")
    draw_wiring(drawn, signals)
    drawn.note(
        12,
        NOTES,
        f"Bit time {time - 1}: the circuit has an overload condition, and sends an overload flag.",
        "The design takes the dominant bit for a start of frame, and transmits its pending frame.",
    )
    return drawn
