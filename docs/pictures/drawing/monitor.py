"""A monitor in a test bench, and its ports.

The picture is in bindings/README.md.
"""

from __future__ import annotations

import re

from drawing.recorded import asked, text_of
from drawing.svg import ACCENT, BAD, INK, PANEL, SOFT, Picture

SOURCE = "bindings/verilog/riddlesage_monitor.v"
WIDTH, HEIGHT = 1000, 430
# the ports of the monitor in Verilog, as the picture names them
PORTS = ("clk", "reset", "integrating", "sample", "drive", "bus", "own_tec", "own_rec", "own_event_code", "own_frame")
OUTPUTS = ("due", "event_code", "frame", "differs")
ABOUT = """\
A test bench with two blocks side by side. On the left is your controller, the design under test. On the \
right is riddlesage_monitor, with a golden node and a comparison. The bus leads to both. The level that \
the controller drives leads to the monitor's port drive. The controller's error counters, event and \
frame lead to own_tec, own_rec, own_event_code and own_frame, which are optional. The test bench gives \
clk, reset, integrating and sample, and offers each frame to both. The monitor's outputs are due, \
event_code, frame and differs."""


def declared() -> None:
    """Refuses to draw ports that the monitor doesn't have."""
    head = text_of(SOURCE).partition(");")[0]
    found = re.findall(r"^\s*(input|output)\s+(?:wire|reg)\s+(?:\[\d+:\d+\])?\s*(\w+)", head, re.M)
    ports = tuple(name for way, name in found if way == "input"), tuple(name for way, name in found if way == "output")
    asked(ports == (PORTS, OUTPUTS), f"the ports of {SOURCE} are {ports}")


def draw_blocks(picture: Picture) -> None:
    """The bench, the controller, and the monitor."""
    picture.box(12, 12, WIDTH - 24, HEIGHT - 24, PANEL, "#8a939c", 10)
    picture.text(28, 36, "Your test bench", 14, kind="b")
    picture.box(40, 116, 200, 220, "#fff", INK, 6)
    picture.text(56, 142, "Your controller", 13, kind="b")
    picture.note(56, 160, "design under test")
    picture.box(440, 116, 330, 220, "#eef4fb", ACCENT, 6)
    picture.text(754, 142, "riddlesage_monitor", 12, "end", "bm")
    picture.box(590, 160, 164, 64, "#fff", ACCENT, 4)
    picture.text(672, 182, "golden node", 12, "middle", "b")
    picture.note(672, 199, "queue, controller, log:", "what the rules demand", at="middle")
    picture.box(590, 266, 164, 50, "#fff", ACCENT, 4)
    picture.text(672, 287, "compare", 12, "middle", "b")
    picture.note(672, 304, "in each bit time", at="middle")
    picture.arrow([(672, 224), (672, 266)], ACCENT)


def draw_inputs(picture: Picture) -> None:
    """What the bench gives to both: clock and strobe, and the frames to send."""
    picture.box(252, 32, 176, 44, "#fff", SOFT, 4)
    picture.note(340, 50, "clock, reset, strobe", "at the sample point", at="middle")
    picture.arrow([(252, 54), (140, 54), (140, 116)])
    picture.arrow([(428, 54), (505, 54), (505, 116)])
    picture.text(513, 84, "clk reset integrating sample", 12, kind="m")
    picture.box(285, 128, 110, 28, "#fff", SOFT, 4)
    picture.note(340, 146, "frames to send", at="middle")
    picture.arrow([(285, 142), (240, 142)])
    picture.arrow([(395, 142), (440, 142)])
    picture.text(450, 146, "offer(frame)", 12, kind="m")


def draw_compared(picture: Picture) -> None:
    """What the controller drives and reports, and the bus."""
    for y, own, ports, about in (
        (186, "TEC, REC", "own_tec own_rec", "with COUNTERS"),
        (236, "event, frame", "own_event_code own_frame", "with EVENTS"),
    ):
        picture.text(230, y + 4, own, 11, "end")
        picture.arrow([(240, y), (440, y)], INK, 1.5, "6 4")
        picture.note(340, y - 6, about, at="middle")
        picture.text(450, y + 4, ports, 12, kind="m")
    picture.text(230, 294, "tx", 11, "end")
    picture.arrow([(240, 290), (440, 290)])
    picture.text(450, 294, "drive", 12, kind="m")
    picture.line([(340, 290), (340, 384)], INK, 1.5)
    picture.box(337, 287, 6, 6, INK, corner=3)
    picture.line([(40, 384), (770, 384)], INK, 3)
    picture.note(40, 404, "CAN bus: dominant if any node drives dominant. Other nodes, error injection.")
    for x, name in ((140, "rx"), (505, "bus")):
        picture.arrow([(x, 384), (x, 336)])
        picture.text(x + 8, 328, name, 12, kind="m")


def draw_outputs(picture: Picture) -> None:
    """What the monitor gives."""
    for y, name, about, colour in (
        (150, "due", "the level to be driven", INK),
        (192, "event_code", "the event of the bit time", INK),
        (234, "frame", "the last frame received or sent", INK),
        (291, "differs", "with ENDS off; otherwise the", BAD),
    ):
        picture.arrow([(770, y), (800, y)], colour)
        picture.text(806, y + 4, name, 12, kind="bm", colour=colour)
        picture.note(806, y + 19, about)
    picture.note(806, 323, "simulation ends, with the rule")


def picture() -> Picture:
    """The picture."""
    declared()
    drawn = Picture(WIDTH, HEIGHT, "A monitor beside a design under test", ABOUT)
    draw_blocks(drawn)
    draw_inputs(drawn)
    draw_compared(drawn)
    draw_outputs(drawn)
    return drawn
