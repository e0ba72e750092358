"""The busy period of a message, as a Gantt chart.

The picture is in docs/PLANNING.md.
"""

from __future__ import annotations

import re
from typing import NamedTuple

from drawing.recorded import asked, text_of
from drawing.svg import BLUE, GREEN, INK, ORANGE, RULE, SOFT, Picture

# the worst case of the message, and what it puts on the bus, as `canbit decode` finds it
SCENARIO = "docs/pictures/recorded/busy_period.scenario"
FRAMES = "docs/pictures/recorded/busy_period.frames"
ANSWER = "examples/networks/davis.answer"
LEFT, SCALE, TOP, ROW, HIGH = 104, 0.96, 54, 66, 26
COLOURS = (BLUE, GREEN, ORANGE)
ABOUT = """\
A chart of three messages over 852 bit times. All are queued at 0. On the bus are the frames of S 100 \
from 0, S 200 from 122, S 300 from 243, S 100 from 365, S 200 from 487, S 100 from 608, and S 300 from \
730 to the end of the busy period at 852. The first frame of S 300 has the response time 362, the \
second, which is queued at 427, 422."""


class Frame(NamedTuple):
    """A frame: its message, when it is queued and starts, and when its intermission is over."""

    message: str
    queued: int
    start: int
    end: int


def data() -> tuple[list[Frame], dict[str, int], int]:
    """The frames on the bus, the bounds of the messages, and the end of the busy period. It begins at 0."""
    answers = re.findall(r"^(\w \w+ \w) \d+ longest (\d+) blocking \d+ bound (\d+)", text_of(ANSWER), re.M)
    lengths = {message: int(longest) for message, longest, _ in answers}
    queues: dict[str, list[int]] = {}
    for time, message in re.findall(r'\[(\d+), "(\w \w+ \w) ', text_of(SCENARIO)):
        queues.setdefault(message, []).append(int(time) - 1)
    frames = []
    for time, message in re.findall(r"^(\d+) (\w \w+ \w) .* ack$", text_of(FRAMES), re.M):
        start = int(time) - 1
        frames.append(Frame(message, queues[message].pop(0), start, start + lengths[message]))
    asked(not any(queues.values()), "a frame that is queued is not on the bus")
    asked(all(one.end == two.start for one, two in zip(frames, frames[1:])), "the frames don't follow one another")
    return frames, {message: int(bound) for message, _, bound in answers}, frames[-1].end


def at(time: float) -> float:
    """Where a time is."""
    return LEFT + time * SCALE


def draw_frame(picture: Picture, frame: Frame, row: int) -> None:
    """When a frame is queued, waits, and is on the bus."""
    top = TOP + row * ROW
    picture.box(at(frame.queued), top + 9, at(frame.start) - at(frame.queued), 8, RULE)
    picture.box(at(frame.start), top, at(frame.end) - at(frame.start), HIGH, COLOURS[row], INK)
    picture.text((at(frame.start) + at(frame.end)) / 2, top + 17, f"{frame.start}", 12, "middle", "m")
    picture.arrow([(at(frame.queued), top - 16), (at(frame.queued), top + 8)], INK, 1.5)
    if frame.queued:
        picture.text(at(frame.queued) + 6, top - 8, str(frame.queued), 11, kind="m", colour=SOFT)


def draw_response(picture: Picture, frame: Frame, row: int, bound: int) -> None:
    """The response time of a frame: from when it is queued to the end of its wire."""
    y = TOP + row * ROW + HIGH + 14
    time = frame.end - 3 - frame.queued
    picture.arrow([(at(frame.queued), y), (at(frame.end - 3), y)], SOFT, 1.2, both=True)
    words = f"response time {time}" + (", the bound" if time == bound else "")
    picture.text((at(frame.queued) + at(frame.end)) / 2, y + 16, words, 11, "middle")


def draw_bus(picture: Picture, frames: list[Frame], names: list[str], end: int) -> None:
    """What is on the bus, with the times below."""
    top = TOP + len(names) * ROW + 44
    picture.text(12, top + 18, "on the bus", 13, kind="b")
    for frame in frames:
        x, width = at(frame.start), at(frame.end) - at(frame.start)
        picture.box(x, top, width, HIGH, COLOURS[names.index(frame.message)], INK)
        picture.text(x + width / 2, top + 17, frame.message.rsplit(" ", 1)[0], 12, "middle", "m")
        picture.text(x, top + HIGH + 16, str(frame.start), 11, "middle", "m", SOFT)
    picture.text(at(end), top + HIGH + 16, str(end), 11, "middle", "m", SOFT)
    picture.note(12, top + HIGH + 16, "bit times")


def picture() -> Picture:
    """The picture."""
    frames, bounds, end = data()
    names = list(bounds)
    drawn = Picture(int(at(end)) + 24, TOP + len(names) * ROW + 124, "The busy period of S 300 D", ABOUT)
    drawn.note(LEFT, 20, "Arrow down: a frame is queued. Grey: it waits. Box: it is on the bus, with its start.")
    for edge in sorted({0, end} | {frame.start for frame in frames}):
        drawn.line([(at(edge), 44), (at(edge), TOP + len(names) * ROW + 44)], RULE, 1, "3 3")
    for row, name in enumerate(names):
        drawn.text(12, TOP + row * ROW + 18, name.rsplit(" ", 1)[0], 13, kind="bm")
    for frame in frames:
        draw_frame(drawn, frame, names.index(frame.message))
        if frame.message == names[-1]:
            draw_response(drawn, frame, names.index(frame.message), bounds[frame.message])
    draw_bus(drawn, frames, names, end)
    return drawn
