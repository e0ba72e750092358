"""Which theorem on a bus covers which calls.

The picture is in docs/BUS.md.
"""

from __future__ import annotations

from drawing.svg import ACCENT, BLUE, INK, ORANGE, PANEL, RULE, SOFT, Picture

WIDTH, HEIGHT = 880, 404
WOOD, LEAF = "#8a5a00", "#2b6427"
ABOUT = """\
Sets of calls on a bus at rest. The set of all calls contains the network calls. These contain the open \
calls and the disturbed calls. What is both open and disturbed is quiet."""


def heading(picture: Picture, x: float, y: float, name: str, call: str, colour: str) -> None:
    """The name of a theorem, and its call."""
    picture.text(x, y, name, 15, kind="b", colour=colour)
    picture.text(x + 11 * len(name) + 12, y, call, 12, kind="m", colour=SOFT)


def claims(picture: Picture, x: float, y: float, asked: list[str], promised: list[str]) -> None:
    """What a theorem asks of a call, and what it promises."""
    picture.lines(x, y, asked, 12)
    top = y + 16 * len(asked) + 10
    picture.text(x, top, "Then:", 12, kind="b")
    picture.lines(x, top + 16, promised, 12)


def draw_outer(picture: Picture) -> None:
    """Any call, and a network."""
    picture.box(12, 12, 856, 380, PANEL, RULE, 10)
    heading(picture, 28, 38, "Any call", "play_disturbed", INK)
    picture.text(852, 38, "all on a bus at rest", 12, "end", colour=SOFT)
    words = "Any hits and offers that are not refused. Levels and nodes are those of the rules, bit by bit."
    picture.text(28, 58, words, 12)
    picture.box(32, 74, 816, 302, "#eaf4e8", "#3b7d36", 10)
    heading(picture, 48, 100, "Network", "play_disturbed", LEAF)
    asked = [
        "Frames are queued at run time, and a field may recur at its node; at most one globally visible bit error",
        "in an attempt, after arbitration; nodes stay error active, and may have counted errors before.",
    ]
    promised = [
        "attempts depend on queueing times, priorities and errors alone; all logs get the same frames;",
        "bounded waiting.",
    ]
    picture.lines(48, 120, asked, 12)
    picture.text(48, 158, "Then:", 12, kind="b")
    picture.lines(92, 158, promised, 12)


def draw_inner(picture: Picture) -> None:
    """An open bus, a disturbed one, and a quiet one, which is both."""
    picture.glaze(52, 190, 512, 170, BLUE, ACCENT, 10)
    picture.glaze(316, 190, 512, 170, ORANGE, WOOD, 10)
    heading(picture, 68, 216, "Open", "play", ACCENT)
    promised = ["start times depend on queueing", "times and priorities alone;", "bounded waiting."]
    claims(picture, 68, 238, ["As quiet, but frames are", "also queued at run time."], promised)
    heading(picture, 332, 216, "Quiet", "run", INK)
    asked = ["Error-free; frames queued", "before, no field twice;", "counters 0, logs empty."]
    claims(picture, 332, 238, asked, ["each log has all frames", "in priority order."])
    heading(picture, 580, 216, "Disturbed", "run", WOOD)
    asked = ["As quiet, but with at most one", "globally visible bit error in an", "attempt, after arbitration;"]
    promised = ["the same frames in the", "same order, later."]
    claims(picture, 580, 238, [*asked, "nodes stay error active."], promised)


def picture() -> Picture:
    """The picture."""
    drawn = Picture(WIDTH, HEIGHT, "Which theorem on a bus covers which calls", ABOUT)
    draw_outer(drawn)
    draw_inner(drawn)
    return drawn
