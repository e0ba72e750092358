"""From the standard to a user's design: what connects each step to the next.

The picture is in docs/TRUST.md.
"""

from __future__ import annotations

from typing import NamedTuple

from drawing.svg import PANEL, Picture, Point

WIDTH, HEIGHT = 900, 486
ABOUT = """\
A chain of boxes. The standard leads to the definitions: not proved, you read them. The definitions lead \
to the code in Rattle: proved. From the code three arrows lead on. To programs, by compilers: trusted. \
To C, C++, Python, HDL and JavaScript around it: only tested. From the controller in it to the circuit: \
proved. The circuit leads to its file in Verilog or AIGER: proved. The file leads to your design: \
checked by a SAT solver."""


class Kind(NamedTuple):
    """How a step is connected to the next one."""

    word: str
    colour: str
    dash: str


PROVED = Kind("proved", "#2b6427", "")
SOLVED = Kind("checked by a solver", "#0b57a4", "")
TESTED = Kind("only tested", "#8a5a00", "7 4")
TRUSTED = Kind("trusted", "#a3130f", "2 4")


def node(picture: Picture, x: float, y: float, name: str, words: list[str], width: float = 200) -> None:
    """A step, with what it is."""
    picture.box(x, y, width, 30 + 16 * len(words), PANEL, "#8a939c", 6)
    picture.text(x + 12, y + 20, name, 13, kind="b")
    picture.note(x + 12, y + 38, *words)


def step(picture: Picture, path: list[Point], kind: Kind) -> None:
    """An arrow to the next step."""
    picture.arrow(path, kind.colour, 2.4, kind.dash)


def label(picture: Picture, x: float, y: float, kind: Kind, words: list[str], at: str = "start") -> None:
    """What an arrow is."""
    picture.text(x, y, kind.word, 12, at, "b", kind.colour)
    picture.note(x, y + 16, *words, at=at)


def draw_head(picture: Picture) -> None:
    """The standard, the definitions, and the code."""
    node(picture, 20, 24, "Standard", ["Bosch CAN 2.0 part B,", "ISO 11898-1"], 170)
    node(picture, 350, 24, "Definitions", ["crates/NAME/specs, with the", "sections of the standard"])
    node(picture, 680, 24, "Code in Rattle", ["each function has a contract", "in these definitions"])
    step(picture, [(190, 54), (350, 54)], TRUSTED)
    label(picture, 270, 40, TRUSTED, [], "middle")
    picture.note(270, 72, "you read them; test", "vectors and theorems", "are a cross-check", at="middle")
    step(picture, [(550, 54), (680, 54)], PROVED)
    label(picture, 615, 40, PROVED, [], "middle")
    picture.note(615, 72, "by rt ci", at="middle")


def draw_uses(picture: Picture) -> None:
    """What is made of the code: programs, and what is around it in other languages."""
    node(picture, 20, 160, "Programs", ["canbit, canplan,", "canhold, cangates"], 170)
    node(picture, 350, 160, "Other languages", ["C, C++, Python and HDL around", "it, the page's JavaScript"])
    step(picture, [(740, 86), (740, 130), (105, 130), (105, 160)], TRUSTED)
    step(picture, [(770, 86), (770, 176), (550, 176)], TESTED)
    label(picture, 200, 150, TRUSTED, ["two compilers; rt ci", "compares what both", "programs print"])
    label(picture, 566, 196, TESTED, [])


def draw_circuit(picture: Picture) -> None:
    """The circuit, its file, and the user's design."""
    node(picture, 680, 280, "Circuit", ["AND gates and registers of", "the controller MediumAccess"])
    node(picture, 350, 280, "File", ["Verilog or AIGER, written", "by cangates"])
    node(picture, 20, 280, "Your design", ["Verilog or VHDL"], 170)
    step(picture, [(800, 86), (800, 280)], PROVED)
    label(picture, 808, 196, PROVED, ["in every step", "of every run"])
    step(picture, [(680, 304), (550, 304)], PROVED)
    label(picture, 615, 290, PROVED, [], "middle")
    picture.note(615, 322, "can be read", "back whole", at="middle")
    step(picture, [(350, 304), (190, 304)], SOLVED)
    label(picture, 270, 290, SOLVED, [], "middle")
    picture.note(270, 322, "equivalence/hold:", "SAT, over what", "yosys reads of both", at="middle")


def draw_legend(picture: Picture) -> None:
    """What the arrows are, and what is trusted besides."""
    picture.box(20, 374, WIDTH - 40, 92, "#fff", "#d3d8dd", 6)
    for x, kind in zip((36, 220, 470, 680), (PROVED, SOLVED, TESTED, TRUSTED)):
        step(picture, [(x, 396), (x + 44, 396)], kind)
        picture.text(x + 54, 400, kind.word, 12, kind="b", colour=kind.colour)
    words = [
        "Trusted besides: the Rattle toolchain with its proof checker and compilers, the contracts of the libraries",
        "that are used, LLVM, and the C library. What a tool makes of a file is the tool's. A solver's result rests on",
        "yosys, the solver and the script.",
    ]
    picture.lines(36, 422, words, 11)


def picture() -> Picture:
    """The picture."""
    drawn = Picture(WIDTH, HEIGHT, "From the standard to your design", ABOUT)
    draw_head(drawn)
    draw_uses(drawn)
    draw_circuit(drawn)
    draw_legend(drawn)
    return drawn
