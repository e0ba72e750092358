"""Runs the simulator, and reads what it prints."""

from __future__ import annotations

import pathlib
import subprocess
from dataclasses import dataclass, field

from holding.asking import SAME, Counterexample
from holding.faults import FAILED, Fault
from playing.model import Model

DOMINANT, RECESSIVE, FORCED = range(3)  # what the tester does in a bit time, as engine/runs.h numbers it
NO_CHANGE, ANY_CHANGE = 0, -1
CYCLES = 80_000  # clock cycles
SHORTEN_CYCLES = 40_000


@dataclass(frozen=True)
class Limit:
    """For how many clock cycles all runs are played, and for how many seconds at most; 0 is no limit."""

    cycles: int = CYCLES
    seconds: float = 0.0


@dataclass
class Frame:
    """A frame; byte k of its data is at bit 8k."""

    extended: bool
    remote: bool
    identifier: int
    dlc: int
    data: int


@dataclass
class Row:
    """The inputs in a bit time, or in a reset: what is offered, and how many overload frames are requested."""

    reset: bool
    integrating: bool
    enable: bool
    action: int
    request: int  # -1 for none
    offer: Frame | None


@dataclass
class Run:
    """A run in which outputs differ in the last row but one; the values of all signals before each row's clock edge."""

    before: int  # rows before it was shortened
    seconds: float
    is_queued: bool  # pending frames are those of a queue
    needs_start: bool  # what registers hold before the reset matters
    is_done: bool  # otherwise the limit was reached, and it may be longer than needed
    rows: list[Row] = field(default_factory=list)
    values: list[str] = field(default_factory=list)


@dataclass
class Played:
    """What was played: bit times of all lanes, clock cycles of each, bit times left out because of the assumptions."""

    bit_times: int = 0
    cycles: int = 0
    left_out: int = 0
    seconds: float = 0.0
    is_different: bool = False
    counts: list[int] = field(default_factory=list)
    run: Run | None = None


def read_row(words: list[str]) -> Row:
    """A row as the simulator prints it."""
    reset, integrating, enable, action, request, *frame = map(int, words)
    offer = Frame(bool(frame[0]), bool(frame[1]), *frame[2:]) if frame else None
    return Row(bool(reset), bool(integrating), bool(enable), action, request, offer)


def read_output(text: str) -> Played:
    """What the simulator printed."""
    played = Played()
    for line in text.splitlines():
        word, *given = line.split(" ")
        if word == "played":
            played.bit_times, played.cycles, played.left_out = map(int, given[:3])
            played.seconds = float(given[3])
        elif word == "counts":
            played.counts = [int(it) for it in given if it]
        elif word == "found":
            played.is_different = True
        elif word == "shortened":
            is_queued, needs_start, is_done = (it == "1" for it in given[3:])
            played.run = Run(int(given[0]), float(given[2]), is_queued, needs_start, is_done)
        elif word == "row" and played.run:
            played.run.rows.append(read_row(given))
        elif word == "values" and played.run:
            played.run.values.append(given[0])
    return played


def simulate(
    program: pathlib.Path, graph: pathlib.Path, seed: int, limit: Limit, shortens: int, change: int = NO_CHANGE
) -> Played:
    """Plays until outputs differ, or to a limit. A run that shows it is made short, in these clock cycles."""
    words = [str(program), str(graph), str(seed), str(limit.cycles), f"{limit.seconds:.3f}", str(change), str(shortens)]
    ran = subprocess.run(words, capture_output=True, text=True)
    if ran.returncode:
        raise Fault(f"the simulator failed: {ran.stderr.strip() or f'status {ran.returncode}'}", FAILED)
    return read_output(ran.stdout)


class Shown(Counterexample):
    """A run as a counterexample, so that it is reported as one: bit time 0 is the reset."""

    def __init__(self, model: Model, run: Run) -> None:
        super().__init__("play", [model.bit_time] * len(run.values), [], len(run.values) - 2, [])
        self.model, self.run = model, run
        same = {name: literal for name, literal in model.parts.items() if name.startswith(SAME)}
        self.fails = [name for name, literal in same.items() if not self.value(self.at, literal)]

    def value(self, at: int, literal: int) -> bool:
        """The value of a literal in a bit time."""
        return (self.run.values[at][literal >> 1] == "1") != bool(literal & 1)

    def number(self, at: int, name: str) -> int:
        """The value of a word in a bit time, as a number."""
        return sum(self.value(at, literal) << place for place, literal in enumerate(self.model.words[name]))

    def columns(self) -> dict[str, list[int]]:
        """What waves show besides: the bit time as the report counts it, the tester's level, whether it is forced."""
        actions = [row.action for row in self.run.rows]
        return {
            "bit_time": list(range(-1, len(actions) - 1)),
            "tester": [int(action != DOMINANT) for action in actions],
            "forced": [int(action == FORCED) for action in actions],
        }
