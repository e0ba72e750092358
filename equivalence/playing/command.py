"""`hold --play`: plays, and reports what was played and the first difference."""

from __future__ import annotations

import pathlib
import sys
from dataclasses import dataclass

from holding.asking import GIVEN
from holding.faults import DIFFERS, FAILED, NOTHING_HELD, Fault
from holding.netlist import Netlist
from holding.outcome import Outcome
from holding.reporting import CHOICES, OUTPUTS, show, write_waves
from playing.building import simulator
from playing.keeping import keep
from playing.model import Model
from playing.printing import ignored, number, played_lines, rule_lines, run_lines
from playing.rules import Counts
from playing.simulating import ANY_CHANGE, SHORTEN_CYCLES, Limit, Played, Shown, simulate



@dataclass
class Wanted:
    """What the command line asks for."""

    limit: Limit
    seed: int
    vcd: str | None
    keep: str | None


@dataclass
class Player:
    """The simulator with a graph, and how its play is seeded."""

    program: pathlib.Path
    graph: pathlib.Path
    seed: int

    def check(self) -> str:
        """Plays a design with a mutation, which has to be found. Raises Fault if it isn't."""
        played = simulate(self.program, self.graph, self.seed, Limit(), 0, ANY_CHANGE)
        if played.is_different:
            return f"self-check: injected mutation detected, {played.seconds:.1f} s"
        raise Fault(
            f"self-check: a mutation was injected into the design and not detected in {number(played.bit_times)} "
            "bit times: the wiring compares too little, or ties too much",
            NOTHING_HELD,
        )

    def play(self, limit: Limit) -> Played:
        """Plays the design."""
        return simulate(self.program, self.graph, self.seed, limit, SHORTEN_CYCLES)


def assumptions(netlist: Netlist) -> list[str]:
    """The names of the assumptions."""
    return [name for name in netlist.parts if name.startswith(GIVEN)]


def show_difference(model: Model, played: Played, wanted: Wanted) -> Outcome:
    """Shows the run that was found, and writes it."""
    assert played.run is not None
    shown = Shown(model, played.run)
    if not shown.fails:
        raise Fault("the simulator contradicts itself: the run that it shortened has no difference", FAILED)
    lines = run_lines(shown)
    show(lines)
    write_waves(shown, wanted.vcd, shown.columns())
    if wanted.keep:
        show([keep(shown, wanted.keep, wanted.seed)])
    said = f"different: {', '.join(shown.fails)}"
    show([CHOICES, said])
    return Outcome(DIFFERS, said, shown.fails, lines)


def play(netlist: Netlist, room: pathlib.Path, wanted: Wanted) -> Outcome:
    """Plays. Where nothing differs, a mutation shows that something would be found."""
    model = Model(netlist)
    counts = Counts(model)
    program, line = simulator(room)
    player = Player(program, room / "graph", wanted.seed)
    model.write(player.graph, counts.literals)
    if line:
        print(line, file=sys.stderr)
    if skipped := ignored(netlist):
        show([skipped])
    played = player.play(wanted.limit)
    if not played.bit_times:
        raise Fault(f"nothing was compared: enable was never 1, or no reset met {GIVEN}..", NOTHING_HELD)
    counts.take(played.counts)
    show(played_lines(played, counts, wanted.seed))
    if played.run:
        return show_difference(model, played, wanted)
    show([*rule_lines(counts), player.check()])
    given = assumptions(netlist)
    if given:
        show([f"assumed: {', '.join(given)}"])
    if missing := netlist.left_out(OUTPUTS):
        show([f"not compared: {' '.join(missing)}"])
    said = f"no difference in {number(played.bit_times)} bit times"
    show([said])
    return Outcome(0, said)
