"""`hold --find`: learns a register mapping from a play, writes it, and proves it."""

from __future__ import annotations

import pathlib
import subprocess
import sys
import time
from collections.abc import Callable, Iterator
from dataclasses import dataclass, field, replace

from finding.learning import Learning
from finding.progress import Counts, Progress
from finding.refuted import Refuted, Refuting, Showing
from finding.wiring import with_words
from finding.writing import Guess, Limit, Mapping, Writing, held_outputs
from holding.asking import Asking
from holding.circuit import Circuit
from holding.faults import FAILED, NOT_PROVED, Fault
from holding.netlist import Netlist
from holding.outcome import Outcome
from holding.relation import Relation, read_relation
from holding.reporting import hold, show, state
from playing.building import LEARNER, built
from playing.printing import number

CYCLES = 16000  # clock cycles of 512 lanes
STEPS = 10_000_000  # of the solver, in each proof of a search
MOST_STATES = 4
FOUND = ["What follows was found by equivalence/hold --find."]
LEFT = [
    "What follows is left of a search (equivalence/hold --find) that did not prove the outputs.",
    "holds_..: proved; these parts are inductive together.",
    "guess_..: holds in all states that were played, but is not inductive without what is missing.",
    "To go on, find a part holds_.. that excludes the states that --find printed. Add it to the wiring, and search",
    "again; or complete this mapping, and try it with equivalence/hold.",
]
DIFFERENT = 4  # the learner's status if outputs differ


REFUTED, PROVED, UNDECIDED = range(3)  # what the learner says of an output


@dataclass(frozen=True)
class Limits:
    """How far the learner proves, and whether it goes on when an output is refuted.

    The same questions take the solver the same number of steps on any machine. 0 seconds are no limit.
    """

    steps: int
    seconds: int
    goes_on: bool


@dataclass
class Found:
    """What the learner printed."""

    states: int = 0
    kinds: int = 0
    guessed: int = 0
    questions: tuple[int, ...] = ()
    steps: int = 0  # of the solver
    is_done: bool = True  # otherwise a limit was reached
    outputs: list[int] = field(default_factory=list)
    needed: list[Guess] = field(default_factory=list)
    left: list[Guess] = field(default_factory=list)
    guesses: list[Guess] = field(default_factory=list)
    kept: int = 0  # how many of these the play suggested; the others are weaker ones
    limits: dict[int, Limit] = field(default_factory=dict)
    refuting: list[Refuting] = field(default_factory=list)
    chain: list[tuple[int, int, int]] = field(default_factory=list)  # from an output's to the first cause

    def take(self, line: str) -> None:
        """Takes a line."""
        word, *given = line.split(" ")
        if word == "state":
            self.refuting.append(Refuting(given[0], given[1], tuple(int(it) for it in given[2:])))
            return
        numbers = [int(it) for it in given]
        if word == "reasons":
            self.refuting[-1] = replace(self.refuting[-1], reasons=tuple(numbers))
        elif word == "samples":
            self.states, self.kinds = numbers
        elif word == "guesses":
            self.guessed = numbers[0]
        elif word == "kept":
            self.kept = numbers[0]
        elif word == "asked":
            self.questions, self.steps = tuple(numbers[:3]), numbers[3]
        elif word == "is_done":
            self.is_done = bool(numbers[0])
        elif word == "outputs":
            self.outputs = numbers
        elif word == "chain":
            self.chain.append((numbers[0], numbers[1], numbers[2]))
        elif word == "limit":
            self.limits[numbers[0]] = Limit(*numbers[1:])
        elif word in ("needed", "left", "guess"):
            {"needed": self.needed, "left": self.left, "guess": self.guesses}[word].append(Guess(*numbers))

    def lost(self) -> list[Guess]:
        """The guesses that the play suggested, and a state refutes that all others allow."""
        gone = {number - len(self.outputs) for state in self.refuting for number in state.gone}
        return [self.guesses[number] for number in sorted(gone) if 0 <= number < self.kept]

    def with_result(self, result: int, outputs: list[str]) -> list[str]:
        """The compared outputs with this result."""
        return [name for name, it in zip(outputs, self.outputs) if it == result]

    @property
    def is_proved(self) -> bool:
        """Whether all outputs are proved equal."""
        return bool(self.outputs) and set(self.outputs) == {PROVED}


def lines_of(words: list[str], room: pathlib.Path, progress: Progress) -> Iterator[str]:
    """The lines that the learner prints, without those about its progress. Raises Fault if it fails."""
    with (room / "errors").open("w+") as errors:
        with subprocess.Popen(words, stdout=subprocess.PIPE, stderr=errors, text=True) as ran:
            assert ran.stdout is not None
            for line in ran.stdout:
                word, *given = line.split()
                if word == "progress":
                    progress.show(given[0], Counts(*map(int, given[1:])))
                else:
                    yield line.rstrip("\n")
        if ran.returncode == DIFFERENT:
            yield "different"
        elif ran.returncode:
            errors.seek(0)
            raise Fault(f"the learner ended with status {ran.returncode}: {errors.read().strip()[-300:]}", FAILED)


def learner(model: Learning, room: pathlib.Path, seed: int, limits: Limits) -> list[str]:
    """The learner's command line, without changes of the design. It is compiled now if it isn't yet."""
    program, line = built(LEARNER, room)
    if line:
        print(line, file=sys.stderr)
    graph = room / "learn"
    model.write_to_learn(graph)
    numbers = (seed, CYCLES, limits.steps, limits.seconds, int(limits.goes_on))
    return [str(program), str(graph), *map(str, numbers)]


def learned(words: list[str], room: pathlib.Path, progress: Progress) -> Found | None:
    """What the learner finds; None if outputs differ in its play."""
    found = Found()
    for text in lines_of(words, room, progress):
        if text == "different":
            return None
        found.take(text)
    return found


@dataclass
class Finding:
    """A wiring, and how its design is read, played and asked about."""

    relation: Relation
    circuit: Circuit
    read: Callable[[Relation], Netlist]
    play: Callable[[Netlist], Outcome]
    asking: Callable[[Relation], Asking]
    room: pathlib.Path
    seed: int
    limits: Limits
    output: str | None
    vcd: str | None

    def run(self) -> Outcome:
        """Finds a mapping, and proves it."""
        begun = time.monotonic()
        progress = Progress(begun)
        netlist = self.read(with_words(self.relation, self.circuit))
        progress.show("reading")
        model = Learning(netlist)
        progress.show("reading")
        found = learned(learner(model, self.room, self.seed, self.limits), self.room, progress)
        if found is None:
            return self.play(self.read(self.relation))
        lines = [f"learned: {number(found.guessed)} guesses hold in {number(found.states)} states that were played"]
        lines.append(f"searched: {number(found.questions[0])} questions, {number(found.questions[2])} guesses given up")
        lines += self.lost(model, found)
        result = f"{number(len(found.needed))} equalities" if found.is_proved else "no proof"
        show([*lines, f"found: {result}, {time.monotonic() - begun:.0f} s"])
        if not found.is_proved:
            return self.give_up(model, found)
        held = held_outputs(model, model.lists_to_learn()["held"])
        text = Writing(model, found.limits).text(self.relation, Mapping(found.needed, held, FOUND))
        self.write(text)
        return hold(self.asking(read_relation(text, self.output or "the mapping found")), self.vcd)

    def lost(self, model: Learning, found: Found) -> Iterator[str]:
        """The parts holds_.. of the wiring that are given up."""
        outputs, kept = len(found.outputs), {it.target for it in [*found.needed, *found.left]}
        places = {it.target: at + outputs for at, it in enumerate(found.guesses)}
        for _, signal, _ in model.given:
            if signal not in kept:
                yield f"given up: {model.given_name(signal)}"
                states = (it for it in found.refuting if places.get(signal) in it.gone)
                lines = (f"  before: {state(Refuted(model, it), 0)}" for it in states)
                yield next(lines, "  it fails in the play")

    def write(self, text: str) -> None:
        """Writes the mapping, if that is wanted."""
        if self.output:
            pathlib.Path(self.output).write_text(text, encoding="utf-8")
            show([f"register mapping: {self.output}"])

    def give_up(self, model: Learning, found: Found) -> Outcome:
        """Reports where the proof failed, and writes what is left."""
        showing = Showing(model, Writing(model, found.limits), found.guesses)
        chain = found.chain[::-1] or [(at, -1, -1) for at in range(len(found.refuting))]
        for at, there, same in [*chain[: MOST_STATES - 1], *chain[MOST_STATES - 1 :][-1:]]:
            show(list(showing.lines(found.refuting[at])))
            if there >= 0:
                show([f"  played: {number(there)} states of this phase, {number(same)} with these registers"])
        held = [name for name in found.with_result(PROVED, showing.outputs()) if name in model.held_parts()]
        mapping = Mapping(found.left, held, LEFT, found.lost())
        self.write(Writing(model, found.limits).text(self.relation, mapping))
        show(list(result_lines(showing.outputs(), found, self.limits)))
        return Outcome(NOT_PROVED, "not proved, and no difference was found either")


def result_lines(outputs: list[str], found: Found, limits: Limits) -> Iterator[str]:
    """What became of the compared outputs in a search that did not prove them all."""
    refuted, proved, undecided = (found.with_result(it, outputs) for it in (REFUTED, PROVED, UNDECIDED))
    if proved:
        yield f"proved: {', '.join(proved)}"
    if undecided:
        yield f"undecided: {', '.join(undecided)}"
        if found.is_done:
            yield "  the search ended with the first output that was given up; with -o FILE it goes on"
        elif found.steps > limits.steps:
            yield f"  the limit of {number(limits.steps)} steps was reached (--steps)"
        else:
            yield f"  the limit of {number(limits.seconds)} seconds was reached (--seconds)"
    yield f"not proved: {', '.join(refuted or undecided)}; no difference was found either"
