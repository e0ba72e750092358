"""A bit time after which guesses don't hold, or in which outputs differ, in the words of `hold`."""

from __future__ import annotations

import re
from collections.abc import Iterable, Iterator
from dataclasses import dataclass

from finding.learning import Learning
from finding.writing import Guess, Writing
from holding.asking import SAME, Counterexample
from holding.gates import is_true
from holding.reporting import bit_time_lines, valued

MOST_SAID, MOST_WORDS = 3, 8  # guesses and registers in a line
INDEX = re.compile(r"\[[\d:]+\]$")


@dataclass(frozen=True)
class Refuting:
    """What the learner printed: registers before a bit time and its inputs, `?` for any; what was given up by it.

    What was given up are numbers of outputs, then those of guesses. The reasons are registers of the design whose
    values make the first of it wrong.
    """

    registers: str
    inputs: str
    gone: tuple[int, ...]
    reasons: tuple[int, ...] = ()


class Refuted(Counterexample):
    """The bit time of a state, and the one after it, in which only registers have a value."""

    def __init__(self, model: Learning, state: Refuting, at: int = 0) -> None:
        held = [it >> 1 for it in model.registers]
        given = {signal: bit == "1" for signal, bit in zip(held, state.registers)}
        given |= {signal: bit == "1" for signal, bit in zip(model.free_signals(), state.inputs)}
        values = model.gates.values(given)
        super().__init__("step", [model.bit_time] * 2, values, at, [])
        after = {it >> 1: is_true(values, taken) for it, taken in model.registers.items()}
        self.model, self.both = model, (values, model.gates.values(after))

    def number(self, at: int, name: str) -> int:
        """The value of a word in a bit time, as a number."""
        return sum(is_true(self.both[at], bit) << place for place, bit in enumerate(self.model.words[name]))


@dataclass
class Showing:
    """How refuted guesses are shown."""

    model: Learning
    writing: Writing
    guesses: list[Guess]

    def outputs(self) -> list[str]:
        """The compared outputs."""
        return [name for name in self.model.parts if name.startswith(SAME)]

    def lines(self, state: Refuting) -> Iterator[str]:
        """What was given up by a state, this state, and the registers on which it depends."""
        outputs = self.outputs()
        lost = [outputs[it] for it in state.gone if it < len(outputs)][:MOST_SAID]
        guesses = [self.guesses[it - len(outputs)] for it in state.gone if it >= len(outputs)]
        said = [self.writing.said(it) for it in guesses[: MOST_SAID - len(lost)]]
        # an output that reads inputs is compared in the bit time of the state, all else after it
        is_now = bool(lost) and lost[0] not in self.model.held_parts()
        found = Refuted(self.model, state, 0 if is_now else 1)
        yield f"given up: {'; '.join([*lost, *said])}"
        yield from bit_time_lines(found, 0)
        for name in lost:
            named = [it for it in self.model.netlist.named_by(name) if it in self.model.words]
            yield f"  {name} fails: {', '.join(valued(found, it, 0) for it in named)}"
        read = self.words(guesses[: len(said)]) if said else self.reasons(state)
        if read:
            more = f", and {len(read) - MOST_WORDS} more" if len(read) > MOST_WORDS else ""
            yield f"  registers: {', '.join(valued(found, it, 0) for it in list(read)[:MOST_WORDS])}{more}"

    def reasons(self, state: Refuting) -> dict[str, None]:
        """The words of the design whose values make the first of what was given up wrong."""
        named = (self.model.names[signal][0] for signal in state.reasons)
        return dict.fromkeys(name for name in named if name in self.model.netlist.words)

    def words(self, guesses: Iterable[Guess]) -> dict[str, None]:
        """The words that some guesses read."""
        found: dict[str, None] = {}
        for guess in guesses:
            if guess.condition == self.model.given_condition:
                found |= dict.fromkeys(self.model.netlist.named_by(self.model.given_name(guess.target)))
                continue
            found[self.writing.subject(guess)] = None
            if guess.literal > 1:
                found[self.writing.names.get(guess.literal >> 1, ("",))[0]] = None
            found |= dict.fromkeys(INDEX.sub("", it) for it in self.model.conditions.words(guess.condition))
        return {name: None for name in found if name in self.model.netlist.words}
