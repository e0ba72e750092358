"""The queries about a register mapping: reset, outputs and step. One without a counterexample is proved."""

from __future__ import annotations

import time
from collections.abc import Iterable, Iterator
from dataclasses import dataclass, replace

from holding.faults import NOTHING_HELD, Fault
from holding.gates import FALSE, TRUE, Gates, is_true
from holding.netlist import MUTATION, BitTime, Key, Netlist
from holding.tools import Solver

RESET = "reset"
HOLDS, SAME, GIVEN = "holds_", "same_", "given_"
FIRST = "bit time"
OUTPUT = "drive"  # the one output that every mapping has to compare
ENABLE = "gates.enable"


@dataclass
class Query:
    """Consecutive bit times, and a prefix: some part with it has to be 0 in the last of them, or in that `at`.

    Without a prefix any such bit times will do.
    """

    name: str
    bit_times: list[BitTime]
    assumed: int
    prefix: str | None
    at: int = -1

    def parts(self) -> dict[str, int]:
        """The parts of which one may be 0, with their literals."""
        bit_time, prefix = self.bit_times[self.at], self.prefix
        names = [name for name in bit_time.netlist.parts if prefix and name.startswith(prefix)]
        return {name: bit_time.literal(bit_time.netlist.parts[name][0]) for name in names}

    def literal(self) -> int:
        """The literal that the solver is to make true."""
        gates = self.bit_times[0].gates
        return gates.both(self.assumed, gates.all(*self.parts().values()) ^ 1) if self.prefix else self.assumed


@dataclass
class Counterexample:
    """Consecutive bit times with the solver's values, and which parts of the mapping are 0 in that `at`."""

    query: str
    bit_times: list[BitTime]
    values: list[bool]
    at: int
    fails: list[str]

    def is_true(self, literal: int) -> bool:
        """The value of a literal; one that the solver left open is 0."""
        return is_true(self.values, literal)

    def number(self, at: int, name: str) -> int:
        """The value of a word in a bit time, as a number."""
        word = self.bit_times[at].word(name)
        self.grow()
        return sum(self.is_true(bit) << place for place, bit in enumerate(word))

    def grow(self) -> None:
        """Evaluates the gates that have been added since the query."""
        for signal in range(len(self.values), self.gates.signals):
            if signal in self.gates.gates:
                a, b = self.gates.gates[signal]
                self.values.append(self.is_true(a) and self.is_true(b))
            else:
                self.values.append(False)

    @property
    def gates(self) -> Gates:
        """The gates of all bit times."""
        return self.bit_times[0].gates


@dataclass
class Result:
    """The result of a query: its name, the solver's time, and a counterexample, if there is one."""

    query: str
    seconds: float
    found: Counterexample | None


class Asking:
    """A netlist of both controllers, and the queries about it. The inputs in `kept` have one value in all bit times."""

    def __init__(self, netlist: Netlist, solver: Solver, kept: Iterable[Key] = ()) -> None:
        self.netlist, self.solver, self.gates = netlist, solver, Gates()
        self.mutation = [self.gates.fresh() for _ in netlist.inputs.get(MUTATION, [])]
        self.kept = {key: self.gates.fresh() for key in kept}
        self.check_parts()
        self.bit_times, self.assumed = self.related()

    def check_parts(self) -> None:
        """Raises Fault if the mapping lacks something."""
        parts, inputs = self.netlist.parts, self.netlist.inputs
        for name, keys in parts.items():
            if not name.startswith((HOLDS, SAME, GIVEN)) or len(keys) != 1:
                expected = f"one bit wide and named {HOLDS}.., {SAME}.. or {GIVEN}.."
                raise Fault(f"output {name} of the register mapping must be {expected}")
        if not any(name.startswith(SAME) for name in parts):
            raise Fault(f"the register mapping compares no outputs: it has no output {SAME}..", NOTHING_HELD)
        if RESET not in inputs or len(inputs[RESET]) != 1:
            raise Fault(f"the register mapping must have an input {RESET} of one bit")

        for name in parts:
            if name.startswith((HOLDS, SAME)) and not self.netlist.named_by(name):
                raise Fault(f"{name} has no effect: it depends on no register and no output", NOTHING_HELD)
        if OUTPUT in self.netlist.left_out([OUTPUT]):
            raise Fault(f"the register mapping must compare gates.{OUTPUT}, and doesn't", NOTHING_HELD)

    def bit_time(self, held: BitTime | None, reset: bool, mutated: bool) -> BitTime:
        """The bit time after `held`; without it, one in which each register may hold any value."""
        made = held.next() if held else BitTime(self.gates, self.netlist, {})
        made.literals[self.netlist.inputs[RESET][0]] = int(reset)
        for key, literal in zip(self.netlist.inputs.get(MUTATION, []), self.mutation):
            made.literals[key] = literal if mutated else FALSE
        made.literals |= self.kept
        return made

    def ask(self, query: Query) -> Result:
        """Runs the solver on a query."""
        begun = time.monotonic()
        model = self.solver.ask(self.gates, query.literal())
        found = None
        if model is not None:
            parts, at = query.parts(), query.at % len(query.bit_times)
            found = Counterexample(query.name, query.bit_times, self.gates.values(model), at, [])
            found.fails = [name for name, part in parts.items() if not found.is_true(part)]
        return Result(query.name, time.monotonic() - begun, found)

    def is_mutated(self) -> int:
        """Whether some mutation is chosen."""
        return self.gates.all(*(literal ^ 1 for literal in self.mutation)) ^ 1

    def given(self, *bit_times: BitTime) -> int:
        """The assumptions on inputs."""
        return self.gates.all(*(it.all(GIVEN) for it in bit_times))

    def related(self, mutated: bool = False) -> tuple[list[BitTime], int]:
        """Two bit times without reset, and that the first one's state is legal and satisfies the mapping."""
        now = self.bit_time(None, False, mutated)
        after = self.bit_time(now, False, mutated)
        return [now, after], self.gates.both(self.satisfied(now), self.given(after))

    def satisfied(self, now: BitTime) -> int:
        """Whether a state is legal and satisfies the mapping, and the assumptions of its bit time."""
        return self.gates.all(now.word("gates.legal")[0], now.all(HOLDS), self.given(now))

    def reset(self) -> Query:
        """Base case: a state after a reset, from any state, that violates the mapping."""
        now = self.bit_time(None, True, False)
        after = self.bit_time(now, False, False)
        return Query("reset", [now, after], self.given(now, after), HOLDS)

    def outputs(self) -> Query:
        """A state that satisfies the mapping, and in which outputs differ."""
        # without the assumptions of the bit time after: they may be on registers, and no state may follow
        return Query("outputs", self.bit_times, self.satisfied(self.bit_times[0]), SAME, at=0)

    def step(self) -> Query:
        """Inductive step: a bit time that leads from a state that satisfies the mapping to one that violates it."""
        return Query("step", self.bit_times, self.assumed, HOLDS)

    def self_check(self) -> Query:
        """The inductive step with a mutation in the design's next-state logic: it has to fail."""
        bit_times, assumed = self.related(mutated=True)
        return Query("self-check", bit_times, self.gates.both(assumed, self.is_mutated()), HOLDS)

    def some(self) -> Query:
        """Any legal state that satisfies the mapping."""
        return Query("some state", self.bit_times, self.assumed, None)

    def some_step(self) -> Query:
        """Such a state, in which `enable` is 1: otherwise the circuit never leaves its state after a reset."""
        enable = self.bit_times[0].word(ENABLE)[0]
        return Query("some step", self.bit_times, self.gates.both(self.assumed, enable), None)

    def some_reset(self) -> Query:
        """Any reset that meets the assumptions: a run begins with one."""
        return replace(self.reset(), name="some reset", prefix=None)

    def first(self, count: int, mutated: bool) -> Iterator[Query]:
        """Bounded check: outputs that differ in one of the first bit times after a reset, one query for each."""
        bit_times = [self.bit_time(None, True, mutated)]
        assumed = self.gates.both(self.given(bit_times[0]), self.is_mutated() if mutated else TRUE)
        for at in range(1, count + 1):
            bit_times.append(self.bit_time(bit_times[-1], False, mutated))
            assumed = self.gates.both(assumed, self.given(bit_times[-1]))
            yield Query(f"{FIRST} {at}", list(bit_times), assumed, SAME)
