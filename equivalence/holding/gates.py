"""AND gates over literals, each made once (structural hashing).

A literal is twice the number of a signal, plus one if it is negated; signal 0 is false.
"""

from __future__ import annotations

from collections.abc import Sequence

FALSE, TRUE = 0, 1


class Gates:
    """A circuit that grows. A signal without a gate is free."""

    def __init__(self) -> None:
        self.gates: dict[int, tuple[int, int]] = {}  # by their signals, each after those that it reads
        self.signals = 1
        self.known: dict[tuple[int, int], int] = {}

    def fresh(self) -> int:
        """A new signal's literal."""
        self.signals += 1
        return 2 * (self.signals - 1)

    def both(self, a: int, b: int) -> int:
        """AND: no new gate if a side is constant, or if there is such a gate already."""
        a, b = min(a, b), max(a, b)
        if a == FALSE or a == b ^ 1:
            return FALSE
        if a in (TRUE, b):
            return b
        if (a, b) not in self.known:
            literal = self.fresh()
            self.gates[literal >> 1] = (a, b)
            self.known[a, b] = literal
        return self.known[a, b]

    def either(self, a: int, b: int) -> int:
        """OR."""
        return self.both(a ^ 1, b ^ 1) ^ 1

    def choose(self, test: int, a: int, b: int) -> int:
        """The first if the test is true, otherwise the second."""
        return a if a == b else self.either(self.both(test, a), self.both(test ^ 1, b))

    def differ(self, a: int, b: int) -> int:
        """XOR."""
        return self.choose(a, b ^ 1, b)

    def all(self, *literals: int) -> int:
        """AND of many."""
        made = TRUE
        for literal in literals:
            made = self.both(made, literal)
        return made

    def cone(self, literal: int) -> list[int]:
        """The signals in a literal's cone of influence, each after those that it reads."""
        seen, waiting = {0}, [literal >> 1]
        while waiting:
            signal = waiting.pop()
            if signal not in seen:
                seen.add(signal)
                waiting += [side >> 1 for side in self.gates.get(signal, ())]
        return sorted(seen - {0})

    def values(self, given: dict[int, bool]) -> list[bool]:
        """The value of each signal, given those of the free ones; a free signal without a value is 0."""
        made = [False] * self.signals
        for signal in range(1, self.signals):
            if signal in self.gates:
                a, b = self.gates[signal]
                made[signal] = made[a >> 1] != bool(a & 1) and made[b >> 1] != bool(b & 1)
            else:
                made[signal] = given.get(signal, False)
        return made


def is_true(values: Sequence[bool], literal: int) -> bool:
    """The value of a literal."""
    return values[literal >> 1] != bool(literal & 1)
