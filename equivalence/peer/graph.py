"""A circuit with its ports and registers, and the operations of which it is built.

A word is a list of literals, the least significant first.
"""

from __future__ import annotations

from dataclasses import dataclass

from holding.gates import FALSE, TRUE, Gates

Word = list[int]


@dataclass
class Port:
    """A named word and its meaning."""

    name: str
    word: Word
    meaning: str


class Graph(Gates):
    """A circuit that grows: inputs and registers come before all gates."""

    def __init__(self) -> None:
        super().__init__()
        self.inputs: list[Port] = []
        self.registers: list[Port] = []
        self.outputs: list[Port] = []
        self.takes: dict[int, int] = {}  # the next value of each register, by its literal

    def word(self, width: int) -> Word:
        """New signals."""
        return [self.fresh() for _ in range(width)]

    def input(self, name: str, width: int, meaning: str) -> Word:
        """An input of this width."""
        self.inputs.append(Port(name, self.word(width), meaning))
        return self.inputs[-1].word

    def register(self, name: str, width: int, meaning: str) -> Word:
        """A register of this width, which starts with 0."""
        self.registers.append(Port(name, self.word(width), meaning))
        return self.registers[-1].word

    def output(self, name: str, word: Word, meaning: str) -> None:
        """An output."""
        self.outputs.append(Port(name, word, meaning))

    def take(self, register: Word, word: Word) -> None:
        """Sets the next value of a register; bits past the word's end take 0."""
        for place, literal in enumerate(register):
            self.takes[literal] = word[place] if place < len(word) else FALSE

    # literals

    def implies(self, a: int, b: int) -> int:
        """Implication."""
        return self.either(a ^ 1, b)

    def any(self, *literals: int) -> int:
        """OR of many."""
        return self.all(*(literal ^ 1 for literal in literals)) ^ 1

    # words

    def select(self, test: int, a: Word, b: Word) -> Word:
        """The first word if the test is true, otherwise the second."""
        return [self.choose(test, x, y) for x, y in zip(a, b)]

    def is_number(self, word: Word, number: int) -> int:
        """Whether a word is this number."""
        return self.all(*(literal ^ 1 ^ (number >> place & 1) for place, literal in enumerate(word)))

    def is_equal(self, a: Word, b: Word) -> int:
        """Whether two words are equal."""
        return self.all(*(self.differ(x, y) ^ 1 for x, y in zip(a, b)))

    def is_below(self, a: Word, b: Word) -> int:
        """Whether the first is less: the most significant bit in which they differ decides."""
        less = FALSE
        for x, y in zip(a, b):
            less = self.choose(self.differ(x, y), y, less)
        return less

    def is_under(self, word: Word, number: int) -> int:
        """Whether a word is less than this number."""
        return self.is_below(word, constant(number, len(word)))

    def sum(self, a: Word, b: Word, carry: int = FALSE) -> tuple[Word, int]:
        """The sum of two words, and the carry."""
        made = []
        for x, y in zip(a, b):
            half = self.differ(x, y)
            made.append(self.differ(half, carry))
            carry = self.either(self.both(x, y), self.both(half, carry))
        return made, carry

    def more(self, word: Word) -> Word:
        """The word plus 1."""
        return self.sum(word, constant(0, len(word)), TRUE)[0]

    def less(self, word: Word) -> Word:
        """The word minus 1."""
        return self.sum(word, constant(-1, len(word)))[0]

    def item(self, items: Word, place: Word) -> int:
        """The literal at an index; past the end it is false."""
        if not place:
            return items[0] if items else FALSE
        return self.choose(place[0], self.item(items[1::2], place[1:]), self.item(items[0::2], place[1:]))


def constant(number: int, width: int) -> Word:
    """A number as a word."""
    return [number >> place & 1 for place in range(width)]
