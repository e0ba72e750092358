"""Which statements of a function have an effect, and which registers it passes to and from others.

A statement of C names the registers that it reads and writes: they are its variables. A statement whose variables are
not read later is left out. So flags, restored registers and upper halves of vectors cost nothing if nothing uses them,
and a function has the parameters and the results that are used, and no others.
"""

from __future__ import annotations

import re
from collections.abc import Iterator
from dataclasses import dataclass, field

from translating.refusal import Refused

FACTS = tuple(f"is_{name}" for name in ("eq", "hs", "hi", "mi", "vs", "ge", "gt"))
INTEGERS = tuple(f"x{number}" for number in range(31))
VECTORS = tuple(f"v{number}_{half}" for number in range(32) for half in ("low", "high"))
# All variables that stand for the machine. `was` and `carry` keep a condition within one instruction, and `chosen` the
# number of an entry until the jump by its table.
NAMES = (*INTEGERS, *VECTORS, "chosen", *FACTS, "was", "carry")
CONDITIONS = (*FACTS, "was", "carry")
BITS = {name: 1 << place for place, name in enumerate(NAMES)}
NAME = r"\b(x\d+|v\d+_(?:low|high)|is_(?:eq|hs|hi|mi|vs|ge|gt)|was|carry|chosen)\b"

# how a statement continues
PLAIN, CALL, BRANCH, GOTO, SWITCH, RETURN, TRAP = range(7)


def bits_of(*names: str) -> int:
    """A set of variables."""
    return sum(BITS[name] for name in set(names))


def names_of(bits: int) -> list[str]:
    """The variables of a set, in a fixed order."""
    return [name for name in NAMES if bits & BITS[name]]


# parameters are in x0 to x7, and the place of a result in x8; results are in x0 to x7
PARAMETERS = bits_of(*INTEGERS[:9])
RESULTS = bits_of(*INTEGERS[:8])
# what a call may change: other integers, vectors, of v8 to v15 the upper halves, and flags
KEPT = bits_of(*INTEGERS[19:30], *(f"v{number}_low" for number in range(8, 16)))
CLOBBERED = sum(BITS.values()) & ~KEPT


@dataclass
class Statement:
    """A statement of C, and what the machine has of it."""

    text: str
    how: int = PLAIN
    targets: tuple[int, ...] = ()
    called: str = ""  # the function that a call goes to; empty for one by a register, or outside
    depth: int = 0  # of the stack pointer at a call
    reads: int = 0
    writes: int = 0

    @property
    def is_pure(self) -> bool:
        """Whether it only writes variables."""
        return self.how == PLAIN and self.writes != 0


def statement(text: str, how: int = PLAIN, targets: tuple[int, ...] = ()) -> Statement:
    """A statement with the variables that its text reads and writes."""
    writes = re.findall(rf"{NAME} = ", text)
    reads = re.findall(NAME, re.sub(rf"{NAME} = ", "", text))
    return Statement(text, how, targets, reads=bits_of(*reads), writes=bits_of(*writes))


@dataclass
class Block:
    """Statements one after another; a branch is the last, and its targets and the next block follow."""

    statements: list[Statement]
    at: int
    following: list[int] = field(default_factory=list)  # numbers of blocks
    live: int = 0  # at its begin


@dataclass
class Passed:
    """What a function passes to and from others."""

    parameters: int = 0
    results: int = 0
    words: int = 0  # arguments on the stack


def blocks_of(statements: list[tuple[int, list[Statement]]]) -> list[Block]:
    """The blocks of a function, from the statements of each instruction, with its place."""
    targets = {at for _, those in statements for it in those for at in it.targets}
    found: list[Block] = [Block([], 0)]
    for at, those in statements:
        if at in targets or (found[-1].statements and found[-1].statements[-1].how >= BRANCH):
            found.append(Block([], at))
        found[-1].statements += those
    numbers = {block.at: number for number, block in reversed(list(enumerate(found)))}
    for number, block in enumerate(found):
        last = block.statements[-1] if block.statements else None
        if last is None or last.how <= BRANCH:
            block.following.append(number + 1)
        if last is not None:
            block.following += [numbers[at] for at in last.targets]
    if any(it >= len(found) for block in found for it in block.following):
        raise Refused("a function that goes on after its end")
    return found


class Liveness:
    """The blocks of a function, with the variables that are read later."""

    def __init__(self, statements: list[tuple[int, list[Statement]]]) -> None:
        self.blocks = blocks_of(statements)

    def before(self, it: Statement, live: int, own: Passed, passed: dict[str, Passed]) -> int:
        """What is read from a statement on, from what is read after it."""
        if it.is_pure:
            return (live & ~it.writes) | it.reads if live & it.writes else live
        if it.how == CALL:
            return (live & ~(CLOBBERED | it.writes)) | it.reads | (passed[it.called].parameters if it.called else 0)
        if it.how == RETURN:
            return own.results
        return (live & ~it.writes) | it.reads

    def spread(self, own: Passed, passed: dict[str, Passed]) -> None:
        """Computes what is read from each block on."""
        work = list(range(len(self.blocks)))
        leading: list[list[int]] = [[] for _ in self.blocks]
        for number, block in enumerate(self.blocks):
            for it in block.following:
                leading[it].append(number)
        while work:
            number = work.pop()
            live = self.blocks[number].live
            for _, _, live in self._backwards(self.blocks[number], own, passed):
                pass
            if not self.blocks[number].statements:
                live = self._after(self.blocks[number])
            if live != self.blocks[number].live:
                self.blocks[number].live = live
                work += leading[number]

    def calls(self, own: Passed, passed: dict[str, Passed]) -> Iterator[tuple[Statement, int]]:
        """Each call, and what is read after it."""
        for block in self.blocks:
            for it, after, _ in self._backwards(block, own, passed):
                if it.how == CALL:
                    yield it, after

    def kept(self, own: Passed, passed: dict[str, Passed]) -> Iterator[tuple[int, list[tuple[Statement, int]]]]:
        """The statements of each block that have an effect, each with what is read after it."""
        for block in self.blocks:
            found = [
                (it, after)
                for it, after, _ in self._backwards(block, own, passed)
                if not it.is_pure or after & it.writes
            ]
            yield block.at, found[::-1]

    def _after(self, block: Block) -> int:
        live = 0
        for it in block.following:
            live |= self.blocks[it].live
        return live

    def _backwards(self, block: Block, own: Passed, passed: dict[str, Passed]) -> Iterator[tuple[Statement, int, int]]:
        """The statements of a block from its end, each with what is read after it and from it on."""
        live = self._after(block)
        for it in reversed(block.statements):
            after, live = live, self.before(it, live, own, passed)
            yield it, after, live
