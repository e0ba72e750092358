"""The frame of a function: where the stack pointer is at each instruction, and what is saved only for the caller.

The stack of the machine is the stack of C. Each function has an array for its frame, and the address of a place in it
is known from its distance to the stack pointer at entry: a function changes the stack pointer only by numbers. The
arguments that a function has on the stack are above that (Procedure Call Standard, 6.8.2). They are passed as
parameters of C, and copied to the end of the array.

Registers that a function preserves for its caller are variables of C, which no call changes. So saving them is left
out, and restoring them is dead code (liveness.py).
"""

from __future__ import annotations

import re
from collections.abc import Iterator
from dataclasses import replace

from translating.instructions import Function, Instruction
from translating.jumps import Jump
from translating.memory import NARROW, access_at, scaled
from translating.operands import TYPE_BYTES, Address, Immediate, Lanes, Listed, Operand, Part, Place, Whole
from translating.refusal import Refused

# A register that has still what it had at entry; of others the distance from the stack pointer at entry is known, or
# nothing.
ENTRY = "entry"
Known = dict[str, "int | str"]

ENDS = ("b", "br", "ret", "brk", "udf")
WRITE_NOTHING = ("st", "cmp", "cmn", "ccm", "tst", "cb", "tb", "prf", "fcmp", "b.")
# the registers that a function preserves for its caller, of vectors the lower halves (Procedure Call Standard, 6.1)
PRESERVED = frozenset([*(f"x{number}" for number in range(19, 31)), *(f"v{number}" for number in range(8, 16))])
WORD_BYTES = 8
# The stack pointer is a multiple of this (6.4.5.1). Code relies on it: it may add a small number to an address with
# `orr`.
STACK_ALIGNMENT = 16
# the name of an instruction that moves the stack pointer to what a register has, in equal steps
PROBED = "probed"


def followers(i: Instruction, place: int, jumps: dict[int, Jump]) -> list[int]:
    """The numbers of the instructions that may follow one."""
    found = [] if i.name in ENDS else [place + 1]
    if i.is_branch and i.relocation is None:
        found.append(i.target // 4)
    if i.name == "br":
        found += [at // 4 for at in set(jumps[i.at].targets)]
    return found


def names_of(operand: Operand) -> list[str]:
    """The registers that an operand writes, if it is written."""
    if isinstance(operand, Whole):
        return [operand.name]
    if isinstance(operand, (Part, Lanes)):
        return [f"v{operand.number}"]
    return [f"v{lanes.number}" for lanes in operand.lanes] if isinstance(operand, Listed) else []


def written(i: Instruction) -> set[str]:
    """The registers that an instruction writes, without the base of an access."""
    if i.name.startswith(WRITE_NOTHING) or i.name in (*ENDS, "bl", "blr"):
        return set()
    count = 2 if i.name in ("ldp", "ldnp", "ldpsw") else 1
    return {name for operand in i.operands[:count] for name in names_of(operand)}


def address_of(i: Instruction) -> Address | None:
    """The address of an access."""
    return next((it for it in i.operands if isinstance(it, Address)), None)


def after_base(i: Instruction) -> int:
    """What an access adds to its base, before it or after it."""
    address = address_of(i)
    if address is None:
        return 0
    return address.offset if address.is_kept else access_at(i, i.operands.index(address)).more


def without_probes(function: Function) -> Function:
    """A function whose loops that touch each part of a large frame are one instruction each, `probed`.

        1: sub sp, sp, #3072
        cmp sp, x9
        str xzr, [sp]
        b.ne 1b
    """
    found = list(function.instructions)
    for place in range(len(found) - 3):
        first, compared, touched, again = found[place : place + 4]
        is_loop = again.name == "b.ne" and again.relocation is None and again.target == first.at
        texts = (first.text.split("#")[0], touched.text)
        if not is_loop or texts != ("sub sp, sp, ", "str xzr, [sp]") or not compared.text.startswith("cmp sp, x"):
            continue
        operands = (first.whole(0), compared.whole(1), first.operands[2])
        found[place] = replace(first, name=PROBED, operands=operands)
        found[place + 3] = replace(again, name="nop", operands=())
    return replace(function, instructions=tuple(found))


def known_sum(i: Instruction, known: Known) -> int | None:
    """The distance from the stack pointer at entry that an instruction computes as an address."""
    if i.relocation is not None or len(i.operands) < 2 or not isinstance(i.operands[1], Whole):
        return None
    before = known.get(i.operands[1].name)
    if not isinstance(before, int) or i.operands[1].bits != 64:
        return None
    if i.name == "mov" and len(i.operands) == 2:
        return before
    if i.name == PROBED:
        way = int(known["sp"]) - before
        if way <= 0 or way % i.number(2) != 0:
            raise Refused("a loop over the frame that does not end")
        return before
    if i.name not in ("add", "sub") or not isinstance(i.operands[2], Immediate):
        return None
    shift = i.shift(3)
    number = i.number(2) << (shift.by if shift else 0)
    return before + (number if i.name == "add" else -number)


def known_after(i: Instruction, known: Known) -> Known:
    """What is known of the registers after an instruction."""
    now = dict(known)
    if i.name in ("bl", "blr"):
        return {name: value for name, value in now.items() if name == "sp" or (name in PRESERVED and name != "x30")}
    address, more = address_of(i), after_base(i)
    if address is not None and more:
        value = now.pop(address.base.name, None)
        if isinstance(value, int):
            now[address.base.name] = value + more
    for name in written(i):
        now.pop(name, None)
    place = known_sum(i, known)
    if place is not None and isinstance(i.operands[0], Whole):
        now[i.operands[0].name] = place
    if "sp" not in now:
        raise Refused(f"{i.at:#x}: {i.text}: the stack pointer is changed by what is no number")
    return now


def bytes_moved(i: Instruction, operand: Operand) -> int:
    """How many bytes an access moves for one of its operands."""
    if kind := NARROW.get(scaled(i.name)):
        return TYPE_BYTES[kind.replace("i", "u")]
    if isinstance(operand, Whole):
        return 4 if i.name == "ldpsw" else operand.bits // 8
    if isinstance(operand, Listed):
        return sum(lanes.bits // 8 * lanes.count for lanes in operand.lanes)
    return TYPE_BYTES[operand.kind] if isinstance(operand, Part) else 0


class Frame:
    """What is known at each instruction of a function, and the extent of its frame."""

    def __init__(self, function: Function, jumps: dict[int, Jump]) -> None:
        self.function, self.jumps = function, jumps
        self.known: list[Known | None] = [None] * len(function.instructions)
        self.saved: set[int] = set()
        self.above = 0  # words of the caller's frame that are arguments
        self._spread()
        depths = [int(known["sp"]) for known in self.known if known is not None]
        self.bytes = -min(depths, default=0)
        if self.bytes % STACK_ALIGNMENT != 0:
            raise Refused("a stack pointer that is not aligned")

    def depth(self, i: Instruction) -> int:
        """The distance of the stack pointer from that at entry."""
        return int(self._known(i)["sp"])

    def is_reached(self, i: Instruction) -> bool:
        """Whether an instruction may run."""
        return self.known[i.at // 4] is not None

    def settled(self, i: Instruction) -> list[Instruction]:
        """An instruction with its places in the frame; none if it only moves the stack pointer, or saves a register."""
        place = known_sum(i, self._known(i))
        if place is not None:
            to = i.whole(0)
            if to.name == "sp":
                return []
            if -self.bytes <= place <= 0:
                return [replace(i, name="mov", operands=(to, self._word(i, place)))]
            # the begin of a loop, such as the address before a list: not one that is accessed
        if address_of(i) is None:
            return [replace(i, operands=tuple(self._operand(i, it) for it in i.operands))]
        return self._settled_access(i)

    def _spread(self) -> None:
        work: list[tuple[int, Known]] = [(0, {**dict.fromkeys(PRESERVED, ENTRY), "sp": 0})]
        while work:
            place, given = work.pop()
            before = self.known[place]
            now = given if before is None else {name: it for name, it in before.items() if given.get(name) == it}
            if now == before:
                continue
            i = self.function.instructions[place]
            if "sp" not in now:
                raise Refused(f"{i.at:#x}: {i.text}: the stack pointer differs with the way to here")
            self.known[place] = now
            later = known_after(i, now)
            work += [(it, later) for it in followers(i, place, self.jumps) if it < len(self.known)]

    def _known(self, i: Instruction) -> Known:
        known = self.known[i.at // 4]
        if known is None:
            raise Refused("an instruction that is never reached")
        return known

    def _word(self, i: Instruction, at: int) -> Whole:
        """The address of a place of the frame, as a value that is read."""
        if not -self.bytes <= at <= 0:
            raise Refused(f"{i.text}: an address that is not in the frame")
        return Whole(f"ADDRESS({Place(at).pointer()})", 64)

    def _operand(self, i: Instruction, operand: Operand) -> Operand:
        is_stack = isinstance(operand, Whole) and operand.name == "sp"
        return self._word(i, self.depth(i)) if is_stack else operand

    def _settled_access(self, i: Instruction) -> list[Instruction]:
        address, known = address_of(i), self._known(i)
        assert address is not None
        at = known.get(address.base.name)
        if not isinstance(at, int) or (address.base.name != "sp" and (after_base(i) or address.index is not None)):
            return [i]
        number = i.operands.index(address)
        if address.index is not None:
            base = replace(address, base=self._word(i, at))
            return [replace(i, operands=(*i.operands[:number], base, *i.operands[number + 1 :]))]
        place = at + address.offset
        moved = [(it, bytes_moved(i, it)) for it in i.operands[:number]]
        self._check(i, place, sum(size for _, size in moved))
        kept = list(self._unsaved(i, place, moved, known))
        if len(kept) == len(moved):
            return [replace(i, operands=(*i.operands[:number], Place(place)))]
        return [replace(i, name="str", operands=(operand, Place(to))) for operand, to in kept]

    def _unsaved(
        self, i: Instruction, place: int, moved: list[tuple[Operand, int]], known: Known
    ) -> Iterator[tuple[Operand, int]]:
        """The registers that an access moves, without those that it saves for the caller; each with its place."""
        for operand, size in moved:
            names = names_of(operand)
            is_store = i.name in ("str", "stp", "stur")
            if is_store and names and names[0] in PRESERVED and known.get(names[0]) == ENTRY and size == WORD_BYTES:
                self.saved.add(place)
            else:
                yield operand, place
            place += size

    def _check(self, i: Instruction, place: int, size: int) -> None:
        """Refuses an access outside of the frame and the arguments, and counts these."""
        if place >= 0:
            self.above = max(self.above, (place + size + WORD_BYTES - 1) // WORD_BYTES)
        elif not -self.bytes <= place <= place + size <= 0:
            raise Refused(f"{i.text}: a place that is not in the frame")

    def end(self, text: str, words: int) -> int:
        """Where the array of the frame ends: after the arguments, or before saved registers that the text has not."""
        used = [int(at) for at in re.findall(r"FRAME\((-?\d+)\)", text)]
        if any(at in self.saved for at in used):
            raise Refused("a register that is saved for the caller is used otherwise")
        if words or not self.saved or max(used, default=0) > min(self.saved):
            return WORD_BYTES * words
        return min(self.saved)
