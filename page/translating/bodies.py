"""A function as C: each instruction as one or more statements, in the same order, with labels at branch targets."""

from __future__ import annotations

import re
from collections.abc import Iterator
from dataclasses import replace

from translating import integers, memory, vectors
from translating.frames import Frame, without_probes
from translating.image import Image
from translating.instructions import Function, Instruction
from translating.integers import Writer
from translating.jumps import jumps_of
from translating.liveness import (
    BRANCH,
    CALL,
    GOTO,
    RETURN,
    SWITCH,
    TRAP,
    Liveness,
    Statement,
    bits_of,
    statement,
)
from translating.operands import Address, Lanes, Part, Target, condition_of
from translating.refusal import Refused

# relocations of code (ELF for the Arm 64-bit Architecture, 5.7): a page, a place in one for a sum, and for a load or a
# store of each width, a jump and a call
PAGE, PLACE_FOR_SUM, JUMP, CALLED = 275, 277, 282, 283
PLACES_FOR_ACCESS = (278, 284, 285, 286, 299)

# an address in the function, which no statement that is kept may read
PLACE_IN_CODE = "PLACE_IN_CODE"

# symbols of other objects, which machine.h defines: how each is called, the registers that it reads, and its results
OUTSIDE = {
    "memcpy": ("memcpy(PLACE(x0), PLACE(x1), SIZE(x2));", 3, 0),
    "memmove": ("memmove(PLACE(x0), PLACE(x1), SIZE(x2));", 3, 0),
    "memset": ("memset(PLACE(x0), (int)x1, SIZE(x2));", 3, 0),
    "memcmp": ("x0 = compared(PLACE(x0), PLACE(x1), SIZE(x2));", 3, 1),
    "bcmp": ("x0 = compared(PLACE(x0), PLACE(x1), SIZE(x2));", 3, 1),
    "rattle_alloc": ("{ struct x0_x1 r_ = allocated(x0, x1); x0 = r_.x0; x1 = r_.x1; }", 2, 2),
    "rattle_realloc": ("{ struct x0_x1 r_ = reallocated(x0, x1, x2, x3); x0 = r_.x0; x1 = r_.x1; }", 4, 2),
    "rattle_dealloc": ("rattle_dealloc(PLACE(x0));", 1, 0),
}


def writer_of(i: Instruction) -> Writer:
    """The function that writes an instruction; vector and integer instructions share names."""
    if i.name in memory.WRITERS:
        return memory.WRITERS[i.name]
    is_vector = any(isinstance(operand, (Part, Lanes)) for operand in i.operands)
    writers = vectors.WRITERS if is_vector else integers.WRITERS
    if i.name not in writers:
        raise Refused("this instruction is not known here")
    return writers[i.name]


def written(texts: list[str]) -> Iterator[Statement]:
    """These statements, without those that write a variable to itself."""
    return (statement(text) for text in texts if not re.fullmatch(r"(\w+) = \1;", text))


def outside_call(name: str) -> Statement:
    """The call of a function that is not in the object."""
    if name not in OUTSIDE:
        raise Refused(f"{name} is not known here")
    text, read, results = OUTSIDE[name]
    registers = [f"x{number}" for number in range(8)]
    return Statement(text, CALL, reads=bits_of(*registers[:read]), writes=bits_of(*registers[:results]))


class Body:
    """The statements of a function."""

    def __init__(self, image: Image, function: Function) -> None:
        self.image, self.function = image, without_probes(function)
        self.jumps = jumps_of(image.elf, self.function)
        self.entries = {jump.entry_at: jump for jump in self.jumps.values()}
        self.frame = Frame(self.function, self.jumps)
        self.liveness = Liveness(list(self._statements()))

    def _statements(self) -> Iterator[tuple[int, list[Statement]]]:
        """The statements of each instruction, with its place."""
        for i in self.function.instructions:
            if not self.frame.is_reached(i):
                continue
            try:
                yield i.at, list(self._written(i))
            except (Refused, LookupError, ValueError) as why:
                raise Refused(f"{i.at:#x}: {i.text}: {why}") from why

    def _written(self, i: Instruction) -> Iterator[Statement]:
        if jump := self.entries.get(i.at):
            yield statement(f"chosen = {jump.number};")
        if i.relocation is not None:
            yield from self._relocated(i)
            return
        own = OWN.get(i.name)
        if own is not None:
            yield from own(self, i)
        elif i.name.startswith("b.") and (condition := condition_of(i.name[2:])):
            yield self._branch_if(i, condition.read())
        else:
            for settled in self.frame.settled(i):
                yield from written(writer_of(settled)(settled))

    def _relocated(self, i: Instruction) -> Iterator[Statement]:
        """An instruction that a linker would fill in."""
        assert i.relocation is not None
        kind = i.relocation.kind
        if (kind, i.name) in ((JUMP, "b"), (CALLED, "bl")):
            yield from self._call(i)
        elif kind == PAGE and i.name == "adrp":
            yield from written(i.whole(0).write(self.image.page(i.relocation)))
        elif kind == PLACE_FOR_SUM and i.name == "add" and i.number(2) == 0:
            text = f"{i.whole(1).read()} + {self.image.within_page(i.relocation)}"
            yield from written(i.whole(0).write(text))
        elif kind in PLACES_FOR_ACCESS:
            yield from written(self._relocated_access(i))
        else:
            raise Refused(f"the relocation {kind} is not known here")

    def _relocated_access(self, i: Instruction) -> list[str]:
        """A load or a store; a linker would fill in the offset in the page in its address."""
        address, relocation = i.operands[-1], i.relocation
        if relocation is None or not isinstance(address, Address) or self.image.function(relocation) is not None:
            raise Refused("its address is not known here")
        if address.offset != 0 or address.index is not None or address.is_kept or address.base.name == "sp":
            raise Refused("its address is not known here")
        filled = replace(address, offset=self.image.offset_within_page(relocation))
        return memory.write_one(replace(i, operands=(*i.operands[:-1], filled), relocation=None))

    def _call(self, i: Instruction) -> Iterator[Statement]:
        """A call of another function; if it is a jump, as the last act of this one."""
        assert i.relocation is not None
        symbol = i.relocation.symbol
        name = None if symbol.is_outside else self.image.function(i.relocation)
        if name is None:
            yield outside_call(symbol.name)
        else:
            yield Statement("", CALL, called=name, depth=self.frame.depth(i))
        if i.name == "b":
            if self.frame.depth(i) != 0:
                raise Refused("a jump to a function, with a frame")
            yield Statement("", RETURN)

    def _call_itself(self, i: Instruction) -> Iterator[Statement]:
        target = i.operands[0]
        if not isinstance(target, Target) or target.at != 0:
            raise Refused("a call into a function")
        yield Statement("", CALL, called=self.image.name_of(self.function.section), depth=self.frame.depth(i))

    def _return(self, i: Instruction) -> Iterator[Statement]:
        if i.operands or self.frame.depth(i) != 0:
            raise Refused("a return that is not known here")
        yield Statement("", RETURN)

    def _goto(self, i: Instruction) -> Iterator[Statement]:
        yield statement(f"goto L{i.target:x};", GOTO, (i.target,))

    def _branch_if(self, i: Instruction, condition: str) -> Statement:
        return statement(f"if ({condition}) goto L{i.target:x};", BRANCH, (i.target,))

    def _branch_if_zero(self, i: Instruction) -> Iterator[Statement]:
        yield self._branch_if(i, f"{i.whole(0).read()} {'==' if i.name == 'cbz' else '!='} 0")

    def _branch_if_bit(self, i: Instruction) -> Iterator[Statement]:
        bit = f"({i.whole(0).read()} >> {i.number(1)} & 1)"
        yield self._branch_if(i, f"{bit} {'==' if i.name == 'tbz' else '!='} 0")

    def _place(self, i: Instruction) -> Iterator[Statement]:
        """The place to which a jump table adds: no jump uses it in C, and nothing else may."""
        yield from written(i.whole(0).write(PLACE_IN_CODE))

    def _jump(self, i: Instruction) -> Iterator[Statement]:
        targets = self.jumps[i.at].targets
        cases = " ".join(f"case {number}: goto L{at:x};" for number, at in enumerate(targets))
        yield statement(f"switch (chosen) {{ {cases} default: END; }}", SWITCH, targets)

    def _nothing(self, _: Instruction) -> Iterator[Statement]:
        yield from ()

    def _end(self, _: Instruction) -> Iterator[Statement]:
        yield Statement("END;", TRAP)


OWN = {
    "ret": Body._return,
    "b": Body._goto,
    "cbz": Body._branch_if_zero,
    "cbnz": Body._branch_if_zero,
    "tbz": Body._branch_if_bit,
    "tbnz": Body._branch_if_bit,
    "adr": Body._place,
    "br": Body._jump,
    "bl": Body._call_itself,
    "brk": Body._end,
    "udf": Body._end,
    "nop": Body._nothing,
}
