"""Loads and stores, as statements of C.

A place in the frame is a pointer of C (operands.Place); any other is computed as a number of 64 bits.
"""

from __future__ import annotations

import re
from dataclasses import dataclass

from translating.instructions import Instruction
from translating.integers import Writer, shifted
from translating.operands import TYPE_BYTES, Address, Immediate, Listed, Part, Place, Whole
from translating.refusal import Refused

# the type that a load or a store of less than a register moves; a load of a signed type extends the sign
NARROW = {
    "ldrb": "u8",
    "ldrh": "u16",
    "ldrsb": "i8",
    "ldrsh": "i16",
    "ldrsw": "i32",
    "strb": "u8",
    "strh": "u16",
}
LOADS = ("ldr", "ldrb", "ldrh", "ldrsb", "ldrsh", "ldrsw")
STORES = ("str", "strb", "strh")
PAIRS = ("ldp", "ldnp", "ldpsw", "stp", "stnp")


def scaled(name: str) -> str:
    """The name of the load or store with the same effect, but another form of address: `ldur` is `ldr`."""
    return re.sub(r"^(ld|st)ur", r"\1r", name)


@dataclass(frozen=True)
class Access:
    """Where an instruction loads or stores, and how it changes the base before or after that."""

    address: Address | Place
    more: int  # what is added to the base after the access

    @property
    def base(self) -> str:
        """The name of the register that has the base; empty for a place in the frame."""
        return self.address.base.name if isinstance(self.address, Address) else ""

    def pointer(self, added: int = 0) -> str:
        """The address plus a number, as a pointer of C; after `before`."""
        address = self.address
        if isinstance(address, Place):
            return Place(address.at + added).pointer()
        if address.index is not None:
            index = shifted(address.index, address.shift)
            return f"PLACE({address.base.read()} + {index}{f' + {added}' if added else ''})"
        offset = added if address.is_kept else address.offset + added
        return f"PLACE({address.base.read()}{f' + {Immediate(offset).read()}' if offset else ''})"

    def before(self) -> list[str]:
        """The change of the base before the access."""
        if isinstance(self.address, Place) or not self.address.is_kept:
            return []
        return self._added(self.address.offset)

    def after(self) -> list[str]:
        """The change of the base after the access."""
        return self._added(self.more) if self.more else []

    def _added(self, number: int) -> list[str]:
        if isinstance(self.address, Place):
            raise Refused("the change of its base is not known here")
        return self.address.base.write(f"{self.address.base.read()} + {Immediate(number).read()}")


def access_at(i: Instruction, place: int) -> Access:
    """The access whose address is at a place, the last or last but one."""
    found = i.operands[place] if place < len(i.operands) else None
    if not isinstance(found, (Address, Place)):
        raise Refused("its address is not known here")
    behind = i.operands[place + 1 :]
    if not behind:
        return Access(found, 0)
    if len(behind) > 1 or not isinstance(behind[0], Immediate) or isinstance(found, Place):
        raise Refused("what follows its address is not known here")
    if found.offset or found.index:
        raise Refused("what follows its address is not known here")
    return Access(found, behind[0].value)


def load(to: Whole | Part, kind: str, access: Access, added: int = 0) -> list[str]:
    """Loads a register."""
    if isinstance(to, Part) and to.letter == "q":
        low, high = to.halves
        return [f"{low} = load_u64({access.pointer(added)});", f"{high} = load_u64({access.pointer(added + 8)});"]
    return to.write(f"load_{kind}({access.pointer(added)})")


def store(register: Whole | Part, kind: str, access: Access, added: int = 0) -> list[str]:
    """Stores a register."""
    if isinstance(register, Part) and register.letter == "q":
        low, high = register.halves
        return [f"store_u64({access.pointer(added)}, {low});", f"store_u64({access.pointer(added + 8)}, {high});"]
    return [f"store_{kind}({access.pointer(added)}, {register.read()});"]


def register_at(i: Instruction, place: int) -> Whole | Part:
    """The register at a place."""
    found = i.operands[place]
    if not isinstance(found, (Whole, Part)):
        raise Refused("what it moves is not known here")
    return found


def refuse_changed(access: Access, registers: list[Whole | Part]) -> None:
    """Refuses an access that changes its base, and moves it."""
    is_changed = bool(access.before() or access.after())
    if is_changed and any(isinstance(it, Whole) and it.name == access.base for it in registers):
        raise Refused("it moves the base that it changes")


def write_one(i: Instruction) -> list[str]:
    """A load or a store of one register."""
    name, register, access = scaled(i.name), register_at(i, 0), access_at(i, 1)
    refuse_changed(access, [register])
    kind = NARROW.get(name) or (register.unsigned if isinstance(register, Whole) else register.kind)
    move = load if name in LOADS else store
    return [*access.before(), *move(register, kind, access), *access.after()]


def write_two(i: Instruction) -> list[str]:
    """A load or a store of two registers that follow one another in memory.

    If a load overwrites its own base, that register is loaded last.
    """
    registers, access = [register_at(i, 0), register_at(i, 1)], access_at(i, 2)
    refuse_changed(access, registers)
    moves = []
    for place, register in enumerate(registers):
        kind = register.unsigned if isinstance(register, Whole) else register.kind
        bytes_each = TYPE_BYTES[kind]
        if i.name == "ldpsw":
            kind, bytes_each = "i32", 4
        moves.append((load if i.name.startswith("ld") else store)(register, kind, access, place * bytes_each))
    first = registers[0]
    if i.name.startswith("ld") and isinstance(first, Whole) and first.name == access.base:
        moves.reverse()
    return [*access.before(), *moves[0], *moves[1], *access.after()]


def write_lane(i: Instruction) -> list[str]:
    """A load or a store of one lane of a vector."""
    listed, access = i.operands[0], access_at(i, 1)
    if not isinstance(listed, Listed) or len(listed.lanes) != 1 or not listed.lanes[0].is_one:
        raise Refused("the registers that it moves are not known here")
    lane = listed.lanes[0]
    if i.name == "ld1":
        moves = lane.write_one(f"load_{lane.kind}({access.pointer()})")
    else:
        moves = [f"store_{lane.kind}({access.pointer()}, {lane.one()});"]
    return [*access.before(), *moves, *access.after()]


def nothing(_: Instruction) -> list[str]:
    """A prefetch, which only makes a later access faster."""
    return []


UNSCALED = tuple(name.replace("r", "ur", 1) for name in (*LOADS, *STORES))
WRITERS: dict[str, Writer] = {
    **dict.fromkeys((*LOADS, *STORES, *UNSCALED), write_one),
    **dict.fromkeys(PAIRS, write_two),
    **dict.fromkeys(("ld1", "st1"), write_lane),
    **dict.fromkeys(("prfm", "prfum"), nothing),
}
