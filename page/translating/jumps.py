"""Jump tables.

A jump goes to the sum of a place in the function (`adr`) and four times an entry of a table, which has one or two
bytes:

    adr   x11, #16
    ldrb  w12, [x10, x9]            or ldrh w12, [x10, x9, lsl #1]
    add   x11, x11, x12, lsl #2
    br    x11

In C the jump is a `switch` over the number of the entry. The table's end is only searched for to find all entries: if
one were missing, the program would end at the jump.
"""

from __future__ import annotations

from dataclasses import dataclass, replace

from translating.elf import ElfObject, Relocation, Section
from translating.instructions import Function, Instruction
from translating.integers import shifted
from translating.operands import EXTENSIONS, Address, Immediate, Shift, Target, Whole
from translating.refusal import Refused

WRITE_NOTHING = ("st", "cmp", "cmn", "ccm", "tst", "cb", "tb", "br", "blr", "prf")
ENDS_WAY = ("b", "bl", "br", "blr", "ret", "brk", "udf")
# the number of bytes of an entry, by the instruction that loads it
ENTRY_BYTES = {"ldrb": 1, "ldrh": 2}


@dataclass(frozen=True)
class Jump:
    """A jump table: where an entry is loaded, by which number, and the target for each number."""

    entry_at: int
    number: str  # in C
    targets: tuple[int, ...]


def last_write(function: Function, before: int, register: Whole) -> int:
    """The last instruction before another one, in the order of the text, that writes a register."""
    for place in range(before - 1, -1, -1):
        i = function.instructions[place]
        if i.name.startswith(WRITE_NOTHING):
            continue
        count = 2 if i.name.startswith(("ldp", "ldnp")) else 1
        if any(isinstance(it, Whole) and it.name == register.name for it in i.operands[:count]):
            return place
    raise Refused("a jump whose table is not found")


def base_of(i: Instruction) -> int:
    """The place that `adr` computes."""
    found = i.operands[1]
    if i.name != "adr" or not isinstance(found, (Immediate, Target)):
        raise Refused("a jump whose table is not found")
    return i.at + found.value if isinstance(found, Immediate) else found.at


def table_ends(elf: ElfObject, section: Section) -> list[int]:
    """The places of a section at which a table may end: the beginning of another one, or the end of the section."""
    begins = {
        relocation.place
        for places in elf.relocations.values()
        for relocation in places.values()
        if relocation.symbol.section == section.number
    }
    return sorted(begins | {section.size})


def entries(elf: ElfObject, table: Relocation, width: int) -> list[int]:
    """The entries of a table."""
    section = elf.section_of(table.symbol)
    if not section.is_data or elf.relocations_of(section):
        raise Refused("a jump whose table is not found")
    end = next(it for it in table_ends(elf, section) if it > table.place)
    data = elf.contents(section)[table.place : end]
    return [int.from_bytes(data[at : at + width], "little") for at in range(0, len(data) - width + 1, width)]


def jump_at(elf: ElfObject, function: Function, place: int) -> Jump:
    """The jump table of an instruction."""
    at = function.instructions
    step = last_write(function, place, at[place].whole(0))
    if at[step].name != "add" or not at[step].has(Whole, Whole, Whole, Shift) or at[step].shift(3) != Shift("lsl", 2):
        raise Refused("a jump whose table is not found")
    base = last_write(function, step, at[step].whole(1))
    entry = last_write(function, step, at[step].whole(2))
    address = at[entry].operands[-1]
    if at[entry].name not in ENTRY_BYTES or not isinstance(address, Address) or address.index is None:
        raise Refused("a jump whose table is not found")
    table = at[last_write(function, entry, address.base)].relocation
    if table is None:
        raise Refused("a jump whose table is not found")
    width, begin = ENTRY_BYTES[at[entry].name], base_of(at[base])
    found = tuple(begin + 4 * it for it in entries(elf, table, width))
    if not all(it % 4 == 0 and 0 <= it < function.section.size for it in found):
        raise Refused("a jump table that leads out of its function")
    return Jump(at[entry].at, number_of(address, width), found)


def number_of(address: Address, width: int) -> str:
    """The number of the entry that a load from a table takes, in C."""
    assert address.index is not None
    shift = address.shift or Shift("lsl", 0)
    if 1 << shift.by != width or shift.how not in ("lsl", *EXTENSIONS):
        raise Refused("a jump whose table is not found")
    return shifted(address.index, replace(shift, by=0))


def refuse_other_ways(function: Function, jumps: dict[int, Jump]) -> None:
    """Refuses a jump that may be reached otherwise than from the load of its entry, instruction by instruction."""
    targets = {i.target for i in function.instructions if i.is_branch and i.relocation is None}
    targets.update(at for jump in jumps.values() for at in jump.targets)
    entries_at = {jump.entry_at for jump in jumps.values()}
    for at, jump in jumps.items():
        way = function.instructions[jump.entry_at // 4 + 1 : at // 4 + 1]
        if any(i.is_branch or i.name in ENDS_WAY or i.at in entries_at for i in way[:-1]):
            raise Refused(f"{at:#x}: a jump that does not follow the load of its entry")
        if any(i.at in targets for i in way):
            raise Refused(f"{at:#x}: a jump that does not follow the load of its entry")


def jumps_of(elf: ElfObject, function: Function) -> dict[int, Jump]:
    """All jump tables of a function, by place."""
    found = {}
    for place, i in enumerate(function.instructions):
        if i.name == "br":
            try:
                found[i.at] = jump_at(elf, function, place)
            except Refused as why:
                raise Refused(f"{i.at:#x}: {i.text}: {why}") from why
    refuse_other_ways(function, found)
    return found
