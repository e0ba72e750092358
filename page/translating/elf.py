"""An ELF object of 64 bits: its sections, its symbols and its relocations."""

from __future__ import annotations

import struct
from collections.abc import Iterator
from dataclasses import dataclass

from translating.refusal import Refused

SECTION_ROW = struct.Struct("<IIQQQQIIQQ")
SYMBOL_ROW = struct.Struct("<IBBHQQ")
RELOCATION_ROW = struct.Struct("<QQq")

# the numbers of the format for the machine, and for kinds of sections and symbols
AARCH64 = 183
BYTES, SYMBOLS, RELOCATIONS, ZEROS = 1, 2, 4, 8
IN_MEMORY, CODE = 2, 4
UNDEFINED, FIRST_RESERVED = 0, 0xFF00
GLOBAL = 1


@dataclass(frozen=True)
class Section:
    """A section, by its row in the object's table."""

    number: int
    name: str
    kind: int
    flags: int
    offset: int
    size: int
    link: int
    of: int
    alignment: int

    @property
    def is_code(self) -> bool:
        """Whether it has instructions."""
        return self.kind == BYTES and bool(self.flags & CODE)

    @property
    def is_data(self) -> bool:
        """Whether it has data in memory."""
        return self.kind in (BYTES, ZEROS) and bool(self.flags & IN_MEMORY) and not self.flags & CODE


@dataclass(frozen=True)
class Symbol:
    """A symbol: a place in a section, or a name in another object."""

    name: str
    section: int
    value: int
    is_global: bool

    @property
    def is_export(self) -> bool:
        """Whether others may refer to it."""
        return self.is_global and not self.is_outside

    @property
    def is_outside(self) -> bool:
        """Whether it is in another object."""
        return self.section == UNDEFINED


@dataclass(frozen=True)
class Relocation:
    """A relocation at a place: its kind, by the number in the manual, its symbol, and what is added to the address."""

    kind: int
    symbol: Symbol
    added: int

    @property
    def place(self) -> int:
        """The place in the section of the symbol to which it leads."""
        return self.symbol.value + self.added


class ElfObject:
    """The object in a file."""

    def __init__(self, path: str) -> None:
        with open(path, "rb") as file:
            self.bytes = file.read()
        if self.bytes[:6] != b"\x7fELF\x02\x01" or struct.unpack_from("<H", self.bytes, 18)[0] != AARCH64:
            raise Refused(f"{path} is no object of AArch64")
        self.sections = self._read_sections()
        self.symbols = self._read_symbols()
        self.relocations = self._read_relocations()

    def contents(self, section: Section) -> bytes:
        """The contents of a section."""
        if section.kind == ZEROS:
            return bytes(section.size)
        return self.bytes[section.offset : section.offset + section.size]

    def relocations_of(self, section: Section) -> dict[int, Relocation]:
        """The relocations of a section, by place."""
        return self.relocations.get(section.number, {})

    def section_of(self, symbol: Symbol) -> Section:
        """The section of a symbol."""
        if symbol.is_outside or symbol.section >= FIRST_RESERVED:
            raise Refused(f"the symbol {symbol.name} is in no section")
        return self.sections[symbol.section]

    def reached(self, names: set[str]) -> set[int]:
        """The numbers of the sections that these global symbols need: their own, and what relocations there lead to."""
        work = [symbol.section for symbol in self.symbols if symbol.is_export and symbol.name in names]
        found: set[int] = set()
        while work:
            number = work.pop()
            if number in found:
                continue
            found.add(number)
            symbols = [relocation.symbol for relocation in self.relocations.get(number, {}).values()]
            work += [symbol.section for symbol in symbols if not symbol.is_outside]
        return found

    def _text(self, offset: int) -> str:
        return self.bytes[offset : self.bytes.index(b"\0", offset)].decode()

    def _read_sections(self) -> list[Section]:
        (table,) = struct.unpack_from("<Q", self.bytes, 0x28)
        count, names = struct.unpack_from("<HH", self.bytes, 0x3C)
        rows = [SECTION_ROW.unpack_from(self.bytes, table + SECTION_ROW.size * number) for number in range(count)]
        found = []
        for number, (name, kind, flags, _, offset, size, link, of, alignment, _) in enumerate(rows):
            text = self._text(rows[names][4] + name)
            found.append(Section(number, text, kind, flags, offset, size, link, of, max(alignment, 1)))
        return found

    def _rows(self, section: Section, form: struct.Struct) -> Iterator[tuple[int, ...]]:
        return form.iter_unpack(self.contents(section))

    def _read_symbols(self) -> list[Symbol]:
        table = next((section for section in self.sections if section.kind == SYMBOLS), None)
        if table is None:
            raise Refused("the object has no symbols")
        names = self.sections[table.link].offset
        rows = self._rows(table, SYMBOL_ROW)
        return [
            Symbol(self._text(names + name), section, value, info >> 4 == GLOBAL)
            for name, info, _, section, value, _ in rows
        ]

    def _read_relocations(self) -> dict[int, dict[int, Relocation]]:
        found: dict[int, dict[int, Relocation]] = {}
        for section in self.sections:
            if section.kind != RELOCATIONS:
                continue
            places = found.setdefault(section.of, {})
            for place, info, added in self._rows(section, RELOCATION_ROW):
                if place in places:
                    raise Refused(f"two relocations at {place:#x} of {self.sections[section.of].name}")
                places[place] = Relocation(info & 0xFFFFFFFF, self.symbols[info >> 32], added)
        return found
