"""The data of an object as one constant of C, and its symbols: places in it, or functions of C.

Addresses in the data are initialised as pointers, so the linker or the loader fills them in.
"""

from __future__ import annotations

from collections.abc import Iterator

from translating.elf import BYTES, IN_MEMORY, ElfObject, Relocation, Section
from translating.refusal import Refused

# relocations of data (ELF for the Arm 64-bit Architecture, 5.7.5): an address, and the distance to one from the place
# itself
ABS64, PREL32 = 257, 261
PAGE_BYTES = 4096
ADDRESS_BYTES = 8
# of the flags of a section: it is written; the loader alone writes .data.rel.ro, which has addresses
WRITTEN, FOR_LOADER = 1, ".data.rel.ro"


class Image:
    """The sections of data, one after another, each with its alignment, as if the first began a page.

    The offset of a place in its page is that in the data, wherever C has the data, as far as sections are aligned.
    """

    def __init__(self, elf: ElfObject, prefix: str, reached: set[int]) -> None:
        """The data in these sections of an object; all names in C begin with the prefix."""
        self.elf, self.prefix, self.name = elf, prefix, f"{prefix}data"
        sections = [section for section in elf.sections if section.is_data and section.number in reached]
        for section in (it for it in elf.sections if it.number in reached):
            if section.flags & IN_MEMORY and not section.is_code and not section.is_data:
                raise Refused(f"what {section.name} is for is not known here")
        self.alignment = max((section.alignment for section in sections), default=ADDRESS_BYTES)
        self.offsets: dict[int, int] = {}
        self.bytes = bytearray()
        for section in sorted(sections, key=lambda it: it.kind != BYTES):
            if section.flags & WRITTEN and not section.name.startswith(FOR_LOADER):
                raise Refused(f"{section.name} is written")
            self.bytes += bytes(-len(self.bytes) % section.alignment)
            self.offsets[section.number] = len(self.bytes)
            self.bytes += elf.contents(section)
        self.bytes += bytes(-len(self.bytes) % max(self.alignment, ADDRESS_BYTES))
        self.addresses: dict[int, int] = {}
        for section in sections:
            self._relocate(section)

    def function(self, relocation: Relocation) -> str | None:
        """The name in C of the function to which a relocation leads; none if it leads to data."""
        section = self.elf.section_of(relocation.symbol)
        if not section.is_code:
            return None
        if relocation.place != 0:
            raise Refused(f"a place within the function {section.name}")
        return self.name_of(section)

    def name_of(self, section: Section) -> str:
        """The name in C of the function in a section: the compiler gives each function a section of its own."""
        return f"{self.prefix}{section.number}"

    def offset(self, relocation: Relocation) -> int:
        """The place in the array to which a relocation leads."""
        section = self._data(relocation)
        if not 0 <= relocation.place <= section.size:
            raise Refused(f"a place in {section.name} that is not in its data")
        return self.offsets[section.number] + relocation.place

    def page(self, relocation: Relocation) -> str:
        """The beginning of the page of 4096 bytes that has a place, as `adrp` computes it."""
        return f"ADDRESS(&{self.name}) + {self.offset(relocation) & -PAGE_BYTES}"

    def within_page(self, relocation: Relocation) -> str:
        """The offset of a place in its page."""
        return str(self.offset_within_page(relocation))

    def offset_within_page(self, relocation: Relocation) -> int:
        """The same, as a number."""
        return self.offset(relocation) & PAGE_BYTES - 1

    def text(self) -> Iterator[str]:
        """The constant in C: bytes, and addresses of places in it."""
        parts = list(self._parts())
        size = len(self.bytes)
        yield f"struct {self.name} {{"
        for at, end in parts:
            yield f"  struct address a{at};" if at in self.addresses else f"  u8 b{at}[{end - at}];"
        yield "};"
        yield f"static const _Alignas({self.alignment}) struct {self.name} {self.name} = {{"
        for at, end in parts:
            if at in self.addresses:
                yield f"  INITIAL_ADDRESS((const u8 *)&{self.name} + {self.addresses[at]}),"
                continue
            yield "  {"
            for row in range(at, end, 32):
                yield f"    {', '.join(map(str, self.bytes[row : min(row + 32, end)]))},"
            yield "  },"
        yield "};"
        yield f"CONSTANT_HAS({self.name}, {size})"

    def _parts(self) -> Iterator[tuple[int, int]]:
        """Where the addresses are, and the bytes between them; each with its end."""
        at = 0
        for address in sorted(self.addresses):
            if at < address:
                yield at, address
            yield address, address + ADDRESS_BYTES
            at = address + ADDRESS_BYTES
        if at < len(self.bytes):
            yield at, len(self.bytes)

    def _data(self, relocation: Relocation) -> Section:
        """The section of data to which a relocation leads."""
        section = self.elf.section_of(relocation.symbol)
        if section.number not in self.offsets:
            raise Refused(f"{section.name} is no data")
        return section

    def _way(self, section: Section, place: int, relocation: Relocation) -> int:
        """The distance to a place, from the relocation or from the beginning of its table, which is a section."""
        to = self._data(relocation)
        if not any(0 <= it <= to.size for it in (relocation.place, relocation.place - place)):
            raise Refused(f"a place in {to.name} that is not in its data")
        return self.offsets[to.number] + relocation.place - self.offsets[section.number] - place

    def _relocate(self, section: Section) -> None:
        for place, relocation in self.elf.relocations_of(section).items():
            at = self.offsets[section.number] + place
            if relocation.kind == ABS64 and self.function(relocation) is None and at % ADDRESS_BYTES == 0:
                self.addresses[at] = self.offset(relocation)
            elif relocation.kind == PREL32 and self.function(relocation) is None:
                way = self._way(section, place, relocation)
                self.bytes[at : at + 4] = (way & 0xFFFFFFFF).to_bytes(4, "little")
            else:
                raise Refused(f"{section.name} at {place:#x}: the relocation {relocation.kind} is not known here")
