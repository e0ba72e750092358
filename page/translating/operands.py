"""The operands of an instruction, as llvm-objdump writes them."""

from __future__ import annotations

import re
from dataclasses import dataclass
from typing import Union

from translating.refusal import Refused

# the lanes of each arrangement of a vector: what each is in C, and how many there are
ARRANGEMENTS = {
    "8b": ("u8", 8),
    "16b": ("u8", 16),
    "4h": ("u16", 4),
    "8h": ("u16", 8),
    "2s": ("u32", 2),
    "4s": ("u32", 4),
    "1d": ("u64", 1),
    "2d": ("u64", 2),
}
LANE_TYPES = {"b": "u8", "h": "u16", "s": "u32", "d": "u64"}
PART_TYPES = {**LANE_TYPES, "q": "vec"}
TYPE_BYTES = {"u8": 1, "u16": 2, "u32": 4, "u64": 8, "vec": 16}

# Each condition (the manual's table, C1.2.4) as one of seven facts that instructions with flags leave, or its opposite.
CONDITIONS = {
    "eq": "is_eq",
    "ne": "!is_eq",
    "hs": "is_hs",
    "lo": "!is_hs",
    "mi": "is_mi",
    "pl": "!is_mi",
    "vs": "is_vs",
    "vc": "!is_vs",
    "hi": "is_hi",
    "ls": "!is_hi",
    "ge": "is_ge",
    "lt": "!is_ge",
    "gt": "is_gt",
    "le": "!is_gt",
}
SYNONYMS = {"cs": "hs", "cc": "lo"}

# The type to which an extended register is cut before it is widened.
EXTENSIONS = {
    "uxtb": "u8",
    "uxth": "u16",
    "uxtw": "u32",
    "uxtx": "u64",
    "sxtb": "i8",
    "sxth": "i16",
    "sxtw": "i32",
    "sxtx": "i64",
}


@dataclass(frozen=True)
class Whole:
    """An integer register: a w register is the low half of an x register; the zero register has no name."""

    name: str
    bits: int

    @property
    def unsigned(self) -> str:
        """The type of its numbers in C, without a sign."""
        return f"u{self.bits}"

    @property
    def signed(self) -> str:
        """The type of its numbers in C, with a sign."""
        return f"i{self.bits}"

    def read(self) -> str:
        """Its value as 64 bits: those above a w register are 0."""
        if not self.name:
            return "(u64)0"
        return self.name if self.bits == 64 else f"(u64)(u32){self.name}"

    def write(self, value: str) -> list[str]:
        """Writes a value; a w register takes 32 bits of it, and clears those above them (C6.1.2)."""
        if not self.name:
            return []
        if self.name == "sp":
            raise Refused("the stack pointer is written")
        return [f"{self.name} = {value if self.bits == 64 else f'(u32)({value})'};"]


@dataclass(frozen=True)
class Part:
    """The low bits of a vector register: b, h, s and d have 8 to 64 of them, q has all."""

    number: int
    letter: str

    @property
    def kind(self) -> str:
        """The type of its value in C."""
        return PART_TYPES[self.letter]

    @property
    def halves(self) -> tuple[str, str]:
        """The two variables of C that have its register."""
        return f"v{self.number}_low", f"v{self.number}_high"

    def read(self) -> str:
        """Its value as 64 bits, of which those above it are 0."""
        if self.letter == "q":
            raise Refused("all bits of a vector as a number")
        return self.halves[0] if self.letter == "d" else f"(u64)({self.kind}){self.halves[0]}"

    def write(self, value: str) -> list[str]:
        """Writes a value, which clears the bits above it (C1.2.5)."""
        if self.letter == "q":
            raise Refused("a number as all bits of a vector")
        low, high = self.halves
        return [f"{low} = {value if self.letter == 'd' else f'({self.kind})({value})'};", f"{high} = 0;"]


@dataclass(frozen=True)
class Lanes:
    """The lanes of a vector register: all of an arrangement, or one."""

    number: int
    kind: str
    count: int
    lane: int | None

    @property
    def is_one(self) -> bool:
        """Whether it is one lane."""
        return self.lane is not None

    @property
    def bits(self) -> int:
        """The width of a lane in bits."""
        return 8 * TYPE_BYTES[self.kind]

    @property
    def halves(self) -> tuple[str, str]:
        """The two variables of C that have its register."""
        return f"v{self.number}_low", f"v{self.number}_high"

    @property
    def is_half(self) -> bool:
        """Whether its lanes are those of the lower half alone; the upper half is written as 0."""
        return self.bits * self.count == 64

    def _one_at(self) -> tuple[str, int]:
        """The half that has the one lane, and the number of bits below it there."""
        if self.lane is None:
            raise Refused("a vector where one lane is known")
        return self.halves[self.lane * self.bits // 64], self.lane * self.bits % 64

    def one(self) -> str:
        """The value of the one lane as 64 bits, without a sign."""
        half, below = self._one_at()
        shifted = f"({half} >> {below})" if below else half
        return shifted if self.bits == 64 else f"(u64)({self.kind}){shifted}"

    def write_one(self, value: str) -> list[str]:
        """Writes the one lane: the others stay as they are."""
        half, below = self._one_at()
        if self.bits == 64:
            return [f"{half} = {value};"]
        mask = (1 << self.bits) - 1
        cut = f"((u64)({self.kind})({value}) << {below})"
        return [f"{half} = ({half} & {~(mask << below) & 0xFFFFFFFFFFFFFFFF:#x}u) | {cut};"]


@dataclass(frozen=True)
class Immediate:
    """An integer."""

    value: int

    def read(self) -> str:
        """Its value as 64 bits."""
        return f"{self.value & 0xFFFFFFFFFFFFFFFF}ull"


@dataclass(frozen=True)
class Fraction:
    """A floating-point number."""

    text: str


@dataclass(frozen=True)
class Shift:
    """What is done to the operand before it: a shift, or a widening and then a left shift."""

    how: str
    by: int


@dataclass(frozen=True)
class Address:
    """The address of a load or a store: a register plus a number or another register."""

    base: Whole
    offset: int
    index: Whole | None
    shift: Shift | None
    is_kept: bool  # whether the sum is written to the base, as after `!`


@dataclass(frozen=True)
class Place:
    """A place in the frame of the function, or of its caller: its distance from the stack pointer at entry."""

    at: int

    def pointer(self) -> str:
        """Its address as a pointer of C."""
        return f"FRAME({self.at})"

    def read(self) -> str:
        """Its address as 64 bits."""
        return f"ADDRESS({self.pointer()})"


@dataclass(frozen=True)
class Listed:
    """The vector registers of a load or a store of vectors."""

    lanes: tuple[Lanes, ...]


@dataclass(frozen=True)
class Condition:
    """A condition of the flags."""

    name: str

    def read(self) -> str:
        """The condition as an expression of C."""
        return CONDITIONS[self.name]


@dataclass(frozen=True)
class Target:
    """A place in the function's section."""

    at: int


@dataclass(frozen=True)
class Word:
    """Any other operand."""

    text: str


Operand = Union[
    Whole, Part, Lanes, Immediate, Fraction, Shift, Address, Place, Listed, Condition, Target, Word
]


def split(text: str) -> list[str]:
    """The operands of a line: commas within brackets do not separate any."""
    return [part.strip() for part in re.findall(r"(?:\[[^\]]*\]!?|\{[^}]*\}|[^,\[{])+", text)]


def whole_of(text: str) -> Whole | None:
    """The integer register of this name."""
    if text == "sp":
        return Whole("sp", 64)
    if text in ("xzr", "wzr"):
        return Whole("", 64 if text == "xzr" else 32)
    found = re.fullmatch(r"([xw])(\d|[12]\d|30)", text)
    return Whole(f"x{found[2]}", 64 if found[1] == "x" else 32) if found else None


def lanes_of(text: str) -> Lanes | None:
    """The lanes of this name."""
    if found := re.fullmatch(r"v(\d+)\.(\d+[bhsd])", text):
        kind, count = ARRANGEMENTS[found[2]]
        return Lanes(int(found[1]), kind, count, None)
    if found := re.fullmatch(r"v(\d+)\.([bhsd])\[(\d+)\]", text):
        return Lanes(int(found[1]), LANE_TYPES[found[2]], 1, int(found[3]))
    return None


def listed_of(text: str) -> Listed | None:
    """The vector registers in braces: all their lanes, or the lane whose number follows."""
    found = re.fullmatch(r"\{ (.*) \}(\[\d+\])?", text)
    if not found:
        return None
    lanes = [lanes_of(part + (found[2] or "")) for part in found[1].split(", ")]
    known = [lane for lane in lanes if lane is not None]
    if len(known) < len(lanes):
        raise Refused(f"the registers {text} are not known")
    return Listed(tuple(known))


def shift_of(text: str) -> Shift | None:
    """The shift or the widening of this name."""
    found = re.fullmatch(r"([a-z]+)(?: #(\w+))?", text)
    if not found or found[1] not in ("lsl", "lsr", "asr", "ror", "msl", *EXTENSIONS):
        return None
    return Shift(found[1], int(found[2] or "0", 0))


def address_of(text: str) -> Address | None:
    """The address in brackets."""
    found = re.fullmatch(r"\[([^\]]*)\](!?)", text)
    if not found:
        return None
    first, *rest = found[1].split(", ")
    base = whole_of(first)
    if base is None or base.bits != 64:
        raise Refused(f"the address {text} is not known")
    if not rest:
        return Address(base, 0, None, None, False)
    if rest[0].startswith("#"):
        return Address(base, int(rest[0][1:], 0), None, None, found[2] == "!")
    index, shift = whole_of(rest[0]), shift_of(rest[1]) if len(rest) > 1 else None
    if index is None or len(rest) > 2 or (len(rest) == 2 and shift is None):
        raise Refused(f"the address {text} is not known")
    return Address(base, 0, index, shift, False)


def condition_of(text: str) -> Condition | None:
    """The condition of this name."""
    name = SYNONYMS.get(text, text)
    return Condition(name) if name in CONDITIONS else None


def operand_of(text: str) -> Operand:
    """The operand of this text."""
    found = whole_of(text) or lanes_of(text) or listed_of(text) or shift_of(text) or address_of(text)
    if found is not None:
        return found
    if part := re.fullmatch(r"([bhsdq])(\d|[12]\d|3[01])", text):
        return Part(int(part[2]), part[1])
    if number := re.fullmatch(r"#(-?(?:0x[0-9a-f]+|\d+))", text):
        return Immediate(int(number[1], 0))
    if re.fullmatch(r"#-?\d+\.\d+", text):
        return Fraction(text[1:])
    if condition := condition_of(text):
        return condition
    if target := re.fullmatch(r"(0x[0-9a-f]+)", text):
        return Target(int(target[1], 16))
    return Word(text)
