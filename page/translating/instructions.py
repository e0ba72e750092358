"""The instructions of an object: the output of llvm-objdump for each, with the relocation at its place."""

from __future__ import annotations

import re
import subprocess
from dataclasses import dataclass
from typing import TypeVar

from translating.elf import ElfObject, Relocation, Section
from translating.operands import (
    Condition,
    Immediate,
    Lanes,
    Operand,
    Part,
    Shift,
    Target,
    Whole,
    operand_of,
    split,
)
from translating.refusal import Refused

Kind = TypeVar("Kind")

CONDITIONAL_BRANCHES = ("cbz", "cbnz", "tbz", "tbnz")


@dataclass(frozen=True)
class Instruction:
    """An instruction and its place in its section.

    A request for an operand of one kind is refused if the operand is of another kind.
    """

    at: int
    name: str
    operands: tuple[Operand, ...]
    text: str
    relocation: Relocation | None

    def has(self, *kinds: type) -> bool:
        """Whether its operands are of these kinds."""
        return len(self.operands) == len(kinds) and all(
            isinstance(operand, kind) for operand, kind in zip(self.operands, kinds)
        )

    def whole(self, place: int) -> Whole:
        """The integer register at a place."""
        return self._operand(place, Whole)

    def lanes(self, place: int) -> Lanes:
        """The vector with its lanes at a place."""
        return self._operand(place, Lanes)

    def part(self, place: int) -> Part:
        """The part of a vector register at a place."""
        return self._operand(place, Part)

    def number(self, place: int) -> int:
        """The integer at a place."""
        return self._operand(place, Immediate).value

    def condition(self, place: int) -> str:
        """The condition at a place, in C."""
        return self._operand(place, Condition).read()

    def shift(self, place: int) -> Shift | None:
        """The shift at a place, if there is one."""
        return self._operand(place, Shift) if place < len(self.operands) else None

    @property
    def is_branch(self) -> bool:
        """Whether it is a branch, conditional or not, with its target as an operand."""
        return self.name == "b" or self.name.startswith("b.") or self.name in CONDITIONAL_BRANCHES

    @property
    def target(self) -> int:
        """Where a branch goes."""
        if self.relocation is not None:
            raise Refused("a branch to another section")
        return self._operand(len(self.operands) - 1, Target).at

    def _operand(self, place: int, kind: type[Kind]) -> Kind:
        if place >= len(self.operands):
            raise Refused("it has too few operands")
        found = self.operands[place]
        if not isinstance(found, kind):
            raise Refused(f"its operand {place + 1} is not known here")
        return found


@dataclass(frozen=True)
class Function:
    """The instructions of a section: the compiler gives each function a section of its own."""

    section: Section
    instructions: tuple[Instruction, ...]


def instruction_of(at: int, name: str, words: str, relocation: Relocation | None) -> Instruction:
    """The instruction for these words."""
    text = f"{name} {words}".strip()
    try:
        return Instruction(at, name, tuple(map(operand_of, split(words))), text, relocation)
    except (Refused, ValueError) as why:
        raise Refused(f"{at:#x}: {text}: {why}") from why


def disassembled(path: str) -> str:
    """The output of llvm-objdump for the code sections, in the order of the object."""
    words = ["llvm-objdump", "-d", "--no-show-raw-insn", "--no-leading-headers", path]
    return subprocess.run(words, stdout=subprocess.PIPE, text=True, check=True).stdout


def without_names(words: str) -> str:
    """The operands without remarks and names of places, which are added for readers, and may have commas."""
    return re.sub(r" <.*>$", "", words.split("//")[0].strip())


def functions_of(path: str, elf: ElfObject, reached: set[int]) -> list[Function]:
    """The functions in these sections of the object in this file: all instructions of each."""
    sections = iter([section for section in elf.sections if section.is_code and section.size > 0])
    found: list[tuple[Section, list[Instruction]]] = []
    for line in disassembled(path).splitlines():
        if begins := re.fullmatch(r"Disassembly of section (.*):", line):
            section = next(sections)
            if section.name != begins[1]:
                raise Refused(f"llvm-objdump prints {begins[1]} instead of {section.name}")
            found.append((section, []))
        elif code := re.fullmatch(r" *([0-9a-f]+): +\t(\S+)(?:\t(.*))?", line):
            section, instructions = found[-1]
            if section.number not in reached:
                continue
            at, words = int(code[1], 16), without_names(code[3] or "")
            if at != 4 * len(instructions):
                raise Refused(f"llvm-objdump leaves out what stands before {at:#x} of {section.name}")
            instructions.append(instruction_of(at, code[2], words, elf.relocations_of(section).get(at)))
    kept = [(section, instructions) for section, instructions in found if section.number in reached]
    for section, instructions in kept:
        if 4 * len(instructions) != section.size:
            raise Refused(f"llvm-objdump leaves out the end of {section.name}")
    return [Function(section, tuple(instructions)) for section, instructions in kept]
