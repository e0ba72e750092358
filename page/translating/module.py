"""A complete object as C, which uses machine.h: its data, and its functions, each with the parameters that it reads."""

from __future__ import annotations

import re
from collections.abc import Iterator

from translating.bodies import PLACE_IN_CODE, Body
from translating.elf import ElfObject, Symbol
from translating.frames import STACK_ALIGNMENT
from translating.image import Image
from translating.instructions import functions_of
from translating.liveness import (
    CALL,
    CLOBBERED,
    CONDITIONS,
    NAME,
    NAMES,
    PARAMETERS,
    RESULTS,
    RETURN,
    Passed,
    Statement,
    bits_of,
    names_of,
)
from translating.refusal import Refused

# the types in C of the parameters of a call, by the letters of page/exports; wider registers have zeros above
PARAMETER_TYPES = {"w": "u32", "x": "uintptr_t"}
# this many parameters are in registers; each other one has eight bytes of the stack (Procedure Call Standard, 6.8.2)
IN_REGISTERS = 8


class Unit:
    """The functions of an object, and what they pass to one another."""

    def __init__(self, path: str, prefix: str, exports: dict[str, bool]) -> None:
        """Reads what these exported functions need of the object in a file.

        `exports` has whether each returns a value. All names in C begin with the prefix.
        """
        elf = ElfObject(path)
        reached = elf.reached(set(exports))
        self.image = Image(elf, prefix, reached)
        self.bodies: dict[str, Body] = {}
        for function in functions_of(path, elf, reached):
            try:
                self.bodies[self.image.name_of(function.section)] = Body(self.image, function)
            except Refused as why:
                raise Refused(f"{function.section.name}: {why}") from why
        self.exports = {it.name: self._function(it) for it in elf.symbols if it.is_export and it.name in exports}
        self.others = {it.name for it in elf.symbols if it.is_export} - set(exports)
        self.passed = {name: Passed(words=body.frame.above) for name, body in self.bodies.items()}
        for name, exported in self.exports.items():
            self.passed[exported].results = bits_of("x0") if exports[name] else 0
        while any([self._pass_on(name) for name in self.bodies]):
            pass
        self._refuse_crossing()

    def text(self) -> Iterator[str]:
        """The data and the functions."""
        yield from self.image.text()
        for results in sorted({it.results for it in self.passed.values() if it.results & (it.results - 1)}):
            names = names_of(results)
            tag = "_".join(names)
            yield f"#ifndef HAS_{tag}\n#define HAS_{tag}\nstruct {tag} {{ u64 {', '.join(names)}; }};\n#endif"
        yield from (f"{self._head(name)};" for name in self.bodies)
        for name in self.bodies:
            yield from self._definition(name)

    def call(self, name: str, given: list[str]) -> str:
        """An expression of C that calls an exported function with these values, of 64 bits, and is its result."""
        if name not in self.exports:
            raise Refused(f"the object has no function {name}")
        function = self.exports[name]
        registers = {f"x{place}": value for place, value in enumerate(given[:IN_REGISTERS])}
        parameters, words = self._parameters(function), given[IN_REGISTERS:]
        if not set(parameters) <= set(registers) or self.passed[function].words > len(words):
            raise Refused(f"{name} has more parameters than these")
        values = [registers[it] for it in parameters] + words[: self.passed[function].words]
        result = ".x0" if len(names_of(self.passed[function].results)) > 1 else ""
        return f"{function}({', '.join(values)}){result}"

    def _function(self, symbol: Symbol) -> str:
        section = self.image.elf.section_of(symbol)
        name = self.image.name_of(section)
        if not section.is_code or symbol.value != 0 or name not in self.bodies:
            raise Refused(f"{symbol.name} is no function")
        return name

    def _pass_on(self, name: str) -> bool:
        """Computes what a function passes, as far as is known of the others; whether that has changed."""
        own, liveness = self.passed[name], self.bodies[name].liveness
        liveness.spread(own, self.passed)
        changed = False
        for it, after in liveness.calls(own, self.passed):
            if it.called:
                called = self.passed[it.called]
                changed |= after & RESULTS & ~called.results != 0
                called.results |= after & RESULTS
                words = (it.depth + 8 * called.words) // 8  # those that a jump to a function passes on
                changed |= words > own.words
                own.words = max(own.words, words)
        parameters = liveness.blocks[0].live & PARAMETERS
        changed |= parameters != own.parameters
        own.parameters = parameters
        return changed

    def _refuse_crossing(self) -> None:
        """Refuses a function that reads a register before it is written, or after a call that may change it."""
        for name, body in self.bodies.items():
            own = self.passed[name]
            crossing = body.liveness.blocks[0].live & ~PARAMETERS
            for it, after in body.liveness.calls(own, self.passed):
                given = RESULTS if it.called else it.writes
                crossing |= after & CLOBBERED & ~given
            if crossing:
                section = body.function.section.name
                raise Refused(f"{section}: {', '.join(names_of(crossing))} cross a call")

    def _parameters(self, name: str) -> list[str]:
        return names_of(self.passed[name].parameters)

    def _words(self, name: str) -> list[str]:
        return [f"word{place}" for place in range(self.passed[name].words)]

    def _head(self, name: str) -> str:
        """The declaration of a function."""
        results = names_of(self.passed[name].results)
        kind = "void" if not results else "u64" if len(results) == 1 else f"struct {'_'.join(results)}"
        parameters = [f"u64 {it}" for it in (*self._parameters(name), *self._words(name))]
        return f"static {kind} {name}({', '.join(parameters) or 'void'})"

    def _definition(self, name: str) -> Iterator[str]:
        """A function of C."""
        lines = list(self._lines(name))
        text = "\n".join(lines)
        if PLACE_IN_CODE in text:
            raise Refused(f"{self.bodies[name].function.section.name}: an address of code that no jump table adds to")
        used = set(re.findall(NAME, text)) - set(self._parameters(name))
        integers = [it for it in NAMES if it in used and it not in CONDITIONS]
        facts = [it for it in CONDITIONS if it in used]
        yield f"/* {self.bodies[name].function.section.name.replace('*/', '* /')} */"
        yield self._head(name)
        yield "{"
        yield from ([f"  u64 {', '.join(integers)};"] if integers else [])
        yield from ([f"  int {', '.join(facts)};"] if facts else [])
        depth = self.bodies[name].frame.bytes
        for line in (*self._frame(name, text), *lines):
            yield "  " + re.sub(r"FRAME\((-?\d+)\)", lambda it: f"FRAME({depth + int(it[1])})", line)
        yield "}"

    def _frame(self, name: str, text: str) -> Iterator[str]:
        """The array of the frame, if the function has one, with its arguments on the stack."""
        frame, words = self.bodies[name].frame, self._words(name)
        if "FRAME(" not in text and not words:
            return
        yield f"_Alignas({STACK_ALIGNMENT}) u64 frame[{max((frame.bytes + frame.end(text, len(words)) + 7) // 8, 1)}];"
        yield from (f"store_u64(FRAME({8 * place}), {word});" for place, word in enumerate(words))

    def _lines(self, name: str) -> Iterator[str]:
        """The statements of a function that have an effect."""
        liveness = self.bodies[name].liveness
        targets = {at for block in liveness.blocks for it in block.statements for at in it.targets}
        for at, statements in liveness.kept(self.passed[name], self.passed):
            if at in targets:
                yield f"L{at:x}:;"
            yield from (self._line(name, it, after) for it, after in statements)

    def _line(self, name: str, it: Statement, after: int) -> str:
        if it.how == CALL and it.called:
            return self._call(it, after)
        return self._return(name) if it.how == RETURN else it.text

    def _call(self, it: Statement, after: int) -> str:
        """A call of a function of the object; of its results those are taken that are read later."""
        words = [f"load_u64(FRAME({it.depth + 8 * place}))" for place in range(self.passed[it.called].words)]
        call = f"{it.called}({', '.join([*self._parameters(it.called), *words])})"
        results, taken = names_of(self.passed[it.called].results), names_of(after & RESULTS)
        if not taken:
            return f"{call};"
        if len(results) == 1:
            return f"{results[0]} = {call};"
        parts = " ".join(f"{part} = r_.{part};" for part in taken)
        return f"{{ struct {'_'.join(results)} r_ = {call}; {parts} }}"

    def _return(self, name: str) -> str:
        results = names_of(self.passed[name].results)
        if len(results) < 2:
            return f"return {results[0]};" if results else "return;"
        parts = " ".join(f"r_.{part} = {part};" for part in results)
        return f"{{ struct {'_'.join(results)} r_; {parts} return r_; }}"


def exports_of(path: str) -> dict[str, list[str]]:
    """The calls of the module, each with its parameters, from the file."""
    with open(path, encoding="ascii") as file:
        rows = [line.split() for line in file if line.strip() and not line.startswith("#")]
    for name, *parameters in rows:
        if not set(parameters) <= set(PARAMETER_TYPES):
            raise Refused(f"the parameters of {name} are not known here")
    return {name: parameters for name, *parameters in rows}


def module(path: str, exports: dict[str, list[str]]) -> Iterator[str]:
    """The lines of a file for the calls of the list, which must be those of the object; each returns a byte."""
    unit = Unit(path, "f", dict.fromkeys(exports, True))
    if differ := sorted(unit.others | (set(exports) - set(unit.exports))):
        raise Refused(f"the list of calls and the object's differ: {', '.join(differ)}")
    yield '#include "machine.h"'
    yield from unit.text()
    for name, parameters in exports.items():
        given = [f"given{place}" for place in range(len(parameters))]
        typed = [f"{PARAMETER_TYPES[letter]} {it}" for letter, it in zip(parameters, given)]
        yield f"HOST_CALL({name})({', '.join(typed) or 'void'})"
        yield "{"
        yield f"  return (u8){unit.call(name, given)};"
        yield "}"
