"""Conditions on the circuit's registers under which registers of a design equal something: sets of atoms."""

from __future__ import annotations

import re
from collections.abc import Callable, Iterable, Iterator
from dataclasses import dataclass, field

from finding.wiring import CLOCK_AGO, EARLIER, EVENT
from holding.gates import FALSE, TRUE, Gates

PHASES = (
    *("idle", "joining", "stuffed_part", "crc_delimiter", "ack_slot", "ack_delimiter", "end_of_frame", "error_flag"),
    *("passive_flag", "overload_flag", "after_flag", "delimiter", "intermission", "suspend", "bus_off"),
)
STUFFED_PART, CRC_DELIMITER, END_OF_FRAME, AFTER_FLAG, BUS_OFF = 2, 3, 6, 10, 14
PLACES = {1: 11, 6: 7, 7: 6, 8: 6, 9: 6, 10: 8, 11: 8, 12: 3, 13: 8, 14: 11}
# the fields as words.v numbers them, and how many levels of them can have been received while they are next
FIELDS = {"id": 11, "rtr": 1, "ide": 1, "r0": 1, "dlc": 4, "idx": 18, "rtrx": 1, "r1": 1, "r0x": 1, "dlcx": 4}
FIELDS |= {"data": 0, "crc": 16}
ROLES: tuple[tuple[str, ...], ...] = ((), ("transmitter",), ("receiver",))
FORMATS = ("extended", "standard")
ENDS = {"standard": (14, 15, 19), "extended": (14, 32, 33, 35, 39)}  # levels after which a field is complete
DATA_START = {"standard": 19, "extended": 39}
LEVELS, CRC_LEVELS = 103, 15
EVENTS = range(12)
# a frame was sent or received: the circuit still has it
OF_FRAMES = tuple(f"{event}_{number}" for event in ("event", "event_a_clock_ago") for number in (1, 2))
INDEX = {"in": "index", "sent": "sent_index", "read": "read_index"}
SLICE = re.compile(r"(.*)\[(\d+)(?::(\d+))?\]$")


@dataclass(frozen=True)
class Atom:
    """A test of a word: whether it is a number, less than a number, or not; or of one bit."""

    word: str
    test: str = ""  # ==, < or >=
    number: int = 0
    is_negated: bool = False

    def text(self, widths: Callable[[str], int]) -> str:
        """The test in Verilog."""
        if not self.test:
            return f"{'!' * self.is_negated}{self.word}"
        return f"{self.word} {self.test} {widths(self.word)}'d{self.number}"

    def literal(self, gates: Gates, word: list[int]) -> int:
        """The literal of the test, given those of the word."""
        if not self.test:
            return word[0] ^ self.is_negated
        if self.test == "==":
            return gates.all(*(bit ^ 1 ^ (self.number >> place & 1) for place, bit in enumerate(word)))
        return is_below(gates, word, self.number) ^ (self.test == ">=")


def is_below(gates: Gates, word: list[int], limit: int) -> int:
    """Whether a word is less than this number."""
    below = FALSE
    for place, bit in enumerate(word):
        wanted = limit >> place & 1
        below = gates.choose(gates.differ(bit, wanted), wanted, below)
    return TRUE if limit >> len(word) else below


def limits_of(name: str, width: int) -> list[Atom]:
    """Whether a word is less than each of its values, or not."""
    return [Atom(name, test, number) for number in range(1, 1 << width) for test in ("<", ">=")]


def named_atoms() -> dict[str, Atom]:
    """All atoms of the circuit, by name."""
    made = {"frame": Atom("words_in_frame"), "after_part": Atom("words_after_part")}
    pairs = {("transmitter", "receiver"): "gates.sender", ("extended", "standard"): "gates.heard[13]"}
    pairs |= {("own_extended", "own_standard"): "gates.own[13]", ("first", "later"): "gates.first"}
    pairs |= {("passive", "active"): "gates.passive"}
    for (name, other), word in pairs.items():
        made |= {name: Atom(word), other: Atom(word, is_negated=True)}
    made["on_bus"] = Atom("gates.off", is_negated=True)
    made |= {"stuff_bit": Atom("gates.heard_run", ">=", 5), "no_stuff_bit": Atom("gates.heard_run", "<", 5)}
    made |= {name: Atom("gates.phase", "==", number) for number, name in enumerate(PHASES)}
    made |= {f"place_{number}": Atom("gates.place", "==", number) for number in range(11)}
    made |= {f"run_{number}": Atom("gates.heard_run", "==", number) for number in range(6)}
    made["run_over_5"] = Atom("gates.heard_run", ">=", 6)
    for number in EVENTS:
        made[f"event_{number}"] = Atom(f"{EARLIER}{EVENT}", "==", number)
        made[f"event_a_clock_ago_{number}"] = Atom(f"{CLOCK_AGO}{EVENT}", "==", number)
    made |= {f"in_{name}": Atom(f"words_field[{number}]") for number, name in enumerate(FIELDS)}
    made |= {f"index_{number}": Atom("words_index", "==", number) for number in range(18)}
    for of in ("sent", "read"):
        made |= {f"{of}_{name}": Atom(f"words_{of}_field[{number}]") for number, name in enumerate(FIELDS)}
        made |= {f"{of}_index_{number}": Atom(f"words_{of}_index", "==", number) for number in range(18)}
        made |= {f"{of}_bit_{number}": Atom(f"words_{of}_index[2:0]", "==", number) for number in range(8)}
        made |= {f"{of}_byte_{number}": Atom(f"words_{of}_index[6:3]", "==", number) for number in range(8)}
    made["past_data"] = Atom("words_is_past_data")
    for number in range(1, LEVELS + CRC_LEVELS + 1):
        made[f"crc_below_{number}"] = Atom("words_taken_crc", "<", number)
        made[f"taken_from_{number}"] = Atom("words_taken", ">=", number)
    made["before_crc"] = Atom(f"words_field[{list(FIELDS).index('crc')}]", is_negated=True)
    for number in range(8):
        made[f"bit_{number}"] = Atom("words_index[2:0]", "==", number)
        made[f"bit_over_{number}"] = Atom("words_index[2:0]", ">=", number + 1)
        made[f"byte_{number}"] = Atom("words_index[6:3]", "==", number)
        made[f"bytes_over_{number}"] = Atom("words_length", ">=", number + 1)
        made[f"bytes_to_{number}"] = Atom("words_length", "<", number + 1)
        made[f"own_bytes_over_{number}"] = Atom("words_own_length", ">=", number + 1)
    for number in range(9):
        made[f"bytes_{number}"] = Atom("words_length", "==", number)
        made[f"own_bytes_{number}"] = Atom("words_own_length", "==", number)
    for number in range(1, LEVELS + 1):
        made[f"past_{number}"] = Atom("words_count", ">=", number)
        made[f"before_crc_{number}"] = Atom("words_data_end", ">=", number)
    for number in range(1, LEVELS + 1):
        made[f"frame_left_{number}"] = Atom("words_frame_left", ">=", number)
        made[f"later_left_{number}"] = Atom("words_later_left", ">=", number)
    for number in range(1, 65):
        made[f"data_left_{number}"] = Atom("words_data_left", ">=", number)
        if number < 30:
            made[f"identifier_left_{number}"] = Atom("words_identifier_left", ">=", number)
    made["rec_from_128"] = Atom("gates.rec_count[7]")
    return made | {"rec_below_128": Atom("gates.rec_count[7]", is_negated=True)}


# what need not be said in Verilog beside another atom
IMPLIED = {name: {"on_bus"} for name in PHASES[:-1]}
IMPLIED |= {name: {"on_bus", "frame", "after_part"} for name in PHASES[3:7]}
IMPLIED |= {"stuffed_part": {"on_bus", "frame"}, "after_part": {"frame"}}
IMPLIED |= {f"{of}_{name}": {"on_bus", "frame", "stuffed_part"} for name in FIELDS for of in INDEX}


@dataclass
class Condition:
    """A set of atoms. `only` are the literals that registers may equal under it; without any, all partners."""

    atoms: frozenset[str]
    literal: int
    family: str
    only: list[int] = field(default_factory=list)


class Conditions:
    """All conditions, the coarser ones first; those with literals of their own last."""

    def __init__(
        self, gates: Gates, word: Callable[[str], list[int]], flags: Iterable[str], paces: Iterable[str]
    ) -> None:
        self.gates, self.word = gates, word
        self.atoms = named_atoms()
        for name in flags:
            self.atoms |= {name: Atom(name), f"!{name}": Atom(name, is_negated=True)}
        tests = {f"{it.word} {it.test} {it.number}": it for name in paces for it in limits_of(name, len(word(name)))}
        self.atoms |= tests
        self.literals: dict[str, int] = {}
        of_design = [*self.of_flags(flags), *self.of_paces(tests)]
        listed = dict.fromkeys(frozenset(it) for it in [*self.listed(), *of_design])
        self.all = [self.condition(it) for it in sorted(listed, key=len)]
        self.plain = len(self.all)

    def literal(self, name: str) -> int:
        """The literal of an atom."""
        if name not in self.literals:
            atom = self.atoms[name]
            self.literals[name] = atom.literal(self.gates, self.word(atom.word))
        return self.literals[name]

    def condition(self, atoms: Iterable[str]) -> Condition:
        """The condition of some atoms."""
        literal = self.gates.all(*(self.literal(it) for it in sorted(atoms)))
        return Condition(frozenset(atoms), literal, " ".join(sorted(atoms)))

    def text(self, number: int) -> str:
        """A condition in Verilog; empty if it is always true."""
        atoms = self.all[number].atoms
        silent = {other for it in atoms for other in IMPLIED.get(it, ())}
        kept = sorted(atoms - silent, key=list(self.atoms).index)
        return " && ".join(self.atoms[it].text(lambda word: len(self.word(word))) for it in kept)

    def words(self, number: int) -> list[str]:
        """The words that a condition tests."""
        atoms = self.all[number].atoms
        silent = {other for it in atoms for other in IMPLIED.get(it, ())}
        return [self.atoms[it].word for it in sorted(atoms - silent)]

    def listed(self) -> Iterator[Iterable[str]]:
        """All sets of atoms of the circuit."""
        yield ()
        for one in ("on_bus", "transmitter", "receiver", "passive", "active", "rec_below_128", "rec_from_128"):
            yield (one,)
        for number in EVENTS:
            yield (f"event_{number}",)
            yield (f"event_a_clock_ago_{number}",)
        for name in OF_FRAMES:
            yield from ((name, form) for form in FORMATS)
        for role in ROLES:
            for more in ((), ("after_part",)):
                yield ("frame", *more, *role)
                for form in FORMATS:
                    yield ("frame", *more, *role, form)
            for form, ends in ENDS.items():
                for level in ends:
                    yield ("frame", *role, f"past_{level}", form)
        for form in FORMATS:
            yield ("frame", "transmitter", f"own_{form}")
            for number in range(9):
                yield ("frame", form, f"past_{DATA_START[form]}", f"bytes_{number}")
                yield ("frame", "transmitter", f"own_{form}", f"own_bytes_{number}")
            for number in range(8):
                yield ("frame", "transmitter", f"own_bytes_over_{number}")
                yield ("frame", "transmitter", f"own_{form}", f"own_bytes_over_{number}")
                yield ("frame", "after_part", form, f"bytes_over_{number}")
                yield ("frame", "after_part", form, f"bytes_to_{number}")
        for number in range(len(PHASES)):
            yield from self.of_phase(number)
        yield from self.of_fields()
        yield from self.of_reading()
        yield from self.of_own_formats()

    def base(self, number: int) -> tuple[str, ...]:
        """The atoms that hold in a phase."""
        made = (PHASES[number], *(("on_bus",) if number != BUS_OFF else ()))
        if STUFFED_PART <= number <= END_OF_FRAME:
            made = (*made, "frame", *(("after_part",) if number > STUFFED_PART else ()))
        return made

    def of_phase(self, number: int) -> Iterator[Iterable[str]]:
        """A phase, by role and place."""
        base = self.base(number)
        for role in ROLES if 1 < number < BUS_OFF else ROLES[:1]:
            yield (*base, *role)
            for place in range(PLACES.get(number, 0)):
                yield (*base, *role, f"place_{place}")
            if number == AFTER_FLAG:
                yield (*base, *role, "place_0", "first")
                yield (*base, *role, "place_0", "later")

    def of_fields(self) -> Iterator[Iterable[str]]:
        """The stuffed part by field and place in it, and by the levels in a row."""
        part, after = self.base(STUFFED_PART), self.base(CRC_DELIMITER)
        yield from ((*after, f"run_{number}") for number in range(1, 5))
        for role in ROLES:
            for due in ("stuff_bit", "no_stuff_bit"):
                yield (*part, *role, due)
            for number in range(1, 6):
                yield (*part, *role, f"run_{number}")
            for name, longest in FIELDS.items():
                inside = (*part, *role, f"in_{name}")
                yield inside
                for due in ("stuff_bit", "no_stuff_bit"):
                    yield (*inside, due)
                for number in range(longest):
                    yield (*inside, f"index_{number}")
                for number in range(8 if name == "data" else 0):
                    yield (*inside, f"bit_{number}")
                    yield (*inside, f"byte_{number}")

    def of_own_formats(self) -> Iterator[Iterable[str]]:
        """At a transmitter, by field and place in it, and by what the rest of the frame will be."""
        part = (*self.base(STUFFED_PART), "transmitter")
        for of in INDEX:
            for form in FORMATS:
                for name in ("id", "rtr", "ide"):
                    for number in range(FIELDS[name]):
                        yield (*part, f"{of}_{name}", f"{INDEX[of]}_{number}", f"own_{form}")

    def of_reading(self) -> Iterator[Iterable[str]]:
        """At a transmitter, by what comes after the present level, or after the next one."""
        part = (*self.base(STUFFED_PART), "transmitter")
        for of in ("sent", "read"):
            for name, longest in FIELDS.items():
                yield (*part, f"{of}_{name}")
                for number in range(longest):
                    yield (*part, f"{of}_{name}", f"{of}_index_{number}")
                for number in range(8 if name == "data" else 0):
                    yield (*part, f"{of}_{name}", f"{of}_bit_{number}")
                    yield (*part, f"{of}_{name}", f"{of}_byte_{number}")

    def of_flags(self, flags: Iterable[str]) -> Iterator[Iterable[str]]:
        """A flag of the design, in each phase."""
        for number in range(len(PHASES)):
            for name in flags:
                for flag in (name, f"!{name}"):
                    yield (*self.base(number), flag)
                    if number == AFTER_FLAG:
                        for more in ((), ("first",), ("later",)):
                            yield (*self.base(number), flag, "place_0", *more)

    def of_paces(self, tests: Iterable[str]) -> Iterator[Iterable[str]]:
        """A part of a bit time of many clock cycles, in each phase."""
        for test in tests:
            yield (test,)
            for number in range(len(PHASES)):
                for role in ROLES if 1 < number < BUS_OFF else ROLES[:1]:
                    yield (*self.base(number), *role, test)

    def add(self, atoms: Iterable[str], family: str, only: list[int]) -> int:
        """One more condition, with what registers may equal under it; returns its number."""
        made = self.condition(atoms)
        self.all.append(Condition(made.atoms, made.literal, family, only))
        return len(self.all) - 1

    def add_received(self) -> None:
        """For each level of the frame, and each data byte: it has been received. A register may equal it then."""
        heard = self.word("gates.heard")
        for form in FORMATS:
            for number in range(1, 83 if form == "standard" else LEVELS):
                is_data = number >= DATA_START[form]
                more = (f"before_crc_{number + 1}",) if is_data else ()
                self.add(["frame", form, f"past_{number + 1}", *more], f"level {form}", [heard[number]])
            for number in range(8):
                start = DATA_START[form] + 8 * number
                bits = heard[start : start + 8]
                self.add(["frame", form, f"past_{start + 8}", f"bytes_over_{number}"], f"byte {form}", bits)
                for name in OF_FRAMES:
                    self.add([name, form, f"bytes_over_{number}"], f"byte {form} {name}", bits)

    def add_latest(self) -> None:
        """For each level by how many have come after it: a register may equal it.

        These are counted to the present level, before the CRC sequence and since; or to the end of the data field.
        """
        part = (*self.base(STUFFED_PART), "before_crc")
        for number, level in enumerate(self.word("words_latest")):
            if number < LEVELS:
                self.add([*part, f"past_{number + 1}"], "level ago", [level])
            known = f"crc_below_{number + 1}" if number < CRC_LEVELS else f"taken_from_{number + 1}"
            self.add(["frame", "past_data", known], "level ago with the CRC sequence", [level])
        for number, level in enumerate(self.word("words_latest_before_crc")):
            self.add(["frame", "past_data", f"before_crc_{number + 1}"], "level before the CRC sequence", [level])
        for byte in range(8):
            for bit, level in enumerate(self.word("words_latest")[:7]):
                atoms = [*self.base(STUFFED_PART), "in_data", f"byte_{byte}", f"bit_over_{bit}"]
                self.add(atoms, f"byte {byte} so far", [level])

    def add_still_to_send(self) -> None:
        """For each number of levels left to send: a register may equal one of these."""
        for name in ("identifier", "data", "frame", "later"):
            for number, level in enumerate(self.word(f"words_{name}_to_send")):
                self.add(["frame", "transmitter", f"{name}_left_{number + 1}"], f"{name} to send", [level])

    def add_crc(self) -> list[int]:
        """For each number of levels of the CRC sequence received: two registers may differ as one of them does."""
        differing = self.word("words_crc_differing")
        part = (*self.base(STUFFED_PART), "in_crc")
        made = [self.add([*part, f"index_{number}"], "crc", differing) for number in range(1, CRC_LEVELS + 1)]
        return [*made, self.add(["frame", "after_part"], "crc", differing)]

    def coarser(self) -> list[list[int]]:
        """For each condition the numbers of those that it implies by its atoms."""
        numbers = {it.atoms: number for number, it in enumerate(self.all[: self.plain])}
        return [sorted(number for atoms, number in numbers.items() if atoms < it.atoms) for it in self.all]
