"""What the learner in engine/ is given: both controllers, conditions, and what registers may equal under them."""

from __future__ import annotations

import pathlib
from collections.abc import Iterable, Sequence

from finding.conditions import CRC_LEVELS, FORMATS, OF_FRAMES, PHASES, SLICE, Conditions
from finding.wiring import CLOCK_AGO, EARLIER, EVENT, PREFIX
from holding.asking import ENABLE, GIVEN, HOLDS, SAME
from holding.faults import Fault
from holding.gates import FALSE, TRUE
from holding.netlist import MUTATION, Key, Netlist
from playing.model import Model

CIRCUIT, DESIGN, WIRING, INPUT, UNNAMED = 1, 2, 4, 8, 16  # on whose registers a signal depends
# what a register may equal, as engine/guessing.h numbers it
REGISTER, WIDE, KNOWN, GATE, LATE, OF_WIRING, OF_DESIGN = range(7)
ANYWHERE, IN_FRAME, AT_TRANSMITTER = range(3)  # where a word of the circuit means something
WIDE_WORDS = ("gates.heard", "gates.own", "gates.heard_check")
OF_FRAME = ("heard", "heard_count", "heard_last", "heard_run", "heard_check")
OF_TRANSMITTER = (
    *("own", "identifier_", "data_to", "data_left", "frame_"),
    *("present_drive", "sent", "later_", "read", "next_drive"),
)
ANY_TIME = ("minus_", "in_", "after_part", "field")
WIDE_BITS = 16
RECORD_BITS = 128  # a word with more is a record, whose bits have nothing in common
PACE_BITS = 5
NARROW = range(3, 10)  # the widths of registers that may be numbers with a limit
ROLES = {"frame", "after_part", "transmitter", "receiver", *FORMATS, *(f"own_{it}" for it in FORMATS), *PHASES}
COARSE = {*ROLES, "on_bus", "first", "later", "passive", "active", *(f"place_{number}" for number in range(11))}

COARSE_BEGINS = ("in_", "event_", "past_", "bytes_", "own_", "rec_", "dut.", "!")


class Learning(Model):
    """The graph of one bit time, with conditions and with what is compared under them."""

    def __init__(self, netlist: Netlist, changes: Sequence[Key] = ()) -> None:
        super().__init__(without_mutations(netlist), changes)
        self.names = self.named_registers()
        self.main = self.gates.signals
        self.supports = self.found_supports()
        self.flags = self.named_flags()
        self.conditions = Conditions(self.gates, self.any_word, self.flags, self.named_paces())
        self.named = [*self.guesses_of_transmitter(), *self.guesses_of_circuit()]
        self.given = self.given_guesses()
        self.conditions.add_received()
        self.conditions.add_latest()
        self.conditions.add_still_to_send()
        self.pair_conditions = self.conditions.add_crc()
        self.pairs = self.pairs_of_words()

    def any_word(self, name: str) -> list[int]:
        """A word, a bit or a slice of it."""
        if name in self.words:
            return self.words[name]
        found = SLICE.fullmatch(name)
        assert found is not None, name
        low, high = int(found[3] or found[2]), int(found[2])
        return self.words[found[1]][low : high + 1]

    def named_registers(self) -> dict[int, tuple[str, int]]:
        """The word and the place of each register that has a name, by its signal."""
        made: dict[int, tuple[str, int]] = {}
        words = self.netlist.words
        for name in sorted(words, key=lambda it: (it.count("."), it)):
            for place, key in enumerate(words[name]):
                if key in self.netlist.registers:
                    made.setdefault(self.bit_time.literal(key) >> 1, (name, place))
        return made

    def side(self, signal: int) -> int:
        """Whose register it is."""
        if signal not in self.names:
            return UNNAMED
        name = self.names[signal][0]
        return CIRCUIT if name.startswith("gates.") else DESIGN if name.startswith("dut.") else WIRING

    def found_supports(self) -> list[int]:
        """For each signal on whose registers it depends."""
        held = {literal >> 1 for literal in self.registers}
        chosen = {self.bit_time.literal(key) >> 1 for key in self.changes}
        made = [0] * self.gates.signals
        for signal in range(1, self.gates.signals):
            if signal in self.gates.gates:
                a, b = self.gates.gates[signal]
                made[signal] = made[a >> 1] | made[b >> 1]
            elif signal not in chosen:
                made[signal] = self.side(signal) if signal in held else INPUT
        return made

    def words_of(self, side: int) -> dict[str, list[int]]:
        """The named registers of a side by word, without those that are parts of others."""
        made: dict[str, list[int]] = {}
        for literal in self.registers:
            if self.side(literal >> 1) == side:
                made.setdefault(self.names[literal >> 1][0], []).append(literal)
        return made

    def named_flags(self) -> list[str]:
        """The design's registers of one bit."""
        return [name for name in self.words_of(DESIGN) if len(self.words[name]) == 1 and not SLICE.search(name)]

    def named_paces(self) -> list[str]:
        """The design's narrow registers that decide when a bit time ends."""
        ends = set(self.cone(self.words[ENABLE]))
        of_design = self.words_of(DESIGN)
        paces = [name for name, word in of_design.items() if 1 < len(word) <= PACE_BITS and not SLICE.search(name)]
        paces = [name for name in paces if len(of_design[name]) == len(self.words[name])]
        return [name for name in paces if ends & {it >> 1 for it in of_design[name]}]

    def guesses_of_transmitter(self) -> list[tuple[int, int, int]]:
        """A transmitter hears its own frame, and goes on only while its CRC sequence is heard."""
        made = []
        for name, value in (("own_is_heard", True), ("crc_differs", False)):
            (literal,) = self.words[PREFIX + name]
            at = self.conditions.add(["frame", "transmitter"], "sent", [FALSE])
            made.append((at, literal >> 1, value ^ (literal & 1)))
        return made

    def guesses_of_circuit(self) -> list[tuple[int, int, int]]:
        """A frame has up to five equal levels in a row, and no stuff bit is due after the stuffed part.

        `legal` implies it. Without these guesses the same designs are proved, but in a twentieth more steps.
        """
        made = []
        for atoms, absent in ((["frame"], ("run_0", "run_over_5")), (["frame", "after_part"], ("stuff_bit",))):
            at = self.conditions.add(atoms, "sent", [FALSE])
            literals = [self.conditions.literal(name) for name in absent]
            made += [(at, literal >> 1, literal & 1) for literal in literals if literal > 1]
        return made

    def given_guesses(self) -> list[tuple[int, int, int]]:
        """The parts holds_.. of the wiring."""
        literals = {name: literal for name, literal in self.parts.items() if name.startswith(HOLDS) and literal > 1}
        if of_inputs := [name for name, it in literals.items() if self.supports[it >> 1] & INPUT]:
            raise Fault(f"{of_inputs[0]} depends on an input of its bit time, so it is no guess about registers")
        at = self.conditions.add([], "given", [TRUE])
        self.given_condition = at
        return [(at, literal >> 1, literal & 1 ^ 1) for literal in literals.values()]

    def given_name(self, signal: int) -> str:
        """The part of the wiring with this signal."""
        return next(name for name, it in self.parts.items() if name.startswith(HOLDS) and it >> 1 == signal)

    def pairs_of_words(self) -> dict[int, tuple[int, int]]:
        """Whether bits of two words of the length of a CRC sequence differ: by signal, both registers."""
        words = [word for word in self.words_of(DESIGN).values() if len(word) == CRC_LEVELS]
        made: dict[int, tuple[int, int]] = {}
        for number, one in enumerate(words):
            for other in words[:number]:
                made |= {self.gates.differ(a, b) >> 1: (a, b) for a in one for b in other}
        return made

    def domains(self) -> dict[int, int]:
        """For signals that mean something only in a frame, or only at its transmitter: which of both."""
        made: dict[int, int] = {}
        for name, word in self.words.items():
            if name.startswith(PREFIX) and not name[len(PREFIX) :].startswith(ANY_TIME):
                domain = AT_TRANSMITTER if name[len(PREFIX) :].startswith(OF_TRANSMITTER) else IN_FRAME
            elif name == "gates.own" or name.removeprefix("gates.") in OF_FRAME:
                domain = AT_TRANSMITTER if name == "gates.own" else IN_FRAME
            else:
                continue
            for literal in word:
                made[literal >> 1] = min(domain, made.get(literal >> 1, domain))
        return made

    def domain_of_condition(self, number: int) -> int:
        """What means something under a condition."""
        atoms = self.conditions.all[number].atoms
        if not atoms or {"frame", "transmitter"} <= atoms:
            return AT_TRANSMITTER
        return IN_FRAME if "frame" in atoms or not atoms.isdisjoint(OF_FRAMES) else ANYWHERE

    def partners(self) -> dict[int, int]:
        """Signals that a register of the design may equal, with their kinds, the likeliest first."""
        made: dict[int, int] = {}
        for name in self.netlist.circuit.widths["reg"]:
            kind = WIDE if f"gates.{name}" in WIDE_WORDS else REGISTER
            made |= {literal >> 1: kind for literal in self.words[f"gates.{name}"]}
        made = dict(sorted(made.items(), key=lambda it: it[1]))
        known = [self.words[name] for name in self.words if name.startswith(PREFIX)]
        for word in [*known, list(self.conditions.literals.values())]:
            for literal in word:
                if literal > 1 and self.supports_of(literal) == CIRCUIT:
                    made.setdefault(literal >> 1, KNOWN)
        level = [0] * self.main
        for signal in range(1, self.main):
            if signal in self.gates.gates:
                a, b = self.gates.gates[signal]
                level[signal] = max(level[a >> 1], level[b >> 1]) + 1
        literals = self.bit_time.literals
        of_circuit = {literals.get(f"n{it}", FALSE) >> 1 for it in self.netlist.circuit.gates} - {0}
        of_circuit = {it for it in of_circuit if it in self.gates.gates and self.supports[it] == CIRCUIT}
        for signal in sorted(of_circuit, key=lambda it: (level[it], it)):
            made.setdefault(signal, GATE)
        late = [it >> 1 for it in self.registers if self.is_late(it >> 1)]
        for signals, kind in ((late, LATE), (self.of_side(WIRING), OF_WIRING), (self.of_side(DESIGN), OF_DESIGN)):
            for signal in signals:
                made.setdefault(signal, kind)
        return made

    def supports_of(self, literal: int) -> int:
        """On whose registers a literal depends."""
        waiting, seen, made = [literal >> 1], set(), 0
        while waiting:
            signal = waiting.pop()
            if signal < self.main:
                made |= self.supports[signal]
            elif signal not in seen:
                seen.add(signal)
                waiting += [side >> 1 for side in self.gates.gates[signal]]
        return made

    def is_late(self, signal: int) -> bool:
        """Whether it is what the circuit had a bit time ago."""
        return self.names.get(signal, ("", 0))[0].startswith((EARLIER, CLOCK_AGO))

    def of_side(self, side: int) -> list[int]:
        """The named registers of a side, without what the circuit had a bit time ago."""
        held = [it >> 1 for it in self.registers if it >> 1 in self.names]
        return [it for it in held if self.side(it) == side and not self.is_late(it)]

    def lists_to_learn(self) -> dict[str, list[int]]:
        """All that the learner reads."""
        conditions = self.conditions.all
        targets = [*self.of_side(CIRCUIT), *self.of_side(DESIGN), *self.of_side(WIRING)]
        self.word_numbers = sorted({self.group(it) for it in targets})
        words = {name: number for number, name in enumerate(self.word_numbers)}
        families = {name: number for number, name in enumerate(dict.fromkeys(it.family for it in conditions))}
        ranges = {**self.words_of(DESIGN), **self.words_of(WIRING)}
        # of a word of which some bits are gates, the registers alone are no number
        ranges = {name: it for name, it in ranges.items() if len(it) in NARROW and len(it) == len(self.words[name])}
        ranges = {name: word for name, word in ranges.items() if name in words}
        named = [*self.named, *self.given]
        others = [*self.pairs, *(signal for _, signal, _ in self.named)]
        made = self.lists([])
        made |= {
            "key": self.key(),
            "watched": [self.is_after_bus_off()],
            "conditions": [it.literal for it in conditions],
            "coarser": flat(self.conditions.coarser()),
            "only": flat(it.only for it in conditions),
            "families": [families[it.family] for it in conditions],
            "targets": targets,
            "wiring": self.of_side(WIRING),
            "event_conditions": [at for at, it in enumerate(conditions) if is_of_event(it.atoms)],
            "wide": [it for it in self.of_side(DESIGN) if WIDE_BITS < self.width(it) <= RECORD_BITS],
            "own": self.of_side(CIRCUIT),
            "words": [number for it in targets for number in (it, words[self.group(it)])]
            + [number for it in others for number in (it, len(words))]
            + [number for at, (_, it, _) in enumerate(self.given) for number in (it, len(words) + 1 + at)],
            "partners": [number for signal, kind in self.partners().items() for number in (2 * signal, kind)],
            "domains": [number for pair in self.domains().items() for number in pair],
            "condition_domains": [self.domain_of_condition(at) for at in range(len(conditions))],
            "named_guesses": [number for guess in named for number in guess],
            "asked_conditions": [self.given_condition],
            "count": self.words["gates.heard_count"],
            "place": self.words["gates.place"],
            "design": self.of_side(DESIGN),
            "held": [int(not self.supports[it >> 1] & INPUT) for it in self.literals_of(SAME)],
            "gate_conditions": [at for at, it in enumerate(conditions) if len(it.atoms) <= 2 and it.atoms <= ROLES],
            "design_gates": [it for it in sorted(self.gates.gates) if it < self.main and self.supports[it] == DESIGN],
            "pairs": list(self.pairs),
            "pair_conditions": self.pair_conditions,
            "role_conditions": [at for at, it in enumerate(conditions) if not it.only and it.atoms <= ROLES],
            "weaker": [int(not it.only and is_coarse(it.atoms)) for it in conditions],
            "ranges": flat([words[name], *word] for name, word in ranges.items()),
            "legal": self.words["gates.legal"],
            "inputs": self.free_signals(),
            "reset": [self.bit_time.literal(self.netlist.inputs["reset"][0]) >> 1],
        }
        made["signals"] = [self.gates.signals]
        made["gates"] = [number for signal, sides in self.gates.gates.items() for number in (signal, *sides)]
        return made

    def free_signals(self) -> list[int]:
        """The inputs that what is compared depends on in a bit time, and what is undefined in the design."""
        read = self.cone([*self.literals_of(SAME), *self.literals_of(GIVEN), *self.registers.values()])
        held = {it >> 1 for it in self.registers}
        return [it for it in read if it not in self.gates.gates and it not in held]

    def held_parts(self) -> list[str]:
        """The compared outputs that depend on registers alone."""
        names = [name for name in self.parts if name.startswith(SAME)]
        return [name for name in names if not self.supports[self.parts[name] >> 1] & INPUT]

    def group(self, signal: int) -> str:
        """What a register's guesses are proved together with: those of its word; a bit of a record is alone."""
        name, place = self.names[signal]
        return name if len(self.words[name]) <= RECORD_BITS else f"{name}[{place}]"

    def width(self, signal: int) -> int:
        """How many bits the word of a register has."""
        return len(self.words[self.names[signal][0]])

    def key(self) -> list[int]:
        """What distinguishes kinds of states: phase, place, role, format, event, whether the CRC sequence differs."""
        gates, words = self.gates, self.words
        (in_part,) = words[f"{PREFIX}in_part"]
        place = [*words["gates.place"], *[FALSE] * 3]
        at = [gates.choose(in_part, a, b) for a, b in zip(words["gates.heard_count"], place)]
        extended = gates.both(in_part, words["gates.heard"][13])
        event = [*words[f"{EARLIER}{EVENT}"], gates.all(*(it ^ 1 for it in words[f"{CLOCK_AGO}{EVENT}"]))]
        differs = gates.both(*words[f"{PREFIX}in_frame"], *words[f"{PREFIX}crc_differs"])
        return [*words["gates.phase"], *at, *words["gates.sender"], extended, *words["gates.first"], *event, differs]

    def is_after_bus_off(self) -> int:
        """Whether the event a clock cycle ago was that of bus-off or of its end, which are rare."""
        code = self.words[f"{CLOCK_AGO}{EVENT}"]
        return self.gates.all(code[3], code[2] ^ 1, code[1])

    def write_to_learn(self, path: pathlib.Path) -> None:
        """Writes the file that the learner reads."""
        lines = [" ".join([name, *map(str, numbers)]) for name, numbers in self.lists_to_learn().items()]
        path.write_text("\n".join([*lines, ""]), encoding="ascii")


def is_coarse(atoms: Iterable[str]) -> bool:
    """Whether a guess that is given up may be kept under a condition."""
    return all(it in COARSE or it.startswith(COARSE_BEGINS) for it in atoms)


def is_of_event(atoms: Iterable[str]) -> bool:
    """Whether a condition is about the event of the bit time before."""
    return any(it.startswith("event_") for it in atoms)


def without_mutations(netlist: Netlist) -> Netlist:
    """The netlist in which no mutation is chosen."""
    for key in netlist.inputs.pop(MUTATION, []):
        netlist.drivers[key] = ("$_BUF_", [("0", False)])
    return netlist


def flat(lists: Iterable[list[int]]) -> list[int]:
    """Lists as one, each after its length."""
    return [number for it in lists for number in (len(it), *it)]
