"""Both controllers, their wiring and a golden partner as one graph of AND gates, for the simulator in engine/."""

from __future__ import annotations

import pathlib
import re
from collections.abc import Iterable, Sequence

from holding.asking import ENABLE, GIVEN, HOLDS, OUTPUT, RESET, SAME
from holding.faults import NOTHING_HELD, Fault
from holding.gates import FALSE, TRUE, Gates
from holding.netlist import MUTATION, BitTime, Key, Netlist

FRAME = ("extended", "remote", "identifier", "dlc", "data")
PORT = ("reset", "integrating", "enable", "bus", "overload_request", "overload_count", "waits")
TIED_TO_1, NO_INPUT = -2, -1
# GHDL refuses latches; those in its Verilog are of incomplete choices, and have any value, as undefined bits have
MADE_BY_GHDL = re.compile(r"\bn\d+_o$")
MOST_NAMES = 3


class Model:
    """The graph of one bit time. The design's changes are chosen by the inputs in `changes`, which are 0 for none."""

    def __init__(self, netlist: Netlist, changes: Sequence[Key] = ()) -> None:
        self.netlist = netlist
        check_parts(netlist)
        self.bit_time = BitTime(Gates(), netlist, {})
        self.changes = list(changes) or netlist.inputs.get(MUTATION, [])
        if changes:
            self.bit_time.literals |= dict.fromkeys(netlist.inputs.get(MUTATION, []), FALSE)
        self.gates = self.bit_time.gates
        self.registers = {self.bit_time.literal(key): self.next(side) for key, side in netlist.registers.items()}
        self.parts = {name: self.bit_time.literal(keys[0]) for name, keys in netlist.parts.items()}
        self.partner, self.partner_registers = self.added_partner()
        self.words = {name: self.bit_time.word(name) for name in self.named_words()}

    def next(self, side: tuple[Key, bool]) -> int:
        """The literal that a register takes."""
        return self.bit_time.literal(side[0]) ^ side[1]

    def named_words(self) -> Iterable[str]:
        """All words that a report or waves may show."""
        return [*self.netlist.words, *(f"gates.{name}" for name in self.netlist.circuit.words)]

    def word(self, name: str) -> list[int]:
        """The literals of a word of the circuit that the wiring has connected."""
        return self.words[f"gates.{name}"]

    def added_partner(self) -> tuple[dict[str, list[int]], dict[int, int]]:
        """Another copy of the circuit: its words, and what its registers take. It shares only `enable`."""
        circuit, gates = self.netlist.circuit, self.gates
        enable = self.bit_time.word(ENABLE)
        words = {
            name: enable if name == "enable" else [gates.fresh() for _ in range(width)]
            for name, width in {**circuit.inputs, **circuit.widths["reg"]}.items()
        }
        made = {0: FALSE, **{signal: words[name][place] for signal, (name, place) in circuit.names.items()}}
        for signal, ((a, is_a_negated), (b, is_b_negated)) in sorted(circuit.gates.items()):
            made[signal] = gates.both(made[a] ^ is_a_negated, made[b] ^ is_b_negated)
        takes = {words[name][at]: made[signal] ^ negated for (name, at), (signal, negated) in circuit.takes.items()}
        for (name, at), (signal, negated) in sorted(circuit.outputs.items()):
            words.setdefault(name, []).append(made[signal] ^ negated)
        return words, takes

    def input_literal(self, literal: int) -> int:
        """The literal of an input, or what stands for one that is tied or that a gate drives."""
        if literal < 2:
            return TIED_TO_1 if literal == TRUE else NO_INPUT
        is_free = literal >> 1 not in self.gates.gates and literal & ~1 not in self.registers
        return literal if is_free else NO_INPUT

    def port(self, words: dict[str, list[int]]) -> list[int]:
        """The inputs of one node in the simulator's order."""
        names = [*PORT, *(f"wait_{field}" for field in FRAME)]
        return [self.input_literal(literal) for name in names for literal in words[name]]

    def has_own_frames(self) -> bool:
        """Whether the pending frame is that of the wiring's inputs, as far as it is not tied."""
        own = self.own_words()
        free = [self.input_literal(it) >= 0 or it == FALSE for it in own["waits"]]
        free += [self.input_literal(it) >= 0 or it < 2 for field in FRAME for it in own[f"wait_{field}"]]
        return all(free)

    def own_words(self) -> dict[str, list[int]]:
        """The words of the circuit that the design is compared with."""
        return {name: self.bit_time.word(f"gates.{name}") for name in self.netlist.circuit.words}

    def lists(self, counts: Sequence[int]) -> dict[str, list[int]]:
        """All that the simulator reads; `counts` are the literals that it is to count."""
        own, partner = self.own_words(), self.partner
        port = self.port(own)
        for name, literal in zip(("reset", "bus"), (port[0], port[3])):
            if literal < 0:
                raise Fault(f"the wiring must connect gates.{name} to an input of its own")
        made = {**node_lists("", own, port), **node_lists("partner_", partner, self.port(partner))}
        made |= {
            "registers": [literal for held, taken in self.registers.items() for literal in (held >> 1, taken)],
            "partner_registers": [it for held, taken in self.partner_registers.items() for it in (held >> 1, taken)],
            "phase": own["phase"],
            "sender": own["sender"],
            "enable": own["enable"],
            "same": self.literals_of(SAME),
            "given": self.literals_of(GIVEN),
            "counts": list(counts),
            "changes": [self.bit_time.literal(key) >> 1 for key in self.changes],
        }
        others = self.other_inputs(made)
        inputs = {self.bit_time.literal(key) >> 1 for keys in self.netlist.inputs.values() for key in keys}
        made["others"] = sorted(others, key=lambda signal: signal not in inputs)
        made["named"] = [sum(signal in inputs for signal in others)]
        ends = set(self.cone(own["enable"]))  # a bit time: these inputs may change within one
        made["pacing"] = [int(signal in ends) for signal in made["others"]]
        made |= {"key": [], "watched": []}
        made["signals"] = [self.gates.signals]
        made["gates"] = [number for signal, sides in self.gates.gates.items() for number in (signal, *sides)]
        return made

    def literals_of(self, prefix: str) -> list[int]:
        """The parts of the wiring with this prefix."""
        return [literal for name, literal in self.parts.items() if name.startswith(prefix)]

    def other_inputs(self, lists: dict[str, list[int]]) -> list[int]:
        """The free signals that the play depends on, and that are none of the circuit's inputs."""
        used = {literal >> 1 for name in ("port", "partner_port") for literal in lists[name] if literal >= 0}
        used |= {*lists["changes"], *lists["registers"][::2], *lists["partner_registers"][::2]}
        ends = [literal for name in ("same", "given", "enable", "drive") for literal in lists[name]]
        read = self.cone([*ends, *self.registers.values()])
        return [it for it in read if it not in self.gates.gates and it not in used]

    def cone(self, literals: Iterable[int]) -> list[int]:
        """The signals that some literals depend on in a bit time."""
        seen, waiting = {0}, [literal >> 1 for literal in literals]
        while waiting:
            signal = waiting.pop()
            if signal not in seen:
                seen.add(signal)
                waiting += [side >> 1 for side in self.gates.gates.get(signal, ())]
        return sorted(seen - {0})

    def write(self, path: pathlib.Path, counts: Sequence[int]) -> None:
        """Writes the file that the simulator reads."""
        lines = [" ".join([name, *map(str, numbers)]) for name, numbers in self.lists(counts).items()]
        path.write_text("\n".join([*lines, ""]), encoding="ascii")


def node_lists(prefix: str, words: dict[str, list[int]], port: list[int]) -> dict[str, list[int]]:
    """The lists of one node."""
    return {
        f"{prefix}port": port,
        f"{prefix}drive": words["drive"],
        f"{prefix}off": words["off"],
        f"{prefix}event": words["event_code"],
        f"{prefix}frame": [literal for field in FRAME for literal in words[f"frame_{field}"]],
    }


def check_parts(netlist: Netlist) -> None:
    """Raises Fault if the wiring compares nothing, or lacks an input."""
    parts, inputs = netlist.parts, netlist.inputs
    for name, keys in parts.items():
        if not name.startswith((HOLDS, SAME, GIVEN)) or len(keys) != 1:
            raise Fault(f"output {name} of the wiring must be one bit wide and named {SAME}.. or {GIVEN}..")
    same = [name for name in parts if name.startswith(SAME)]
    if not same:
        raise Fault(f"the wiring compares no outputs: it has no output {SAME}..", NOTHING_HELD)
    for name in same:
        if not netlist.named_by(name):
            raise Fault(f"{name} has no effect: it depends on no register and no output", NOTHING_HELD)
    if OUTPUT in netlist.left_out([OUTPUT]):
        raise Fault(f"the wiring must compare gates.{OUTPUT}, and doesn't", NOTHING_HELD)
    if RESET not in inputs or len(inputs[RESET]) != 1:
        raise Fault(f"the wiring must have an input {RESET} of one bit")
    latches = sorted({name for name in netlist.latches if not MADE_BY_GHDL.search(name)})
    if latches:
        raise Fault(f"the design has latches, and --play takes registers only: {', '.join(latches[:MOST_NAMES])}")
