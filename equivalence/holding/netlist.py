"""Both controllers and the register mapping as one netlist of gates and registers, and its bit times."""

from __future__ import annotations

import functools
from collections.abc import Callable, Iterable, Mapping
from typing import Union

from holding.circuit import MODULE, Circuit
from holding.faults import Fault
from holding.gates import FALSE, TRUE, Gates
from holding.relation import Relation, called

Key = Union[int, str]  # a bit of a netlist: yosys's number, or a name for one that yosys doesn't have
Side = tuple[Key, bool]  # with whether it is negated
MUTATION = "mutation"  # the input by which yosys chooses a mutation
CLOCK = "clock"

# the function of a cell, of its pins S, A and B
KINDS: dict[str, Callable[..., int]] = {
    "$_BUF_": lambda gates, a: a,
    "$_NOT_": lambda gates, a: a ^ 1,
    "$_AND_": Gates.both,
    "$_OR_": Gates.either,
    "$_XOR_": Gates.differ,
    "$_XNOR_": lambda gates, a, b: gates.differ(a, b) ^ 1,
    "$_MUX_": lambda gates, test, a, b: gates.choose(test, b, a),
}
LATCHES = {"$_DLATCH_P_": False, "$_DLATCH_N_": True}  # with whether they are transparent at 0


def hierarchical(name: str, net: dict) -> str | None:
    """A net's name with its instances, separated by dots; None if it is no name of the source text.

    A name with a dot of its own is what yosys makes of a hierarchical name, and has no driver.
    """
    parts = net["attributes"].get("hdlname", name).split(" ")
    if net.get("hide_name") or len(parts) > 1 and any("." in part for part in parts):
        return None
    return ".".join(parts)


def design_words(module: dict) -> dict[str, dict]:
    """The nets of the design's instance."""
    nets = {hierarchical(name, net): net for name, net in module["netnames"].items() if "hdlname" in net["attributes"]}
    return {name: net for name, net in nets.items() if name and name.startswith("dut.")}


def declared_range(net: dict) -> str:
    """A net's signedness and range, as declared."""
    low, width = net.get("offset", 0), len(net["bits"])
    ends = (low, low + width - 1) if net.get("upto") else (low + width - 1, low)
    return f"{'signed ' if net.get('signed') else ''}[{ends[0]}:{ends[1]}]"


class Netlist:
    """The driver of each bit, the next-state logic of each register, and the names of bits."""

    def __init__(self, module: dict, circuit: Circuit, relation: Relation) -> None:
        self.drivers: dict[Key, tuple[str, list[Side]]] = {}  # a kind of KINDS, and its inputs
        self.registers: dict[Key, Side] = {}
        self.unknown = 0
        self.latches: list[str] = []
        self.circuit = circuit
        ports = module["ports"]
        self.inputs = {name: self.keys(it["bits"]) for name, it in ports.items() if it["direction"] == "input"}
        self.parts = {name: self.keys(it["bits"]) for name, it in ports.items() if it["direction"] == "output"}
        self.words = {f"gates.{name}": self.circuit_word(name, width) for name, width in circuit.words.items()}
        self.words |= {name: self.keys(net["bits"]) for name, net in design_words(module).items()}
        # the lowest index of a word of the design, and whether it is that of the most significant bit
        self.indexes = {
            name: (net.get("offset", 0), bool(net.get("upto"))) for name, net in design_words(module).items()
        }
        self.named: dict[Key, str] = {}  # bits of words, preferably by the mapping's names
        for name, net in module["netnames"].items():
            said = hierarchical(name, net)
            if said in relation.names and called(said) == said:
                if "hdlname" not in net["attributes"]:
                    self.join(net["bits"], self.words[said])
                    self.named |= dict.fromkeys(net["bits"], said)
            elif said and "hdlname" not in net["attributes"]:
                self.words.setdefault(said, self.keys(net["bits"]))
        for name in relation.names:
            if called(name) != name and name in self.words and called(name) in module["netnames"]:
                bits = module["netnames"][called(name)]["bits"]
                self.join(bits, self.words[name])
                self.named |= dict.fromkeys(bits, name)
        self.take_circuit()
        if set(self.named.values()) != set(relation.names):
            raise Fault("yosys has removed a word that the register mapping names")
        for name, cell in module["cells"].items():
            self.take_cell(name, cell["type"], cell["connections"])
        self.name_others()

    def name_others(self) -> None:
        """Names the bits that the mapping reaches through ports, and the mapping's own registers."""
        inputs = {"0", "1", *(key for keys in self.inputs.values() for key in keys)}
        for name in sorted(self.words, key=lambda name: name.count(".")):
            is_own = not name.startswith(("gates.", "dut."))
            for key in self.words[name]:
                if key in self.registers if is_own else key not in inputs:
                    self.named.setdefault(key, name)

    def named_by(self, part: str) -> list[str]:
        """The words of both controllers, and the mapping's own registers, that a part of the mapping depends on."""
        seen: set[Key] = set()
        waiting = list(self.parts[part])
        while waiting:
            key = waiting.pop()
            if key not in seen and key not in self.named and key in self.drivers:
                waiting += [side for side, _ in self.drivers[key][1]]
            seen.add(key)
        return sorted({self.named[key] for key in seen if key in self.named})

    def left_out(self, outputs: Iterable[str]) -> list[str]:
        """Those of the circuit's outputs that no part of the mapping depends on."""
        seen: set[Key] = set()
        waiting = [key for keys in self.parts.values() for key in keys]
        while waiting:
            key = waiting.pop()
            if key in seen:
                continue
            seen.add(key)
            name = self.named.get(key, "")
            if key in self.registers and not name.startswith(("gates.", "dut.")):
                waiting.append(self.registers[key][0])
            elif not name and key in self.drivers:
                waiting += [side for side, _ in self.drivers[key][1]]
        named = {self.named[key] for key in seen if key in self.named}
        return [name for name in outputs if f"gates.{name}" not in named]

    def keys(self, bits: Iterable[Key]) -> list[Key]:
        """Bits as yosys writes them; each undefined one is a new free bit."""
        made: list[Key] = []
        for bit in bits:
            if bit in ("x", "z"):
                self.unknown += 1
                bit = f"x{self.unknown}"
            made.append(bit)
        return made

    def join(self, bits: Iterable[Key], keys: Iterable[Key]) -> None:
        """Connects the first bits to the second."""
        for bit, key in zip(bits, keys):
            self.drivers[bit] = ("$_BUF_", [(key, False)])

    def circuit_word(self, name: str, width: int) -> list[Key]:
        """The keys of a word of the circuit."""
        return [f"{name}[{place}]" for place in range(width)]

    def take_circuit(self) -> None:
        """Adds the circuit's gates, its outputs and its next-state logic."""

        def key(side: tuple[int, bool]) -> Side:
            if side[0] == 0:
                return "0", side[1]
            name = self.circuit.names.get(side[0])
            return (f"{name[0]}[{name[1]}]" if name else f"n{side[0]}"), side[1]

        for signal, (a, b) in self.circuit.gates.items():
            self.drivers[f"n{signal}"] = ("$_AND_", [key(a), key(b)])
        for (name, place), side in self.circuit.outputs.items():
            self.drivers[f"{name}[{place}]"] = ("$_BUF_", [key(side)])
        for (name, place), side in self.circuit.takes.items():
            self.registers[f"{name}[{place}]"] = key(side)

    def take_cell(self, name: str, kind: str, pins: dict[str, list[Key]]) -> None:
        """Adds a cell. Raises Fault for one that is neither a gate nor a register of the clock."""
        if kind == MODULE:
            self.take_instance(pins)
        elif kind in KINDS:
            read = [bit for pin in "SAB" for bit in self.keys(pins.get(pin, []))]
            self.drivers[pins["Y"][0]] = (kind, [(key, False) for key in read])
        elif kind in LATCHES:
            # a latch that is not transparent counts as having any value
            self.latches.append(self.called(name, pins))
            sides = self.keys([pins["E"][0], "x", pins["D"][0]])
            self.drivers[pins["Q"][0]] = ("$_MUX_", [(sides[0], LATCHES[kind]), (sides[1], False), (sides[2], False)])
        elif kind == "$_DFF_P_":
            if pins["C"] != self.inputs.get(CLOCK):
                raise Fault(f"{self.called(name, pins)} has a clock other than the mapping's input {CLOCK}")
            (taken,) = self.keys(pins["D"])
            self.registers[pins["Q"][0]] = (taken, False)
        elif kind == "$_DFF_N_":
            raise Fault(f"{self.called(name, pins)} uses the falling edge of its clock, not the rising edge of {CLOCK}")
        else:
            said = self.called(name, pins)
            raise Fault(f"{said} is neither a gate nor a register on the rising edge of {CLOCK}: {kind}")

    def called(self, cell: str, pins: dict[str, list[Key]]) -> str:
        """The word that a cell drives, or its name in yosys."""
        names = [self.first_names[key] for key in pins.get("Q", ()) if key in self.first_names]
        return f"register {min(names, key=order_of)}" if names else cell

    @functools.cached_property
    def first_names(self) -> dict[Key, str]:
        """For each bit the name of a word that has it."""
        made: dict[Key, str] = {}
        for name in sorted(self.words, key=order_of):
            for key in self.words[name]:
                made.setdefault(key, name)
        return made

    def take_instance(self, pins: dict[str, list[Key]]) -> None:
        """Connects the circuit's ports."""
        for name, width in self.circuit.inputs.items():
            if len(pins.get(name, [])) != width:
                raise Fault(f"the register mapping must connect gates.{name} (width {width})")
            self.join(self.circuit_word(name, width), self.keys(pins[name]))
        if pins.get(CLOCK) != self.inputs.get(CLOCK):
            raise Fault(f"the register mapping must connect its input {CLOCK} to gates.{CLOCK}")
        for name, width in self.circuit.widths["output"].items():
            self.join(pins.get(name, []), self.circuit_word(name, width))


def order_of(name: str) -> tuple[int, str]:
    """The order of names: the outer ones first."""
    return name.count("."), name


class BitTime:
    """One bit time: the values of its registers and inputs are given or free."""

    def __init__(self, gates: Gates, netlist: Netlist, given: Mapping[Key, int]) -> None:
        self.gates, self.netlist = gates, netlist
        self.literals: dict[Key, int] = {"0": FALSE, "1": TRUE, **given}

    def literal(self, key: Key) -> int:
        """The literal of a bit. Raises Fault for a combinational loop."""
        waiting, open_keys = [key], set()
        while waiting:
            at = waiting[-1]
            if at in self.literals:
                waiting.pop()
                continue
            if at not in self.netlist.drivers:
                self.literals[at] = self.gates.fresh()
                continue
            kind, sides = self.netlist.drivers[at]
            missing = [side for side, _ in sides if side not in self.literals]
            if not missing:
                read = [self.literals[side] ^ negated for side, negated in sides]
                self.literals[at] = KINDS[kind](self.gates, *read)
            elif at in open_keys:
                raise Fault("the design has a combinational loop")
            else:
                open_keys.add(at)
                waiting += missing
        return self.literals[key]

    def word(self, name: str) -> list[int]:
        """The literals of a word."""
        return [self.literal(key) for key in self.netlist.words[name]]

    def all(self, prefix: str) -> int:
        """Whether all parts with this prefix are 1."""
        parts = self.netlist.parts
        return self.gates.all(*(self.literal(parts[name][0]) for name in parts if name.startswith(prefix)))

    def next(self) -> BitTime:
        """The bit time after this one."""
        taken = {held: self.literal(key) ^ negated for held, (key, negated) in self.netlist.registers.items()}
        return BitTime(self.gates, self.netlist, taken)
