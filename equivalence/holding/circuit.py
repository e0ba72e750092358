"""The circuit that designs are compared with, read from its Verilog: words, gates, outputs and next-state logic.

Its statements have three forms: `wire n3 = n1 & ~n2;` (or a name in place of the gate), `assign event_code[0] = n7;`,
and `phase[0] <= n9;`.
"""

from __future__ import annotations

import re
from dataclasses import dataclass, field

from holding.faults import Fault

MODULE = "riddlesage_controller"
COMMENT = re.compile(r"//.*")
DECLARED = re.compile(r"(input|output|reg)(?: \[(\d+):0\])? (\w+);")
GATE = re.compile(r"wire n(\d+) = (~?)n(\d+) & (~?)n(\d+);")
NAME = re.compile(r"wire n(\d+) = (?:1'b(0)|(\w+)(?:\[(\d+)\])?);")
OUTPUT = re.compile(r"assign (\w+)(?:\[(\d+)\])? = (~?)n(\d+);")
TAKES = re.compile(r"(\w+)(?:\[(\d+)\])? <= (~?)n(\d+);")
OTHER = re.compile(rf"(module {MODULE}\(\w+(, \w+)*\);|always @\(posedge clock\) begin|end|endmodule)?")
Bit = tuple[str, int]
Literal = tuple[int, bool]


@dataclass
class Circuit:
    """The content of the file, by signal numbers."""

    widths: dict[str, dict[str, int]] = field(default_factory=lambda: {"input": {}, "output": {}, "reg": {}})
    gates: dict[int, tuple[Literal, Literal]] = field(default_factory=dict)
    names: dict[int, Bit] = field(default_factory=dict)
    outputs: dict[Bit, Literal] = field(default_factory=dict)
    takes: dict[Bit, Literal] = field(default_factory=dict)

    @property
    def inputs(self) -> dict[str, int]:
        """The widths of its inputs, without the clock."""
        return {name: width for name, width in self.widths["input"].items() if name != "clock"}

    @property
    def words(self) -> dict[str, int]:
        """The widths of the words that a register mapping can name."""
        return {**self.widths["reg"], **self.widths["output"], **self.inputs}

    @property
    def stub(self) -> str:
        """The module's header as a black box, for yosys."""
        kinds = (("input", self.widths["input"]), ("output", self.widths["output"]))
        ports = [f"{kind} [{width - 1}:0] {name}" for kind, words in kinds for name, width in words.items()]
        return f"(* blackbox, keep *) module {MODULE} ({', '.join(ports)}); endmodule\n"


def literal(sign: str, number: str) -> Literal:
    """A literal from its sign and its signal."""
    return int(number), sign == "~"


def take_line(circuit: Circuit, line: str) -> bool:
    """Adds a line to the circuit, and returns whether it has one of the forms."""
    if found := GATE.fullmatch(line):
        circuit.gates[int(found[1])] = (literal(found[2], found[3]), literal(found[4], found[5]))
    elif found := NAME.fullmatch(line):
        if found[3]:
            circuit.names[int(found[1])] = (found[3], int(found[4] or 0))
    elif found := OUTPUT.fullmatch(line):
        circuit.outputs[found[1], int(found[2] or 0)] = literal(found[3], found[4])
    elif found := TAKES.fullmatch(line):
        circuit.takes[found[1], int(found[2] or 0)] = literal(found[3], found[4])
    elif found := DECLARED.fullmatch(line):
        circuit.widths[found[1]][found[3]] = int(found[2] or 0) + 1
    else:
        return OTHER.fullmatch(line) is not None
    return True


def bits(words: dict[str, int]) -> set[Bit]:
    """All bits of some words."""
    return {(name, place) for name, width in words.items() for place in range(width)}


def read_circuit(text: str, path: str) -> Circuit:
    """The circuit in a text. Raises Fault if a line has another form, or reads a signal that isn't defined."""
    circuit = Circuit()
    for number, line in enumerate(text.splitlines(), 1):
        if not take_line(circuit, COMMENT.sub("", line).strip()):
            raise Fault(f"{path}: line {number} has none of the forms that cangates writes: {line.strip()}")
    signals = {0, *circuit.names, *circuit.gates}
    read = {side for sides in circuit.gates.values() for side in sides}
    read |= {*circuit.outputs.values(), *circuit.takes.values()}
    is_whole = {signal for signal, _ in read} <= signals
    is_whole &= set(circuit.outputs) == bits(circuit.widths["output"])
    is_whole &= set(circuit.takes) == bits(circuit.widths["reg"])
    is_whole &= set(circuit.names.values()) == bits(circuit.inputs) | bits(circuit.widths["reg"])
    if not is_whole or "clock" not in circuit.widths["input"] or "legal" not in circuit.widths["output"]:
        raise Fault(f"{path}: the circuit of {MODULE} is incomplete")
    return circuit
