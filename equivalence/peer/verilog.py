"""A circuit as Verilog, in three forms of line: a gate or a name, an output, and the next value of a register."""

from __future__ import annotations

from collections.abc import Iterator

from peer.graph import Graph, Port


def bits(port: Port) -> list[str]:
    """The names of its bits."""
    return [port.name] if len(port.word) == 1 else [f"{port.name}[{place}]" for place in range(len(port.word))]


def declared(kind: str, port: Port) -> str:
    """The declaration of a word, with its meaning."""
    width = "" if len(port.word) == 1 else f" [{len(port.word) - 1}:0]"
    return f"{kind}{width} {port.name}; // {port.meaning}"


def value(literal: int) -> str:
    """A literal with the number of its signal."""
    return f"{'~' if literal & 1 else ''}n{literal >> 1}"


def statements(graph: Graph) -> Iterator[str]:
    """The lines of a module after its declarations."""
    yield "wire n0 = 1'b0;"
    for port in [*graph.inputs, *graph.registers]:
        for name, literal in zip(bits(port), port.word):
            yield f"wire {value(literal)} = {name};"
    for signal, (a, b) in graph.gates.items():
        yield f"wire n{signal} = {value(a)} & {value(b)};"
    for port in graph.outputs:
        for name, literal in zip(bits(port), port.word):
            yield f"assign {name} = {value(literal)};"
    yield "always @(posedge clock) begin"
    for port in graph.registers:
        for name, literal in zip(bits(port), port.word):
            yield f"{name} <= {value(graph.takes[literal])};"
    yield "end"
    yield "endmodule"


def written(graph: Graph, module: str, meaning: str) -> str:
    """A circuit as a Verilog module; its first line is a comment with this meaning."""
    names = ["clock", *(port.name for port in [*graph.inputs, *graph.outputs])]
    lines = [f"// {meaning}", f"module {module}({', '.join(names)});"]
    lines += ["input clock; // with each rising edge the registers take their next values"]
    for kind, ports in (("input", graph.inputs), ("output", graph.outputs), ("reg", graph.registers)):
        lines += [declared(kind, port) for port in ports]
    return "\n".join([*lines, *statements(graph)]) + "\n"
