"""The wiring with what registers are compared with: the words of words.v, and the circuit's state a bit time ago."""

from __future__ import annotations

import pathlib
import re
from collections.abc import Iterable

from holding.circuit import Circuit
from holding.faults import Fault
from holding.relation import Relation, blanked, read_relation

SOURCE = pathlib.Path(__file__).resolve().parent.parent / "words.v"
PORT = re.compile(r"^    (input|output) (?:\[(\d+):0\] )?([\w, ]+?),?\s*(?://.*)?$", re.M)
MODULE = "riddlesage_words"
PREFIX, EARLIER, CLOCK_AGO = "words_", "was_", "clock_ago_"
EVENT = "event_code"
END = re.compile(r"\bendmodule\b")


def ports() -> dict[str, dict[str, int]]:
    """The inputs and the outputs of the module in words.v, with their widths."""
    text = SOURCE.read_text(encoding="utf-8")
    head = text[text.index(f"module {MODULE} (") :]
    made: dict[str, dict[str, int]] = {"input": {}, "output": {}}
    for kind, top, names in PORT.findall(head[: head.index(");")]):
        made[kind] |= {name.strip(): int(top or 0) + 1 for name in names.split(",") if name.strip()}
    return made


def declared(width: int, name: str) -> str:
    """A word's range, and its name."""
    return f"[{width - 1}:0] {name}" if width > 1 else name


def instance(text: str | None = None) -> list[str]:
    """The lines that connect the module in words.v to the circuit; with a text, only the words that it names."""
    of = ports()
    named = {it: width for it, width in of["output"].items() if text is None or re.search(rf"\b{PREFIX}{it}\b", text)}
    if not named:
        return []
    lines = [f"    wire {declared(width, PREFIX + name)};" for name, width in named.items()]
    pins = [f".{name}(gates.{name})" for name in of["input"]]
    pins += [f".{name}({PREFIX}{name})" for name in named]
    return [*lines, f"    {MODULE} words (", *wrapped(pins), "    );"]


def wrapped(pins: Iterable[str]) -> list[str]:
    """Pins in lines."""
    lines, line = [], "       "
    for pin in pins:
        if len(line) + len(pin) > 115:
            lines.append(line)
            line = "       "
        line += f" {pin},"
    return [*lines, line.rstrip(",")]


def earlier(widths: dict[str, int]) -> list[str]:
    """The lines for what some words of the circuit were a bit time ago."""
    lines = [f"    reg {declared(width, EARLIER + name)};" for name, width in widths.items()]
    if lines:
        takes = [f"        {EARLIER}{name} <= gates.{name};" for name in widths]
        lines += ["    always @(posedge clock) if (gates.enable) begin", *takes, "    end"]
    return lines


def clock_ago() -> list[str]:
    """The lines for the event a clock cycle ago: it is another one than a bit time ago if `enable` is not always 1."""
    name = CLOCK_AGO + EVENT
    return [f"    reg [3:0] {name};", f"    always @(posedge clock) {name} <= gates.{EVENT};"]


def earlier_words(circuit: Circuit) -> dict[str, int]:
    """The words of the circuit whose values a bit time ago are of use."""
    widths = {**circuit.widths["reg"], **circuit.widths["output"]}
    return {name: width for name, width in widths.items() if name != "legal"}


def with_lines(relation: Relation, lines: list[str]) -> Relation:
    """The wiring with some lines at its end."""
    code = blanked(relation.text)
    end = [found.start() for found in END.finditer(code)][-1]
    text = "\n".join([relation.text[:end].rstrip(), "", *lines, "endmodule", ""])
    return read_relation(text, relation.path)


def with_named_words(relation: Relation) -> Relation:
    """The wiring or mapping with the words that it names as words_.., if it doesn't have the module with them."""
    code = blanked(relation.text)
    if re.search(rf"\b{MODULE}\b", code) or not (lines := instance(code)):
        return relation
    return with_lines(relation, lines)


def with_words(relation: Relation, circuit: Circuit) -> Relation:
    """The wiring with all of these words. Raises Fault if it is a mapping that has some."""
    if re.search(rf"\b{MODULE}\b", blanked(relation.text)):
        said = f"{relation.path} has the module {MODULE}, which --find adds"
        raise Fault(f"{said}: give the wiring without it; parts may name its words, such as {PREFIX}count")
    return with_lines(relation, [*instance(), *earlier(earlier_words(circuit)), *clock_ago()])
