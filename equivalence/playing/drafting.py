"""`hold --wiring`: drafts a wiring module from the ports of a design, by their names and widths."""

from __future__ import annotations

import json
import pathlib
import re
from collections.abc import Iterable
from dataclasses import dataclass, field
from typing import Any

from holding.circuit import MODULE, Circuit
from holding.faults import Fault
from holding.reading import Design
from holding.tools import ran_yosys, synthesized

ENTITY = re.compile(r"^\s*entity\s+(\w+)\s+is\b", re.I | re.M)
VHDL = (".vhd", ".vhdl")
# the parts of a name that say nothing
AFFIXES = re.compile(r"^(i|o|in|out|stat(us)?)_|_(i|o|in|out|reg|r|q)$")
WORDS = re.compile(r"(?<=[a-z0-9])(?=[A-Z])")  # between two words in CamelCase
# parts of the names below: of the frame to send, of the one received, and of their fields
TO_SEND = r"(wait\w*|tx|transmit|send|req(uest)?)_?((frame|fr|msg|message|mb)_?)?"
OF_FRAME = r"((bus|rx|rcvd?|recv|received?|frame|fr|msg|message)_?){1,2}"
EXTENDED, REMOTE = r"(is_?)?(extended|ext|xtd|ide|eff)", r"(is_?)?(remote|rtr)"
IDENTIFIER, DLC, DATA = r"(identifier|ident|id)", r"(dlc|len(gth)?)", r"(data|payload)"
OVERLOAD = r"(overload|ovl)_?"
RECEIVED = re.compile(r"(bus_?)?(rx|rcvd?|recv|received?)_?", re.I)
RESET_LOW = re.compile(r"n_?re?se?t|re?se?t_?n|a?rst_?n|re?se?t_?b")
# names of a design's inputs for each input of the circuit, and of its outputs for each output; the first that fits
INPUTS = {
    "clock": r"(sys_?|core_?)?cl(oc)?k",
    "reset": r"a?(sync_?)?re?se?t|rst|" + RESET_LOW.pattern,
    "integrating": r"((re?se?t|init)_?)?integrat\w+|(re_?)?join\w*",
    "enable": r"enable|en|ce|clk_?en|sample(_?(point|strobe|tick|en))?|(bit_?)?(strobe|tick)",
    "bus": r"bus|(can_?)?rxd?|can_?rx|bus_?level|wire_?level|bus_?in|(can_?)?rx_?(bit|level|pin)",
    "overload_request": OVERLOAD + r"(req(uest)?|set|write|wr|load|strobe|valid)?|hold",
    "overload_count": OVERLOAD + r"(count|cnt|frames|num(ber)?|n)|hold_?(wish|count)",
    "waits": r"waits?|pending|(tx|wait\w*|send)_?(req(uest)?|valid|start|pending)|send|start|req(uest)?",
    "wait_extended": TO_SEND + EXTENDED,
    "wait_remote": TO_SEND + REMOTE,
    "wait_identifier": TO_SEND + IDENTIFIER,
    "wait_dlc": TO_SEND + DLC,
    "wait_data": TO_SEND + DATA,
}
STROBE = re.compile(r"sample(_?(point|strobe|tick|en|now))?|(bit_?)?strobe")
OUTPUTS = {
    "drive": r"drives?|(can_?)?txd?|can_?tx|level|bus_?out|(can_?)?tx_?(bit|level|pin)",
    "tec": r"tec|tx_?err(or)?s?_?(count(er)?|cnt)|transmit_?error_?count(er)?",
    "rec": r"rec|rx_?err(or)?s?_?(count(er)?|cnt)|receive_?error_?count(er)?",
    "passive": r"(is_?)?(err(or)?_?)?passive",
    "off": r"(is_?)?(bus_?)?off",
    "event_code": r"(event|evt|ev)(_?(code|kind|type|num(ber)?))?|told",
    "frame_extended": OF_FRAME + EXTENDED,
    "frame_remote": OF_FRAME + REMOTE,
    "frame_identifier": OF_FRAME + IDENTIFIER,
    "frame_dlc": OF_FRAME + DLC,
    "frame_data": OF_FRAME + DATA,
}
NEEDED = ("reset", "bus")  # inputs that the wiring has in any case
# what a constant at an input of the circuit means, as far as it isn't clear
TIED = {
    "enable": "each clock cycle is a bit time",
    "integrating": "a reset leads to idle; with 1 it would lead to bus integration",
    "waits": "no frame is pending, so the circuit never transmits",
    "overload_request": "no own overload frames",
}
NOTES = """
    // Lines to copy, if the design needs them:
    // - a reset that is active at 0: .{reset}(~reset)
    // - a sample strobe of the design: .enable(dut.STROBE) in gates, in place of .enable(1'b1), and !dut.STROBE || ..
    //   in same_drive, if the level changes at another time
    // - an enable of the design: an input `enable` of this module, to both
    // - the first data byte as the most significant one: turned_wait for the design, turned_frame to compare with it
    //       wire [63:0] turned_wait, turned_frame;
    //       riddlesage_bytes wait_bytes (.given(wait_data), .turned(turned_wait));
    //       riddlesage_bytes frame_bytes (.given(gates.frame_data), .turned(turned_frame));
    // - no overload requests: .overload_request(1'b0) and .overload_count(2'd0) in gates
    // - an event that is reported after its bit time: keep the circuit's, and compare event_code with the design's
    //       reg [3:0] event_code;
    //   for one clock cycle:
    //       always @(posedge clock) event_code <= reset ? 4'd0 : gates.event_code;
    //   until the next bit time ends:
    //       always @(posedge clock) if (reset || gates.enable) event_code <= reset ? 4'd0 : gates.event_code;
    //   and its frame in the same way
    // - a frame with other values in unused bits: compare what riddlesage_frame makes of both
    // - an invariant for --find: an output holds_NAME of this module; it may name words of equivalence/WORDS.md, as
    //       assign holds_count = !words_in_part || dut.COUNT == words_count;"""


@dataclass
class Port:
    """A port of the design."""

    name: str
    width: int
    is_input: bool


@dataclass
class Match:
    """Which port of the design is which of the circuit's, and the others."""

    inputs: dict[str, Port] = field(default_factory=dict)
    outputs: dict[str, Port] = field(default_factory=dict)
    strobe: Port | None = None  # the design's output that is 1 when it samples the bus
    others: list[Port] = field(default_factory=list)


def plain(name: str) -> str:
    """A name in lower case with words separated, without what says nothing."""
    name = WORDS.sub("_", name).lower()
    while (less := AFFIXES.sub("", name)) != name and less:
        name = less
    return name


def matched(ports: Iterable[Port], circuit: Circuit) -> Match:
    """The ports by name; a width has to fit, too."""
    match = Match()
    widths = {"clock": 1, **circuit.inputs, **circuit.widths["output"]}
    for port in ports:
        known, found = (INPUTS, match.inputs) if port.is_input else (OUTPUTS, match.outputs)
        for name, pattern in known.items():
            if name not in found and port.width <= widths[name] and re.fullmatch(pattern, plain(port.name)):
                found[name] = port
                break
        else:
            if port.width == 1 and not port.is_input and STROBE.fullmatch(plain(port.name)):
                match.strobe = port
            else:
                match.others.append(port)
    return match


def read_ports(design: Design, room: pathlib.Path) -> tuple[str, list[Port]]:
    """The design's top module, and its ports."""
    entities = [name for file in design.files if file.endswith(VHDL) for name in ENTITY.findall(read(file))]
    if entities:
        made = synthesized([it for it in design.files if it.endswith(VHDL)], entities[-1], room)
        others = [it for it in design.files if not it.endswith(VHDL)]
        design = Design([*others, str(made)], design.folders, design.defines)
    ran_yosys([design.reading(room), "hierarchy -check -auto-top", "proc", "write_json ports.json"], room)
    modules: dict[str, Any] = json.loads((room / "ports.json").read_text())["modules"]
    tops = [name for name, module in modules.items() if "top" in module["attributes"]]
    if len(tops) != 1:
        raise Fault("the files have no module that contains all others")
    ports = modules[tops[0]]["ports"].items()
    return tops[0], [Port(name, len(it["bits"]), it["direction"] == "input") for name, it in ports]


def ranged(width: int) -> str:
    """A range, if there is more than one bit."""
    return f"[{width - 1}:0] " if width > 1 else ""


def tied(match: Match, circuit: Circuit) -> dict[str, str]:
    """The circuit's inputs that get a constant."""
    free = {*match.inputs, *NEEDED, *(["enable"] if match.strobe else [])}
    held = {name: width for name, width in circuit.inputs.items() if name not in free}
    return {name: "1'b1" if name == "enable" else f"{width}'d0" for name, width in held.items()}


def warnings(match: Match, circuit: Circuit) -> list[str]:
    """A comment on the inputs that get a constant."""
    lines = [
        f"//   gates.{name} is {value}{f': {TIED[name]}' if name in TIED else ''}"
        for name, value in tied(match, circuit).items()
    ]
    lines += [f"//   dut.{it.name} is {it.width}'d0" for it in match.others if it.is_input]
    if not lines:
        return []
    return ["//", *ATTENTION, *lines]


def dut_pins(match: Match) -> list[str]:
    """The design's instance, a line for each input."""
    lines = []
    for name, port in match.inputs.items():
        inverted = name == "reset" and RESET_LOW.fullmatch(plain(port.name))
        lines.append(f".{port.name}({'~' if inverted else ''}{name})")
    return [*lines, *(f".{it.name}({it.width}'d0)" for it in match.others if it.is_input)]


def notes(match: Match, circuit: Circuit) -> list[str]:
    """Comments on what was not matched."""
    texts = [f"output {it.name}" for it in match.others if not it.is_input]
    texts += [f"the circuit's input {name}" for name in ("clock", *NEEDED) if name not in match.inputs]
    texts += [f"the circuit's output {name}" for name in OUTPUTS if name not in match.outputs]
    return [f"    // not matched: {text}" for text in texts]


ATTENTION = ["// ATTENTION: these inputs are constants. Runs with other values aren't compared, and no report says so:"]
COMMENTS = {
    "given_overload_count": [
        "The circuit ignores a request for 3 own overload frames. If the design ignores it, too, delete this part:",
        "then nothing is assumed.",
    ],
    "same_event_code": [
        "In its bit time. If the design reports it later, as a registered output does, copy the lines below.",
    ],
    "same_frame_data": [
        "The first byte is at [7:0]. If it is the design's most significant one, copy the lines below.",
    ],
}


def parts_of(match: Match) -> dict[str, str]:
    """The outputs of the wiring module with their values."""
    parts = {}
    if "overload_count" in match.inputs:
        parts["given_overload_count"] = "overload_count != 2'd3"
    for name in (it for it in OUTPUTS if it in match.outputs):
        port = match.outputs[name].name
        when = ""
        if name.startswith("frame_"):
            when = "!received || " if RECEIVED.match(plain(port)) else "!has_frame || "
        elif name == "drive" and match.strobe:
            when = f"!dut.{match.strobe.name} || "  # it changes between two bit times
        parts[f"same_{name}"] = f"{when}gates.{name} == dut.{port}"
    return parts


def gates_pins(match: Match, circuit: Circuit) -> list[str]:
    """The circuit's instance, a line for each input."""
    constants = tied(match, circuit)
    strobe = {"enable": f"dut.{match.strobe.name}"} if match.strobe else {}
    taken = {name: {**constants, **strobe}.get(name, name) for name in circuit.inputs}
    return [".clock(clock)", *(f".{name}({value})" for name, value in taken.items())]


def listed(lines: Iterable[str], space: str) -> str:
    """Lines with commas between them."""
    return space + f",\n{space}".join(lines)


def draft(top: str, ports: list[Port], circuit: Circuit) -> str:
    """The text of the wiring module."""
    match = matched(ports, circuit)
    widths = {name: it for name, it in circuit.inputs.items() if name in match.inputs or name in NEEDED}
    parts = parts_of(match)
    inputs = ["input clock", *(f"input {ranged(width)}{name}" for name, width in widths.items())]
    reset = match.inputs["reset"].name if "reset" in match.inputs else "reset"
    lines = ["// Wiring for hold --play, a draft: review each line. dut is the design, gates the circuit."]
    lines += [*warnings(match, circuit), "", "module wiring ("]
    lines += [listed([*inputs, *(f"output {name}" for name in parts)], "    "), ");"]
    lines += [f"    {MODULE} gates (", listed(gates_pins(match, circuit), "        "), "    );"]
    lines += [f"    {top} dut (", listed(dut_pins(match), "        "), "    );", ""]
    if any("_frame_" in name for name in parts):
        lines.append("    wire received = gates.event_code == 4'd2, has_frame = received || gates.event_code == 4'd1;")
    for name, value in parts.items():
        lines += [f"    // {it}" for it in COMMENTS.get(name, [])] + [f"    assign {name} = {value};"]
    lines += ["", *notes(match, circuit), NOTES.strip("\n").replace("{reset}", reset), "endmodule", ""]
    return "\n".join(lines)


def read(path: str) -> str:
    """A file's text."""
    return pathlib.Path(path).read_text(encoding="utf-8", errors="replace")


def draft_wiring(design: Design, circuit: Circuit, room: pathlib.Path) -> str:
    """The draft for a design's files."""
    return draft(*read_ports(design, room), circuit)
