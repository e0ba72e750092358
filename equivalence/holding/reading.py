"""How yosys reads a design together with the register mapping, and injects mutations into it."""

from __future__ import annotations

import pathlib
from collections.abc import Sequence
from dataclasses import dataclass

from holding.circuit import Circuit
from holding.faults import Fault
from holding.netlist import MUTATION, Netlist, declared_range, design_words
from holding.relation import Relation, called
from holding.tools import ran_yosys, read_netlist, synthesized

MUTATIONS = 7
FOLDER = pathlib.Path(__file__).resolve().parent.parent
FIELDS, WORDS = FOLDER / "fields.v", FOLDER / "words.v"
WIDEST = "[127:0]"  # wide enough to find the names


@dataclass
class Design:
    """The files of a design, in Verilog or VHDL, with include folders and macros for Verilog."""

    files: Sequence[str]
    folders: Sequence[str]
    defines: Sequence[str]

    def in_verilog(self, top: str, room: pathlib.Path) -> Design:
        """The design with its VHDL files replaced by the Verilog that GHDL synthesizes."""
        vhdl = [it for it in self.files if it.endswith((".vhd", ".vhdl"))]
        if not vhdl:
            return self
        others = [it for it in self.files if it not in vhdl]
        return Design([*others, str(synthesized(vhdl, top, room))], self.folders, self.defines)

    def reading(self, room: pathlib.Path) -> str:
        """The command by which yosys reads them. It takes no spaces in names of folders: these get links."""
        words = ["-sv"] if any(it.endswith(".sv") for it in self.files) else []
        for number, folder in enumerate(self.folders):
            link = room / f"included-{number}"
            if not link.is_symlink():
                link.symlink_to(folder)
            words.append(f"-I{link.name}")
        words += [f"-D{define}" for define in self.defines]
        return " ".join(["read_verilog", *words, *(f'"{it}"' for it in self.files)])


def flattened(
    design: Design, circuit: Circuit, relation: Relation, ranges: dict[str, str], room: pathlib.Path
) -> list[str]:
    """The commands that read all of it as one module."""
    (room / "stub.v").write_text(circuit.stub)
    (room / "relation.v").write_text(relation.declaring(ranges))
    modules = [FIELDS, *([WORDS] if "riddlesage_words" in relation.text else [])]
    return [
        " ".join(["read_verilog stub.v", *(f'"{it}"' for it in modules)]),
        design.reading(room),
        "read_verilog relation.v",
        f"hierarchy -check -top {relation.module}",
        "proc",
        "flatten",
    ]


def named_ranges(design: Design, circuit: Circuit, relation: Relation, room: pathlib.Path) -> dict[str, str]:
    """The ranges of the words that a register mapping names. Raises Fault for one that doesn't exist."""
    wide = dict.fromkeys(relation.names, WIDEST)
    script = flattened(design, circuit, relation, wide, room)
    rows = [name for name in relation.names if called(name) != name]
    if rows:  # rows of memories are words only then
        script += ["setattr -set keep 1 w:*", "memory"]
    ran_yosys([*script, "write_json names.json"], room)
    module = read_netlist(room / "names.json", relation.module)
    nets = design_words(module) | {name: net for name, net in module["netnames"].items() if name in rows}
    ranges = {f"gates.{name}": f"[{width - 1}:0]" for name, width in circuit.words.items()}
    ranges |= {name: declared_range(net) for name, net in nets.items()}
    gone = [name for name in relation.names if name not in ranges]
    if gone:
        raise Fault(f"{relation.path}: no such register, output or signal: {' '.join(gone)}")
    return {name: ranges[name] for name in relation.names}


def read_both(
    design: Design, circuit: Circuit, relation: Relation, room: pathlib.Path, smoke: bool = False
) -> Netlist:
    """All of it as a netlist; its input `mutation` is the number of a mutation in the design, or 0 for none."""
    design = design.in_verilog(relation.top, room)
    ranges = named_ranges(design, circuit, relation, room)
    script = flattened(design, circuit, relation, ranges, room)
    script += ["setattr -set keep 1 w:*", "async2sync t:* t:$dlatch %d", "memory", "dffunmap"]
    script += injecting(relation, smoke)
    script += ["opt_expr", "opt_merge", "opt_clean", "techmap", "dffunmap", "opt_clean", "write_json netlist.json"]
    ran_yosys(script, room)
    return Netlist(read_netlist(room / "netlist.json", relation.module), circuit, relation)


def injecting(relation: Relation, smoke: bool) -> list[str]:
    """The commands that inject mutations: each inverts one bit of the next value of a register of the design.

    Without `smoke` it is a register that the mapping names; with it, one that a named word depends on. If the mapping
    names none, it is any register.
    """
    names = [name for name in relation.names if name.startswith("dut.") and called(name) == name]
    nets = " ".join(f"a:hdlname={name.replace('.', '?')}" for name in names or ["dut.*"])
    cone = "%ci*" if smoke else "%ci3"
    width = MUTATIONS.bit_length()
    return [
        f"select -set named {nets}",
        "select -set words a:hdlname=dut*",
        f"select -set registers @named {cone} @words %ci3 %i t:$dff %i",
        f"mutate -list {MUTATIONS} -mode inv -port \\D -ctrl {MUTATION} {width} 1 -o inject.ys @registers",
        "script inject.ys",
    ]
