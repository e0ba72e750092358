"""The register mapping ("relation"): a Verilog module that instantiates the circuit (`gates`) and the design (`dut`).

Its outputs are its parts: `holds_..` is an invariant of registers, `same_..` compares outputs, `given_..` is an
assumption on inputs.
"""

from __future__ import annotations

import re
from dataclasses import dataclass

from holding.circuit import MODULE
from holding.faults import Fault

COMMENT = re.compile(r'//[^\n]*|/\*.*?\*/|"(?:\\.|[^"\\])*"', re.S)
NAMED = re.compile(r"(?<![\w$.\\])(gates|dut)((?:\s*\.\s*[A-Za-z_]\w*)+)")
ROW = re.compile(r"\\(dut\.[^\s\[]+\[\d+\])(?=\s)")  # a row of a memory, by its escaped name
INSTANCE = re.compile(r"\b(\w+)\s*(?:#\s*\((?:[^()]|\([^()]*\))*\)\s*)?\b(gates|dut)\s*\(")
HEAD = re.compile(r"\bmodule\s+(\w+)\b[^;]*;", re.S)


@dataclass
class Relation:
    """The text of a register mapping, its module, and the words of circuit and design that it names."""

    path: str
    text: str
    module: str
    top: str  # the design's
    names: list[str]
    head_end: int

    def declaring(self, ranges: dict[str, str]) -> str:
        """The text with the words that it names declared, with these ranges, at the end of the module's header."""
        words = [f"wire {ranges[name]} \\{called(name)} ;" for name in self.names]
        body = ROW.sub(lambda found: f"\\{called(found[1])}", self.text[self.head_end :])
        return " ".join([self.text[: self.head_end], *words]) + body


def called(name: str) -> str:
    """What yosys is to call a word that the mapping names: it names rows of memories only if their names are free."""
    return f"row:{name}" if "[" in name else name


def blanked(text: str) -> str:
    """The text with spaces in place of comments and strings, so that all else keeps its position."""
    return COMMENT.sub(lambda found: re.sub(r"[^\n]", " ", found[0]), text)


def read_relation(text: str, path: str) -> Relation:
    """The register mapping in a text. Raises Fault unless it is one module with both instances."""
    code = blanked(text)
    heads = list(HEAD.finditer(code))
    if len(heads) != 1:
        raise Fault(f"{path}: the register mapping must be one module, and the file has {len(heads)}")
    instances = [(found[2], found[1]) for found in INSTANCE.finditer(code)]
    tops = [module for name, module in instances if name == "dut"]
    if ("gates", MODULE) not in instances or len(tops) != 1 or len(instances) != 2:
        raise Fault(f"{path}: the module must have one instance `gates` of {MODULE}, and one `dut` of the design")
    names = {found[1] + re.sub(r"\s", "", found[2]): None for found in NAMED.finditer(code)}
    names |= dict.fromkeys(ROW.findall(code))
    return Relation(path, text, heads[0][1], tops[0], list(names), heads[0].end())
