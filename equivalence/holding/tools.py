"""The tools: yosys reads Verilog, GHDL synthesizes VHDL, and cadical or berkeley-abc is the solver."""

from __future__ import annotations

import json
import pathlib
import re
import shutil
import subprocess
from collections.abc import Iterable, Sequence
from dataclasses import dataclass

from holding.faults import FAILED, Fault
from holding.gates import Gates

SOLVERS = {"cadical": "cadical", "abc": "berkeley-abc"}
MISSING = re.compile(r"Module `\\?(\S+)' referenced in module `\\?(\S+)' in cell `\\?(\S+)' is not part of the design")
STRING = re.compile(r'"([01xzXZ-]+)"')
GHDL_ERROR = re.compile(r":\d+:\d+: |error|raised")
PACKAGES = {"yosys": "yosys", "cadical": "cadical", "berkeley-abc": "berkeley-abc"}


def needed(command: str) -> str:
    """A command that is installed. Raises Fault if it isn't."""
    if shutil.which(command) is None:
        raise Fault(f"{command} is not installed: apt-get install {PACKAGES.get(command, command)}", FAILED)
    return command


def solver_named(name: str | None) -> str:
    """The solver of this name, or one that is installed."""
    if name:
        needed(SOLVERS[name])
        return name
    for known, command in SOLVERS.items():
        if shutil.which(command):
            return known
    raise Fault("neither cadical nor berkeley-abc is installed: apt-get install cadical", FAILED)


def ran_yosys(script: Sequence[str], room: pathlib.Path) -> None:
    """Runs yosys on a script. Raises Fault with its errors if it fails."""
    path = room / "script.ys"
    path.write_text("\n".join(script) + "\n")
    command = [needed("yosys"), "-q", "-s", path.name]
    ran = subprocess.run(
        command, cwd=room, stdout=subprocess.PIPE, stderr=subprocess.STDOUT, text=True, errors="replace"
    )
    if ran.returncode:
        errors = [line for line in ran.stdout.splitlines() if "ERROR" in line] or ran.stdout.splitlines()[-3:]
        if found := MISSING.search("\n".join(errors)):
            raise Fault(f"no file has the module {found[1]}, of which {found[2]} has the instance {found[3]}")
        raise Fault("yosys: " + "; ".join(errors))


def synthesized(files: Sequence[str], top: str, room: pathlib.Path) -> pathlib.Path:
    """A design in VHDL as Verilog, by GHDL. Raises Fault with its errors if it fails."""
    made = room / "synthesized.v"
    command = [needed("ghdl"), "--synth", "--std=08", "--out=verilog", *files, "-e", top]
    ran = subprocess.run(command, cwd=room, capture_output=True, text=True)
    if ran.returncode:
        errors = [line for line in ran.stderr.splitlines() if GHDL_ERROR.search(line)]
        raise Fault("ghdl: " + "; ".join(errors or [f"status {ran.returncode}"]))
    # GHDL 2.0 writes constants of more than 32 bits as strings, which in Verilog have eight bits a character
    made.write_text(STRING.sub(lambda found: f"{len(found[1])}'b{found[1].replace('-', 'x')}", ran.stdout))
    return made


def read_netlist(path: pathlib.Path, module: str) -> dict:
    """A module of the JSON file that yosys wrote."""
    return json.loads(path.read_text())["modules"][module]


@dataclass
class Clauses:
    """CNF of a literal (Tseitin): one clause for the literal, three for each gate in its cone."""

    numbers: dict[int, int]  # of signals, from 1 on
    count: int
    lines: str

    def number(self, literal: int) -> int:
        """A literal as a number in a clause."""
        return -self.numbers[literal >> 1] if literal & 1 else self.numbers[literal >> 1]

    def text(self, given: Iterable[int]) -> str:
        """The DIMACS text, with these literals as further unit clauses."""
        units = [f"{self.number(literal)} 0\n" for literal in given if literal >> 1 in self.numbers]
        return "".join([f"p cnf {len(self.numbers)} {self.count + len(units)}\n", *units, self.lines])


def clauses_of(gates: Gates, literal: int) -> Clauses:
    """The clauses of a literal that isn't constant."""
    cone = gates.cone(literal)
    made = Clauses({signal: number for number, signal in enumerate(cone, 1)}, 0, "")
    lines = [f"{made.number(literal)} 0"]
    for signal in cone:
        if signal in gates.gates:
            at = made.numbers[signal]
            a, b = (made.number(side) for side in gates.gates[signal])
            lines += [f"{-at} {a} 0", f"{-at} {b} 0", f"{at} {-a} {-b} 0"]
    return Clauses(made.numbers, len(lines), "\n".join([*lines, ""]))


class Solver:
    """Runs a SAT solver to find out whether a literal can be true."""

    def __init__(self, name: str, room: pathlib.Path, seconds: int | None) -> None:
        self.name, self.room, self.seconds = name, room, seconds

    def ask(self, gates: Gates, literal: int) -> dict[int, bool] | None:
        """Values of free signals that make it true; None if unsatisfiable. Raises Fault if the solver fails."""
        if literal < 2:
            return {} if literal else None
        return self.ask_cadical(gates, literal) if self.name == "cadical" else self.ask_abc(gates, literal)

    def run(self, command: list[str], given: str) -> tuple[int, str]:
        """Runs a solver on this standard input, and returns its status and its output."""
        try:
            ran = subprocess.run(
                command, input=given, stdout=subprocess.PIPE, stderr=subprocess.STDOUT, text=True, timeout=self.seconds
            )
        except subprocess.TimeoutExpired:
            raise Fault(f"{command[0]} found no result in {self.seconds} s", FAILED) from None
        return ran.returncode, ran.stdout

    def ask_cadical(self, gates: Gates, literal: int) -> dict[int, bool] | None:
        """`ask` with CaDiCaL."""
        clauses = clauses_of(gates, literal)
        true = self.model(clauses, ())
        if true is None:
            return None
        return {signal: number in true for signal, number in clauses.numbers.items() if signal not in gates.gates}

    def model(self, clauses: Clauses, given: Iterable[int]) -> set[int] | None:
        """The numbers of the signals that are true in a model of clauses and literals; None if there is none."""
        status, output = self.run([needed("cadical"), "-q"], clauses.text(given))
        if status == 20:
            return None
        if status != 10:
            raise Fault(f"cadical ended with status {status}", FAILED)
        return {int(word) for line in output.splitlines() if line.startswith("v") for word in line.split()[1:]}

    def ask_abc(self, gates: Gates, literal: int) -> dict[int, bool] | None:
        """`ask` with ABC: the literal is the one output of a circuit without registers."""
        cone = gates.cone(literal)
        free = [signal for signal in cone if signal not in gates.gates]
        made = [signal for signal in cone if signal in gates.gates]
        path, found = self.room / "query.aig", self.room / "found.cex"
        path.write_bytes(aiger(gates, literal, free, made))
        found.unlink(missing_ok=True)
        script = f"read_aiger {path}; sat; write_cex -n {found}"
        status, output = self.run([needed("berkeley-abc"), "-q", script], "")
        if "UNSATISFIABLE" in output:
            return None
        if "SATISFIABLE" not in output or not found.exists():
            raise Fault(f"berkeley-abc ended with status {status}: {output.strip()}", FAILED)
        true = {word.split("=")[0] for word in found.read_text().split() if word.endswith("=1")}
        return {signal: f"i{signal}" in true for signal in free}


def aiger(gates: Gates, literal: int, free: list[int], made: list[int]) -> bytes:
    """A literal as the output of a circuit in the binary AIGER format; inputs are named after their signals."""
    numbers = {signal: number for number, signal in enumerate([0, *free, *made])}

    def number(side: int) -> int:
        return 2 * numbers[side >> 1] + (side & 1)

    def packed(value: int) -> bytes:
        digits = bytearray()
        while value >= 128:
            digits.append(value & 127 | 128)
            value >>= 7
        return bytes([*digits, value])

    parts = [f"aig {len(free) + len(made)} {len(free)} 0 1 {len(made)}\n{number(literal)}\n".encode()]
    for signal in made:
        low, high = sorted(number(side) for side in gates.gates[signal])
        parts.append(packed(2 * numbers[signal] - high) + packed(high - low))
    parts += [f"i{place} i{signal}\n".encode() for place, signal in enumerate(free)]
    return b"".join([*parts, b"o0 asked\n"])
