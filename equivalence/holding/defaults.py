"""Which circuit designs are compared with."""

from __future__ import annotations

import pathlib
import subprocess

from holding.circuit import MODULE, Circuit, read_circuit
from holding.faults import FAILED, Fault

TOP = pathlib.Path(__file__).resolve().parent.parent.parent
PROGRAM = "cangates"
WRITTEN = f"equivalence/{MODULE}.v"  # the verified circuit, as cangates wrote it; tests/cangates compares the two


def circuit_of(path: str | None) -> tuple[Circuit, str]:
    """The circuit in a file, and what to print about it.

    Without a file it is the verified circuit: the output of cangates, if that is built, otherwise the file here.
    """
    if path is not None:
        return in_file(path), path
    if (TOP / "out" / PROGRAM).exists():
        return read_circuit(output_of_program(), PROGRAM), f"./{PROGRAM} verilog"
    return in_file(str(TOP / WRITTEN)), f"{WRITTEN}, as {PROGRAM} wrote it"


def in_file(path: str) -> Circuit:
    """The circuit in a file."""
    return read_circuit(pathlib.Path(path).read_text(encoding="utf-8", errors="replace"), path)


def output_of_program() -> str:
    """The output of cangates."""
    ran = subprocess.run([str(TOP / PROGRAM), "verilog"], stdout=subprocess.PIPE, text=True)
    if ran.returncode:
        raise Fault(f"{PROGRAM} ended with status {ran.returncode}", FAILED)
    return ran.stdout
