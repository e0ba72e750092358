#!/usr/bin/env python3
"""Decodes a trace, as `canbit decode` does: prints a line for each frame and each fault, with its position.

    bindings/examples/decode_trace.py examples/trace.txt

Without a file it reads standard input.
"""

import argparse
import pathlib
import sys
from collections.abc import Iterator

sys.path.insert(0, str(pathlib.Path(__file__).resolve().parent.parent / "python"))

from riddlesage import DOMINANT, Fault, Heard, Status, decode

# The kinds of faults as canbit prints them.
CODES = {Status.SHORT: "C1", Status.NO_START: "C2", Status.STUFF: "C3", Status.CRC: "C4", Status.FORM: "C5"}
# The idle condition: eleven recessive levels.
REST = bytes([1] * 11)


def line_of(place: int, heard: Heard) -> str:
    """The line of a frame that begins at this position."""
    words = [str(place), heard.frame.text, "ack" if heard.acknowledged else "noack"]
    words += ["srr0"] * (heard.srr == DOMINANT)
    words += ["r1"] * (heard.r1 != DOMINANT) + ["r0"] * (heard.r0 != DOMINANT) + ["eof0"] * (heard.last == DOMINANT)
    return " ".join(words)


def lines(levels: bytes) -> Iterator[str]:
    """The lines of a trace."""
    place = levels.find(DOMINANT)
    while place >= 0:
        try:
            heard = decode(levels[place : place + 157])
            yield line_of(place, heard)
            place += heard.length
        except Fault as fault:
            wrong = place + fault.place
            yield f"{place} fault {CODES[fault.status]} at {wrong}"
            rest = levels.find(REST, wrong)
            if rest < 0:
                return
            place = rest + len(REST)
        place = levels.find(DOMINANT, place)


def main() -> None:
    """Reads a trace of `0` and `1`."""
    words = argparse.ArgumentParser(description="Decodes a trace, as canbit decode does.")
    words.add_argument("trace", nargs="?", type=argparse.FileType(), default=sys.stdin, help="a file of `0` and `1`")
    levels = bytes(int(letter) for letter in words.parse_args().trace.read() if not letter.isspace())
    for line in lines(levels):
        print(line)


if __name__ == "__main__":
    main()
