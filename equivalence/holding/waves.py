"""Bit times as VCD: ten time units each, beginning with the rising edge of the clock."""

from __future__ import annotations

import string
from collections.abc import Iterator

from holding.asking import Counterexample
from holding.netlist import CLOCK, MUTATION

DIGITS = string.ascii_letters + string.digits
RUN = "run."  # the scope of what the netlist doesn't have
INTEGER = 32  # its bits
Column = list[int]  # the values of a word in all bit times; a negative one is undefined


def identifier(number: int) -> str:
    """A short identifier code for a variable."""
    text = ""
    while number or not text:
        number, digit = divmod(number, len(DIGITS))
        text += DIGITS[digit]
    return text


def scopes(words: dict[str, int]) -> Iterator[str]:
    """The declarations of these words with their widths, in the scopes of their instances."""
    within: list[str] = []
    for number, name in enumerate(words):
        *wanted, last = name.split(".")
        while within != wanted[: len(within)]:
            within.pop()
            yield "$upscope $end"
        for scope in wanted[len(within) :]:
            within.append(scope)
            yield f"$scope module {scope} $end"
        kind = "integer" if name.startswith(RUN) and words[name] == INTEGER else "wire"
        yield f"$var {kind} {words[name]} {identifier(number)} {last} $end"
    yield from ["$upscope $end"] * len(within)


def shown_words(found: Counterexample) -> dict[str, int]:
    """The words of the netlist with their widths, without the clock and without the input of the self-check."""
    netlist = found.bit_times[0].netlist
    hidden = [netlist.inputs[CLOCK], netlist.inputs.get(MUTATION)]
    names = sorted(netlist.words, key=lambda name: name.split("."))
    return {name: len(netlist.words[name]) for name in names if netlist.words[name] not in hidden}


def digits(number: int, width: int) -> str:
    """A value of a word."""
    return f"{number:0{width}b}" if number >= 0 else "x" * width


def waves(found: Counterexample, others: dict[str, Column]) -> str:
    """The bit times of a counterexample, with words that the netlist doesn't have."""
    words = shown_words(found)
    columns = {name: [found.number(at, name) for at in range(len(found.bit_times))] for name in words}
    for name, column in others.items():
        words[RUN + name] = 1 if set(column) <= {0, 1} else INTEGER
        columns[RUN + name] = column
    clock = identifier(len(words))
    lines = ["$comment ten time units are one bit time $end", "$timescale 1 ns $end", "$scope module equivalence $end"]
    lines += [*scopes(words), f"$var wire 1 {clock} {CLOCK} $end", "$upscope $end", "$enddefinitions $end"]
    before: dict[str, str] = {}
    for at in range(len(found.bit_times)):
        lines += [f"#{10 * at}", f"1{clock}"]
        for number, (name, width) in enumerate(words.items()):
            shown = digits(columns[name][at], width)
            value = f"b{shown} {identifier(number)}" if width > 1 else f"{shown}{identifier(number)}"
            if before.get(name) != value:
                lines.append(value)
            before[name] = value
        lines += [f"#{10 * at + 5}", f"0{clock}"]
    return "\n".join([*lines, f"#{10 * len(found.bit_times)}", ""])
