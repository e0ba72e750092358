"""Writes value change dumps (VCD), which waveform viewers show: signals of one bit, numbers, and texts.

Numbers are real, because libsigrok 0.5.2 ends at a vector of several bits. Texts are an extension that GTKWave shows,
and that PulseView and sigrok-cli skip.
"""

from __future__ import annotations

import enum
from collections.abc import Iterable, Sequence
from typing import NamedTuple, TextIO, Union

Value = Union[int, str]

# The printable characters of ASCII, which make the identifiers of signals, without those with which another token may
# begin: some readers skip a text, but not its identifier.
_OTHER = frozenset("0123456789#$bBrRsSxXzZ")
_CODES = "".join(chr(code) for code in range(33, 127) if chr(code) not in _OTHER)


class Kind(enum.Enum):
    """What the values of a signal are. The member's value is its type in a dump."""

    BIT = "wire 1"
    NUMBER = "real 64"
    TEXT = "string 1"


class Signal(NamedTuple):
    """A signal: its name, and what its values are."""

    name: str
    kind: Kind = Kind.BIT


class Scope(NamedTuple):
    """A group of signals."""

    name: str
    signals: Sequence[Signal]


# Units of time in a second.
UNITS = 10**7


class Writer:
    """Writes a dump of signals, which are given at each step, in the order of their scopes.

    Times are in units of 100 ns, ten of them in a bit time at 1 Mbit/s. sigrok takes a sample in each unit.
    """

    def __init__(self, out: TextIO, scopes: Iterable[Scope], comment: str = "") -> None:
        """Writes the head of the dump."""
        self._out = out
        self._signals: list[tuple[Signal, str]] = []
        if comment:
            print(f"$comment {comment} $end", file=out)
        print("$timescale 100 ns $end", file=out)
        for scope in scopes:
            print(f"$scope module {scope.name} $end", file=out)
            for signal in scope.signals:
                code = _code(len(self._signals))
                self._signals.append((signal, code))
                print(f"$var {signal.kind.value} {code} {signal.name} $end", file=out)
            print("$upscope $end", file=out)
        print("$enddefinitions $end", file=out)
        self._values: list[Value | None] = [None] * len(self._signals)

    def step(self, time: int, values: Sequence[Value]) -> None:
        """Writes the values that have changed; these are those from this time on."""
        lines = [
            _change(signal, code, value)
            for (signal, code), value, before in zip(self._signals, values, self._values)
            if value != before
        ]
        if lines:
            print(f"#{time}", *lines, sep="\n", file=self._out)
            self._values = list(values)

    def end(self, time: int) -> None:
        """Writes the time at which the dump ends."""
        print(f"#{time}", file=self._out)


def _code(number: int) -> str:
    """The identifier of a signal: the shortest codes come first."""
    code = ""
    while True:
        number, digit = divmod(number, len(_CODES))
        code = _CODES[digit] + code
        if not number:
            return code
        number -= 1


def _change(signal: Signal, code: str, value: Value) -> str:
    """The line for a new value. A text has no spaces in a dump; viewers read the escape."""
    if signal.kind is Kind.TEXT:
        text = str(value or "-").replace(" ", "\\x20")
        return f"s{text} {code}"
    return f"{value}{code}" if signal.kind is Kind.BIT else f"r{value} {code}"
