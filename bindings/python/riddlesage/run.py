"""Simulates a scenario, prints its report, and writes what each port does as waves.

    python3 -m riddlesage.run SCENARIO.toml --vcd waves.vcd

The report is that of `canbit run`. The waves are a value change dump (VCD) for GTKWave, PulseView and others, with the
levels of the bus, and for each port what it drives and samples, its phase, rule, error counters and events.
"""

from __future__ import annotations

import argparse
import importlib
import sys
from collections.abc import Sequence
from typing import Any, TextIO

from riddlesage._bus import Bus, Happened
from riddlesage._commands import end_with, opened
from riddlesage._frames import Frame
from riddlesage._ports import Event, Port
from riddlesage._texts import BadScenario, run
from riddlesage._vcd import UNITS, Kind, Scope, Signal, Value, Writer

BITRATE = 1_000_000
_ERRORS = (Event.BIT_ERROR, Event.STUFF_ERROR, Event.CRC_ERROR, Event.FORM_ERROR, Event.ACK_ERROR)
# The signals of each port, in the order of their values below.
_SIGNALS = (
    *(Signal("drives"), Signal("samples"), Signal("transmitter")),
    *(Signal("sent"), Signal("received"), Signal("error"), Signal("overload")),
    *(Signal(name, Kind.NUMBER) for name in ("tec", "rec", "place")),
    *(Signal(name, Kind.TEXT) for name in ("phase", "rule", "state", "event")),
)

Document = dict[str, Any]


def bus_of(document: Document) -> Bus:
    """The bus of a scenario, with its ports, frames and bit errors. The scenario must be valid."""
    ports = [_port_of(table) for table in document["port"]]
    bus = Bus(*ports)
    for place, table in enumerate(document["port"]):
        for offer in table.get("queue", []):
            # in version 1 all frames wait from the start
            time, text = offer if document["version"] == 2 else (0, offer)
            bus.offer(place, Frame.from_text(text), time)
    for time in document.get("at", []):
        bus.hit_at(time)
    for attempt, offset in document.get("in", []):
        bus.hit_in(attempt, offset)
    for time, place in document.get("view", []):
        bus.view(time, place)
    return bus


def _port_of(table: Document) -> Port:
    port = Port(len(table.get("queue", [])), 0, joining=table.get("join", False))
    port.hold(table.get("hold", 0))
    return port


def _standing_values(port: Port) -> list[Value]:
    """The values of a port at the beginning of a bit time, from `tec` to `state`."""
    standing, counters = port.phase, port.counters
    phase, rule = (it.name.lower().replace("_", "-") for it in (standing.phase, standing.rule))
    return [*counters, standing.place, phase, rule, port.state.name.lower().replace("_", "-")]


def _event_values(event: Happened | None) -> tuple[list[Value], str]:
    """The values of the event of a bit time: those from `sent` to `overload`, and the text."""
    if event is None:
        return [0, 0, 0, 0], ""
    kind = event.event
    text = kind.name.lower().replace("_", " ") + (f" {event.frame.text}" if event.frame else "")
    pulses = kind is Event.SENT, kind is Event.RECEIVED, kind in _ERRORS, kind is Event.OVERLOAD
    return [int(it) for it in pulses], text


def _values(bus: Bus) -> list[Value]:
    """The values of all signals in the next bit time, which passes."""
    ports = [port for port in bus.devices if isinstance(port, Port)]
    standings = [(int(port.phase.sender), _standing_values(port)) for port in ports]
    happened = {it.place: it for it in bus.step()}
    values: list[Value] = [bus._levels[-1]]
    for place, (sender, standing) in enumerate(standings):
        pulses, text = _event_values(happened.get(place))
        values += [bus._wire.drives[place], bus._wire.seen[place], sender, *pulses, *standing, text]
    return values


def write_waves(document: Document, out: TextIO, bitrate: int = BITRATE) -> None:
    """Writes the waves of a valid scenario.

    A bit time lasts 1 / `bitrate` seconds. In it the waves have its levels and events, and the phase and counters at
    its beginning.
    """
    bus = bus_of(document)
    scopes = [Scope("bus", [Signal("bus_level")])]
    for place in range(len(bus.devices)):
        # sigrok shows names without their scopes
        scopes.append(Scope(f"port{place}", [Signal(f"port{place}_{it.name}", it.kind) for it in _SIGNALS]))
    writer = Writer(out, scopes, f"riddlesage.run: a bit time is 1 / {bitrate} s")
    for time in range(document["bits"]):
        writer.step(time * UNITS // bitrate, _values(bus))
    writer.end(document["bits"] * UNITS // bitrate)


def _loaded(text: str) -> Document:
    """The tables of a valid scenario."""
    for name in ("tomllib", "tomli"):
        try:
            module: Any = importlib.import_module(name)
        except ModuleNotFoundError:
            continue
        document: Document = module.loads(text)
        return document
    raise ModuleNotFoundError("tomli")


def _arguments(words: Sequence[str] | None) -> argparse.Namespace:
    parser = argparse.ArgumentParser(
        prog="python3 -m riddlesage.run",
        description="Simulates a scenario, prints the report of canbit run, and writes what each port does as waves.",
    )
    scenario = "a TOML document (docs/FORMATS.md), or - for standard input"
    parser.add_argument("scenario", metavar="SCENARIO", help=scenario)
    parser.add_argument("--vcd", metavar="FILE", help="writes the waves, for GTKWave or PulseView")
    rate = f"bit rate of the waves, in bits per second; default {BITRATE}"
    parser.add_argument("--bitrate", type=_bitrate, default=BITRATE, metavar="N", help=rate)
    return parser.parse_args(words)


def _bitrate(text: str) -> int:
    if not (text.isascii() and text.isdigit() and 1 <= int(text) <= BITRATE):
        raise argparse.ArgumentTypeError(f"{text!r} is not a bit rate, 1 to {BITRATE}")
    return int(text)


def main(words: Sequence[str] | None = None) -> int:
    """Simulates the scenario. Returns the exit status."""
    options = _arguments(words)
    with opened(options.scenario) as file:
        text = file.read()
    try:
        report = run(text)
    except BadScenario as refused:
        print(f"{'standard input' if options.scenario == '-' else options.scenario}: {refused}", file=sys.stderr)
        return 1
    if options.vcd:
        try:
            document = _loaded(text.decode("utf-8"))
        except ModuleNotFoundError:
            print("waves need Python 3.11 or later, or the package tomli", file=sys.stderr)
            return 2
        with open(options.vcd, "w", encoding="ascii") as out:
            write_waves(document, out, options.bitrate)
    print(report, end="")
    return 0


if __name__ == "__main__":
    end_with(main)
