#!/usr/bin/env python3
"""Simulates scenarios of `canbit run` with the Python package, converts them for scenario.c, and makes random ones.

    scenarios.py report < SCENARIO     prints the report of `canbit run`, stepping a Bus bit time by bit time
    scenarios.py played < SCENARIO     prints the report of `canbit run`, running the bus with one call
    scenarios.py plain < SCENARIO      prints the lines that tests/scenario.c reads
    scenarios.py random SEED BITS      prints a random scenario of four ports, with frames and bit errors of all kinds
"""

from __future__ import annotations

import argparse
import pathlib
import random
import sys
from collections.abc import Callable, Iterator
from typing import Any

import tomllib

HERE = pathlib.Path(__file__).resolve().parent
sys.path.insert(0, str(HERE.parent / "python"))

from riddlesage import Bus, Frame, Port, State, play

STATES = {State.ERROR_ACTIVE: "active", State.ERROR_PASSIVE: "passive", State.BUS_OFF: "off"}

Document = dict[str, Any]


def offers(document: Document) -> list[tuple[int, int, str]]:
    """Time, port and frame of each offer, in their order. In version 1 all are queued at time 0."""
    timed = document["version"] == 2
    made_of = (
        (*(offer if timed else (0, offer)), place)
        for place, port in enumerate(document["port"])
        for offer in port.get("queue", [])
    )
    return sorted(((time, place, text) for time, text, place in made_of), key=lambda offer: offer[0])


def plain(document: Document) -> Iterator[str]:
    """The lines that tests/scenario.c reads."""
    yield f"bits {document['bits']}"
    for port in document["port"]:
        start = "joining" if port.get("join") else "idle"
        yield f"port {start} {len(port.get('queue', []))} {port.get('log', 64)} {port.get('hold', 0)}"
    yield from (f"offer {time} {place} {text}" for time, place, text in offers(document))
    yield from (f"at {time}" for time in document.get("at", []))
    yield from (f"in {attempt} {offset}" for attempt, offset in document.get("in", []))
    yield from (f"view {time} {port}" for time, port in document.get("view", []))


def made(table: Document) -> Port:
    """A port of a scenario, before any frame is queued."""
    port = Port(len(table.get("queue", [])), table.get("log", 64), joining=table.get("join", False))
    port.hold(table.get("hold", 0))
    return port


def bit_by_bit(document: Document, ports: list[Port]) -> bytes:
    """The levels of a bus of these ports, stepped bit time by bit time."""
    bus = Bus(*ports)
    for time, place, text in offers(document):
        bus.offer(place, Frame.from_text(text), time)
    for time in document.get("at", []):
        bus.hit_at(time)
    for attempt, offset in document.get("in", []):
        bus.hit_in(attempt, offset)
    for time, place in document.get("view", []):
        bus.view(time, place)
    bus.run(document["bits"])
    return bus.levels


def in_one_call(document: Document, ports: list[Port]) -> bytes:
    """The levels of a bus of these ports, run with one call."""
    given = [(time, place, Frame.from_text(text)) for time, place, text in offers(document)]
    hits = {call: document.get(key, []) for call, key in (("hit_at", "at"), ("hit_in", "in"), ("view", "view"))}
    return play(ports, document["bits"], given, **hits).levels


def report(document: Document, levels_of: Callable[[Document, list[Port]], bytes] = bit_by_bit) -> Iterator[str]:
    """The lines of the report, with ports that are run in this way."""
    ports = [made(table) for table in document["port"]]
    levels = levels_of(document, ports)
    yield f"bits {document['bits']}"
    yield "".join(map(str, levels))
    for place, port in enumerate(ports):
        transmit, receive = port.counters
        yield f"port {place} {STATES[port.state]} tec {transmit} rec {receive} missed {port.missed}"
        yield from (f"  {'sent' if entry.sent else 'took'} {entry.frame.text}" for entry in port.log)


def played(document: Document) -> Iterator[str]:
    """The lines of the report, with ports that are run with one call."""
    return report(document, in_one_call)


def random_frame(chance: random.Random) -> str:
    """The text of a random frame."""
    extended, remote, dlc = chance.random() < 0.4, chance.random() < 0.2, chance.randrange(16)
    few = chance.random() < 0.5
    identifier = chance.randrange(4 if few else 1 << (29 if extended else 11))
    data = b"" if remote else bytes(chance.choice((0, 255, chance.randrange(256))) for _ in range(min(dlc, 8)))
    return Frame(identifier, data, extended, remote, dlc).text


def random_scenario(seed: int, bits: int) -> Iterator[str]:
    """The lines of a random TOML document. Bit errors come in bursts, and are rare enough that frames pass."""
    chance = random.Random(seed)
    ports = 4
    busy = [time for time in range(bits) if time // 5000 % 3 != 2]
    times = sorted(chance.sample(busy, bits // 900))
    hits = sorted({(chance.randrange(bits // 100), chance.randrange(140)) for _ in range(bits // 2000)})
    views = sorted({(chance.choice(busy), chance.randrange(ports)) for _ in range(bits // 400)})
    yield f"version = 1\nbits = {bits}\nat = {times}"
    yield f"in = {[list(hit) for hit in hits]}\nview = {[list(view) for view in views]}"
    for port in range(ports):
        queue = ", ".join(f'"{random_frame(chance)}"' for _ in range(bits // 500))
        yield f"[[port]]\nqueue = [{queue}]\nlog = {bits // 100}\njoin = {str(port == 3).lower()}\nhold = {port % 3}"


def main() -> None:
    """Runs the command that the first argument names."""
    parser = argparse.ArgumentParser(description=__doc__, formatter_class=argparse.RawDescriptionHelpFormatter)
    parser.add_argument("what", choices=("report", "played", "plain", "random"))
    parser.add_argument("numbers", nargs="*", type=int)
    words = parser.parse_args()
    if words.what == "random":
        lines = random_scenario(*words.numbers)
    else:
        document = tomllib.loads(sys.stdin.read())
        by: dict[str, Callable[[Document], Iterator[str]]] = {"report": report, "plain": plain, "played": played}
        lines = by[words.what](document)
    for line in lines:
        print(line)


if __name__ == "__main__":
    main()
