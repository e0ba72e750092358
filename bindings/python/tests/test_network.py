"""The bus that python-can's interface uses, without python-can: events, times and counters are those of a Bus."""

from __future__ import annotations

import random
import threading
import time

import pytest
from riddlesage import Bus, Event, Frame, Port, Refused
from riddlesage._network import Network, Node

ALL = frozenset(Event)


def some_frame(chance: random.Random) -> Frame:
    """A random frame; its identifier is often one of a few."""
    extended, remote, dlc = chance.random() < 0.4, chance.random() < 0.2, chance.randrange(16)
    identifier = chance.randrange(4 if chance.random() < 0.5 else 1 << (29 if extended else 11))
    return Frame(identifier, b"" if remote else chance.randbytes(min(dlc, 8)), extended, remote, dlc)


@pytest.mark.parametrize("seed", range(4))
def test_events(seed: int) -> None:
    """With frames and bit errors of all kinds, each node has the events of its port on a Bus, and its counters."""
    chance, bits = random.Random(seed), 12000
    network, ports = Network(500000, real=False), [Port(64, 0) for _ in range(4)]
    nodes, bus = [network.attach(64, ALL) for _ in range(4)], Bus(*ports)
    busy = [at for at in range(bits) if at // 3000 % 3 != 2]
    for at in chance.sample(busy, bits // 400):
        place = chance.randrange(5)
        if place < 4:
            network.hit_at(at, only=nodes[place])
            bus.view(at, place)
        else:
            network.hit_at(at)
            bus.hit_at(at)
    network.hit_next(20, attempts=10)
    for attempt in range(10):
        bus.hit_in(attempt, 20)
    for at in sorted(chance.sample(busy, bits // 300)):
        place, frame = chance.randrange(4), some_frame(chance)
        network.run(at)
        network.offer(nodes[place], frame, 0)
        bus.offer(place, frame, at)
    network.run(bits)
    due = [happened for happened in bus.run(bits) if happened.event is not Event.NOTHING]
    for place, node in enumerate(nodes):
        given = [(it.time, it.event, it.frame) for it in node.happened]
        assert given == [(it.time, it.event, it.frame) for it in due if it.place == place]
        assert network.state(node) == (ports[place].state, ports[place].counters)
    assert len({it.event for it in due}) > 6


def test_local_hits() -> None:
    """A bit error of one node alone in an attempt is the same as one at its time."""
    frame = Frame(0x123, b"ab")
    happened = []
    for by_attempt in (True, False):
        network = Network(500000, real=False)
        nodes = [network.attach(8, ALL) for _ in range(3)]
        if by_attempt:
            network.hit_next(30, only=nodes[1])
        else:
            network.hit_at(100 + 30, only=nodes[1])
        network.run(100)
        network.offer(nodes[0], frame, 0)
        network.run(500)
        happened.append([list(node.happened) for node in nodes])
    assert happened[0] == happened[1] and len(happened[0][1]) > 1


def test_nodes_come_and_go() -> None:
    """A node that comes later integrates first; without a node that left, a frame is not acknowledged."""
    network = Network(500000, real=False)
    one, other = network.attach(8, ALL), network.attach(8, ALL)
    network.run(50)
    late = network.attach(8, ALL)
    network.offer(one, Frame(0x123), 0)
    network.run(150)
    assert [[it.event for it in node.happened] for node in (one, other, late)] == [
        [Event.SENT],
        [Event.RECEIVED],
        # it waits for eleven recessive levels, which come after this frame
        [],
    ]
    assert network.detach(late, 1) == 2
    assert network.detach(other, 1) == 1
    network.offer(one, Frame(0x124), 0)
    network.run(300)
    assert one.happened[-1].event is Event.ACK_ERROR
    # nobody waits for an acknowledgement that cannot come
    assert network.detach(one, 1) == 0


def test_idle_time() -> None:
    """Idle bit times pass at once, and no more than are asked for."""
    network = Network(1000000, real=False)
    node = network.attach(8, ALL)
    network.run(10**12)
    assert (network.time, node.happened.__len__(), network.attempts) == (10**12, 0, 0)
    network.hit_at(2 * 10**12)
    network.run(3 * 10**12)
    assert node.happened[0].time in range(2 * 10**12, 2 * 10**12 + 20)


def test_real_time() -> None:
    """Bit times pass by the clock; waiting ends with an event of another thread, or with its time."""
    network = Network(100000, real=True)
    one, other = network.attach(8, ALL), network.attach(8, ALL)
    begun = time.monotonic()
    assert network.following(one, 0.05) is None
    assert time.monotonic() - begun >= 0.05
    assert network.time + network.late >= 5000
    threading.Timer(0.05, network.offer, [other, Frame(0x123), 0]).start()
    happened = network.following(one, 10)
    assert happened is not None and happened.event is Event.RECEIVED
    with pytest.raises(ValueError, match="time of this bus is real"):
        network.run(1)
    with network:
        # time stops
        assert network.time == network.time


def test_missed() -> None:
    """Events that nobody takes are kept up to a number, and then counted."""
    node = Node(8, frozenset({Event.LOST}), joining=False)
    for at in range(10005):
        node.take(Event.LOST, None, at)
        node.take(Event.OVERLOAD, None, at)
    assert (len(node.happened), node.missed) == (10000, 5)


def test_refused() -> None:
    """Arguments that calls refuse."""
    with pytest.raises(ValueError, match="above 0"):
        Network(0, real=True)
    network = Network(500000, real=False)
    node = network.attach(1, ALL)
    with pytest.raises(ValueError, match="at offset 0"):
        network.hit_next(0, only=node)
    network.offer(node, Frame(1), 0)
    with pytest.raises(Refused, match="queue full"):
        network.offer(node, Frame(1), 0)
    for _ in range(63):
        network.attach(1, ALL)
    with pytest.raises(Refused, match="bad bus"):
        network.attach(1, ALL)
    network.run(100)
