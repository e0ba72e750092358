"""The interface for python-can: order, times and load of simulated scenarios, errors, and python-can's own programs."""

from __future__ import annotations

import os
import pathlib
import random
import subprocess
import sys
import threading
import time
from collections.abc import Iterator
from typing import Any

import pytest
from riddlesage import Frame, decode_trace, encode, run
from riddlesage.candump import Other, text_of
from riddlesage.load import measure
from riddlesage.logs import Refusals, read_log

can: Any = pytest.importorskip("can", reason="python-can is not installed (python3-can)")
from riddlesage import python_can

CANBIT = os.environ.get("CANBIT", "")
BITRATE = 500000
HERE = pathlib.Path(__file__).resolve().parent


# without its types, because each message that is waited for may be None
RiddlesageBus: Any = python_can.RiddlesageBus


def message_of(frame: Frame) -> Any:
    """The message of a frame."""
    return can.Message(
        arbitration_id=frame.identifier,
        is_extended_id=frame.extended,
        is_remote_frame=frame.remote,
        dlc=frame.dlc,
        data=frame.data,
        check=False,
    )


def frame_of(message: Any) -> Frame:
    """The frame of a message."""
    data = b"" if message.is_remote_frame else bytes(message.data)
    return Frame(message.arbitration_id, data, message.is_extended_id, message.is_remote_frame, message.dlc)


@pytest.fixture
def buses() -> Iterator[list[Any]]:
    """Four nodes of a bus whose time is virtual."""
    made = [RiddlesageBus("test", clock="virtual", bitrate=BITRATE) for _ in range(4)]
    yield made
    for bus in made:
        bus.shutdown()


def some_offers(chance: random.Random, bits: int) -> list[tuple[int, int, Frame]]:
    """Times, nodes and frames of all kinds, for three nodes."""
    offers = []
    for place in range(3):
        for _ in range(bits // 600):
            extended, remote, dlc = chance.random() < 0.5, chance.random() < 0.2, chance.randrange(16)
            data = b"" if remote else chance.randbytes(min(dlc, 8))
            identifier = chance.randrange(1 << (27 if extended else 9)) * 4 + place
            offers.append((chance.randrange(bits * 3 // 4), place, Frame(identifier, data, extended, remote, dlc)))
    return sorted(offers, key=lambda offer: offer[:2])


def scenario_of(offers: list[tuple[int, int, Frame]], bits: int) -> str:
    """The scenario of canbit for four nodes, of which the last one listens."""
    lines = [f"version = 2\nbits = {bits}"]
    for node in range(4):
        queue = ", ".join(f'[{at}, "{frame.text}"]' for at, place, frame in offers if place == node)
        lines.append(f"[[port]]\nqueue = [{queue}]\nlog = 1000")
    return "\n".join(lines)


@pytest.mark.parametrize("seed", range(3))
def test_scenarios(seed: int, buses: list[Any], tmp_path: pathlib.Path) -> None:
    """The log of a node that listens has the order, times and load of `canbit run`."""
    bits, log, due = 20000, tmp_path / "a.log", tmp_path / "due.log"
    offers = some_offers(random.Random(seed), bits)
    with buses[0].network as network, can.Logger(str(log)) as logger:
        for at, place, frame in offers:
            network.run(at)
            buses[place].send(message_of(frame))
        network.run(bits)
        given = []
        while message := buses[3].recv(0):
            given.append((round(message.timestamp * BITRATE), frame_of(message)))
            logger(message)
    scenario = scenario_of(offers, bits)
    report = run(scenario)
    if CANBIT:
        ran = subprocess.run([CANBIT, "run"], input=scenario, capture_output=True, check=True, text=True)
        assert ran.stdout == report
    wanted, lines = [], []
    for row in decode_trace(report.splitlines()[1]):
        begin, text = row.removesuffix(" ack").split(" ", 1)
        frame = Frame.from_text(text)
        wanted.append((int(begin) + len(encode(frame)), frame))
        lines.append(f"({wanted[-1][0] / BITRATE:.6f}) test {text_of(frame)}\n")
    assert given == wanted and len(given) == len(offers)
    due.write_text("".join(lines), "ascii")
    loads = [measure(str(file), BITRATE, 10, Refusals(str(file))) for file in (log, due)]
    first, second = (list(it["test"].lines("")) for it in loads)
    # python-can writes no DLC of remote frames, and none above 8
    assert first[0].split(" bits ")[0] == second[0].split(" bits ")[0]
    if not any(frame.remote and frame.dlc or frame.dlc > 8 for _, frame in given):
        assert first == second


def test_load(buses: list[Any], tmp_path: pathlib.Path) -> None:
    """The load is the same to the bit, without the DLCs that python-can does not write: of remote frames, above 8."""
    chance, log = random.Random(1), tmp_path / "a.log"
    offers = [it for it in some_offers(chance, 20000) if not it[2].remote and it[2].dlc <= 8]
    with buses[0].network as network:
        for at, place, frame in offers:
            network.run(at)
            buses[place].send(message_of(frame))
        network.run(20000)
    with can.Logger(str(log)) as logger:
        while message := buses[3].recv(0):
            logger(message)
    load = measure(str(log), BITRATE, 10, Refusals(str(log)))["test"]
    levels = run(scenario_of(offers, 20000)).splitlines()[1]
    taken = [len(encode(frame)) + 3 for _, _, frame in offers]
    assert (load.frames, load.bits, load.early) == (len(offers), sum(taken), 0)
    assert load.window == levels.rindex("0") + 12 - levels.index("0")


def test_arbitration(buses: list[Any]) -> None:
    """Frames that are sent before anybody waits compete, and each node receives those of the others."""
    for bus, identifier in zip(buses, (0x300, 0x100, 0x200)):
        bus.send(message_of(Frame(identifier)))
    for bus, wanted in zip(buses, ([0x100, 0x200], [0x200, 0x300], [0x100, 0x300], [0x100, 0x200, 0x300])):
        assert [bus.recv(0).arbitration_id for _ in wanted] == wanted
        assert bus.recv(0) is None


def test_own_messages() -> None:
    """A node may receive its own frames, at the same time as the others; and no error frames."""
    with RiddlesageBus("own", clock="virtual", receive_own_messages=True) as one:
        with RiddlesageBus("own", ignore_rx_error_frames=True) as other:
            one.network.hit_next(20)
            one.send(message_of(Frame(0x123, b"ab")))
            error, mine, theirs = one.recv(0), one.recv(0), other.recv(0)
            assert (error.is_error_frame, mine.is_rx, theirs.is_rx) == (True, False, True)
            assert (mine.timestamp, frame_of(mine)) == (theirs.timestamp, Frame(0x123, b"ab"))


def test_filters(buses: list[Any]) -> None:
    """python-can's filters apply."""
    buses[1].set_filters([{"can_id": 0x200, "can_mask": 0x7FF}])
    for identifier in (0x100, 0x200):
        buses[0].send(message_of(Frame(identifier)))
    assert buses[1].recv(1).arbitration_id == 0x200


def test_errors(buses: list[Any]) -> None:
    """After a bit error each node has an error frame with its counters, and the frame is sent again."""
    buses[0].network.hit_next(16)
    buses[0].send(message_of(Frame(0x123)))
    errors = [bus.recv(0) for bus in buses]
    assert [it.is_error_frame for it in errors] == [True] * 4
    # the transmitter has a bit error, the others a stuff error; then TEC and REC
    assert [it.arbitration_id for it in errors] == [0x288] * 4
    mine, theirs = bytes([0, 0, 0x81, 0, 0, 0, 8, 0]), bytes([0, 0, 4, 0, 0, 0, 0, 1])
    assert [bytes(it.data) for it in errors] == [mine, theirs, theirs, theirs]
    assert [frame_of(bus.recv(0)) for bus in buses[1:]] == [Frame(0x123)] * 3
    # its transmitter has sent it one bit time later
    buses[0].network.run(buses[0].network.time + 1)
    assert [tuple(bus.counters) for bus in buses] == [(7, 0), *[(0, 0)] * 3]
    assert buses[0].network.attempts == 2


def test_local_errors(buses: list[Any]) -> None:
    """A bit error that one receiver alone sees, in the last bit but one of its end of frame, makes a duplicate."""
    frame = Frame(0x123, b"ab")
    buses[0].network.hit_next(len(encode(frame)) - 2, only=buses[1].node)
    buses[0].send(message_of(frame))
    assert [buses[1].recv(0).is_error_frame for _ in range(2)] == [True, False]
    assert [frame_of(buses[2].recv(0)) for _ in range(2)] == [frame, frame]


def test_hits_at_times(buses: list[Any]) -> None:
    """A bit error in a bit time disturbs an idle bus too."""
    with buses[0].network as network:
        network.hit_at(100)
        network.hit_at(200, only=buses[2].node)
        network.run(300)
        network.hit_at(5)
    first = [bus.recv(0) for bus in buses]
    assert all(it.is_error_frame and 100 <= it.timestamp * BITRATE <= 110 for it in first)
    assert buses[0].network.time == 300


def test_bus_off(buses: list[Any]) -> None:
    """A node whose frames are all disturbed goes bus off, recovers, and sends its frame."""
    buses[0].network.hit_next(20, attempts=32)
    buses[0].send(message_of(Frame(0x123)))
    buses[0].network.run(6000)
    states, classes = [], []
    while message := buses[0].recv(0):
        states.append(message)
        classes.append(message.arbitration_id)
    assert [it for it in classes if it & 0x40] == [0x2C0]
    assert [it for it in classes if it & 0x100] == [0x300]
    # error passive from the sixteenth error on
    assert [place for place, it in enumerate(states) if it.data[1] == 0x20] == [15]
    assert (buses[0].state, tuple(buses[0].counters)) == (can.BusState.ACTIVE, (0, 0))


def test_bus_off_state(buses: list[Any]) -> None:
    """The state of a node that is bus off is ERROR."""
    with buses[0].network as network:
        network.hit_next(20, attempts=32)
        buses[0].send(message_of(Frame(0x123)))
        seen = set()
        for at in range(0, 6000, 10):
            network.run(at)
            seen.add(buses[0].state)
        assert seen == {can.BusState.ACTIVE, can.BusState.PASSIVE, can.BusState.ERROR}


def test_alone() -> None:
    """A node alone gets no acknowledgement, until another one joins."""
    with RiddlesageBus("alone", clock="virtual") as one:
        one.send(message_of(Frame(0x123)))
        error = one.recv(0)
        assert (error.arbitration_id, error.data[3]) == (0x2A0, 0x19)
        for _ in range(200):
            one.recv(0)
        assert one.state is can.BusState.PASSIVE
        with RiddlesageBus("alone") as other:
            assert frame_of(other.recv(1)) == Frame(0x123)


def test_full_queue() -> None:
    """A full queue delays a sender; if nothing is ever sent, it is refused."""
    with RiddlesageBus("full", clock="virtual", queue=2) as one:
        for _ in range(2):
            one.send(message_of(Frame(0x123)))
        with pytest.raises(can.CanOperationError, match="queue full"):
            one.send(message_of(Frame(0x123)), 0.05)
        with RiddlesageBus("full") as other:
            for number in range(20):
                one.send(message_of(Frame(0x100, bytes([number]))))
            received = [other.recv(1) for _ in range(22)]
            assert [it.data[0] for it in received if it.data and not it.is_error_frame] == list(range(20))


@pytest.mark.parametrize(
    ("words", "why"),
    [
        ({"bitrate": 250000}, "the bit rate of channel test is 500000"),
        ({"clock": "real"}, "the clock of channel test is virtual"),
        ({"clock": "fast"}, "there is no clock 'fast', only real and virtual"),
        ({"fd": True}, "CAN FD is not modelled"),
    ],
)
def test_refused(words: dict[str, Any], why: str, buses: list[Any]) -> None:
    """Nodes that cannot be on the bus are refused with a reason."""
    with pytest.raises(can.CanInitializationError, match=why):
        RiddlesageBus("test", **words)


def test_refused_messages(buses: list[Any]) -> None:
    """Messages that are no classical frames are refused with a reason, and so are calls after the end."""
    for message in (
        can.Message(is_fd=True, data=bytes(12)),
        can.Message(is_error_frame=True),
        can.Message(arbitration_id=0x800, is_extended_id=False, check=False),
    ):
        with pytest.raises(can.CanOperationError):
            buses[0].send(message)
    with pytest.raises(ValueError, match="cannot be at offset 0"):
        buses[0].network.hit_next(0, only=buses[0].node)
    bus = RiddlesageBus("test")
    bus.shutdown()
    bus.shutdown()
    with pytest.raises(can.CanOperationError, match="has been shut down"):
        bus.recv(0)
    with pytest.raises(can.CanOperationError, match="has been shut down"):
        bus.send(message_of(Frame(1)))
    with pytest.raises(NotImplementedError):
        buses[0].state = can.BusState.PASSIVE
    buses += [RiddlesageBus("test") for _ in range(60)]
    with pytest.raises(can.CanInitializationError, match="channel test takes no more nodes"):
        RiddlesageBus("test")
    with pytest.raises(ValueError, match="capacity of queue"):
        RiddlesageBus("other", bitrate=125000, queue=-1)
    RiddlesageBus("other", bitrate=250000).shutdown()


def send_many(bus: Any, first: int) -> None:
    """Sends twenty frames at once, with identifiers from this one on."""
    for number in range(20):
        bus.send(message_of(Frame(first + number)))


def test_threads() -> None:
    """Notifier and cyclic senders at a real clock: each frame arrives once, in the order of the bus, none overlaps."""
    nodes = [RiddlesageBus("threads", bitrate=125000) for _ in range(3)]
    received: list[Any] = []
    notifier = can.Notifier(nodes[2], [received.append])
    begun = time.time()
    for place, period in ((0, 0.01), (1, 0.015)):
        nodes[place].send_periodic(message_of(Frame(0x100 + place, b"abcdefgh")), period)
    threads = [threading.Thread(target=send_many, args=[nodes[it], 0x300 + 0x100 * it]) for it in range(2)]
    for thread in threads:
        thread.start()
    time.sleep(0.4)
    for bus in nodes[:2]:
        bus.shutdown()
    # what was queued last is over after two frames
    time.sleep(0.05)
    notifier.stop()
    nodes[2].shutdown()
    counted = {number: sum(it.arbitration_id == number for it in received) for number in (0x100, 0x101)}
    assert 5 < counted[0x100] <= 60 and 3 < counted[0x101] <= 40
    assert sum(it.arbitration_id >= 0x300 for it in received) == 40
    ends = [it.timestamp for it in received]
    # a machine that is too slow makes the bus late
    assert begun - nodes[0].network.late / 125000 <= ends[0] and ends[-1] <= time.time()
    for earlier, message in zip(ends, received[1:]):
        # the length of the frame and its intermission
        assert message.timestamp - earlier >= (len(encode(frame_of(message))) + 3) / 125000 - 1e-6


PLAYED = """
import sys, threading, time
import can, can.logger, can.player
from riddlesage.python_can import RiddlesageBus

done = threading.Event()
received = RiddlesageBus.recv

def receive(bus, timeout=None):
    message = received(bus, timeout)
    if message is None and done.is_set():
        raise KeyboardInterrupt  # what Ctrl-C does to the logger
    return message

def play():
    try:
        # until the logger is there
        while listener.network.count < 2:
            time.sleep(0.01)
        sys.argv = ["can_player", "-i", "riddlesage", "-c", "played", "-b", "500000", LOG]
        can.player.main()
    finally:
        done.set()

LOG, TO = sys.argv[1:]
RiddlesageBus.recv = receive
listener = can.Bus("played", interface="riddlesage", bitrate=500000)
sys.argv = ["can_logger", "-i", "riddlesage", "-c", "played", "-b", "500000", "-f", TO]
threading.Thread(target=play).start()
can.logger.main()
"""


def test_programs(tmp_path: pathlib.Path) -> None:
    """can_player and can_logger use the interface by its name, as an installed package registers it."""
    info = tmp_path / "site" / "riddlesage-0.dist-info"
    info.mkdir(parents=True)
    (info / "METADATA").write_text("Metadata-Version: 2.1\nName: riddlesage\nVersion: 0\n", "ascii")
    entry = "[can.interface]\nriddlesage = riddlesage.python_can:RiddlesageBus\n"
    (info / "entry_points.txt").write_text(entry, "ascii")
    chance, log, to = random.Random(1), tmp_path / "a.log", tmp_path / "b.log"
    # of one message, as others would compete if the player is delayed
    frames = [Frame(0x123, chance.randbytes(chance.randrange(9))) for _ in range(50)]
    lines = [f"({1.5 + 0.002 * it:.6f}) can0 {text_of(frame)}\n" for it, frame in enumerate(frames)]
    log.write_text("".join(lines), "ascii")
    path = os.pathsep.join([str(tmp_path / "site"), str(HERE.parent)])
    subprocess.run(
        [sys.executable, "-c", PLAYED, str(log), str(to)],
        check=True,
        capture_output=True,
        timeout=60,
        env={**os.environ, "PYTHONPATH": path},
    )
    given = [line.what for _, line in read_log(str(to), Refusals(str(to)))]
    assert [what for what in given if what is not Other.ERROR] == frames
