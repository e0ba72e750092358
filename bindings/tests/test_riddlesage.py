"""Tests of the Python package: the test vectors of rows.txt, the example scenarios, errors, and its doctest."""

from __future__ import annotations

import array
import copy
import ctypes
import doctest
import pathlib
import pickle
import subprocess
import sys
import threading
import tracemalloc
import unittest
from collections.abc import Callable
from functools import partial
from typing import Any

import tomllib

HERE = pathlib.Path(__file__).resolve().parent
TOP = HERE.parent.parent
sys.path[:0] = [str(HERE), str(HERE.parent / "python")]

import riddlesage
from riddlesage import (
    BadByte,
    BadFrame,
    BadScenario,
    Bus,
    Event,
    Fault,
    Frame,
    Phase,
    Port,
    Refused,
    Reported,
    Rule,
    State,
    Status,
    decode,
    decode_trace,
    encode,
    play,
)
from riddlesage._library import PlainFrame, lib
from scenarios import STATES, played, report


def levels_of(text: str) -> bytes:
    """The levels in a text of `0` and `1`."""
    return bytes(map(int, text))


def name_of(code: Event | Status) -> str:
    """The name of an event or a status in rows.txt."""
    return code.name.lower().replace("_", " ")


def heard_text(levels: bytes) -> str:
    """The result of decoding levels, in the format of rows.txt."""
    try:
        heard = decode(levels)
    except Fault as fault:
        return f"{fault.name.lower().replace('_', ' ')} {fault.place}"
    words = [heard.frame.text, "ack" if heard.acknowledged else "noack"]
    words += ["srr0"] * (heard.srr == 0) + ["r1"] * heard.r1 + ["r0"] * heard.r0 + ["eof0"] * (heard.last == 0)
    return " ".join([*words, str(heard.length)])


class Row:
    """A test vector of rows.txt: its port, and the levels and events so far."""

    def __init__(self, in_one_call: bool) -> None:
        self.port = Port(0, 0)
        self.in_one_call = in_one_call
        self.drove: list[int] = []
        self.events: list[tuple[int, Reported]] = []

    def see(self, text: str) -> None:
        """Samples levels, one by one or in one call."""
        levels, now = levels_of(text), len(self.drove)
        if self.in_one_call:
            seen = len(self.port.log)
            run = self.port.run(levels)
            self.drove += run.drives
            for time, event in run.reported():
                frame: Frame | None = None
                if event in (Event.SENT, Event.RECEIVED) and seen < len(self.port.log):
                    frame, seen = self.port.entry(seen).frame, seen + 1
                self.events.append((now + time, Reported(event, frame)))
            return
        for time, level in enumerate(levels, now):
            self.port = self.port.copy()
            self.drove.append(self.port.drive())
            reported = self.port.sample(level)
            if reported:
                self.events.append((time, reported))

    def next_event(self) -> str:
        """The text of the next event."""
        time, reported = self.events.pop(0)
        return f"{time} {name_of(reported.event)}" + (f" {reported.frame.text}" if reported.frame else "")

    def hand_in(self, text: str) -> None:
        """Makes a port, queues a frame, or requests overload frames."""
        word, rest = text.split(" ", 1)
        if word == "offer":
            self.port.offer(Frame.from_text(rest))
        elif word == "hold":
            self.port.hold(int(rest))
        else:
            queue, log = map(int, rest.split())
            self.port = Port(queue, log, joining=word == "joining")
            self.drove.clear()

    def holds(self, line: str) -> tuple[object, object]:
        """The expected and the actual value of a line."""
        word, _, rest = line.partition(" ")
        if word == "see":
            self.see(rest)
            return None, None
        if word == "event":
            event = self.next_event()
            return (rest, event) if not self.in_one_call or "S" in event else (rest[: len(event)], event)
        if word == "drives":
            return int(rest), self.port.drive()
        if word == "drove":
            time, levels = rest.split(" ")
            return list(levels_of(levels)), self.drove[int(time) :][: len(levels)]
        if word == "counters":
            return tuple(map(int, rest.split())), tuple(self.port.counters)
        if word == "state":
            return rest, STATES[self.port.state]
        if word == "stands":
            return rest, str(self.port.phase)
        if word == "missed":
            return int(rest), self.port.missed
        if word == "log":
            entries = [f"{'sent' if entry.sent else 'received'} {entry.frame.text}" for entry in self.port.log]
            return rest, ", ".join(entries)
        left, right = rest.split(" = ")
        if word == "encode":
            return levels_of(right), encode(Frame.from_text(left))
        return right, heard_text(levels_of(left))


class Rows(unittest.TestCase):
    """The test vectors for a controller and a port, for encoding and decoding."""

    def play(self, in_one_call: bool) -> None:
        """Runs every line of rows.txt."""
        row = Row(in_one_call)
        for line in (HERE / "rows.txt").read_text(encoding="ascii").splitlines():
            if line.startswith("#"):
                continue
            with self.subTest(line):
                if not line:
                    self.assertEqual(row.events, [])
                    continue
                refusal, colon, call = line.rpartition(": ")
                if call.split(" ")[0] in ("idle", "joining", "offer", "hold"):
                    if not colon:
                        row.hand_in(call)
                    else:
                        with self.assertRaises(Refused) as refused:
                            row.hand_in(call)
                        self.assertEqual(refusal, str(refused.exception).partition(":")[0])
                    continue
                wanted, given = row.holds(line)
                self.assertEqual(wanted, given)

    def test_one_by_one(self) -> None:
        """Bit time by bit time."""
        self.play(False)

    def test_in_one_call(self) -> None:
        """Each list of levels in one call."""
        self.play(True)


class Scenarios(unittest.TestCase):
    """The example scenarios give their stored reports, and the trace the lines of the README."""

    def test_reports(self) -> None:
        """Each scenario of examples/scenarios."""
        for path in sorted((TOP / "examples" / "scenarios").glob("*.toml")):
            with self.subTest(path.name):
                document = tomllib.loads(path.read_text(encoding="utf-8"))
                wanted = path.with_suffix(".report").read_text(encoding="ascii").splitlines()
                self.assertEqual(wanted, list(report(document)))
                self.assertEqual(wanted, list(played(document)))

    def test_run(self) -> None:
        """The library's simulation of each, from text and from bytes, and of one with a long report."""
        for path in sorted((TOP / "examples" / "scenarios").glob("*.toml")):
            with self.subTest(path.name):
                wanted = path.with_suffix(".report").read_text(encoding="ascii")
                self.assertEqual(wanted, riddlesage.run(path.read_text(encoding="utf-8")))
                self.assertEqual(wanted, riddlesage.run(path.read_bytes()))
        report = riddlesage.run("version = 1\nbits = 1000000\nport = [{}]")
        self.assertEqual(f"bits 1000000\n{'1' * 1000000}\nport 0 active tec 0 rec 0 missed 0\n", report)

    def test_trace(self) -> None:
        """The script that decodes a trace, and the library's own decoding of it."""
        script, path = HERE.parent / "examples" / "decode_trace.py", TOP / "examples" / "trace.txt"
        named = subprocess.run([sys.executable, script, path], capture_output=True, check=True)
        with path.open("rb") as trace:
            piped = subprocess.run([sys.executable, script], stdin=trace, capture_output=True, check=True)
        self.assertEqual(named.stdout, piped.stdout)
        lines = [
            "11 S 123 D 0 ack",
            "59 E 048c0000 D 0 noack",
            "131 fault C3 at 136",
            "148 S 001 D 0 ack",
            "258 S 000 R 8 ack",
        ]
        self.assertEqual(named.stdout.decode("ascii").splitlines(), lines)
        text = path.read_text(encoding="ascii")
        self.assertEqual(decode_trace(text), lines)
        self.assertEqual(decode_trace(levels_of("".join(text.split()))), lines)
        for empty in (b"", bytearray(), memoryview(b"")):
            self.assertEqual(decode_trace(empty), [])


class Refusals(unittest.TestCase):
    """Invalid arguments, and the errors that they raise."""

    def refused(self, status: Status, call: object, *words: object) -> None:
        """The call is refused with this status."""
        assert callable(call)
        with self.assertRaises(Refused) as refused:
            call(*words)
        self.assertEqual(status, refused.exception.status)

    def test_frames(self) -> None:
        """Invalid frames."""
        for identifier, extended in ((0x800, False), (1 << 29, True), (1 << 40, True), (-1, False)):
            self.refused(Status.BAD_IDENTIFIER, Frame, identifier, b"", extended)
        for dlc in (16, 200, 300):
            self.refused(Status.BAD_DLC, Frame, 0, b"", False, True, dlc)
        for data, dlc, remote in ((b"", 1, False), (b"123456789", -1, False), (b"1", 1, True)):
            with self.assertRaises(ValueError):
                Frame(0, data, dlc=dlc, remote=remote)
        self.assertTrue(issubclass(BadFrame, ValueError))

    def test_ranges(self) -> None:
        """A frame has exactly the identifiers and DLCs that the library accepts."""
        levels, count = ctypes.create_string_buffer(157), ctypes.c_size_t()
        for extended in (False, True):
            for identifier in (0, 0x7FF, 0x800, 0x1FFFFFFF, 0x20000000, 0xFFFFFFFF):
                for dlc in (0, 15, 16, 255):
                    plain = PlainFrame(identifier, extended, True, dlc)
                    status = lib.riddlesage_encode(plain, levels, len(levels), count)
                    with self.subTest(identifier=identifier, extended=extended, dlc=dlc):
                        try:
                            Frame(identifier, b"", extended, True, dlc)
                        except BadFrame as refused:
                            self.assertEqual(status, refused.status)
                        else:
                            self.assertEqual(status, Status.OK)

    def test_types(self) -> None:
        """Arguments of wrong types."""
        port, bus = Port(), Bus(Port())
        calls: list[tuple[Callable[..., object], list[object]]] = [
            (encode, [1]),
            (encode, [None]),
            (port.offer, ["S 123 D 0"]),
            (port.hold, [1.5]),
            (port.entry, [0.5]),
            (decode, ["01"]),
            (Port, ["1"]),
            (Port, [1.5]),
            (Port, [1, 1.5]),
            (Frame, [None]),
            (Frame, ["1"]),
            (Frame, [1.5]),
            (Frame, [1, 5]),
            (Frame, [1, "5"]),
            (Frame, [1, b"", False, False, 0.5]),
            (Frame.from_text, [None]),
            (Frame.from_text, [b"S 123 D 0"]),
            (bus.offer, [0, None]),
            (bus.offer, [0, "S 123 D 0"]),
            (bus.offer, [0.5, Frame(0)]),
            (bus.offer, [0, Frame(0), 1.5]),
            (bus.hit_at, [1.5]),
            (bus.hit_in, [0, 1.5]),
            (bus.view, [1.5, 0]),
        ]
        for call, words in calls:
            with self.subTest(call.__qualname__, words=words), self.assertRaises(TypeError):
                call(*words)
        self.assertEqual(bus.run(20), [])

    def test_buses(self) -> None:
        """A bus refuses a device that is not there, an invalid time or level, and does not change."""

        class Odd(Port):
            """A port that drives `level`."""

            level = 2

            def drive(self) -> int:
                return self.level

        odd = Odd()
        bus = Bus(Port(), odd)
        for place in (2, -1):
            with self.assertRaises(ValueError):
                bus.view(0, place)
        calls: list[tuple[Callable[..., None], list[int]]] = [
            (bus.hit_at, [-1]),
            (bus.hit_in, [0, 1 << 64]),
            (bus.hit_in, [-1, 0]),
            (bus.view, [-1, 0]),
        ]
        for call, words in calls:
            with self.subTest(call.__name__, words=words), self.assertRaises(ValueError):
                call(*words)
        bus.hit_at(0)
        for odd.level in (2, 255, 256, -1):
            self.refused(Status.BAD_LEVEL, bus.step)
        odd.level = 1
        for level in (2, 256, -1):
            self.refused(Status.BAD_LEVEL, bus.step, level)
        bus.run(2)
        self.assertEqual(bus.levels, b"\0\1")

    def test_hits_of_a_bus(self) -> None:
        """Hits may be added at any time before they occur; those in the past have no effect."""
        frames = [(3, 0, Frame(0x123, b"\1\2")), (200, 1, Frame(0x124))]
        at, inside, views = [90, 190], [(0, 16), (1, 17), (3, 18)], [(150, 1), (260, 0)]
        due = play([Port(), Port()], 500, frames, hit_at=at, hit_in=inside, view=views).levels
        for ahead in (0, 1, 30, 1000):
            bus = Bus(Port(), Port())
            for time, place, frame in frames:
                bus.offer(place, frame, time)
            # an attempt takes more than 40 bit times where it is hit, from its offset on 24 and more
            asked: list[tuple[int, Callable[[], None]]] = [(time, partial(bus.hit_at, time)) for time in at]
            asked += [(40 * attempt, partial(bus.hit_in, attempt, offset)) for attempt, offset in inside]
            asked += [(time, partial(bus.view, time, place)) for time, place in views]
            for time in range(500):
                for last, ask in asked:
                    if max(last - ahead, 0) == time:
                        ask()
                        ask()
                if time > 0:
                    bus.hit_at(time - 1)
                    bus.view(time - 1, 0)
                bus.step()
            self.assertEqual(bus.levels, due)

    def test_copies(self) -> None:
        """Errors can be pickled, and ports cannot."""
        errors = (Refused(Status.QUEUE_FULL), BadFrame(Status.BAD_DLC), Fault(Status.STUFF, 5))
        for error in (*errors, BadScenario("bits"), BadByte(7, ["0 fault C3 at 5"])):
            again = pickle.loads(pickle.dumps(error))
            self.assertEqual((type(again), str(again), again.__dict__), (type(error), str(error), error.__dict__))
        port = Port()
        copies: list[Callable[[Port], object]] = [copy.copy, copy.deepcopy, pickle.dumps]
        for copied in copies:
            with self.assertRaises(TypeError):
                copied(port)
        self.assertEqual(port.drive(), 1)

    def test_played(self) -> None:
        """Ports on a bus with one call: invalid arguments change none of them."""
        ports, frame = [Port(1, 1), Port(1, 1)], Frame(0x123)
        self.refused(Status.BAD_BUS, play, [], 1)
        self.refused(Status.BAD_BUS, play, [Port(0, 0) for _ in range(65)], 1)
        self.refused(Status.BAD_BUS, play, [ports[0], ports[1], ports[0]], 1)
        for place in (2, -1, 1 << 70):
            self.refused(Status.NO_SUCH_PORT, play, ports, 1, [(0, 0, frame), (0, place, frame)])
        with self.assertRaises(Refused):
            play(ports, 1, [(0, 0, frame)], view=[(0, 2)])
        refused: list[tuple[type[Exception], Any, list[Any]]] = [
            (ValueError, -1, []),
            (ValueError, 1 << 64, []),
            (ValueError, 1, [(-1, 0, frame)]),
            (TypeError, 1.5, []),
            (TypeError, 1, [(0, 0, "S 123 D 0")]),
            (TypeError, 1, [(0, 0.5, frame)]),
        ]
        for error, bits, offers in refused:
            with self.subTest(bits=bits, offers=offers), self.assertRaises(error):
                play(ports, bits, offers)
        with self.assertRaises(TypeError):
            play([ports[0], object()], 1)  # type: ignore[list-item]
        self.assertEqual(play(ports, 0), (b"", 0))
        self.assertEqual(play(ports, 1, [(0, 0, frame), (0, 0, frame)]), (b"\0", 1))
        ports[1].close()
        self.refused(Status.NO_PORT, play, ports, 1)
        self.assertEqual(str(ports[0].phase), "stuffed-part 1, sender; Arbitration")

    def test_calls_follow(self) -> None:
        """Calls for the same ports, and single bit times, continue from the state that the previous ones reached."""
        frames = [(time, place, Frame(0x100 + time + place, bytes(place))) for time in (0, 3, 90) for place in range(3)]
        ports, others = [Port() for _ in range(3)], [Port() for _ in range(3)]
        whole = play(ports, 1000, frames)
        parts = play(others, 20, frames[:6]).levels
        for _ in range(60):
            level = min(port.drive() for port in others)
            for port in others:
                port.sample(level)
            parts += bytes([level])
        parts += play(others, 920, [(time - 80, place, frame) for time, place, frame in frames[6:]]).levels
        self.assertEqual((whole.levels, whole.refused), (parts, 0))
        self.assertEqual([port.log for port in ports], [port.log for port in others])

    def test_threads(self) -> None:
        """A call waits for one of another thread."""
        port = Port()
        errors: list[Refused] = []

        def use() -> None:
            try:
                for _ in range(200):
                    port.run(bytes([1]) * 500)
                    port.sample(port.drive())
            except Refused as refused:
                errors.append(refused)

        threads = [threading.Thread(target=use) for _ in range(4)]
        for thread in threads:
            thread.start()
        for thread in threads:
            thread.join()
        self.assertEqual(errors, [])

    def test_ports(self) -> None:
        """Calls of a port."""
        port = Port(1, 1)
        self.refused(Status.BAD_LEVEL, port.sample, 2)
        self.refused(Status.BAD_LEVEL, port.sample, -1)
        self.refused(Status.BAD_LEVEL, port.run, b"\x00\x02")
        self.refused(Status.NO_LEVELS, port.run, b"")
        self.refused(Status.BAD_COUNT, port.hold, 3)
        self.refused(Status.BAD_COUNT, port.hold, 1000)
        self.refused(Status.NO_ENTRY, port.entry, 0)
        self.refused(Status.NO_ENTRY, port.entry, -1)
        port.offer(Frame(0))
        self.refused(Status.QUEUE_FULL, port.offer, Frame(0))
        for room in ((1 << 62, 1), (1, 1 << 62), (1 << 70, 1)):
            with self.assertRaises(MemoryError):
                Port(*room)
        for room in ((-1, 1), (1, -1)):
            with self.assertRaises(ValueError):
                Port(*room)

    def test_closed(self) -> None:
        """A port that was closed."""
        with Port() as port:
            self.assertEqual(port.state, State.ERROR_ACTIVE)
        port.close()
        self.refused(Status.NO_PORT, port.drive)
        self.refused(Status.NO_PORT, port.copy)
        for call, word in ((port.sample, 1), (port.run, b"\x01"), (port.offer, Frame(0)), (port.hold, 0)):
            self.refused(Status.NO_PORT, call, word)
        for name in ("counters", "state", "phase", "log", "missed"):
            self.refused(Status.NO_PORT, getattr, port, name)

    def test_faults(self) -> None:
        """Levels with no frame."""
        with self.assertRaises(Fault) as caught:
            decode(bytes(6))
        fault = caught.exception
        self.assertEqual(("STUFF", 5), (fault.name, fault.place))
        self.assertEqual("stuff at 5: stuff error, a sixth equal level in a row", str(fault))
        with self.assertRaises(Fault) as caught:
            decode(b"")
        self.assertEqual(("SHORT", 0), (caught.exception.name, caught.exception.place))
        self.refused(Status.BAD_LEVEL, decode, b"\x00\x07")

    def test_texts(self) -> None:
        """Invalid scenarios and traces."""
        for text, field in (("version = ", "toml"), ("", "version"), ("version = 1\nbits = 1\nport = [1]", "port[0]")):
            with self.assertRaises(BadScenario) as refused:
                riddlesage.run(text)
            self.assertEqual(field, refused.exception.field)
            self.assertTrue(str(refused.exception).startswith(f"bad scenario: {field}: "))
        traces: list[str | bytes] = ["0000001x0", *(bytes([0, 0, 0, 0, 0, 0, 1, bad, 0]) for bad in (2, 32, 48, 255))]
        for trace in traces:
            with self.assertRaises(BadByte) as bad:
                decode_trace(trace)
            self.assertEqual((7, ["0 fault C3 at 5"]), (bad.exception.place, bad.exception.lines))

    def test_names(self) -> None:
        """The names are those of the library."""
        for function, names in (
            ("riddlesage_status_name", [name_of(status) for status in Status]),
            ("riddlesage_event_name", [name_of(event) for event in Event]),
            ("riddlesage_phase_name", [phase.name.lower().replace("_", "-") for phase in Phase]),
        ):
            name = getattr(lib, function)
            self.assertEqual(names, [name(code).decode("ascii") for code in range(len(names))])
            self.assertIsNone(name(len(names)))
        name = lib.riddlesage_rule_name
        rules = {rule.value: rule.name.replace("_", " ").capitalize() for rule in Rule}
        self.assertEqual(rules, {code: name(code).decode("ascii") for code in range(20) if name(code)})


class Memory(unittest.TestCase):
    """Levels and texts are read in place, from any buffer."""

    SIZE = 4_000_000

    def buffers(self, given: bytes) -> list[bytes | bytearray | memoryview]:
        """The same bytes in each kind of buffer: read-only, writable, and as a part of a larger one."""
        return [
            given,
            bytearray(given),
            memoryview(given),
            memoryview(bytearray(given)),
            memoryview(b"?" + given + b"?")[1:-1],
            array.array("B", given),  # type: ignore[list-item]
        ]

    def most(self, call: Callable[[], object]) -> float:
        """The peak memory of a call, in bytes for each of SIZE, and its result."""
        tracemalloc.start()
        try:
            given = call()
            return tracemalloc.get_traced_memory()[1] / self.SIZE if given is not None else 0.0
        finally:
            tracemalloc.stop()

    def test_run(self) -> None:
        """A run takes a byte for the level and one for the event of each bit time, with every kind of buffer."""
        frame = encode(Frame(0x123))
        levels = (frame + bytes([1]) * 3) * (self.SIZE // (len(frame) + 3))
        wanted = Port().run(levels)
        for given in self.buffers(levels):
            with self.subTest(type(given)):
                self.assertEqual(wanted, Port().run(given))
                self.assertLess(self.most(lambda given=given: Port().run(given)), 2.1)  # type: ignore[misc]

    def test_traces(self) -> None:
        """Decoding copies neither a text nor levels."""
        frame = encode(Frame(0x123))
        levels = (frame + bytes([1]) * self.SIZE)[: self.SIZE]
        text = levels.translate(b"01" + bytes(254)).decode("ascii")
        self.assertEqual(["0 S 123 D 0 noack"], decode_trace(text))
        self.assertLess(self.most(lambda: decode_trace(text)), 0.1)
        for given in self.buffers(levels):
            with self.subTest(type(given)):
                self.assertEqual(["0 S 123 D 0 noack"], decode_trace(given))
                self.assertLess(self.most(lambda given=given: decode_trace(given)), 0.1)  # type: ignore[misc]

    def test_scenarios(self) -> None:
        """A simulation does not copy its document."""
        text = "version = 1\nbits = 1\nport = [{}]\n#" + "?" * self.SIZE
        wanted = riddlesage.run(text)
        self.assertLess(self.most(lambda: riddlesage.run(text)), 0.1)
        for given in self.buffers(text.encode("ascii")):
            with self.subTest(type(given)):
                self.assertEqual(wanted, riddlesage.run(given))
                self.assertLess(self.most(lambda given=given: riddlesage.run(given)), 0.1)  # type: ignore[misc]
        self.assertEqual(wanted, riddlesage.run(text + "\u00e9"))

    def test_others(self) -> None:
        """Anything but a contiguous buffer of bytes is copied first."""
        frame = encode(Frame(0x123))
        apart = memoryview(bytes(level for level in frame for _ in range(2)))[::2]
        others = [list(frame), tuple(frame), apart]
        for given in others:
            self.assertEqual(Port().run(frame), Port().run(given))  # type: ignore[arg-type]
            self.assertEqual(["0 S 123 D 0 noack"], decode_trace(given))  # type: ignore[arg-type]
        kept = bytearray(frame)
        Port().run(kept)
        kept += frame

    def test_refused(self) -> None:
        """A buffer is released if a call is refused."""
        kept = bytearray(b"\x02")
        with self.assertRaises(Refused):
            Port().run(kept)
        with self.assertRaises(BadByte):
            decode_trace(kept)
        with self.assertRaises(BadScenario):
            riddlesage.run(kept)
        kept += b"\x02"


class Text(unittest.TestCase):
    """The docstring of the package."""

    def test_example(self) -> None:
        """Its example gives the result shown."""
        for module in (riddlesage, *map(sys.modules.get, ("riddlesage._bus", "riddlesage._play", "riddlesage._texts"))):
            failed, tried = doctest.testmod(module)
            self.assertEqual((failed, tried > 0), (0, True))


if __name__ == "__main__":
    unittest.main()
