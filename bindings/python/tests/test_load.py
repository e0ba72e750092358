"""The load of a bus: compared with the levels of simulated buses, and the reports on logs of each kind."""

from __future__ import annotations

import doctest
import pathlib
import random
import sys
import textwrap
from collections.abc import Iterable

import pytest
import riddlesage.candump
import riddlesage.load
from riddlesage import Bus, Event, Frame, Happened, Port, encode
from riddlesage.candump import Other, text_of
from riddlesage.load import INTERMISSION, Load, main

EXAMPLES = pathlib.Path(__file__).resolve().parent.parent / "examples"
BEGUN = 1436509052


def line_of(happened: Happened, bitrate: int) -> str:
    """The line of candump for a frame on a bus: its time is the end of the bit time that reports it as sent."""
    assert happened.frame is not None
    microseconds = (happened.time + 1) * 10**6 // bitrate
    return f"({BEGUN + microseconds // 10**6}.{microseconds % 10**6:06}) can0 {text_of(happened.frame)}"


def sent_by(bus: Bus, bits: int) -> list[Happened]:
    """The frames that were sent in these bit times."""
    return [happened for happened in bus.run(bits) if happened.event is Event.SENT]


def boiler_bus() -> Bus:
    """The network of examples/boiler.dbc. All messages except that of the fault are released at once."""
    bus = Bus(Port(), Port(), Port())
    for number in range(3):
        bus.offer(0, Frame(0x100, bytes([number % 2, 0x84, 0x03, 0])), 2500 * number)
        bus.offer(1, Frame(0x110, bytes([0xB8, 0x0B])), 2500 * number)
    bus.offer(2, Frame(0x18FEF201, bytes([0xF4, 1, 1, 0, 0, 0, 0, 0]), extended=True), 0)
    bus.offer(0, Frame(0x120, bytes([0x2A, 0, 0, 0, 0, 0, 0, 0])), 0)
    bus.offer(0, Frame(0x40, bytes([7])), 5050)
    return bus


def test_example(capsys: pytest.CaptureFixture[str]) -> None:
    """The example is the log of such a bus, and its load the stored one."""
    log = EXAMPLES / "boiler.log"
    lines = [line_of(happened, 125000) for happened in sent_by(boiler_bus(), 6250)]
    assert log.read_text("ascii").splitlines() == lines
    assert main([str(log), "--bitrate", "125000"]) == 0
    assert capsys.readouterr() == ((EXAMPLES / "boiler.load").read_text("ascii"), "")


def test_readme() -> None:
    """README shows this load."""
    shown = textwrap.indent((EXAMPLES / "boiler.load").read_text("ascii"), "    ")
    assert f"boiler.log --bitrate 125000\n{shown}\n" in (EXAMPLES.parent / "README.md").read_text("utf-8")


def some_bus(chance: random.Random, bits: int) -> Bus:
    """Four ports with frames of all kinds, at random times."""
    bus = Bus(*(Port(64) for _ in range(4)))
    for place in range(4):
        for _ in range(bits // 1000):
            extended, remote, dlc = chance.random() < 0.5, chance.random() < 0.2, chance.randrange(16)
            data = b"" if remote else bytes(chance.choice((0, 255, chance.randrange(256))) for _ in range(min(dlc, 8)))
            identifier = chance.randrange(1 << (27 if extended else 9)) * 4 + place
            bus.offer(place, Frame(identifier, data, extended, remote, dlc), chance.randrange(bits * 3 // 4))
    return bus


@pytest.mark.parametrize("seed", range(5))
def test_levels(seed: int) -> None:
    """Bits, gaps and bursts are those of the levels, whatever the frames."""
    bus, load = some_bus(random.Random(seed), 20000), Load(500000, slack=0)
    sent = sent_by(bus, 20000)
    ends = [happened.time + 1 for happened in sent]
    starts = [bus.levels.index(0, end) for end in [0, *ends[:-1]]]
    for happened, end in zip(sent, ends):
        assert happened.frame is not None
        load.take(end * 2000, happened.frame)
    gaps = [start - end - INTERMISSION for start, end in zip(starts[1:], ends)]
    bits = [end - start + INTERMISSION for start, end in zip(starts, ends)]
    bursts, burst = [], 0
    for gap, taken in zip([0, *gaps], bits):
        burst = taken + (0 if gap else burst)
        bursts.append(burst)
    assert (load.frames, load.bits, load.early) == (len(sent), sum(bits), 0)
    assert load.window == ends[-1] + INTERMISSION - starts[0]
    assert (load.gap.bits, load.burst.bits) == (max(gaps), max(bursts))
    assert load.gap.time == ends[gaps.index(max(gaps))] * 2000
    assert sum(taken for _, taken in load.messages.values()) == load.bits
    assert sum(taken for _, taken in load.seconds.values()) == load.bits


def test_intermission() -> None:
    """A port starts its next frame as soon as the previous one is counted as over."""
    bus, load = Bus(Port(), Port()), Load(1000000, slack=0)
    for _ in range(3):
        bus.offer(0, Frame(0x123))
    for happened in sent_by(bus, 200):
        load.take((happened.time + 1) * 1000, Frame(0x123))
    assert (load.frames, load.gap.bits, load.burst.frames, load.window) == (3, 0, 3, load.bits)


def test_seconds() -> None:
    """A frame is counted where it ends, and its bits in the seconds in which they lie."""
    load, frame = Load(100), Frame(0)
    assert len(encode(frame)) + INTERMISSION == 53
    for end in (53, 143, 350):
        load.take((end - INTERMISSION) * 10**7, frame)
    assert load.seconds == {0: (1, 63), 1: (1, 43), 2: (0, 3), 3: (1, 50)}
    assert list(load.seconds) == [0, 1, 2, 3]
    assert [line for line in load.lines("can0") if line.startswith("second")] == [
        "second 0 frames 1 bits 63 of 100 load 0.630",
        "second 1 frames 1 bits 43 of 100 load 0.430",
        "second 2 frames 0 bits 3 of 100 load 0.030",
        "second 3 frames 1 bits 50 of 50 load 1.000",
    ]


def test_calls() -> None:
    """Arguments that calls refuse."""
    load = Load(500000)
    load.take(5, Frame(0))
    with pytest.raises(ValueError, match="before that of an earlier line"):
        load.take(4, Frame(0))
    with pytest.raises(TypeError):
        load.take(6, "S 000 D 0")  # type: ignore[arg-type]
    with pytest.raises(ValueError, match="above 0"):
        Load(0)
    load.take(5, Other.FD)
    assert (load.frames, load.fd, load.errors) == (1, 1, 0)


def test_texts() -> None:
    """The examples in the modules' docstrings give the results shown."""
    for module in (riddlesage.load, riddlesage.candump):
        failed, tried = doctest.testmod(module)
        assert (failed, tried > 0) == (0, True)


def status_of(lines: Iterable[str], tmp_path: pathlib.Path, *words: str) -> int:
    """The exit status of the command for these lines."""
    (tmp_path / "a.log").write_text("\n".join(lines), "ascii")
    return main([str(tmp_path / "a.log"), "--bitrate", "500000", *words])


def test_lines(tmp_path: pathlib.Path, capsys: pytest.CaptureFixture[str]) -> None:
    """Errors and CAN FD are counted; a line that cannot be read is reported, and the others are measured."""
    lines = [
        "(1.000000) can0 123#",
        "(1.000050) can0 20000080#0000000000000000",
        "(1.000060) can0 124##1AABB",
        "(1.000070) can1 20000080#0000000000000000",
        "125#",
        "",
        "(0.999999) can0 123#",
        "DROPCOUNT: dropped 1 CAN frame on 'can0' socket (total drops 1)",
        "(1.000200) can0 123#R4",
        "  can0  123   [1]  00",
        " (1.000300)  can0  123   [1]  00",
        "(1.000310) can0 123#00",
    ]
    assert status_of(lines, tmp_path) == 1
    written = capsys.readouterr()
    assert written.out.splitlines()[0].startswith("bus can0 rate 500000 frames 4 bits ")
    assert written.out.splitlines()[0].endswith(" errors 1 fd 1")
    assert "bus can1 rate 500000 frames 0 bits 0 errors 1 fd 0" in written.out.splitlines()
    assert written.err.splitlines() == [
        f"{tmp_path}/a.log:5: it has no time: candump writes one with -l, -L or -t a",
        f"{tmp_path}/a.log:7: its time is before that of an earlier line",
        f"{tmp_path}/a.log:8: this is not a line of candump",
        f"{tmp_path}/a.log:10: it has no time: candump writes one with -l, -L or -t a",
        f"{tmp_path}/a.log: can0: 1 frames follow others sooner than 500000 bits per second allow",
    ]


def test_channels(tmp_path: pathlib.Path, capsys: pytest.CaptureFixture[str]) -> None:
    """Each channel is a bus."""
    lines = ["(1.0) can0 123#", "(1.1) can1 124#", "(0.9) can2 125#", "(1.2) can1 126#"]
    assert status_of(lines, tmp_path) == 0
    buses = [line.split(" ")[:6] for line in capsys.readouterr().out.splitlines() if line.startswith("bus ")]
    assert buses == [["bus", f"can{it}", "rate", "500000", "frames", str(1 + it % 2)] for it in range(3)]
    assert status_of(lines, tmp_path, "--channel", "can1") == 0
    assert [line for line in capsys.readouterr().out.splitlines() if line.startswith("bus ")][0].startswith("bus can1")
    assert status_of(lines, tmp_path, "--channel", "can3") == 1


@pytest.mark.parametrize("words", [[], ["--bitrate", "0"], ["--bitrate", "x"], ["--bitrate", "1", "--slack", "-1"]])
def test_wrong_use(words: list[str]) -> None:
    """A wrong use has status 2."""
    with pytest.raises(SystemExit) as ended:
        main(["log", *words])
    assert ended.value.code == 2


@pytest.mark.parametrize("end", [".asc", ".blf", ".ASC"])
def test_python_can(end: str, tmp_path: pathlib.Path, capsys: pytest.CaptureFixture[str]) -> None:
    """The logs that python-can reads are measured like candump's."""
    can = pytest.importorskip("can")
    log, chance, time = tmp_path / f"a{end}", random.Random(1), 0
    lines = []
    with can.Logger(str(log.with_suffix(end.lower()))) as logger:
        for _ in range(200):
            extended, remote, dlc = chance.random() < 0.5, chance.random() < 0.2, chance.randrange(9)
            frame = Frame(chance.randrange(1 << 11), b"" if remote else chance.randbytes(dlc), extended, remote, dlc)
            time += chance.choice([300, 400, 2000])
            lines.append(f"({BEGUN + time // 10**6}.{time % 10**6:06}) can0 {text_of(frame)}")
            logger(
                can.Message(
                    BEGUN + time / 10**6, frame.identifier, extended, remote, dlc=dlc, data=frame.data, channel=0
                )
            )
        logger(can.Message(BEGUN + 1 + time / 10**6, 0x123, False, is_fd=True, dlc=2, data=b"ab", channel=0))
        lines.append(f"({BEGUN + 1 + time // 10**6}.{time % 10**6:06}) can0 123##06162")
    log.with_suffix(end.lower()).rename(log)
    assert main([str(log), "--bitrate", "500000"]) == 0
    given = capsys.readouterr().out.splitlines()
    assert status_of(lines, tmp_path) == 0
    wanted = capsys.readouterr().out.splitlines()
    assert given[0].split(" ")[2:] == wanted[0].split(" ")[2:]
    assert [line.split(" from ")[0].split(" after ")[0] for line in given[1:]] == [
        line.split(" from ")[0].split(" after ")[0] for line in wanted[1:]
    ]


def test_without_python_can(
    tmp_path: pathlib.Path, monkeypatch: pytest.MonkeyPatch, capsys: pytest.CaptureFixture[str]
) -> None:
    """Without python-can its files are refused."""
    monkeypatch.setitem(sys.modules, "can", None)  # type: ignore[misc]
    assert main([str(tmp_path / "a.blf"), "--bitrate", "500000"]) == 2
    assert capsys.readouterr().err.endswith("a.blf: a file *.blf needs python-can, which is missing (python3-can)\n")


@pytest.mark.parametrize("content", [b"", b"words", bytes(100)])
@pytest.mark.parametrize("end", [".asc", ".blf", ".log"])
def test_no_log(end: str, content: bytes, tmp_path: pathlib.Path, capsys: pytest.CaptureFixture[str]) -> None:
    """A file that is not a log is refused, whatever python-can reads in it."""
    if end != ".log":
        pytest.importorskip("can")
    log = tmp_path / f"a{end}"
    log.write_bytes(content)
    assert main([str(log), "--bitrate", "500000"]) == 1
    written = capsys.readouterr()
    assert (written.out, written.err.splitlines()[-1]) == ("", f"{log}: it has no frames of any bus")
