"""Logs in each format have the same frames: captures, packed files, those of python-can, and can-utils' conversions."""

from __future__ import annotations

import gzip
import io
import pathlib
import random
import shutil
import struct
import subprocess
import sys

import pytest
from riddlesage import Frame
from riddlesage.candump import Line, Other, text_of
from riddlesage.logs import PYTHON_CAN, MissingReader, Refusals, read_log

BEGUN = 1436509052 * 10**9
ERROR, NOTICE = "20000080#0000000000000000", "20000004#0008000000000000"


def some_lines(chance: random.Random, count: int, dlcs: int = 9) -> list[Line]:
    """Frames of all kinds, an error frame, one that reports no error, and one of CAN FD, microseconds apart."""
    lines, time = [], BEGUN
    for _ in range(count):
        extended, remote, dlc = chance.random() < 0.5, chance.random() < 0.2, chance.randrange(dlcs)
        data = b"" if remote else chance.randbytes(min(dlc, 8))
        frame = Frame(chance.randrange(1 << (29 if extended else 11)), data, extended, remote, dlc)
        time += chance.choice([300, 400, 2000]) * 1000
        lines.append(Line(time, "can0", frame))
    for what in (Other.ERROR, Other.NOTICE, Other.FD):
        time += 500_000
        lines.append(Line(time, "can0", what))
    return lines


def candump_of(lines: list[Line]) -> str:
    """The log of candump."""
    texts = []
    for time, channel, what in lines:
        assert time is not None
        others = {Other.ERROR: ERROR, Other.NOTICE: NOTICE, Other.FD: "123##1AABB"}
        content = text_of(what) if isinstance(what, Frame) else others[what]
        texts.append(f"({time // 10**9}.{time % 10**9 // 1000:06}) {channel} {content}\n")
    return "".join(texts)


def packet_of(what: Frame | Other) -> bytes:
    """The packet of SocketCAN."""
    if isinstance(what, Frame):
        identifier = what.identifier | what.extended << 31 | what.remote << 30
        length, raw_dlc = min(what.dlc, 8), what.dlc if what.dlc > 8 else 0
        return struct.pack(">IBBBB", identifier, length, 0, 0, raw_dlc) + (what.data or bytes(length))
    if what is Other.FD:
        return struct.pack(">IBBBB", 0x123, 2, 4, 0, 0) + bytes(2)
    return struct.pack(">IBBBB", 0x20000080 if what is Other.ERROR else 0x20000004, 8, 0, 0, 0) + bytes(8)


def pcap_of(lines: list[Line], order: str = "<", unit: int = 1000, link: int = 227) -> bytes:
    """A pcap."""
    magic = 0xA1B2C3D4 if unit == 1000 else 0xA1B23C4D
    made = struct.pack(order + "IHHiIII", magic, 2, 4, 0, 0, 65535, link)
    for time, _, what in lines:
        assert time is not None
        packet = packet_of(what)
        made += struct.pack(order + "IIII", time // 10**9, time % 10**9 // unit, len(packet), len(packet)) + packet
    return made


def block_of(kind: int, content: bytes, order: str) -> bytes:
    """A block of a pcapng."""
    content += bytes(-len(content) % 4)
    length = struct.pack(order + "I", len(content) + 12)
    return struct.pack(order + "I", kind) + length + content + length


def pcapng_of(lines: list[Line], order: str = "<", units: int | None = None) -> bytes:
    """A pcapng, whose interface is can0; `units` is the option for the resolution of its times."""
    options = struct.pack(order + "HH", 2, 4) + b"can0"
    per_second = 10**6
    if units is not None:
        options += struct.pack(order + "HHB3x", 9, 1, units)
        per_second = 2 ** (units & 0x7F) if units & 0x80 else 10**units
    made = block_of(0x0A0D0D0A, struct.pack(order + "IHHq", 0x1A2B3C4D, 1, 0, -1), order)
    made += block_of(1, struct.pack(order + "HHI", 227, 0, 0) + options + bytes(4), order)
    made += block_of(0x80000001, b"a block that nobody reads", order)
    for time, _, what in lines:
        assert time is not None
        # rounded up, so that it becomes the same nanosecond
        count, packet = -(-time * per_second // 10**9), packet_of(what)
        head = struct.pack(order + "IIIII", 0, count >> 32, count & 0xFFFFFFFF, len(packet), len(packet))
        made += block_of(6, head + packet, order)
    return made


def read_of(content: bytes | str, file: pathlib.Path) -> list[Line]:
    """What is read from a file with this content; nothing may be refused."""
    file.write_bytes(content.encode("ascii") if isinstance(content, str) else content)
    refusals = Refusals(str(file))
    lines = [line for _, line in read_log(str(file), refusals)]
    assert refusals.count == 0
    return lines


def unnamed(lines: list[Line]) -> list[Line]:
    """The lines without their channels."""
    return [line._replace(channel="") for line in lines]


@pytest.mark.parametrize("seed", range(3))
def test_formats(seed: int, tmp_path: pathlib.Path) -> None:
    """Captures in both byte orders and of each resolution have the lines of candump, and so have packed files."""
    lines = some_lines(random.Random(seed), 100, 16)
    assert read_of(candump_of(lines), tmp_path / "a.log") == lines
    assert read_of(gzip.compress(candump_of(lines).encode("ascii")), tmp_path / "a.log.gz") == lines
    for order in "<>":
        for unit in (1, 1000):
            given = pcap_of(lines, order, unit)
            assert unnamed(read_of(given, tmp_path / "a.pcap")) == unnamed(lines)
            assert unnamed(read_of(gzip.compress(given), tmp_path / "anything")) == unnamed(lines)
        for units in (None, 6, 9, 0x80 | 30):
            assert read_of(pcapng_of(lines, order, units), tmp_path / "a.pcapng") == lines
    # a file may have several sections
    sections = pcapng_of(lines, "<") + pcapng_of(lines, ">", 9)
    assert read_of(sections, tmp_path / "a.pcapng") == lines * 2


def test_edited(tmp_path: pathlib.Path) -> None:
    """Captures and packed files that are cut or edited at random are read or refused, and nothing else."""
    chance, refused = random.Random(1), 0
    lines = some_lines(chance, 20)
    whole = [pcap_of(lines), pcapng_of(lines), pcapng_of(lines, ">", 9), gzip.compress(candump_of(lines).encode())]
    file = tmp_path / "a"
    for _ in range(200):
        content = bytearray(chance.choice(whole))
        for _ in range(chance.randrange(3)):
            content[chance.randrange(len(content))] = chance.randrange(256)
        file.write_bytes(content[: chance.choice([len(content), chance.randrange(len(content))])])
        refusals = Refusals(str(file))
        for _ in read_log(str(file), refusals):
            pass
        refused += bool(refusals.count)
    assert 70 < refused < 200


@pytest.mark.parametrize(
    ("content", "why"),
    [
        (pcap_of(some_lines(random.Random(1), 0), link=1), "1: this is not a frame: its link type is 1, not that of S"),
        (pcap_of(some_lines(random.Random(1), 0))[:-3], "3: the capture cannot be read on: it ends within this packet"),
        (pcap_of([])[:20], "1: the capture cannot be read on: it ends within its header"),
        (block_of(0x0A0D0D0A, bytes(16), "<"), "1: the capture cannot be read on: a section has no byte order"),
        (gzip.compress(bytes(99))[:-12], "1: gzip cannot read on: the file is cut, or damaged"),
    ],
)
def test_refused(content: bytes, why: str, tmp_path: pathlib.Path, capsys: pytest.CaptureFixture[str]) -> None:
    """What a capture or a packed file cannot be read for."""
    file = tmp_path / "a"
    file.write_bytes(content)
    for _ in read_log(str(file), Refusals("a")):
        pass
    assert f"a:{why}" in capsys.readouterr().err


def test_simple_packets(tmp_path: pathlib.Path) -> None:
    """A simple packet of a pcapng has no time; one without its interface cannot be read."""
    packet = packet_of(Frame(0x123, b"ab"))
    section = block_of(0x0A0D0D0A, struct.pack("<IHHq", 0x1A2B3C4D, 1, 0, -1), "<")
    interface = block_of(1, struct.pack("<HHI", 227, 0, 0), "<")
    simple = block_of(3, struct.pack("<I", len(packet)) + packet, "<")
    assert read_of(section + interface + simple, tmp_path / "a") == [Line(None, "0", Frame(0x123, b"ab"))]
    (tmp_path / "a").write_bytes(section + simple)
    refusals = Refusals("a")
    assert (list(read_log(str(tmp_path / "a"), refusals)), refusals.count) == ([], 1)


def test_standard_input(monkeypatch: pytest.MonkeyPatch) -> None:
    """Standard input may have each of these formats."""
    lines = some_lines(random.Random(1), 5)
    for content in (candump_of(lines).encode("ascii"), pcap_of(lines), gzip.compress(pcapng_of(lines))):
        monkeypatch.setattr(sys, "stdin", io.TextIOWrapper(io.BytesIO(content)))
        assert unnamed([line for _, line in read_log("-", Refusals("-"))]) == unnamed(lines)


@pytest.mark.parametrize("ending", PYTHON_CAN)
@pytest.mark.parametrize("packed", ["", ".gz"])
def test_python_can(ending: str, packed: str, tmp_path: pathlib.Path) -> None:
    """The files of python-can have its messages: of a .trc the data frames; a .csv or .db does not say CAN FD."""
    can = pytest.importorskip("can", reason="python-can is not installed (python3-can)")
    lines = some_lines(random.Random(1), 100)[:-1]
    if ending == ".trc":
        lines = [it for it in lines if isinstance(it.what, Frame) and not it.what.remote]
    file = tmp_path / f"a{ending}"
    with can.Logger(str(file)) as logger:
        for time, _, what in lines:
            assert time is not None
            kinds = 0x80 if what is Other.ERROR else 4
            message = can.Message(time / 10**9, kinds, False, is_error_frame=True, channel=0)
            if isinstance(what, Frame):
                message = can.Message(
                    time / 10**9, what.identifier, what.extended, what.remote, dlc=what.dlc, data=what.data, channel=0
                )
            logger(message)
    content = file.read_bytes()
    given = read_of(gzip.compress(content) if packed else content, tmp_path / f"b{ending}{packed}")
    # an .asc has no kinds of errors
    known = [Other.ERROR if ending == ".asc" and it is Other.NOTICE else it for it in (line.what for line in lines)]
    assert [line.what for line in given] == known
    first, due = given[0].time, lines[0].time
    assert first is not None and due is not None
    for line, wanted in zip(given, lines):
        assert line.time is not None and wanted.time is not None
        assert abs((line.time - first) - (wanted.time - due)) <= (1000 if ending != ".trc" else 500_000)


def test_without_python_can(tmp_path: pathlib.Path, monkeypatch: pytest.MonkeyPatch) -> None:
    """Without python-can its files are refused."""
    monkeypatch.setitem(sys.modules, "can", None)  # type: ignore[misc]
    with pytest.raises(MissingReader, match=r"a file \*\.blf needs python-can, which is missing"):
        list(read_log(str(tmp_path / "a.BLF.gz"), Refusals("a")))


def ran(*words: str) -> str:
    """The output of a program; the test is skipped if it is not installed."""
    if not shutil.which(words[0]):
        pytest.skip(f"{words[0]} is not installed")
    return subprocess.run(words, capture_output=True, check=True, text=True).stdout


def test_can_utils(tmp_path: pathlib.Path) -> None:
    """can-utils convert a log to other formats and back, with the same frames."""
    lines = [it for it in some_lines(random.Random(2), 100) if it.what is not Other.FD]
    log, asc, back = tmp_path / "a.log", tmp_path / "a.asc", tmp_path / "back.log"
    log.write_text(candump_of(lines), "ascii")
    if not shutil.which("log2long"):
        pytest.skip("log2long is not installed (can-utils)")
    with log.open("rb") as given:
        long = subprocess.run(["log2long"], stdin=given, capture_output=True, check=True).stdout
    assert read_of(long, tmp_path / "long.log") == lines
    ran("log2asc", "-I", str(log), "-O", str(asc), "can0")
    ran("asc2log", "-I", str(asc), "-O", str(back))
    frames = [it.what for it in lines if isinstance(it.what, Frame)]
    assert [it.what for it in read_of(back.read_bytes(), back) if isinstance(it.what, Frame)] == frames
    pytest.importorskip("can", reason="python-can is not installed (python3-can)")
    assert [it.what for it in read_of(asc.read_bytes(), asc) if isinstance(it.what, Frame)] == frames


def test_tshark(tmp_path: pathlib.Path) -> None:
    """tshark reads the same captures alike, and what editcap makes of them is read alike."""
    lines = some_lines(random.Random(3), 100)
    file = tmp_path / "a.pcap"
    for given in (pcap_of(lines), pcap_of(lines, ">", 1), pcapng_of(lines, ">", 9)):
        file.write_bytes(given)
        fields = ("frame.time_epoch", "can.id", "can.flags.xtd", "can.flags.rtr", "can.len", "can.flags.err")
        words = ["tshark", "-r", str(file), "-T", "fields", *(word for it in fields for word in ("-e", it))]
        rows = [row.split("\t") for row in ran(*words).splitlines()]
        assert len(rows) == len(lines)
        for (time, identifier, extended, remote, length, error), line in zip(rows, lines):
            assert round(float(time.partition(".")[0])) * 10**9 + int(time.partition(".")[2]) == line.time
            if isinstance(line.what, Frame):
                given_as = int(identifier, 0), extended == "1", remote == "1", int(length)
                assert given_as == (line.what.identifier, line.what.extended, line.what.remote, line.what.dlc)
            assert (error == "1") == (line.what in (Other.ERROR, Other.NOTICE))
    for kind in ("pcap", "nsecpcap", "pcapng"):
        ran("editcap", "-F", kind, str(file), str(tmp_path / "b"))
        assert unnamed(read_of((tmp_path / "b").read_bytes(), tmp_path / "b")) == unnamed(lines)
