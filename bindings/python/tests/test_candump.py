"""The lines of candump: each format, what is refused, and the command in both directions."""

from __future__ import annotations

import io
import pathlib
import random
import sys

import pytest
from riddlesage import Frame
from riddlesage.candump import BadLine, Other, main, read_line, text_of


def some_frame(chance: random.Random, most: int = 15) -> Frame:
    """A random frame with a DLC of at most this."""
    extended, remote, dlc = chance.random() < 0.5, chance.random() < 0.2, chance.randrange(most + 1)
    data = b"" if remote else bytes(chance.choice((0, 255, chance.randrange(256))) for _ in range(min(dlc, 8)))
    return Frame(chance.randrange(1 << (29 if extended else 11)), data, extended, remote, dlc)


def test_both_ways() -> None:
    """The line of a frame is read as this frame."""
    chance = random.Random(1)
    for _ in range(2000):
        frame = some_frame(chance)
        for before, behind in (("", ""), ("(0.5) can0 ", ""), ("(1436509052.249713)   can0 ", " T")):
            assert read_line(f"{before}{text_of(frame)}{behind}").what == frame


@pytest.mark.parametrize(
    ("line", "text"),
    [
        ("123#", "S 123 D 0"),
        ("123#AB01", "S 123 D 2 ab01"),
        ("7ff#ab.01", "S 7ff D 2 ab01"),
        ("00000123#0011223344556677", "E 00000123 D 8 0011223344556677"),
        ("1FFFFFFF#R", "E 1fffffff R 0"),
        ("123#R4", "S 123 R 4"),
        ("123#r", "S 123 R 0"),
        ("123#R8_D", "S 123 R 13"),
        ("123#0011223344556677_9", "S 123 D 9 0011223344556677"),
        ("  vcan0  044   [5]  2A 36 6C 2B BA", "S 044 D 5 2a366c2bba"),
        ("vcan0  00000044   [0] ", "E 00000044 D 0"),
        ("  vcan0       044   [1]  2A", "S 044 D 1 2a"),
        ("  vcan0  044   [5]  2A 36 6C 2B BA            '*6l+.'", "S 044 D 5 2a366c2bba"),
        ("  vcan0  044   [0]                          ''", "S 044 D 0"),
        ("  vcan0  044   [3]  remote request", "S 044 R 3"),
        ("  vcan0  TX - -  044   [1]  2A", "S 044 D 1 2a"),
        ("  vcan0  RX B E  044   [1]  2A", "S 044 D 1 2a"),
        ("  vcan0  044   {B}  00 11 22 33 44 55 66 77", "S 044 D 11 0011223344556677"),
        ("  vcan0  044   {2}  00 11", "S 044 D 2 0011"),
        (" (000.000000)  vcan0  044   [1]  2A", "S 044 D 1 2a"),
        (" (2015-07-10 05:50:52.249713)  vcan0  044   [1]  2A", "S 044 D 1 2a"),
    ],
)
def test_forms(line: str, text: str) -> None:
    """Lines of logs and of the screen."""
    what = read_line(line).what
    assert isinstance(what, Frame) and what.text == text


@pytest.mark.parametrize(
    ("line", "what"),
    [
        ("(1436509052.249713) can0 20000080#0000000000000000", Other.ERROR),
        ("  can0  20000004   [8]  00 0C 00 00 00 00 60 00   ERRORFRAME", Other.NOTICE),
        ("(1436509052.249713) can0 20000000#0000000000000000", Other.ERROR),
        ("123##1", Other.FD),
        ("(1436509052.249713) can0 12345678##30011223344556677889900AABB", Other.FD),
        ("  can0  123  [12]  00 11 22 33 44 55 66 77 88 99 AA BB", Other.FD),
        ("  can0  123  [02]  00 11", Other.FD),
    ],
)
def test_others(line: str, what: Other) -> None:
    """Error frames and CAN FD frames."""
    assert read_line(line).what is what


@pytest.mark.parametrize(
    "line",
    [
        "#",
        "123",
        "12#00",
        "1234#00",
        "800#00",
        "123#0",
        "123#0G",
        "123#001122334455667788",
        "123#R9",
        "123#R4_D",
        "123#00_9",
        "123#0011223344556677_8",
        "40000000#00",
        "(x) can0 123#00",
        "(1.2) 123#00",
        "(1436509052.249713) can0 123#AB01 X",
        "45123#81:00:12345678#11223344.556677",
        "DROPCOUNT: dropped 1 CAN frame on 'can0' socket (total drops 1)",
        "  can0  123   [2]  AB",
        "  can0  123   [1]  AB 01",
        "  can0  123   [9]  00 11 22 33 44 55 66 77 88",
        "  can0  123   [2]  01`AB",
        "  can0  123   [1]  10101010",
        "  can0  123   AB",
        "",
    ],
)
def test_refused(line: str) -> None:
    """Lines that are not candump's."""
    with pytest.raises(BadLine):
        read_line(line)


@pytest.mark.parametrize(
    ("line", "time"),
    [
        ("(1436509052.249713) can0 123#", 1436509052_249713_000),
        ("(0000000001.5) can0 123#", 1_500000000),
        ("(1.1234567891) can0 123#", 1_123456789),
        (" (000.000012)  can0  123   [0] ", 12_000),
        (" (1970-01-02 00:00:01.000002)  can0  123   [0] ", 86401_000002_000),
        ("123#", None),
        ("  can0  123   [0] ", None),
    ],
)
def test_times(line: str, time: int | None) -> None:
    """Times are in nanoseconds."""
    assert read_line(line).time == time


def test_edited() -> None:
    """Lines that are edited at random are read or refused, and nothing else."""
    chance, refused = random.Random(2), 0
    for _ in range(5000):
        frame = text_of(some_frame(chance))
        line = [*chance.choice([f"(1436509052.249713) can0 {frame} R", " (1.5)  can0  123   [2]  AB 01   '..'"])]
        for _ in range(chance.randrange(1, 4)):
            place = chance.randrange(len(line))
            line[place : place + chance.randrange(2)] = chance.choice("09AFRr#()[]{} ._'`\t\u00b2\u0663\ufffd:-+TX")
        try:
            read_line("".join(line))
        except BadLine:
            refused += 1
    assert 1000 < refused < 5000


def test_channels() -> None:
    """A line names its channel, if it has one."""
    lines = ["(1.5)   vcan10 123#", "  vcan10  123   [0] ", "123#"]
    assert [read_line(line).channel for line in lines] == ["vcan10", "vcan10", ""]


def test_command(tmp_path: pathlib.Path, capsys: pytest.CaptureFixture[str]) -> None:
    """Lines become texts and texts lines, and those that cannot are reported."""
    log = tmp_path / "a.log"
    log.write_bytes(b"(1.5) can0 123#AB01\r\n\n123#R4\n  can0  20000080   [0]   ERRORFRAME\n\twords\n1\xff\n00000001#")
    assert main(["texts", str(log)]) == 1
    written = capsys.readouterr()
    assert written.out == "S 123 D 2 ab01\nS 123 R 4\nE 00000001 D 0\n"
    assert written.err.splitlines() == [
        f"{log}:4: an error frame has no frame text",
        f"{log}:6: this is not a line of candump",
    ]
    texts = tmp_path / "a.txt"
    texts.write_text("S 123 D 2 ab01\nS 123 R 4\nS 800 D 0\nE 00000001 D 9 0011223344556677\n", "ascii")
    assert main(["lines", str(texts)]) == 1
    written = capsys.readouterr()
    assert written.out == "123#AB01\n123#R4\n00000001#0011223344556677_9\n"
    assert written.err.startswith(f"{texts}:3: ")


def test_standard_input(monkeypatch: pytest.MonkeyPatch, capsys: pytest.CaptureFixture[str]) -> None:
    """Standard input is read if no file is named."""
    monkeypatch.setattr(sys, "stdin", io.TextIOWrapper(io.BytesIO(b"123#\n?\n")))
    assert main(["texts"]) == 1
    assert capsys.readouterr() == ("S 123 D 0\n", "standard input:2: this is not a line of candump\n")
