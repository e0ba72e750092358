"""The fields, stuff bits and lengths of frames: an example by hand, all frames put together again, sigrok's decoder."""

from __future__ import annotations

import pathlib
import random
import re
import shutil
import subprocess

import pytest
from riddlesage import Field, Frame, Mark, Refused, encode, marks
from riddlesage.frame import Part, main, parts

# Samples per bit time, and recessive levels between frames.
SAMPLES, GAP = 10, 100
# How sigrok names fields.
SIGROK = {
    Field.START_OF_FRAME: "Start of frame",
    Field.RTR: "Remote transmission request",
    Field.SRR: "Substitute remote request",
    Field.IDE: "Identifier extension bit",
    Field.R1: "Reserved bit 1",
    Field.R0: "Reserved bit 0",
    Field.DATA_LENGTH_CODE: "Data length code",
    Field.DATA: "Data byte 0",
    Field.CRC_SEQUENCE: "CRC-15 sequence",
    Field.CRC_DELIMITER: "CRC delimiter",
    Field.ACK_SLOT: "ACK slot",
    Field.ACK_DELIMITER: "ACK delimiter",
    Field.END_OF_FRAME: "End of frame",
}


def some_frame(chance: random.Random) -> Frame:
    """A random frame that sigrok reads."""
    extended, remote, dlc = chance.random() < 0.5, chance.random() < 0.1, chance.randrange(9)
    data = b"" if remote else bytes(chance.choice((0, 255, chance.randrange(256))) for _ in range(dlc))
    return Frame(chance.randrange(1 << (29 if extended else 11)), data, extended, remote)


def test_by_hand(capsys: pytest.CaptureFixture[str]) -> None:
    """S 000 D 0 is worked out by hand in docs/FRAMES.md."""
    assert main(["000#", "--bitrate", "125000"]) == 0
    assert capsys.readouterr().out.splitlines() == [
        "frame S 000 D 0",
        "bits 50 microseconds 400 stuff 6 crc 0000",
        "with intermission 53 microseconds 424",
        "0 SOF 0",
        "1 identifier 0000(1)00000(1)00",
        "14 RTR 0",
        "15 IDE 0",
        "16 r0 0(1)",
        "18 DLC 0000",
        "22 CRC 0(1)00000(1)00000(1)0000",
        "40 CRC delimiter 1",
        "41 ACK slot 1",
        "42 ACK delimiter 1",
        "43 EOF 1111111",
    ]


def test_put_together() -> None:
    """The fields are the levels of the frame, and have the frame's numbers; an extended identifier is in two."""
    chance = random.Random(1)
    for _ in range(300):
        frame = some_frame(chance)
        found = parts(frame)
        assert b"".join(part.levels for part in found) == encode(frame)
        values: dict[Field, str] = {}
        for part in found:
            bits = "".join(str(level) for level, stuffed in zip(part.levels, part.stuffed) if not stuffed)
            values[part.field] = values.get(part.field, "") + bits
        assert int(values[Field.IDENTIFIER], 2) == frame.identifier
        assert int(values[Field.DATA_LENGTH_CODE], 2) == frame.dlc
        assert int("1" + values.get(Field.DATA, ""), 2) == int("1" + frame.data.hex(), 16) - (frame.data == b"") * 0
        assert (values[Field.RTR] == "1", Field.SRR in values) == (frame.remote, frame.extended)


def test_marks() -> None:
    """Levels without a field, and those after a wrong stuff bit; and bytes that are no levels."""
    assert marks(b"") == marks(b"\1" * 9) == []
    assert marks(bytes(8)) == [Mark(Field.START_OF_FRAME, False), *[Mark(Field.IDENTIFIER, False)] * 4] + [
        Mark(Field.IDENTIFIER, True)
    ]
    with pytest.raises(Refused):
        marks(b"\0\2")


@pytest.mark.parametrize("words", [[], ["x"], ["123##1"], ["800#"], ["123#", "--bitrate", "0"], ["20000080#"]])
def test_wrong_use(words: list[str]) -> None:
    """A wrong use has status 2."""
    with pytest.raises(SystemExit) as ended:
        main(words)
    assert ended.value.code == 2


@pytest.mark.parametrize(
    ("text", "why"),
    [
        ("S 123 D 0", "this is not a line of candump; write a frame as 123#AA55 or 123#R"),
        ("123#AA5", "these are not data bytes: AA5; write a frame as 123#AA55 or 123#R"),
        ("123##1", "a CAN FD frame is not a data frame or a remote frame"),
    ],
)
def test_what_is_refused(text: str, why: str, capsys: pytest.CaptureFixture[str]) -> None:
    """The refusal names the argument, and says what is wrong."""
    with pytest.raises(SystemExit):
        main([text])
    assert f"argument FRAME: '{text}': {why}\n" in capsys.readouterr().err


def annotated(file: pathlib.Path, classes: str) -> list[tuple[int, str]]:
    """What sigrok prints for levels: the first bit time of each annotation, and its text before a colon."""
    words = ["sigrok-cli", "-I", f"binary:numchannels=1:samplerate={SAMPLES}000000", "-i", str(file)]
    words += ["-P", "can:can_rx=0:nominal_bitrate=1000000:sample_point=50", "-A", classes]
    ran = subprocess.run([*words, "--protocol-decoder-samplenum"], check=True, capture_output=True, text=True)
    found = (re.fullmatch(r"(\d+)-\d+ can-1: ([^:]*).*", line) for line in ran.stdout.splitlines())
    return [((int(it[1]) + 1) // SAMPLES, it[2]) for it in found if it]


def name_of(part: Part) -> str:
    """How sigrok names a field."""
    if part.field is Field.IDENTIFIER:
        return "Identifier" if part.place == 1 else "Extended Identifier"
    return SIGROK[part.field]


@pytest.mark.skipif(not shutil.which("sigrok-cli"), reason="sigrok-cli is not installed")
def test_sigrok(tmp_path: pathlib.Path) -> None:
    """sigrok's decoder has the fields and the stuff bits at the same places."""
    chance, file = random.Random(2), tmp_path / "levels.bin"
    frames, levels, stuffed, fields = [some_frame(chance) for _ in range(100)], bytearray(b"\1" * GAP), [], set()
    for frame in frames:
        begin = len(levels)
        levels += encode(frame) + b"\1" * GAP
        stuffed += [begin + place for place, mark in enumerate(marks(encode(frame))) if mark.stuffed]
        fields |= {(begin + part.place, name_of(part)) for part in parts(frame)}
    file.write_bytes(bytes(level for level in levels for _ in range(SAMPLES)))
    assert [place for place, _ in annotated(file, "can=stuff-bit")] == stuffed
    assert fields <= set(annotated(file, "can=fields"))
