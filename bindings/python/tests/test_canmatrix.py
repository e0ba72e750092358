"""Random databases that canmatrix writes are read as canmatrix reads them; its own J1939 database; other formats.

DATABASES is the number of random databases, 20 without it.
"""

from __future__ import annotations

import io
import logging
import os
import pathlib
import random
import string
import subprocess
import sys
from typing import Any

import pytest
from riddlesage.dbc import main, read, read_database, text_of

canmatrix: Any = pytest.importorskip("canmatrix", reason="canmatrix is not installed (python3-canmatrix)")
formats: Any = pytest.importorskip("canmatrix.formats")

COUNT = int(os.environ.get("DATABASES", "20"))
BOILER = pathlib.Path(__file__).resolve().parent.parent / "examples" / "boiler.dbc"
SENDING = ("cyclic", "spontaneous", "cyclicIfActive")
TIMES = ("GenMsgCycleTimeFast", "GenMsgDelayTime")


def some_name(chance: random.Random, most: int) -> str:
    """A name as canmatrix writes it unchanged."""
    return chance.choice("MN") + "".join(chance.choice(string.ascii_letters) for _ in range(chance.randrange(3, most)))


def some_signal(chance: random.Random, place: int) -> Any:
    """A signal of eight bits, with a comment and values that look like statements."""
    signal = canmatrix.Signal(f"S{place}", start_bit=8 * place, size=8, is_signed=False)
    signal.add_comment(chance.choice(["", "a;b", 'BO_ 5 Five: 8 A\nBA_ "GenMsgCycleTime" BO_ 5 7', 'the "best" one']))
    if chance.random() < 0.3:
        signal.add_values(1, chance.choice(["on; off", "VAL_ 5", "on"]))
    signal.cycle_time = chance.choice([0, 0, 10])
    return signal


def some_frame(chance: random.Random, nodes: list[str]) -> Any:
    """A message of up to 32 bytes, with attributes."""
    extended, size = chance.random() < 0.5, chance.choice([*range(9), 12, 32])
    identifier = canmatrix.ArbitrationId(chance.randrange(1 << (29 if extended else 11)), extended=extended)
    frame = canmatrix.Frame(some_name(chance, 60), arbitration_id=identifier, size=size)
    frame.cycle_time = chance.choice([0, 10, 25, 1000])
    frame.is_fd = chance.random() < 0.1
    for name in chance.sample(nodes, chance.randrange(3)):
        frame.add_transmitter(name)
    frame.add_comment(chance.choice(["", "one\ntwo", 'BO_ 7 Seven: 8 A\nCM_ "x";', "C:\\temp"]))
    for place in range(chance.randrange(min(size, 3) + 1)):
        frame.add_signal(some_signal(chance, place))
    for name in TIMES:
        if chance.random() < 0.3:
            frame.add_attribute(name, str(chance.choice([0, 5, 2000])))
    if chance.random() < 0.5:
        frame.add_attribute("GenMsgSendType", chance.choice(SENDING))
    return frame


def some_database(chance: random.Random) -> Any:
    """A database with up to twelve messages."""
    database = canmatrix.CanMatrix()
    nodes = [some_name(chance, 50) for _ in range(4)]
    for name in nodes:
        database.add_ecu(canmatrix.Ecu(name))
    for name in TIMES:
        database.add_frame_defines(name, "INT 0 65535")
        database.add_define_default(name, chance.choice(["0", "50"]))
    database.add_frame_defines("GenMsgSendType", "ENUM " + ",".join(f'"{it}"' for it in SENDING))
    database.add_define_default("GenMsgSendType", chance.choice(SENDING))
    used = set()
    for _ in range(chance.randrange(1, 12)):
        frame = some_frame(chance, nodes)
        if frame.arbitration_id.to_compound_integer() not in used:
            used.add(frame.arbitration_id.to_compound_integer())
            database.add_frame(frame)
    return database


def as_read(database: Any) -> list[tuple[object, ...]]:
    """What canmatrix says of the messages that have a classical frame."""
    rows = []
    for frame in database.frames:
        if frame.size > 8 or frame.is_fd or frame.name == "VECTOR__INDEPENDENT_SIG_MSG":
            continue
        senders = [it for it in frame.transmitters if it != "Vector__XXX"]
        times = [int(frame.attribute(name, database) or 0) * 1000 for name in TIMES]
        rows.append(
            (
                frame.name,
                frame.arbitration_id.id,
                frame.arbitration_id.extended,
                frame.size,
                frame.cycle_time * 1000,
                *times,
                frame.attribute("GenMsgSendType", database),
                senders[0] if senders else "",
                max(len(senders), 1),
            )
        )
    return rows


@pytest.mark.parametrize("seed", range(COUNT))
def test_random(seed: int) -> None:
    """Names, identifiers, sizes, times, send types and senders are those that canmatrix reads."""
    logging.disable(logging.WARNING)
    written = io.BytesIO()
    formats.dump(some_database(random.Random(seed)), written, "dbc")
    document = written.getvalue()
    known = formats.loads_flat(document, "dbc")
    database = read_database(text_of(document), classical=True)
    rows = [
        (
            it.name,
            it.frame.identifier,
            it.frame.extended,
            it.frame.dlc,
            it.cycle,
            it.fast,
            it.delay,
            it.sending,
            it.sender,
            it.senders,
        )
        for it in database.messages
    ]
    assert rows == as_read(known)
    assert len(rows) + len(database.left_out) == len(known.frames)


def test_j1939(capsys: pytest.CaptureFixture[str]) -> None:
    """Canmatrix' own database of J1939: 342 of its 357 messages have classical frames."""
    file = pathlib.Path(canmatrix.__file__).parent / "j1939.dbc"
    assert main([str(file), "--bitrate", "250000", "--classical", "--period", "100000"]) == 0
    written = capsys.readouterr()
    assert written.out.count("[[message]]") == 342
    assert written.err.count("is of CAN FD, or sent in parts; it is left out\n") == 15
    assert written.err.splitlines()[-1].startswith(f"{file}: 342 messages, 15 left out; ")


@pytest.mark.parametrize("kind", ["kcd", "sym", "arxml"])
def test_converted(kind: str, tmp_path: pathlib.Path) -> None:
    """What canmatrix converts from another format has the same messages. It adds the bus to a file's name.

    In ARXML it writes no cycle times, other names, and signals without a message as one more message.
    """
    if kind == "arxml":
        pytest.importorskip("lxml")
    for source, made in ((str(BOILER), f"boiler.{kind}"), (f"boiler.{kind}", "back.dbc")):
        words = [sys.executable, "-m", "canmatrix.cli.convert", source, made]
        ran = subprocess.run(words, capture_output=True, check=False, cwd=tmp_path)
        assert ran.returncode == 0, ran.stderr.decode("utf-8", "replace")
    (back,) = tmp_path.glob("*back*.dbc")
    given, found = (read(text_of(file.read_bytes())) for file in (BOILER, back))
    if kind == "arxml":
        assert [it.frame for it in given] == [it.frame for it in found][: len(given)]
    else:
        assert {(it.name, it.frame, it.cycle) for it in given} == {(it.name, it.frame, it.cycle) for it in found}
