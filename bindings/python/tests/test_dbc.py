"""The network of a DBC file: what is read, left out and refused, and that canplan accepts the document."""

from __future__ import annotations

import os
import pathlib
import random
import subprocess
from typing import Any

import pytest
import tomllib
from riddlesage import Frame
from riddlesage.dbc import (
    Asked,
    BadDatabase,
    BadTable,
    Message,
    main,
    network,
    read,
    read_database,
    read_table,
    text_of,
)

EXAMPLES = pathlib.Path(__file__).resolve().parent.parent / "examples"
BOILER = EXAMPLES / "boiler.dbc"
WORDS = ["--bitrate", "125000", "--period", "BoilerFault=100000", "--jitter", "1000", "--jitter", "PanelWish=5000"]
CANPLAN = os.environ.get("CANPLAN", "")
IDENTIFIER = "bad identifier: 0 to 0x7ff, or to 0x1fffffff if it is extended"


def tables(text: str, asked: Asked) -> list[dict[str, Any]]:
    """The messages of the network of a text."""
    messages: list[dict[str, Any]] = tomllib.loads(network(read(text), asked))["message"]
    return messages


def faults(text: str) -> list[tuple[int, str]]:
    """Why a text is refused."""
    with pytest.raises(BadDatabase) as refused:
        read(text)
    return refused.value.faults


def messages_of(text: str) -> list[tuple[str, str, int]]:
    """The name, the frame without its data, and the cycle time of each message."""
    return [(it.name, " ".join(it.frame.text.split(" ")[:4]), it.cycle) for it in read(text)]


def test_example(capsys: pytest.CaptureFixture[str]) -> None:
    """The example gives its stored network, and reports the defaults."""
    assert main([str(BOILER), *WORDS]) == 0
    written = capsys.readouterr()
    assert written.out == (EXAMPLES / "boiler.toml").read_text("ascii")
    assert written.err.splitlines() == [
        f"{BOILER}: assumed to be at least a cycle time apart, despite send type cyclicIfActive: PanelWish",
        f"{BOILER}: 5 messages, 0 left out; assumed: the period as deadline, no bit errors",
    ]


def test_left_out(capsys: pytest.CaptureFixture[str]) -> None:
    """A message without a cycle time is left out, and named with its line."""
    assert main([str(BOILER), "--bitrate", "125000"]) == 0
    written = capsys.readouterr()
    assert "BoilerFault" not in written.out and len(tomllib.loads(written.out)["message"]) == 4
    left_out = "BoilerFault has no cycle time, and is left out; --period BoilerFault=MICROSECONDS gives it a period"
    assert f"{BOILER}:55: {left_out}" in written.err.splitlines()
    assert "4 messages, 1 left out; assumed: jitter 0, the period as deadline, no bit errors" in written.err


@pytest.mark.skipif(not CANPLAN, reason="CANPLAN does not name the program")
@pytest.mark.parametrize("words", [WORDS, [*WORDS, "--burst", "1", "--spacing", "50000", "--deadline", "20000"]])
def test_canplan(words: list[str], capsys: pytest.CaptureFixture[str]) -> None:
    """The program has a line for each message, and finds each in time."""
    assert main([str(BOILER), *words]) == 0
    document = capsys.readouterr().out
    ran = subprocess.run([CANPLAN], input=document, capture_output=True, text=True, check=False)
    lines = ran.stdout.splitlines()
    assert (ran.returncode, ran.stderr) == (0, "")
    assert lines[0].startswith("network messages 5 ")
    frames = [" ".join(line.split(" ")[:4]) for line in lines[1:6]]
    assert frames == ["S 040 D 1", "S 100 D 4", "S 110 D 2", "S 120 D 8", "E 18fef201 D 8"]


@pytest.mark.parametrize("end", ["\n", "\r\n", "\r"])
@pytest.mark.parametrize("encoding", ["utf-8", "utf-8-sig", "cp1252"])
def test_encodings(encoding: str, end: str) -> None:
    """Line ends and encodings as tools write them change nothing."""
    text = BOILER.read_text("utf-8")
    assert read(text_of(text.replace("\n", end).encode(encoding))) == read(text)


@pytest.mark.parametrize("encoding", ["gbk", "shift_jis", "utf-16", "utf-16-le"])
def test_other_encodings(encoding: str) -> None:
    """Others are given by name. In them a byte of a letter may be that of a backslash."""
    text = BOILER.read_text("utf-8").replace("°C", "温度表")
    assert read(text_of(text.encode(encoding), encoding)) == read(text)


def test_no_encoding() -> None:
    """A byte that is invalid in UTF-8 and in Windows-1252 is reported with its line."""
    with pytest.raises(BadDatabase) as refused:
        text_of(b'VERSION ""\n\nCM_ "\x81";\n')
    assert [line for line, _ in refused.value.faults] == [3]


@pytest.mark.parametrize(
    "comment",
    [
        r'CM_ "C:\temp\";',
        r'CM_ BO_ 100 "the \"best\" one";',
        'CM_ BO_ 100 "the ""best"" one";',
        'CM_ BO_ 100 "the "best" one";',
        'CM_ BO_ 100 "a 5" screen";',
        'CM_ BO_ 100 "one\n\nBO_ 101 Not: 8 A\nBA_ \\"GenMsgCycleTime\\" BO_ 100 99;\nthree" ;  ',
        'CM_ SG_ 100 Signal "a; b;\nc;";',
        'CM_ "one"\n;',
        'CM_ BU_ A "";',
        'VAL_ 100 Signal 1 "one; two" 0 "three" ;',
        'VAL_TABLE_ Table 1 "one\ntwo" 0 "BO_ 5 Not: 8 A" ;',
        'BA_ "Path" "..\\..\\";',
        'BA_ "Text" BU_ A "one\nBO_ 101 Not: 8 A\ntwo";',
        'BA_DEF_ SG_ "GenSigStartValue" FLOAT -3.4E+038 3.4E+038;',
        'BA_DEF_ BO_ "GenMsgILSupport" ENUM "No","Yes";',
        'BA_DEF_DEF_ "GenMsgILSupport" "Yes";',
        'BA_DEF_REL_ BU_SG_REL_ "GenSigTimeoutTime" INT 0 65535;',
        'BA_REL_ "GenSigTimeoutTime" BU_SG_REL_ A SG_ 100 Signal 50;',
        "SIG_VALTYPE_ 100 Signal : 1;",
        "SIG_GROUP_ 100 Group 1 : Signal;",
        "SG_MUL_VAL_ 100 Signal Switch 1-1, 3-5;",
        'EV_ Variable: 0 [0|1] "" 0 1 DUMMY_NODE_VECTOR0 A;',
        "ENVVAR_DATA_ Variable: 10;",
        "BO_TX_BU_ 100 : A;",
        "NS_ : NS_DESC_ CM_ BA_",
        "\tNEW_KEYWORD_",
        "   \t ",
    ],
)
def test_statements(comment: str) -> None:
    """Other statements of tools are skipped, and what follows them is read."""
    text = f'BU_: A B\n{comment}\nBO_ 100 Name: 8 A\n{comment}\nBA_ "GenMsgCycleTime" BO_ 100 20;\n{comment}'
    assert messages_of(text) == [("Name", "S 064 D 8", 20000)]


@pytest.mark.parametrize(
    ("line", "frame"),
    [
        ("BO_ 0 Name: 0 A", "S 000 D 0"),
        ("  BO_  2047   Name  :  1   A  ", "S 7ff D 1 00"),
        ("BO_ 2147483648 Name: 0 Vector__XXX", "E 00000000 D 0"),
        ("BO_ 2684354559 Name:8", "E 1fffffff D 8 0000000000000000"),
        ("BO_ 3221225472 VECTOR__INDEPENDENT_SIG_MSG: 64 Vector__XXX\nBO_ 5 Name: 0 A", "S 005 D 0"),
    ],
)
def test_messages(line: str, frame: str) -> None:
    """Identifiers of both formats, and sizes."""
    assert [it.frame.text for it in read(line)] == [frame]


@pytest.mark.parametrize(
    ("attributes", "cycle"),
    [
        ("", 0),
        ('BA_ "GenMsgCycleTime" BO_ 100 0;', 0),
        ('BA_DEF_DEF_ "GenMsgCycleTime" 100;', 100000),
        ('BA_DEF_DEF_ "GenMsgCycleTime" 100;\nBA_ "GenMsgCycleTime" BO_ 100 0;', 0),
        ('BA_DEF_DEF_ "GenMsgCycleTime" 100;\nBA_ "GenMsgCycleTime" BO_ 101 20;', 100000),
        ('BA_ "GenMsgCycleTime" BO_ 2147483748 20;', 0),
        ('BA_ "GenMsgCycleTime" BO_ 100 2.5;', 2500),
        ('BA_ "GenMsgCycleTime" BO_ 100 0.29;', 290),
        ('BA_ "GenMsgCycleTime" BO_ 100 1e+002;', 100000),
        ('BA_ "GenMsgCycleTime" BO_ 100 0.0019;', 1),
        (' BA_  "GenMsgCycleTime" BO_ 100\n 20\n ;', 20000),
        ('BA_ "GenMsgCycleTimeFast" BO_ 100 5;', 0),
    ],
)
def test_cycle_times(attributes: str, cycle: int) -> None:
    """Milliseconds of the message, or otherwise the default; fractions of a microsecond are dropped."""
    assert [it.cycle for it in read(f"BO_ 100 Name: 8 A\n{attributes}")] == [cycle]


@pytest.mark.parametrize(
    ("text", "line", "why"),
    [
        ("<?xml version='1.0'?>", 1, "this is not a statement of a DBC file: <?xml version='1.0'?>"),
        ("BO 100 Name: 8 A", 1, "this is not a statement of a DBC file: BO 100 Name: 8 A"),
        ('VERSION ""\n\nBO_ 100 Name 8 A', 3, "this BO_ cannot be read: BO_ 100 Name 8 A"),
        ("BO_ 0x64 Name: 8 A", 1, "this BO_ cannot be read: BO_ 0x64 Name: 8 A"),
        ("BO_ -1 Name: 8 A", 1, "this BO_ cannot be read: BO_ -1 Name: 8 A"),
        ("BO_ 2048 Name: 8 A", 1, f"message Name has no valid identifier: 2048 ({IDENTIFIER})"),
        ("BO_ 2684354560 Name: 8 A", 1, f"message Name has no valid identifier: 2684354560 ({IDENTIFIER})"),
        ("BO_ 1 A: 8 A\nBO_ 1 B: 8 A", 2, "message B has the same identifier as A, line 1"),
        ('BO_ 1 A: 8 A\nCM_ "one', 2, "this CM_ does not end"),
        ('CM_ "one"\nBO_ 1 A: 8 A', 1, "this CM_ does not end"),
        ('BO_ 1 A: 8 A\nVAL_ 1 S 0 "a"\nBA_ "GenMsgCycleTime" BO_ 1 20;', 2, "this VAL_ does not end"),
        ('BA_ "GenMsgCycleTime" SG_ 1 S 20;', 1, """this BA_ cannot be read: BA_ "GenMsgCycleTime" SG_ 1 S 20;"""),
        ('BA_ "GenMsgCycleTime" BO_ 1;', 1, """this BA_ cannot be read: BA_ "GenMsgCycleTime" BO_ 1;"""),
        ('BA_DEF_DEF_ "GenMsgCycleTime";', 1, """this BA_DEF_DEF_ cannot be read: BA_DEF_DEF_ "GenMsgCycleTime";"""),
        (
            'CM_ "one;\nBA_ "GenMsgCycleTime" BO_ 1 20;\nCM_ "two";',
            1,
            "the quotes of this CM_ leave open where it ends",
        ),
        ("BO_TX_BU_ Name : A;", 1, "this BO_TX_BU_ cannot be read: BO_TX_BU_ Name : A;"),
    ],
)
def test_refused(text: str, line: int, why: str) -> None:
    """What cannot be read is reported with its line."""
    assert faults(text) == [(line, why)]


@pytest.mark.parametrize("time", ["-1", "x", "nan", "inf", "1e99999", "1000000000", '"fast"', "1,5"])
def test_no_time(time: str) -> None:
    """An invalid cycle time is reported with the line that gives it, and so is a default."""
    why = f"GenMsgCycleTime of Name is not a number of milliseconds: {time}".replace('"', "")
    assert faults(f'BO_ 1 Name: 8 A\n\nBA_ "GenMsgCycleTime" BO_ 1 {time};') == [(3, why)]
    assert faults(f'BA_DEF_DEF_ "GenMsgCycleTime" {time};\nBO_ 1 Name: 8 A') == [(1, why)]


@pytest.mark.parametrize("size", [9, 12, 64, 1785, 9999])
def test_more_bytes(size: int) -> None:
    """A message of CAN FD, or one that is sent in parts, is refused, or left out on request."""
    text = f"BO_ 1 Short: 8 A\nBO_ 2 Long: {size} A\nBO_ 3 Longer: {size} A"
    why = "bytes; a classical frame has at most 8: it is of CAN FD, or sent in parts"
    assert faults(text) == [(2, f"message Long has {size} {why}"), (3, f"message Longer has {size} {why}")]
    assert [it.name for it in read(text, ["Long", "Longer"])] == ["Short"]


def test_can_fd() -> None:
    """A message of CAN FD is refused also if it has at most eight bytes."""
    text = (
        "BO_ 1 Classical: 8 A\nBO_ 2 Flexible: 8 A\n"
        'BA_DEF_ BO_ "VFrameFormat" ENUM "StandardCAN","ExtendedCAN","StandardCAN_FD","ExtendedCAN_FD";\n'
        'BA_DEF_DEF_ "VFrameFormat" "StandardCAN";\nBA_ "VFrameFormat" BO_ 2 2;\n'
    )
    assert faults(text) == [(2, "message Flexible is of CAN FD, according to VFrameFormat")]
    assert faults(text + 'BA_ "VFrameFormat" BO_ 1 4;')[-1] == (6, "VFrameFormat has no value number 4")


def test_no_message() -> None:
    """A name that is of no message is reported."""
    with pytest.raises(LookupError, match="there is no message Other"):
        read("BO_ 1 Name: 8 A", ["Other"])


def test_asked() -> None:
    """Options by name, and for all others."""
    text = 'BO_ 1 A: 1 N\nBO_ 2 B: 2 N\nBO_ 3 C: 3 N\nBA_ "GenMsgCycleTime" BO_ 1 10;\nBA_ "GenMsgCycleTime" BO_ 2 20;'
    asked = Asked(500000, {"A": 7000, "": 100}, {"": 5, "B": 0}, {"C": 9})
    assert tables(text, asked) == [
        {"name": "A", "frame": "S 001 D", "dlc": 1, "period": 7000, "jitter": 5},
        {"name": "B", "frame": "S 002 D", "dlc": 2, "period": 20000, "jitter": 0},
        {"name": "C", "frame": "S 003 D", "dlc": 3, "period": 100, "jitter": 5, "deadline": 9},
    ]
    assert [it["period"] for it in tables(text, Asked(500000, {"B": 0}))] == [10000]
    document = tomllib.loads(network(read(text), Asked(250000, errors=(2, 30))))
    assert (document["rate"], document["errors"]) == (250000, {"burst": 2, "spacing": 30})


def test_names() -> None:
    """A name that canplan would refuse is in a comment: for a character, for its length, or as a repeated one."""
    names = ["a.b", 'a"b', "a\\b", "é", 64 * "x", 65 * "x", "a.b"]
    text = "\n".join(f"BO_ {place} {name}: 0 N" for place, name in enumerate(names))
    document = network(read(text), Asked(500000, {"": 100}))
    kept = [it.get("name") for it in tomllib.loads(document)["message"]]
    assert kept == ["a.b", None, None, None, 64 * "x", None, None]
    comments = [line for line in document.splitlines() if line.startswith("#")]
    assert comments == [f"# {it}sent by N" for it in ("", 'a"b, ', "a\\b, ", "é, ", "", 65 * "x" + ", ", "a.b, ")]


@pytest.mark.parametrize(
    ("text", "words", "status", "reported"),
    [
        ("BO_ 1 Name: 8 A", [], 1, "no message has a period"),
        ("", [], 1, "no message has a period"),
        ("BO_ 1 Name: 12 A\nBO_ 2 Other", [], 1, ":2: this BO_ cannot be read: BO_ 2 Other"),
        ("?\n" * 50, [], 1, ": and 30 more lines"),
        ("BO_ 1 Name: 8 A\nBO_TX_BU_ 1 : A,B,A;", ["--period", "9"], 0, ":1: Name has 2 senders; the bounds of"),
        ('BO_ 1 A"B: 8 A', ["--period", "9"], 0, ':1: canplan would refuse the name A"B'),
    ],
)
def test_reported(
    text: str, words: list[str], status: int, reported: str, tmp_path: pathlib.Path, capsys: pytest.CaptureFixture[str]
) -> None:
    """What the command reports, and its exit status."""
    file = tmp_path / "a.dbc"
    file.write_text(text, "ascii")
    assert main([str(file), "--bitrate", "500000", *words]) == status
    written = capsys.readouterr()
    assert (written.out != "") == (status == 0)
    assert f"{file}{reported}" in written.err.replace(f"{file}: no", f"{file}no")


@pytest.mark.parametrize(
    "words",
    [
        [],
        ["--bitrate", "0"],
        ["--bitrate", "x"],
        ["--bitrate", "1", "--jitter", "Other=1"],
        ["--bitrate", "1", "--period", "BoilerFault=x"],
        ["--bitrate", "1", "--without", "Other"],
        ["--bitrate", "1", "--encoding", "none"],
    ],
)
def test_wrong_use(words: list[str]) -> None:
    """A wrong use has status 2."""
    with pytest.raises(SystemExit) as ended:
        main([str(BOILER), *words])
    assert ended.value.code == 2


def some_text(chance: random.Random) -> tuple[str, list[Message]]:
    """A random DBC file in the style of a tool, and its messages."""
    names = {f"M{chance.randrange(10**6)}": chance.random() < 0.5 for _ in range(chance.randrange(1, 12))}
    head, tail = ['VERSION ""', "", "NS_ :", "\tCM_", "\tBA_", "", "BS_:", "", "BU_: A B"], []
    messages: list[Message] = []
    for name, extended in names.items():
        identifier, size = chance.randrange(1 << (29 if extended else 11)), chance.randrange(9)
        cycle = chance.choice([0, 10, 20, 25.5, 1000])
        number = identifier | extended << 31
        if number in {it.frame.identifier | it.frame.extended << 31 for it in messages}:
            continue
        messages.append(Message(0, name, "A", Frame(identifier, bytes(size), extended), int(cycle * 1000), "", 1))
        blank, mark, word = chance.choice(["", " "]), chance.choice(["", "M ", "m3 "]), chance.choice(["a;b", "BO_"])
        head.append(f"BO_ {number} {name}{blank}: {size} A")
        head += [f' SG_ S{it} {mark}: 0|8@1+ (1,0) [0|9] "°" A,B' for it in range(size)]
        if cycle or chance.random() < 0.5:
            tail.append(f'BA_ "GenMsgCycleTime" BO_ {number} {cycle};')
        comment = chance.choice(["one", "one\ntwo", '\\"one\\"', "one;\n\nBO_ 5 Five: 8 A\nBA_ 7;", 'a "b" c'])
        tail.append(f'CM_ BO_ {number} "{comment}";')
        tail.append(f'VAL_ {number} S0 1 "{word}" 0 "off" ;')
    chance.shuffle(tail)
    return "\n".join([*head, *tail, ""]), messages


def test_random() -> None:
    """Random files have exactly their messages; with wrong bytes they are read or refused, and nothing else."""
    chance = random.Random(1)
    for _ in range(200):
        text, messages = some_text(chance)
        assert [it._replace(line=0) for it in read(text)] == messages
        document = bytearray(text.encode(chance.choice(["utf-8", "cp1252"])))
        for _ in range(chance.randrange(1, 6)):
            document[chance.randrange(len(document))] = chance.choice([*b'\0\r\n ";\\', chance.randrange(256)])
        try:
            network(read(text_of(bytes(document))), Asked(500000, {"": 1}))
        except BadDatabase as refused:
            assert refused.faults


@pytest.mark.parametrize(
    ("attributes", "sending", "distance"),
    [
        ([], "", 0),
        (["CycleTime 100"], "cyclic", 100000),
        (["CycleTime 100", "CycleTimeFast 20"], "cyclic", 20000),
        (["CycleTime 20", "CycleTimeFast 100"], "cyclic", 20000),
        (["CycleTime 0", "CycleTimeFast 20"], "cyclicIfActive", 20000),
        (["CycleTime 100", "DelayTime 5"], "cyclic", 100000),
        (["CycleTime 100", "DelayTime 5"], "cyclicX", 100000),
        (["CycleTime 100", "DelayTime 5"], "cyclicAndSpontaneous", 5000),
        (["CycleTime 100", "CycleTimeFast 20", "DelayTime 5"], "cyclicIfActive", 5000),
        (["CycleTime 100", "DelayTime 5"], "", 5000),
        (["DelayTime 5"], "spontaneous", 5000),
        (["DelayTime 5"], "cyclic", 0),
        (["CycleTime 100", "DelayTime 200"], "spontaneous", 100000),
    ],
)
def test_distances(attributes: list[str], sending: str, distance: int) -> None:
    """The period is the shorter cycle time; the delay time counts if events may release a frame."""
    lines = ["BO_ 1 Name: 8 A"]
    for name, value in (it.split(" ") for it in attributes):
        lines.append(f'BA_ "GenMsg{name}" BO_ 1 {value};')
    if sending:
        lines.append(f'BA_ "GenMsgSendType" BO_ 1 "{sending}";')
    (message,) = read("\n".join(lines))
    assert (message.distance, Asked(500000).period(message)) == (distance, distance)
    assert Asked(500000, {"Name": 7}).period(message) == 7


LONG = (
    "BU_: A\n"
    "BO_ 256 Short: 8 A\nBO_ 2147483904 Other: 8 A\nBO_ 3 Flexible: 12 A\n"
    'BA_DEF_ BO_ "SystemMessageLongSymbol" STRING ;\nBA_DEF_DEF_ "SystemMessageLongSymbol" "";\n'
    'BA_ "SystemNodeLongSymbol" BU_ A "ANodeWithALongName";\n'
    'BA_ "SystemMessageLongSymbol" BO_ 256 "ShortButWithALongName";\n'
    'BA_DEF_DEF_ "GenMsgCycleTime" 100;\n'
)


def test_long_names() -> None:
    """Long names of messages and nodes; options and tables take both names of a message."""
    messages, left_out = read_database(LONG, classical=True)
    assert [(it.name, it.short, it.sender) for it in messages] == [
        ("ShortButWithALongName", "Short", "ANodeWithALongName"),
        ("Other", "", "ANodeWithALongName"),
    ]
    assert [(it.line, it.name) for it in left_out] == [(4, "Flexible")]
    for name in ("Short", "ShortButWithALongName"):
        assert [it.name for it in read(LONG, [name, "Flexible"])] == ["Other"]


def test_left_out_of_can_fd() -> None:
    """What is no classical frame is left out on request, and other faults are still reported."""
    with pytest.raises(BadDatabase) as refused:
        read_database(LONG + 'BA_ "GenMsgDelayTime" BO_ 3 x;\nBA_ "GenMsgDelayTime" BO_ 256 x;', classical=True)
    assert [line for line, _ in refused.value.faults] == [11]


def table_faults(text: str) -> list[tuple[int, str]]:
    """Why a table is refused."""
    with pytest.raises(BadTable) as refused:
        read_table(text, read_database(LONG, classical=True))
    return refused.value.faults


@pytest.mark.parametrize("delimiter", [",", ";", "\t"])
def test_table(delimiter: str) -> None:
    """Columns in any order, by name or identifier; what is left out may be in the table."""
    rows = [
        "Comment,Deadline,name,identifier,jitter",
        "x,9000,Short,,7",
        "",
        ",,,E 00000100,5",
        ",1,,0x003,",
        ",1,Flexible",
    ]
    times = read_table("\n".join(rows).replace(",", delimiter), read_database(LONG, classical=True))
    assert times == ({}, {"ShortButWithALongName": 7, "Other": 5}, {"ShortButWithALongName": 9000})


@pytest.mark.parametrize(
    ("text", "faults"),
    [
        ("", [(1, "the first line must name a column name or identifier, and a column period, jitter or deadline")]),
        ("name,comment\nShort,1", [(1, "the first line must name a column name or identifier, and a column period, ")]),
        ("name,jitter,jitter\nShort,1,2", [(1, "column jitter is there twice")]),
        (
            "name,identifier,jitter\nNone,,1\n,0x5,1\nShort,S 101,\nShort,E 00000100,1\n,x,1\n,,1\nShort,,-1",
            [
                (2, "there is no message None"),
                (3, "there is no message with the identifier 0x5"),
                (4, "there is no message with the identifier S 101"),
                (5, "E 00000100 is not the identifier of Short"),
                (6, "this is not an identifier, such as 0x100, S 100 or E 18fef201: x"),
                (7, "it names no message"),
                (8, "jitter is not a whole number of microseconds: -1"),
            ],
        ),
        ("name,jitter\nShort,1\nShortButWithALongName,2", [(3, "message ShortButWithALongName is also in line 2")]),
        ("identifier,jitter\n0x100,1", [(2, "0x100 is a standard and an extended identifier; write S 100 or E 00")]),
        ("name,jitter\nShort,1,2,3", [(2, "it has 4 fields, and the first line 2")]),
    ],
)
def test_tables_refused(text: str, faults: list[tuple[int, str]]) -> None:
    """Each wrong line of a table is reported."""
    given = table_faults(text)
    assert [line for line, _ in given] == [line for line, _ in faults]
    for (_, why), (_, begin) in zip(given, faults):
        assert why.startswith(begin)


def test_table_of_command(tmp_path: pathlib.Path, capsys: pytest.CaptureFixture[str]) -> None:
    """Options replace what the table gives; a wrong table is reported, and nothing written."""
    table = tmp_path / "times.csv"
    table.write_text("name,jitter,deadline\nBoilerState,100,5000\nPumpState,200,\n", "utf-8-sig")
    assert main([str(BOILER), "--bitrate", "125000", "--table", str(table), "--jitter", "PumpState=7"]) == 0
    written = capsys.readouterr()
    found = {it["name"]: it for it in tomllib.loads(written.out)["message"]}
    assert (found["BoilerState"]["jitter"], found["BoilerState"]["deadline"]) == (100, 5000)
    assert (found["PumpState"]["jitter"], "deadline" in found["PumpState"]) == (7, False)
    assert "assumed: no bit errors" in written.err
    table.write_text("name,jitter\nOther,1\n", "ascii")
    assert main([str(BOILER), "--bitrate", "125000", "--table", str(table)]) == 1
    assert capsys.readouterr() == ("", f"{table}:2: there is no message Other\n")


def test_notes_on_periods(tmp_path: pathlib.Path, capsys: pytest.CaptureFixture[str]) -> None:
    """Periods that are not cycle times are reported, and messages without a delay time that events may release."""
    file = tmp_path / "a.dbc"
    lines = [f"BO_ {it} {name}: 8 A" for it, name in enumerate(["Fast", "Delayed", "Event", "Cyclic", "Long"])]
    lines += ['BA_DEF_DEF_ "GenMsgCycleTime" 100;', 'BA_ "GenMsgCycleTimeFast" BO_ 0 10;']
    lines += ['BA_ "GenMsgDelayTime" BO_ 1 20;', 'BA_ "GenMsgSendType" BO_ 2 "spontaneous";', "BO_ 9 Flexible: 64 A"]
    file.write_text("\n".join(lines), "ascii")
    assert main([str(file), "--bitrate", "125000", "--classical"]) == 0
    assert capsys.readouterr().err.splitlines() == [
        f"{file}:10: Flexible has 64 bytes; a classical frame has at most 8: it is of CAN FD, or sent in parts; "
        "it is left out",
        f"{file}: the period is the fast cycle time: Fast",
        f"{file}: the period is the delay time: Delayed",
        f"{file}: assumed to be at least a cycle time apart, despite send type spontaneous: Event",
        f"{file}: 5 messages, 1 left out; assumed: jitter 0, the period as deadline, no bit errors",
    ]
