"""Networks: the command riddlesage.plan, compared with canplan and its test vectors; and functions for texts."""

from __future__ import annotations

import importlib.machinery
import importlib.util
import os
import pathlib
import re
import subprocess
import sys
from typing import Any

import pytest
import tomllib
from riddlesage import (
    BadNetwork,
    BadScenario,
    Bus,
    Event,
    Port,
    Refused,
    Status,
    plan_network,
    port_times,
    run,
    worst_case,
)
from riddlesage._library import version
from riddlesage.run import bus_of

PACKAGE = pathlib.Path(__file__).resolve().parents[1]
TOP = PACKAGE.parents[1]
NETWORKS = sorted((TOP / "examples/networks").glob("*.toml"))
SCENARIOS = sorted((TOP / "examples/scenarios").glob("*.toml"))
CANPLAN = os.environ.get("CANPLAN", "")
MODULE = [sys.executable, "-m", "riddlesage.plan"]
ONE = "version = 1\n[[message]]\nframe = 'S 100 D'\ndlc = 0\nperiod = 500\n"


def checking() -> Any:
    """The module of tests/documents/check, which reads test vectors and plays them."""
    loader = importlib.machinery.SourceFileLoader("check_of_documents", str(TOP / "tests/documents/check"))
    spec = importlib.util.spec_from_loader(loader.name, loader)
    assert spec
    module = importlib.util.module_from_spec(spec)
    # where its classes find it
    sys.modules[loader.name] = module
    loader.exec_module(module)
    return module


CHECK = checking()
ROWS = [row for path in sorted((TOP / "tests/documents/canplan").glob("*.txt")) for row in CHECK.rows_of(path)]
ROWS += [row for row in CHECK.other_bytes() if row.program == "canplan"]


def is_for_both(row: Any) -> bool:
    """Whether the module does what canplan does: it has another help, and canplan takes no file."""
    words: list[str] = row.words
    return "Usage" not in row.output and (row.status != 2 or all(word.startswith("-") for word in words))


FOR_BOTH = [row for row in ROWS if is_for_both(row)]


@pytest.fixture(scope="module", autouse=True)
def _program(tmp_path_factory: pytest.TempPathFactory) -> None:
    """A program of the name canplan, which runs the module."""
    folder = tmp_path_factory.mktemp("built")
    script = folder / "canplan"
    script.write_text(f'#!/bin/sh\nPYTHONPATH="{PACKAGE}" exec "{sys.executable}" -m riddlesage.plan "$@"\n')
    script.chmod(0o755)
    CHECK.BUILT = folder


@pytest.mark.parametrize("row", FOR_BOTH, ids=[row.name for row in FOR_BOTH])
def test_vectors(row: Any) -> None:
    """The module has the output, the fault and the exit status of each test vector of canplan, for all streams."""
    output, fault, status = CHECK.ran(row, 4096)
    assert CHECK.is_expected(row, output, fault, status), (output, fault, status)


def test_most_vectors_are_played() -> None:
    """Only help, and words that may be files, are left out."""
    assert len(ROWS) > 100 and len(ROWS) - len(FOR_BOTH) < 12


def ended(*words: str, given: bytes = b"", program: str = "") -> tuple[bytes, bytes, int]:
    """Output, standard error and exit status of the module, or of another program."""
    command = [program] if program else MODULE
    done = subprocess.run([*command, *words], input=given, capture_output=True, cwd=PACKAGE, check=False)
    return done.stdout, done.stderr, done.returncode


def wrong_documents() -> list[bytes]:
    """Documents of networks with an error: the examples with a line less, or with another number."""
    found = [b"", b"\xff", b"version = ", b"version = 2"]
    text = NETWORKS[0].read_text("utf-8")
    lines = text.splitlines(keepends=True)
    found += ["".join(lines[:place] + lines[place + 1 :]).encode() for place in range(len(lines))]
    for old, new in (("= 2430", "= 0"), ("= 7", "= 16"), ("125000", "1000001"), ("S 200", "S 100"), ("D\"", "X\"")):
        assert old in text
        found.append(text.replace(old, new).encode())
    found += [(text + more).encode() for more in ("colour = 1", "jitter = -1", "name = ''", "[errors]\nburst = -1")]
    return found


@pytest.mark.skipif(not CANPLAN, reason="CANPLAN does not name the program")
@pytest.mark.parametrize("path", NETWORKS, ids=[it.stem for it in NETWORKS])
def test_is_canplan(path: pathlib.Path) -> None:
    """The module writes the bytes of canplan for the example networks, with each option, from a file and a stream."""
    given = path.read_bytes()
    messages = [message["frame"] for message in tomllib.loads(given.decode())["message"]]
    some = [*messages[:: max(1, len(messages) // 6)], "S 7ff R", "S 100 D 7", "", "\u00e9"]
    options: list[list[str]] = [[], ["--details"], *(["--timeline", message] for message in some)]
    for words in options:
        due = ended(*words, given=given, program=CANPLAN)
        assert ended(*words, given=given) == due
        assert ended(*words, str(path)) == due
    late = given.replace(b"period = ", b"period = 1 # ")
    for words in options[:2]:
        due = ended(*words, given=late, program=CANPLAN)
        assert due[2] == 1 and ended(*words, given=late) == due
    assert ended("--version") == ended("--version", program=CANPLAN)


@pytest.mark.skipif(not CANPLAN, reason="CANPLAN does not name the program")
def test_refuses_as_canplan() -> None:
    """Wrong documents, and words that are no use."""
    documents, refused = wrong_documents(), 0
    options: list[list[str]] = [[], ["--timeline", "S 100 D"]]
    for document in documents:
        for words in options:
            due = ended(*words, given=document, program=CANPLAN)
            assert ended(*words, given=document) == due
            refused += due[2] == 1 and b"P2" in due[1]
    assert refused > len(documents)
    for words in (["--detail"], ["--timeline"], ["--details", "--help"], ["--version", "--help"], [""]):
        assert ended(*words) == ended(*words, program=CANPLAN)
    assert ended("--details", "-", given=ONE.encode()) == ended("--details", given=ONE.encode(), program=CANPLAN)


def test_files_and_words() -> None:
    """A missing file, a folder, two files, and words that are not UTF-8."""
    assert ended("missing.toml") == (b"", b"missing.toml: No such file or directory\n", 2)
    assert ended("/") == (b"", b"/: Is a directory\n", 2)
    usage = b"", b"canplan: usage: unknown or missing arguments, see --help\n", 2
    assert ended("a", "b") == ended("--timeline", "a", "b", "c") == ended("-x") == usage
    done = subprocess.run([*MODULE, "--timeline", b"\xff"], capture_output=True, cwd=PACKAGE, check=False)
    assert (done.stdout, done.stderr, done.returncode) == usage
    assert ended("--help")[0].startswith(b"Bounds the response times") and ended("help") == ended("-h")
    assert ended("-V") == (f"canplan {version()}\n".encode(), b"", 0)


def test_closed_streams() -> None:
    """Without standard input, output or error the status is that of the fault."""
    for closed, status in (("<&-", 3), (">&-", 3), (">/dev/full", 3), ("2>&-", 0)):
        command = f"exec '{sys.executable}' -m riddlesage.plan {closed}"
        done = subprocess.run(["sh", "-c", command], input=ONE.encode(), capture_output=True, cwd=PACKAGE, check=False)
        assert done.returncode == status, (closed, done.stderr)


def test_plan_network() -> None:
    """The functions return what the command prints."""
    for path in NETWORKS:
        planned = plan_network(path.read_bytes())
        assert planned.report == path.with_suffix(".answer").read_text("ascii")
        assert f" late {planned.late} of " in planned.report
        assert plan_network(path.read_text("utf-8")) == planned
        assert plan_network(bytearray(path.read_bytes()), details=True).report.startswith(planned.report[:20])
    assert plan_network(ONE + "deadline = 9").late == 1
    with pytest.raises(BadNetwork) as caught:
        plan_network(ONE + "jitter = -1")
    assert (caught.value.field, caught.value.words) == ("message[0].jitter", "must be a time of 0 to 4294967295")
    assert str(caught.value) == "bad network: message[0].jitter: must be a time of 0 to 4294967295"
    with pytest.raises(TypeError):
        plan_network(5)  # type: ignore[arg-type]


def test_worst_case() -> None:
    """The worst case of the third message of the first network takes 853 bit times, as docs/PLANNING.md says."""
    scenario = worst_case(NETWORKS[0].read_bytes(), "S 300 D")
    assert "bits = 853\n" in scenario and run(scenario).startswith("bits 853\n")
    for network, message, status in (
        (ONE, "S 101 D", Status.NO_MESSAGE),
        (ONE, "", Status.NO_MESSAGE),
        (ONE + "[[message]]\nframe = 'S 101 D'\nperiod = 9", "S 101 D", Status.TOO_LONG),
    ):
        with pytest.raises(Refused) as caught:
            worst_case(network, message)
        assert caught.value.status == status
    with pytest.raises(BadNetwork) as wrong:
        worst_case("version = 2", "S 100 D")
    assert (wrong.value.field, wrong.value.words) == ("version", "must be 1")


@pytest.mark.parametrize("path", SCENARIOS, ids=[it.stem for it in SCENARIOS])
def test_port_times(path: pathlib.Path) -> None:
    """What a port does in each bit time is what it does on a bus that is stepped."""
    document = tomllib.loads(path.read_text("utf-8"))
    bus: Bus = bus_of(document)
    given = [port_times(path.read_bytes(), place) for place in range(len(bus.devices))]
    assert {len(times) for times in given} == {document["bits"]}
    for time in range(document["bits"]):
        before = [(port.counters, port.phase) for port in bus.devices if isinstance(port, Port)]
        events: dict[int, Event] = {happened.place: happened.event for happened in bus.step()}
        for place, (counters, standing) in enumerate(before):
            it = given[place][time]
            assert (it.counters, it.phase, it.sender) == (counters, standing.phase, standing.sender)
            assert (it.drives, it.samples) == (bus._wire.drives[place], bus._wire.seen[place])
            assert it.event == events.get(place)


def test_port_times_are_refused() -> None:
    """A port that the scenario lacks, and a wrong scenario."""
    scenario = "version = 1\nbits = 3\nport = [{}]"
    assert len(port_times(scenario, 0)) == 3
    for place in (1, -1, 1 << 32, 1 << 64):
        with pytest.raises(Refused) as caught:
            port_times(scenario, place)
        assert caught.value.status == Status.NO_SUCH_PORT
    with pytest.raises(BadScenario, match="bits: missing, or not a valid value") as wrong:
        port_times("version = 1\nport = [{}]", 0)
    assert wrong.value.field == "bits"
    for text, words in (("x = 1", "key"), ("bits = 3\nport = [{ y = 1 }]", "port[0].key")):
        with pytest.raises(BadScenario, match=f"{re.escape(words)}: a field of this table is unknown"):
            port_times(f"version = 1\n{text}", 0)
