"""Rule coverage: its combinations, the cases that reach them, its reports, and the command."""

from __future__ import annotations

import dataclasses
import doctest
import importlib
import io
import os
import pathlib
import re
import shutil
import subprocess
import sys
import xml.etree.ElementTree as ElementTree
from typing import TYPE_CHECKING, Any

import pytest
import riddlesage.coverage
from riddlesage import Frame, Port, Refused
from riddlesage._kit import kit
from riddlesage.coverage import CASES, ITEMS, Coverage, main, read_lines

if TYPE_CHECKING:
    from kit.documents import Case, Transcript

TOP = pathlib.Path(__file__).resolve().parents[3]
SUSPEND = TOP / "conformance" / "transcripts" / "suspend.toml"


def test_combinations_are_those_of_play() -> None:
    """They are those that equivalence/hold --play counts."""
    sys.path.insert(0, str(TOP / "equivalence"))
    rules = importlib.import_module("playing.rules").RULES
    of_play = {f"{rule.name}, {column}" if column else rule.name for rule in rules for column in rule.columns or ("",)}
    assert set(CASES) == of_play
    assert len(CASES) == ITEMS


def test_combinations_are_rules_of_access() -> None:
    """Each rule is one of docs/ACCESS.md, and is in the table of docs/COVERAGE.md."""
    rules = {name.split(", ")[0] for name in CASES}
    access, page = ((TOP / "docs" / f"{it}.md").read_text("utf-8") for it in ("ACCESS", "COVERAGE"))
    assert rules <= set(re.findall(r"^\|`([^`]+)`\|", access, re.M))
    assert rules == set(re.findall(r"^\| `([^`]+)` \|", page, re.M))


def test_each_case_reaches_its_combination() -> None:
    """Each named case of the standard set reaches the combinations that name it, and the set no others."""
    library = kit("library")
    cases = {case.name: case for case in library.read_library([library.FOLDER])[0]}
    whole = Coverage()
    for case in cases.values():
        coverage = Coverage()
        coverage.play(case)
        assert not {item for item, name in CASES.items() if name == case.name}.intersection(coverage.missing)
        for item in coverage.reached:
            whole.add(item, 1)
    assert whole.missing == {item: name for item, name in CASES.items() if name not in cases}


@pytest.mark.skipif("LONG_SET" not in os.environ, reason="LONG_SET does not name the folder of the long set")
def test_cases_of_the_long_set() -> None:
    """The long set has each case that the standard set does not have, and they reach their combinations."""
    library = kit("library")
    standard = {case.name for case in library.read_library([library.FOLDER])[0]}
    cases = {case.name: case for case in library.read_library([os.environ["LONG_SET"]])[0]}
    for item, name in CASES.items():
        if name not in standard:
            coverage = Coverage()
            coverage.play(cases[name])
            assert item in coverage.reached


def suspended() -> tuple[Case, Transcript]:
    """A case, and its stored transcript."""
    library = kit("library")
    cases, transcripts = library.read_library([library.FOLDER, str(SUSPEND)])
    name = "suspend-after-error"
    return next(case for case in cases if case.name == name), transcripts[name]


def test_a_transcript_that_agrees() -> None:
    """It counts what its case counts."""
    case, transcript = suspended()
    alone, beside = Coverage(), Coverage()
    alone.play(case)
    assert beside.play_beside(case, transcript) is None
    assert beside.counts == alone.counts
    transcript.events = transcript.counters = transcript.end = None
    assert beside.play_beside(case, transcript) is None
    assert beside.counts == {name: 2 * count for name, count in alone.counts.items()}


def inverted(levels: str, time: int) -> str:
    return levels[:time] + "10"[int(levels[time])] + levels[time + 1 :]


def test_transcripts_that_differ() -> None:
    """The bit times before the first difference are counted."""
    case, transcript = suspended()
    assert transcript.events and transcript.counters and transcript.end
    drove, events, counters = transcript.drove, transcript.events, transcript.counters
    time, (changed, tec, rec) = events[0][0], counters[0]
    differing: list[tuple[dict[str, Any], int, str]] = [
        ({"drove": inverted(drove, 253)}, 253, "drove 0 not 1"),
        ({"drove": drove[:9]}, 9, "drove nothing"),
        ({"drove": inverted(drove, 0), "events": [(0, "lost")]}, 0, "drove 0 not 1"),
        ({"events": events[1:]}, time, f"reported nothing not {events[0][1]}"),
        ({"counters": [(changed, tec, rec + 1)]}, changed, f"counted {tec} {rec + 1} not {tec} {rec}"),
        ({"end": ("off", 256, 0)}, len(drove), f"end off 256 0 not {' '.join(map(str, transcript.end))}"),
    ]
    for fields, at, text in differing:
        before, beside = Coverage(), Coverage()
        before.play(case, at)
        assert beside.play_beside(case, dataclasses.replace(transcript, **fields)) == f"{at}: {text}"
        assert beside.counts == before.counts


def test_doctest() -> None:
    """The example of the module."""
    assert doctest.testmod(riddlesage.coverage).failed == 0


def test_counts() -> None:
    """A frame that is sent and acknowledged."""
    coverage, sender, receiver, plain = Coverage(), Port(), Port(), Port()
    for port in (sender, plain):
        port.offer(Frame(0x123))
    for _ in range(60):
        level = sender.drive() & receiver.drive()
        assert coverage.sample(sender, level) == plain.sample(level)
        coverage.sample(receiver, level)
    counts = coverage.counts
    assert counts["Start of frame, transmitter active"] == counts["Start of frame, receiver active"] == 1
    assert counts["Frame validation, transmitter active"] == counts["Frame validation, receiver active"] == 1
    # twelve bits up to RTR; SOF is sent by an idle port
    assert counts["Arbitration, transmitter active"] == 12
    assert counts["Intermission, receiver active"] == 3
    assert "Bus off" in coverage.missing


def test_refusals() -> None:
    """A wrong level, and a combination that does not exist."""
    with pytest.raises(Refused):
        Coverage().sample(Port(), 2)
    with pytest.raises(ValueError, match="no combination 'Joining'"):
        Coverage().add("Joining", 1)


def test_reports() -> None:
    """The lines can be read back, with any text before them; the XML has a test for each combination."""
    coverage, again = Coverage(), Coverage()
    coverage.add("Bus off", 7)
    coverage.add("Suspend transmission, transmitter passive", 2**40)
    assert read_lines((f"TOP.monitor: {line}\n" for line in coverage.lines()), again) == ITEMS
    assert again.counts == coverage.counts
    suite = ElementTree.fromstring(coverage.junit())[0]
    cases = suite.findall("testcase")
    assert len(cases) == int(suite.attrib["tests"]) == ITEMS
    assert sum(case.find("skipped") is None for case in cases) == 2


def test_command(tmp_path: pathlib.Path, capsys: pytest.CaptureFixture[str]) -> None:
    """Logs are added up."""
    log = tmp_path / "log"
    log.write_text("x: coverage 3 Bus off\nx: coverage 0 Fixed form, receiver active; case rx-ack reaches it\n")
    junit = tmp_path / "junit.xml"
    assert main([str(log), str(log), "--junit", str(junit)]) == 0
    lines = capsys.readouterr().out.splitlines()
    assert "coverage 6 Bus off" in lines
    assert lines[-1] == f"reached 1 of {ITEMS}"
    assert f'skipped="{ITEMS - 1}"' in junit.read_text()


def test_transcripts(tmp_path: pathlib.Path, capsys: pytest.CaptureFixture[str]) -> None:
    """The command with transcripts alone, and with one that differs."""
    log = tmp_path / "log"
    log.write_text("coverage 3 Own overload frames, receiver passive\n")
    assert main(["--transcripts", str(SUSPEND), str(log)]) == 0
    lines = capsys.readouterr().out.splitlines()
    assert lines[0] == "transcripts 5 differing 0"
    assert "coverage 3 Own overload frames, receiver passive" in lines
    wrong = tmp_path / "wrong.toml"
    wrong.write_text('[[transcript]]\nversion = 1\ncase = "suspend-after-error"\ndrove = ["1*9"]\n')
    assert main(["--transcripts", str(wrong)]) == 1
    lines = capsys.readouterr().out.splitlines()
    assert lines[:2] == ["differs suspend-after-error at 9: drove nothing", "transcripts 1 differing 1"]


@pytest.mark.skipif(not shutil.which("cc"), reason="cc is not installed")
def test_the_page(tmp_path: pathlib.Path, capsys: pytest.CaptureFixture[str]) -> None:
    """The commands of docs/COVERAGE.md print its lines, with the mutant of conformance/README.md."""
    page = (TOP / "docs" / "COVERAGE.md").read_text("utf-8")
    block = re.search(r"## From transcripts\n\n((?:    .*\n)+)", page)
    assert block
    play, _, *shown = [line[4:] for line in block[1].splitlines()]
    mine = shutil.copytree(TOP / "conformance" / "adapters" / "controller", tmp_path / "mine")
    build = f"sed -i '/take_suspend/,/^}}/s/8/7/' {mine}/controller.c && cc -std=c99 -o {tmp_path}/adapter {mine}/*.c"
    for command in (build, play.replace("$ ", "").replace("../", f"{tmp_path}/")):
        subprocess.run(command, shell=True, check=True, cwd=TOP, capture_output=True)
    assert main(["--transcripts", str(tmp_path / "transcripts.toml")]) == 1
    printed = capsys.readouterr().out.splitlines()
    assert printed[:4] + ["..", printed[-1]] == shown


def test_cases_of_transcripts(monkeypatch: pytest.MonkeyPatch, capsys: pytest.CaptureFixture[str]) -> None:
    """A document with cases and transcripts, as `canhold judge` reads it, on standard input."""
    case, transcript = suspended()
    case.name = case.family + "-mine"
    transcript.case = case.name
    documents = kit("documents")
    text = f"{documents.write_case(case)}\n{documents.write_transcript(transcript)}"
    monkeypatch.setattr(sys, "stdin", io.TextIOWrapper(io.BytesIO(text.encode())))
    assert main(["--transcripts", "-"]) == 0
    assert capsys.readouterr().out.startswith("transcripts 1 differing 0\n")


def test_wrong_use(tmp_path: pathlib.Path, capsys: pytest.CaptureFixture[str]) -> None:
    """A log without coverage, and files that are no kit documents."""
    log = tmp_path / "log"
    log.write_text("1 passed\n")
    assert main([str(log)]) == 1
    assert main(["--cases", str(log)]) == 2
    assert "P2 toml" in capsys.readouterr().err
    log.write_bytes(b"\xff")
    assert main(["--cases", str(log)]) == 2
    assert capsys.readouterr().err == f"{log}: P2 toml: must be a TOML document in UTF-8\n"
    with pytest.raises(SystemExit):
        main([])


@pytest.mark.parametrize(
    ("content", "status", "text"),
    [
        (b"", 1, "it has no transcripts"),
        (b"\xff", 2, "P2 toml: must be a TOML document in UTF-8"),
        (b"[[transcript", 2, "P2 toml: must be a TOML document in UTF-8"),
        (b"transcript = " + b"[" * 20000, 2, "P2 toml: must be a TOML document in UTF-8"),
        (b"[[transcript]]\nversion = 2\n", 2, "P2 transcript[0].version: must be 1"),
        (
            b'[[transcript]]\nversion = 1\ncase = "mine-1"\ndrove = []\n',
            2,
            "P2 transcript[0].case: must be the name of a case of the document that no earlier transcript has; "
            "--cases names where its case is",
        ),
    ],
)
def test_wrong_transcripts(
    content: bytes, status: int, text: str, tmp_path: pathlib.Path, capsys: pytest.CaptureFixture[str]
) -> None:
    """Each is refused in words."""
    file = tmp_path / "transcripts.toml"
    file.write_bytes(content)
    assert main(["--transcripts", str(file)]) == status
    assert capsys.readouterr().err == f"{file}: {text}\n"
