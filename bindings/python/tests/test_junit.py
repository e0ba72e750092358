"""Reports of canplan and canhold judge: stored outputs, what is refused, and both programs, read by junitparser."""

from __future__ import annotations

import importlib.machinery
import importlib.util
import os
import pathlib
import re
import subprocess
import sys
from typing import Any

import pytest
from riddlesage.junit import NotReadError, read_report

TOP = pathlib.Path(__file__).resolve().parents[3]
sys.path.insert(0, str(TOP / "bindings" / "tests"))

from junit_reader import read_junit

NETWORKS = TOP / "examples" / "networks"
KIT = TOP / "conformance"
DOCUMENTS = TOP / "tests" / "documents"
CANPLAN, CANHOLD = os.environ.get("CANPLAN", ""), os.environ.get("CANHOLD", "")
DAVIS = (NETWORKS / "davis.answer").read_text("ascii").splitlines()
JUDGED = [
    "pass start-first",
    "fail suspend-after-error at 253: drove 0 not 1; suspend 7, sender; Suspend transmission; since bit error at 100",
    "passed 1 failed 1 void 0 skipped 0 of 2, 399 without a transcript",
]


def stem(path: pathlib.Path) -> str:
    """The name of a test vector that is a file."""
    return path.stem


def rows(program: str, word: str | None) -> list[Any]:
    """The hand-computed test vectors of a program with this word that have the whole output."""
    loader = importlib.machinery.SourceFileLoader("documents_check", str(DOCUMENTS / "check"))
    spec = importlib.util.spec_from_loader(loader.name, loader)
    assert spec is not None
    module = importlib.util.module_from_spec(spec)
    loader.exec_module(module)
    read = [row for path in module.files_of(None) for row in module.rows_of(path) if row.program == program]
    words = [word] if word else []
    return [row for row in read if row.words == words and row.output and not row.how and row.room is None]


def converted(text: str, file: pathlib.Path, *words: str) -> subprocess.CompletedProcess[str]:
    """A call of the command."""
    command = [sys.executable, "-m", "riddlesage.junit", str(file), *words]
    return subprocess.run(command, input=text, capture_output=True, text=True, check=False)


def compare(tests: list[Any], lines: list[str]) -> None:
    """Each line of a message is the output of a test, and its failure if the message is late."""
    messages = [line for line in lines if " longest " in line]
    assert [test.output.splitlines()[0] for test in tests] == messages
    assert [test.message for test in tests if test.kind == "fail"] == [it for it in messages if "late" in it]
    assert [test.name for test in tests] == [re.sub(r" longest .*?(?= name |$)", "", it) for it in messages]


@pytest.mark.parametrize("answer", sorted(NETWORKS.glob("*.answer")), ids=stem)
def test_networks(answer: pathlib.Path, tmp_path: pathlib.Path) -> None:
    """The stored outputs of canplan; the input is passed on."""
    text = answer.read_text("ascii")
    ran = converted(text, tmp_path / "report.xml", "--suite", answer.stem)
    suite = read_junit(tmp_path / "report.xml")
    assert (ran.stdout, ran.stderr, ran.returncode) == (text, "", 1 if suite.count("fail") else 0)
    assert suite.name == answer.stem and {test.group for test in suite.tests} == {answer.stem}
    compare(suite.tests, text.splitlines())
    assert suite.properties["messages"] == str(len(suite.tests))


@pytest.mark.parametrize("word", [None, "--details"])
def test_outputs_of_canplan(word: str | None) -> None:
    """The test vectors of canplan: names, bounds that do not exist, details, margins."""
    vectors = [row for row in rows("canplan", word) if row.output.startswith("network")]
    assert len(vectors) > 5
    for row in vectors:
        report = read_report(row.output.splitlines())
        assert report.status() == row.status, row.name
        compare(report.results, row.output.splitlines())


def test_margins(tmp_path: pathlib.Path) -> None:
    """The margins and how long errors are tolerated are properties; the parts of a bound are the output of a test."""
    detailed = next(row for row in rows("canplan", "--details") if "shorter periods" in row.output)
    converted(detailed.output, tmp_path / "report.xml")
    suite = read_junit(tmp_path / "report.xml")
    assert suite.properties["shorter periods"] == "1 per cent ok 2 per cent late S 300 D 7"
    assert suite.properties["more hits"] == '0 ok 1 late S 100 D 7 name "Engine speed"'
    assert suite.tests[0].name == 'S 100 D 7 name "Engine speed"'
    assert suite.tests[0].output.splitlines()[-1] == "  less periods 0 bits 0"
    converted((NETWORKS / "sixty.answer").read_text("ascii"), tmp_path / "report.xml")
    assert read_junit(tmp_path / "report.xml").properties["hits"] == "at most 15 within 34999"


def test_outputs_of_canhold() -> None:
    """The test vectors of canhold judge: verdicts, and documents without a transcript."""
    vectors = rows("canhold", "judge")
    assert {row.status for row in vectors} == {0, 1, 5}
    for row in vectors:
        lines = row.output.splitlines()
        report = read_report(lines)
        assert report.status() == row.status, row.name
        assert [test.name for test in report.results] == [line.split(" ")[1] for line in lines[:-1]]
        assert [test.message for test in report.results] == ["" if it.startswith("pass") else it for it in lines[:-1]]


def test_nothing_judged(tmp_path: pathlib.Path) -> None:
    """A document without a transcript has status 5, as canhold has."""
    ran = converted("passed 0 failed 0 void 0 skipped 0 of 0, 401 without a transcript\n", tmp_path / "report.xml")
    assert ran.returncode == 5
    assert ran.stderr == "standard input: nothing was judged: the document has no transcript\n"
    assert read_junit(tmp_path / "report.xml").tests == []


def test_verdicts(tmp_path: pathlib.Path) -> None:
    """A failed test has the words of the verdict."""
    ran = converted("\n".join(JUDGED) + "\n", tmp_path / "report.xml")
    suite = read_junit(tmp_path / "report.xml")
    assert ran.returncode == 1 and suite.name == "canhold judge"
    assert suite.properties == {"cases without a transcript": "399"}
    assert suite.names("pass") == ["start-first"] and suite.names("fail") == ["suspend-after-error"]
    assert suite.tests[1].message == JUDGED[1]


NO_LINE = "canplan prints no such line here"
COUNT = "it does not count the lines before"


@pytest.mark.parametrize(
    ("lines", "why"),
    [
        ([], "it is empty; if the program failed, its fault is on standard error"),
        (["bits 3198"], "line 1: neither canplan nor canhold judge begins with this line"),
        (["version = 1", "bits = 853"], "line 1: neither canplan nor canhold judge begins with this line"),
        ([*DAVIS[:3]], "it ends before the line `load ..`: the output is incomplete"),
        ([*DAVIS[:2], *DAVIS[3:]], f"line 4: {COUNT}: 0 of 2 messages are late"),
        ([*DAVIS[:4], "load 0.971 late 1 of 3"], f"line 5: {COUNT}: 0 of 3 messages are late"),
        ([*DAVIS, DAVIS[-1]], f"line 6: {COUNT}: 0 of 3 messages are late"),
        ([*DAVIS, DAVIS[1]], "line 6: a message after the line `load ..`"),
        ([*DAVIS, DAVIS[0]], f"line 6: {NO_LINE}"),
        ([*DAVIS, "  jitter 0"], f"line 6: {NO_LINE}"),
        ([DAVIS[0], "  jitter 0"], f"line 2: {NO_LINE}"),
        ([*DAVIS[:4], "more hits 0 ok"], f"line 5: {NO_LINE}"),
        ([*DAVIS[:3], "canplan: P4 write: no", *DAVIS[3:]], f"line 4: {NO_LINE}"),
        ([DAVIS[0], DAVIS[1].replace("240", "")], f"line 2: {NO_LINE}"),
        ([DAVIS[0], JUDGED[0]], f"line 2: {NO_LINE}"),
        (JUDGED[:2], "it ends before the count: the output is incomplete"),
        ([JUDGED[0], JUDGED[2]], f"line 2: {COUNT}: 1 passed, 0 failed"),
        ([*JUDGED, JUDGED[0]], "line 4: a line after the count"),
        ([JUDGED[0], "fail start-first"], "line 2: canhold judge prints no such line"),
        ([JUDGED[0], "void start-first: time-out"], "line 2: canhold judge prints no such line"),
        ([JUDGED[0], "  start  passed 1 failed 0 void 0 skipped 0 of 1"], "line 2: canhold judge prints no such line"),
        ([JUDGED[0], DAVIS[1]], "line 2: canhold judge prints no such line"),
    ],
)
def test_refused(lines: list[str], why: str, tmp_path: pathlib.Path) -> None:
    """Empty and incomplete output, and that of other programs. An older report goes."""
    with pytest.raises(NotReadError, match=f"^{re.escape(why)}$"):
        read_report(lines)
    report = tmp_path / "report.xml"
    report.write_text("an older report")
    ran = converted("".join(f"{line}\n" for line in lines), report)
    assert (ran.returncode, ran.stderr) == (2, f"standard input: {why}\n")
    assert report.read_text() == ""


def test_cut_off(tmp_path: pathlib.Path) -> None:
    """An output that ends anywhere before its last line end is refused; so is a line without an end."""
    text = "\n".join(DAVIS) + "\n"
    for end in range(len(text) % 29, len(text), 29):
        ran = converted(text[:end], tmp_path / "report.xml")
        assert (ran.returncode, ran.stdout) == (2, text[:end])
    for other, why in (("\0" * 5000, "line 1: too long"), ("\udcff\n", "line 1: neither canplan nor canhold judge")):
        command = [sys.executable, "-m", "riddlesage.junit", str(tmp_path / "report.xml")]
        given = other.encode("utf-8", "surrogateescape")
        run = subprocess.run(command, input=given, capture_output=True, check=False)
        assert run.returncode == 2 and run.stderr.decode().startswith(f"standard input: {why}")


def test_wrong_use(tmp_path: pathlib.Path) -> None:
    """No file, a wrong option, a file that cannot be written, no kit."""
    missing = tmp_path / "nowhere" / "report.xml"
    ran = converted("", missing)
    assert (ran.returncode, ran.stderr) == (2, f"{missing}: No such file or directory\n")
    wrong: list[list[str]] = [[], ["--no-such", "report.xml"], ["a", "b"]]
    for words in wrong:
        command = [sys.executable, "-m", "riddlesage.junit", *words]
        run = subprocess.run(command, stdin=subprocess.DEVNULL, capture_output=True, check=False)
        assert run.returncode == 2 and b"usage: " in run.stderr
    kit = {**os.environ, "RIDDLESAGE_KIT": str(tmp_path)}
    command = [sys.executable, "-m", "riddlesage.junit", str(tmp_path / "report.xml")]
    given = "\n".join(JUDGED) + "\n"
    without = subprocess.run(command, input=given, capture_output=True, text=True, check=False, env=kit)
    expected = "the conformance kit is not found; RIDDLESAGE_KIT may name its folder\n"
    assert (without.returncode, without.stderr) == (2, expected)


@pytest.mark.skipif(not CANPLAN, reason="CANPLAN does not name the program")
@pytest.mark.parametrize("network", sorted(NETWORKS.glob("*.toml")), ids=stem)
@pytest.mark.parametrize("words", [[], ["--details"]], ids=["plain", "details"])
def test_canplan(network: pathlib.Path, words: list[str], tmp_path: pathlib.Path) -> None:
    """The program's output, and its own status."""
    plan = subprocess.run([CANPLAN, *words], input=network.read_text(), capture_output=True, text=True, check=False)
    ran = converted(plan.stdout, tmp_path / "report.xml")
    assert (ran.returncode, ran.stdout) == (plan.returncode, plan.stdout)
    compare(read_junit(tmp_path / "report.xml").tests, plan.stdout.splitlines())


@pytest.mark.skipif(not CANHOLD, reason="CANHOLD does not name the program")
def test_canhold(tmp_path: pathlib.Path) -> None:
    """The verdicts on the stored transcripts, and on those of a controller that drives nothing."""
    cases = "".join(path.read_text() for path in sorted((KIT / "cases").glob("*.toml")))
    stored = "".join(path.read_text() for path in sorted((KIT / "transcripts").glob("*.toml")))
    silent = tmp_path / "silent.toml"
    words = [str(KIT / "run"), "--quiet", "--transcripts", str(silent), "--", str(KIT / "adapters" / "skeleton.py")]
    subprocess.run([sys.executable, *words], capture_output=True, check=False)
    for transcripts, status in ((stored, 0), (silent.read_text(), 1)):
        judge = [CANHOLD, "judge"]
        judged = subprocess.run(judge, input=cases + transcripts, capture_output=True, text=True, check=False)
        ran = converted(judged.stdout, tmp_path / "report.xml")
        assert ran.returncode == judged.returncode == status
        suite = read_junit(tmp_path / "report.xml")
        assert len(suite.tests) == cases.count("[[case]]")
        assert [it.message for it in suite.tests if it.kind == "fail"] == re.findall("(?m)^fail .*", judged.stdout)
