"""Waves of scenarios: a dump is read back, and compared with what the library does."""

from __future__ import annotations

import pathlib
import re

import pytest

from riddlesage import Phase, port_times, run
from riddlesage._vcd import Kind, Scope, Signal, Writer
from riddlesage.run import main

TOP = pathlib.Path(__file__).resolve().parents[3]
SCENARIOS = sorted((TOP / "examples/scenarios").glob("*.toml"))


def read_back(text: str) -> tuple[list[str], list[int], list[list[str]]]:
    """The names of the signals, the times, and at each time the values of all."""
    head, _, body = text.partition("$enddefinitions $end\n")
    variables = re.findall(r"^\$var (?:wire|real|string) \d+ (\S+) (\w+) \$end$", head, re.M)
    codes, names = [code for code, _ in variables], [name for _, name in variables]
    assert len(set(codes)) == len(codes)
    times: list[int] = []
    rows: list[list[str]] = []
    now = [""] * len(codes)
    for line in body.splitlines():
        if line[0] == "#":
            times.append(int(line[1:]))
            rows.append(now := list(now))
            continue
        value, code = line.split(" ") if line[0] in "rs" else (line[0], line[1:])
        if value[0] == "s":
            value = value[1:].replace("\\x20", " ")
        elif value[0] == "r":
            value = value[1:]
        now[codes.index(code)] = value
    return names, times, rows


def waves(scenario: pathlib.Path, tmp_path: pathlib.Path, *words: str) -> str:
    """The dump of a scenario."""
    file = tmp_path / "waves.vcd"
    assert main([str(scenario), "--vcd", str(file), *words]) == 0
    return file.read_text("ascii")


@pytest.mark.parametrize("scenario", SCENARIOS, ids=[it.stem for it in SCENARIOS])
def test_levels_are_those_of_the_report(
    scenario: pathlib.Path, tmp_path: pathlib.Path, capsys: pytest.CaptureFixture[str]
) -> None:
    """The report is that of canbit, and the waves have its levels, events, and last counters."""
    names, times, rows = read_back(waves(scenario, tmp_path, "--bitrate", "500000"))
    report = run(scenario.read_bytes())
    assert capsys.readouterr().out == report
    lines = report.splitlines()
    bits = int(lines[0].split(" ")[1])
    assert times[-1] == bits * 20
    level = names.index("bus_level")
    by_time = dict(zip(times[:-1], rows))
    now, levels = "", ""
    for time in range(0, bits * 20, 20):
        now = by_time[time][level] if time in by_time else now
        levels += now
    assert levels == lines[1]
    for place in range(sum(line.startswith("port ") for line in lines)):
        event = names.index(f"port{place}_event")
        begin = next(at for at, line in enumerate(lines) if line.startswith(f"port {place} "))
        end = next((at for at, line in enumerate(lines) if line.startswith(f"port {place + 1} ")), len(lines))
        logged = [line[2:].replace("took", "received") for line in lines[begin + 1 : end]]
        seen = [row[event] for row in rows if row[event].startswith(("sent ", "received "))]
        assert seen == logged


@pytest.mark.parametrize("scenario", SCENARIOS, ids=[it.stem for it in SCENARIOS])
def test_waves_are_the_port_times(scenario: pathlib.Path, tmp_path: pathlib.Path) -> None:
    """Each value of each port in each bit time is that of the proved function."""
    names, times, rows = read_back(waves(scenario, tmp_path, "--bitrate", "1000000"))
    ports = sum(name.endswith("_drives") for name in names)
    due = [port_times(scenario.read_bytes(), place) for place in range(ports)]
    bits = len(due[0])
    assert times[-1] == bits * 10
    row, at = rows[0], dict(zip(times[:-1], rows))
    for time in range(bits):
        row = at.get(time * 10, row)
        for place in range(ports):
            own = [name for name in names if name.startswith(f"port{place}_")]
            values = {name.split("_", 1)[1]: row[names.index(name)] for name in own}
            of = due[place][time]
            given = values["tec"], values["rec"], values["transmitter"], values["drives"], values["samples"]
            assert given == (*map(str, of.counters), str(int(of.sender)), str(of.drives), str(of.samples))
            assert Phase[values["phase"].upper().replace("-", "_")] == of.phase
            assert values["event"].startswith(of.event.name.lower().replace("_", " ") if of.event else "-")


def test_many_signals_and_texts(tmp_path: pathlib.Path) -> None:
    """Each signal has an identifier of its own, and a text with spaces is read back."""
    file = tmp_path / "waves.vcd"
    with file.open("w") as out:
        signals = Signal("event", Kind.TEXT), Signal("tec", Kind.NUMBER)
        writer = Writer(out, [Scope(f"port{place}", signals) for place in range(200)])
        writer.step(0, ["sent S 123 D 0", 263] * 200)
        writer.step(5, ["", 263] * 200)
        writer.end(9)
    names, times, rows = read_back(file.read_text())
    assert (len(names), times) == (400, [0, 5, 9])
    assert rows[0] == ["sent S 123 D 0", "263"] * 200
    assert rows[1] == ["-", "263"] * 200


def test_refusals(tmp_path: pathlib.Path, capsys: pytest.CaptureFixture[str]) -> None:
    """A scenario with a wrong field; a bit rate that no classical CAN bus has."""
    wrong = tmp_path / "wrong.toml"
    wrong.write_text("version = 1\nbits = 1\n")
    assert main([str(wrong)]) == 1
    assert "bad scenario: port" in capsys.readouterr().err
    with pytest.raises(SystemExit) as ended:
        main([str(wrong), "--bitrate", "2000000"])
    assert ended.value.code == 2
