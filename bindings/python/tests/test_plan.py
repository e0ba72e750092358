"""Logs next to plans: worst cases that canplan computes, random buses that keep to a plan, and what violates one."""

from __future__ import annotations

import os
import pathlib
import random
import re
import subprocess
from typing import Any

import pytest
import tomllib
from riddlesage import Bus, Event, Frame, Port, decode_trace, encode
from riddlesage._plan import BadPlan, Comparison, Plan, Planned, _is_kept, _longest_spacing, _Seen, read_plan
from riddlesage.candump import Other, text_of
from riddlesage.load import main

NETWORKS = pathlib.Path(__file__).resolve().parents[3] / "examples" / "networks"
CANPLAN, CANBIT = os.environ.get("CANPLAN", ""), os.environ.get("CANBIT", "")
BEGUN = 1436509052
DAVIS = (NETWORKS / "davis.toml").read_text("utf-8")


def line_of(bits: int, rate: int, content: str) -> str:
    """A line of candump, at the end of this bit time."""
    microseconds = bits * 10**6 // rate
    return f"({BEGUN + microseconds // 10**6}.{microseconds % 10**6:06}) can0 {content}\n"


def worst_case(network: str, frame: str, rate: int) -> str:
    """The log of a worst case of a message, as canbit simulates it.

    Ten seconds before it comes a frame of the message: so the log knows that the bus was idle.
    """
    scenario = subprocess.run(
        [CANPLAN, "--timeline", frame], input=network, capture_output=True, check=True, text=True
    ).stdout
    report = subprocess.run([CANBIT, "run"], input=scenario, capture_output=True, check=True, text=True).stdout
    kind, identifier, _ = frame.split(" ")
    lines = [line_of(-10 * rate, rate, text_of(Frame(int(identifier, 16), extended=kind == "E")))]
    for row in decode_trace(report.splitlines()[1]):
        place, text = row.rsplit(" ", 1)[0].split(" ", 1)
        sent = Frame.from_text(text)
        lines.append(line_of(int(place) + len(encode(sent)), rate, text_of(sent)))
    return "".join(lines)


@pytest.mark.skipif(not CANPLAN or not CANBIT, reason="CANPLAN and CANBIT do not name the programs")
@pytest.mark.parametrize("name", ["davis", "seventeen", "sixty"])
def test_worst_cases(name: str, tmp_path: pathlib.Path, capsys: pytest.CaptureFixture[str]) -> None:
    """A worst case keeps to its plan. With longer periods in the plan it does not."""
    file, log, other = NETWORKS / f"{name}.toml", tmp_path / "a.log", tmp_path / "other.toml"
    network = file.read_text("utf-8")
    document: dict[str, Any] = tomllib.loads(network)
    other.write_text(re.sub(r"period = (\d+)", lambda it: f"period = {2 * int(it[1])}", network), "ascii")
    # without a bit rate, times are bit times
    rate, found = document.get("rate", 0) or 500000, 0
    words = ["--slack", "2", "--bitrate", str(rate)]
    for message in document["message"][:: max(1, len(document["message"]) // 6)]:
        log.write_text(worst_case(network, message["frame"], rate), "ascii")
        assert main([str(log), "--plan", str(file), *words]) == 0
        assert capsys.readouterr().out.splitlines()[-1].startswith("violated 0 of ")
        found += main([str(log), "--plan", str(other), *words])
        capsys.readouterr()
    assert found > 0


def some_bus(chance: random.Random, plan: Plan, bits: int) -> Bus:
    """A bus whose releases keep to a plan, with bit errors."""
    bus = Bus(*(Port(64) for _ in range(4)))
    for place, (message, planned) in enumerate(plan.messages.items()):
        first = Frame.from_text(f"{message} 0")
        release = chance.randrange(planned.period)
        while release < bits - 3 * planned.period:
            data = chance.randbytes(chance.randrange(planned.dlc + 1))
            frame = Frame(first.identifier, data, first.extended)
            bus.offer(place % 4, frame, release + chance.randrange(planned.jitter + 1))
            release += planned.period + chance.choice([0, 0, chance.randrange(planned.period)])
    for attempt in chance.sample(range(bits // 200), bits // 3000):
        bus.hit_in(attempt, chance.randrange(35, 45))
    return bus


@pytest.mark.parametrize("seed", range(6))
def test_kept(seed: int) -> None:
    """A bus that keeps to a plan violates nothing, however long its frames wait."""
    chance = random.Random(seed)
    messages = {}
    for place in range(8):
        field = f"S {place * 3 + 1:03x} D" if place % 3 else f"E {place * 7:08x} D"
        messages[field] = Planned("", chance.randrange(9), chance.randrange(1000, 2500), chance.choice([0, 100, 3000]))
    plan = Plan(0, messages, (40, 0))
    seen = Comparison(plan, 1000, 10)
    errors = 0
    for happened in some_bus(chance, plan, 60000).run(60000):
        # a bit time is a millisecond
        if happened.event is Event.SENT and happened.frame:
            seen.take((happened.time + 1) * 10**6, happened.frame)
        elif happened.event.name.endswith("_ERROR") and happened.place == 0:
            seen.take((happened.time + 1) * 10**6, Other.ERROR)
            errors += 1
    lines = list(seen.lines())
    assert (errors > 3, lines[-1]) == (True, "violated 0 of 9"), lines


def test_not_kept() -> None:
    """A frame that comes too soon is found if the bus was idle before it, whatever was sent earlier."""
    length = len(encode(Frame(1)))
    for sooner, violated in ((0, 0), (50, 0), (52, 1), (900, 1)):
        seen = Comparison(Plan(0, {"S 001 D": Planned("", 0, 1000, 51)}, (0, 0)), 1000, 0)
        for start in (0, 1000, 3000, 4000 - sooner):
            seen.take((start + length) * 10**6, Frame(1))
        lines = list(seen.lines())
        assert lines[-1] == f"violated {violated} of 2"
        if violated:
            assert f"violated fits period {1000 - sooner + 51}" in lines[0]


@pytest.mark.parametrize("seed", range(20))
def test_sums(seed: int) -> None:
    """Jitter, period and spacing are those of all pairs of frames or errors."""
    chance, seen = random.Random(seed), _Seen()
    start = 0
    for _ in range(chance.randrange(2, 12)):
        start += chance.randrange(1, 300)
        seen.starts.append(start)
        seen.queued.append(start - chance.choice([0, chance.randrange(50)]))
    pairs = [(i, k) for k in range(len(seen.starts)) for i in range(k)]

    def jitter(period: int) -> int:
        return max(0, *(seen.queued[i] + (k - i) * period - seen.starts[k] for i, k in pairs))

    for period in (1, 100, 300):
        assert seen.jitter(period) == jitter(period)
    fitting = seen.period(40)
    assert jitter(fitting) <= 40 < jitter(fitting + 1)
    times = sorted(chance.randrange(2000) for _ in range(10))
    for burst in (1, 2, 3):
        spacing = _longest_spacing(times, burst)
        for tried, is_kept in ((spacing, True), (spacing + 1, False)):
            fits = all(k - i + 1 <= burst or (k - i + 1 - burst) * tried <= times[k] - times[i] for i, k in ALL_PAIRS)
            assert (fits, _is_kept(times, burst, tried, 0)) == (is_kept, is_kept)


ALL_PAIRS = [(i, k) for k in range(10) for i in range(k + 1)]


def status_of(log: str, plan: str, tmp_path: pathlib.Path, *words: str) -> int:
    """The exit status of the command."""
    (tmp_path / "a.log").write_text(log, "ascii")
    (tmp_path / "plan.toml").write_text(plan, "utf-8")
    return main([str(tmp_path / "a.log"), "--plan", str(tmp_path / "plan.toml"), *words])


def test_report(tmp_path: pathlib.Path, capsys: pytest.CaptureFixture[str]) -> None:
    """Messages that the plan lacks, other DLCs, and error frames with their bursts."""
    lines = [line_of(it * 304, 125000, "100#00000000000000") for it in range(1, 6)]
    for time, content in ((1600, "200#0011"), (2000, "7df#"), (2500, "300#0011223344556677")):
        lines.append(line_of(time, 125000, content))
    for time in (3000, 3010, 5000, 9000):
        lines.append(line_of(time, 125000, "20000080#0000000000000000"))
    lines.append(line_of(9500, 125000, "20000004#0000000000000000"))
    assert status_of("".join(lines), DAVIS + "[errors]\nburst = 1\nspacing = 80000\n", tmp_path) == 1
    assert capsys.readouterr().out.splitlines() == [
        "S 100 D frames 5 period 2430 jitter 0 seen distance 2432 jitter 0 ok",
        "S 200 D frames 1 period 3420 jitter 0 ok",
        "S 300 D frames 1 period 3420 jitter 0 violated dlc 8 not 7",
        "S 7df D frames 1 unplanned",
        "errors frames 4 burst 1 spacing 80000 violated",
        "errors fit burst 1 spacing 80",
        "errors fit burst 2 spacing 16000",
        "errors fit burst 3 spacing 48000",
        "errors fit burst 4 spacing 0",
        "violated 3 of 5",
    ]
    assert status_of("".join(lines[:6]), DAVIS, tmp_path) == 0


@pytest.mark.parametrize(
    ("plan", "why"),
    [
        ("version = 1\nx", "this is not a TOML document"),
        ("version = 2", "version is not 1"),
        ("version = 1", "message is not an array of tables"),
        ("version = 1\nmessage = [1]", "message is not an array of tables"),
        ('version = 1\n[[message]]\nframe = "S 800 D"', "message[0].frame is not a frame without DLC and data"),
        ('version = 1\n[[message]]\nframe = "S 100 D"', "message[0].period is missing, or 0"),
        ('version = 1\nerrors = 1\n[[message]]\nframe = "S 100 D"\nperiod = 9', "errors is not a table"),
        ('version = 1\nrate = -1\n[[message]]\nframe = "S 100 D"\nperiod = 9', "rate is not a whole number of 32 bits"),
        ('version = 1\n[[message]]\nframe = "S 100 D"\nperiod = true', "message[0].period is not a whole number"),
    ],
)
def test_wrong_plans(plan: str, why: str, tmp_path: pathlib.Path, capsys: pytest.CaptureFixture[str]) -> None:
    """What is wrong in a plan is reported."""
    assert status_of("", plan, tmp_path) == 1
    assert capsys.readouterr().err.startswith(f"{tmp_path}/plan.toml: {why}")
    with pytest.raises(BadPlan):
        read_plan(plan.encode("utf-8"))


def test_channels_and_rates(tmp_path: pathlib.Path) -> None:
    """A plan is of one bus, and has its bit rate."""
    log = "(1.0) can0 100#00\n(1.1) can1 200#00\n"
    given: list[list[str]] = [[], ["--bitrate", "500000", "--channel", "can0"]]
    for words in given:
        with pytest.raises(SystemExit) as ended:
            status_of(log, DAVIS, tmp_path, *words)
        assert ended.value.code == 2
    assert status_of(log, DAVIS, tmp_path, "--channel", "can0") == 0
    with pytest.raises(SystemExit):
        status_of(log, DAVIS.replace("rate = 125000\n", ""), tmp_path, "--channel", "can0")
    in_bits = DAVIS.replace("rate = 125000\n", "")
    assert status_of(log, in_bits, tmp_path, "--channel", "can0", "--bitrate", "125000") == 0
    assert status_of("(1.0) can0 100#00\n(0.9) can0 100#00\n", DAVIS, tmp_path) == 1
