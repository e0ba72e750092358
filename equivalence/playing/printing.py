"""The output of `hold --play`: what was played, the rules that it reached, and the first difference."""

from __future__ import annotations

from holding.asking import GIVEN, HOLDS
from holding.netlist import Key, Netlist
from holding.reporting import EVENTS, report, state
from playing.rules import ALL, ERRORS, RULES, Counts
from playing.simulating import DOMINANT, FORCED, Played, Shown

# what a part of the wiring compares, by the circuit's outputs that it depends on
SUBJECTS = (
    (("event_code",), "the event differs"),
    (("frame_extended", "frame_identifier", "frame_data"), "the frame differs"),
    (("tec", "rec"), "the counters differ"),
    (("passive", "off"), "the error state differs"),
)
NAME_WIDTH, COUNT_WIDTH = 33, 12


def outputs_of(netlist: Netlist, part: str) -> set[str]:
    """The circuit's outputs that a part of the wiring depends on, also by registers of the wiring."""
    seen: set[Key] = set()
    waiting = list(netlist.parts[part])
    found: set[str] = set()
    while waiting:
        key = waiting.pop()
        name = netlist.named.get(key, "")
        if key in seen:
            continue
        seen.add(key)
        if name.startswith(("gates.", "dut.")):
            found.add(name)
        elif key in netlist.registers:
            waiting.append(netlist.registers[key][0])
        elif key in netlist.drivers:
            waiting += [side for side, _ in netlist.drivers[key][1]]
    return {name.partition(".")[2] for name in found if name.startswith("gates.")}


def difference(shown: Shown) -> str:
    """What differs, in the words of a verdict."""
    outputs = {name for part in shown.fails for name in outputs_of(shown.model.netlist, part)}
    if "drive" in outputs:
        level = shown.number(shown.at, "gates.drive")
        return f"drove {1 - level} not {level}"
    for names, said in SUBJECTS:
        if outputs & set(names):
            return said
    return f"{shown.fails[0]} differs"


def last_event(shown: Shown) -> str:
    """The circuit's latest event before the difference, with its bit time."""
    for at in range(shown.at - 1, 0, -1):
        if event := shown.number(at, "gates.event_code"):
            return f"; since {EVENTS[event]} at {at - 1}"
    return ""


def verdict(shown: Shown) -> str:
    """The line of the difference. Bit times are counted from the reset, as in a kit case."""
    where = state(shown, shown.at).rpartition("; ")[0]
    return f"  fail at {shown.at - 1}: {difference(shown)}; {where}{last_event(shown)}"


def start(shown: Shown) -> str:
    """What the reset leads to, as a case says it."""
    return "joining" if shown.number(0, "gates.integrating") else "idle"


def traffic_lines(shown: Shown) -> list[str]:
    """The inputs of the run: how it starts, the tester's levels, and frames and requests with their bit times."""
    rows = shown.run.rows
    levels = "".join("0" if it.action == DOMINANT else "f" if it.action == FORCED else "1" for it in rows[1:-1])
    lines = [f"  start: {start(shown)}", f"  tester from reset: {levels}"]
    bus = "".join(str(shown.number(at, "gates.bus")) for at in range(1, shown.at + 1))
    return [*lines, f"  bus levels from reset: {bus}"]


def run_lines(shown: Shown) -> list[str]:
    """The lines that show the run."""
    run = shown.run
    line = f"difference: shortened from {number(run.before - 1)} to {number(shown.at)} bit times, {run.seconds:.1f} s"
    ended = "" if run.is_done else "; its limit was reached, so it may be longer than needed"
    return [line + ended, verdict(shown), *report(shown), *traffic_lines(shown)]


def number(count: int) -> str:
    """A count with commas."""
    return f"{count:,}"


def played_lines(played: Played, counts: Counts, seed: int) -> list[str]:
    """How much was played."""
    of = {name: number(count) for name, count in counts.numbers.items()}
    errors = ", ".join(f"{kind} {of[kind]}" for kind in ERRORS)
    lines = [f"played: {number(played.bit_times)} bit times in {played.seconds:.1f} s, seed {seed}"]
    if played.left_out:
        whole = played.bit_times + played.left_out
        lines.append(f"left out: {100 * played.left_out / whole:.1f} % of the bit times, which violate {GIVEN}..")
    lines.append(f"frames: sent {of['sent']}, received {of['received']}, arbitration lost {of['arbitration lost']}")
    lines.append(f"errors: {errors}")
    return [*lines, f"overload frames {of['overload']}, bus-off {of['bus-off']}, recovered {of['recovered']}"]


def rule_lines(counts: Counts) -> list[str]:
    """The table of the rules that were reached, and those that were not."""
    roles = f"{'transmitter':>{2 * COUNT_WIDTH}}{'receiver':>{2 * COUNT_WIDTH}}"
    heads = "".join(f"{column.split(' ')[1]:>{COUNT_WIDTH}}" for column in ALL)
    lines = [f"{'rule, in bit times':{NAME_WIDTH}}{roles}", f"{'':{NAME_WIDTH}}{heads}"]
    for rule in RULES:
        if rule.columns:
            cells = [number(counts.of(rule, it)) if it in rule.columns else "-" for it in ALL]
        else:
            cells = [number(counts.of(rule, ""))]
        lines.append(f"  {rule.name:{NAME_WIDTH - 2}}" + "".join(f"{cell:>{COUNT_WIDTH}}" for cell in cells))
    missing = counts.missing()
    return [*lines, f"not reached: {', '.join(missing)}" if missing else "every rule was reached"]


def ignored(netlist: Netlist) -> str:
    """The line about the parts that a play doesn't need, if there are any."""
    names = [name for name in netlist.parts if name.startswith(HOLDS)]
    return f"not played: {', '.join(names)} (invariants, which only a proof needs)" if names else ""
