"""The output of `hold`: counterexamples in the words of a verdict (docs/CONFORMANCE.md), with the registers."""

from __future__ import annotations

import pathlib

from holding.asking import FIRST, GIVEN, HOLDS, Asking, Counterexample, Result
from holding.faults import DIFFERS, NOTHING_HELD, Fault
from holding.outcome import Outcome
from holding.waves import Column, waves

# a phase by its number: its word, the register that counts in it, its rule in docs/ACCESS.md
PHASES = [
    ("idle", None, "Start of frame"),
    ("joining", "place", "Joining"),
    ("stuffed-part", "heard_count", "Stuff places"),
    ("crc-delimiter", None, "Fixed form"),
    ("ack-slot", None, "Acknowledgement"),
    ("ack-delimiter", None, "Fixed form"),
    ("end-of-frame", "place", "Fixed form"),
    ("error-flag", "place", "Error flags"),
    ("passive-flag", "place", "Error flags"),
    ("overload-flag", "place", "Overload flags"),
    ("after-flag", "place", "After a flag"),
    ("delimiter", "place", "Delimiter"),
    ("intermission", "place", "Intermission"),
    ("suspend", "place", "Suspend transmission"),
    ("bus-off", "occurrences", "Bus off"),
]
STUFFED_PART = 2
EVENTS = ["nothing", "sent", "received", "lost"]
EVENTS += [f"{kind} error" for kind in ("bit", "stuff", "crc", "form", "ack")] + ["overload", "went off", "recovered"]
LEVELS = ("0 (dominant)", "1 (recessive)")
OUTPUTS = ["drive", "event_code", "frame_extended", "frame_remote", "frame_identifier", "frame_dlc", "frame_data"]
OUTPUTS += ["tec", "rec", "passive", "off"]
MOST_PARTS = 6
# what a counterexample may mean, by the query that has one
MEANINGS = {
    "reset": "a state after a reset doesn't satisfy the register mapping",
    "outputs": "outputs differ, or the register mapping is too weak",
    "step": "the design differs, or the register mapping isn't inductive",
}
EQUAL = "equal in every run"
CHOICES = "choices: if the design differs, see docs/DECISIONS.md for what the standard leaves open"


def rule(found: Counterexample, at: int) -> str:
    """The rule that decides in a bit time."""
    phase = found.number(at, "gates.phase")
    if phase != STUFFED_PART or not found.number(at, "gates.sender") or found.number(at, "gates.heard_run") == 5:
        return PHASES[phase][2]
    last = 32 if found.number(at, "gates.own") >> 13 & 1 else 12
    return "Arbitration" if found.number(at, "gates.heard_count") <= last else "Kept frame"


def state(found: Counterexample, at: int) -> str:
    """The circuit's state before a bit time."""
    phase = found.number(at, "gates.phase")
    if phase >= len(PHASES):
        return f"phase {phase}"
    word, register, _ = PHASES[phase]
    shown = f"{word} {found.number(at, f'gates.{register}')}" if register else word
    role = "sender" if found.number(at, "gates.sender") else "receiver"
    counters = f"tec {found.number(at, 'gates.tec_count')} rec {found.number(at, 'gates.rec_count')}"
    return f"{shown}, {role}; {rule(found, at)}; {counters}"


def pending(found: Counterexample, at: int) -> str:
    """The pending frame in a bit time, as its text."""
    extended, remote, identifier, dlc, data = (
        found.number(at, f"gates.wait_{field}") for field in ("extended", "remote", "identifier", "dlc", "data")
    )
    head = f"E {identifier:08x}" if extended else f"S {identifier & 0x7FF:03x}"
    count = 0 if remote else min(dlc, 8)
    shown = data.to_bytes(8, "little")[:count].hex()
    return " ".join([head, "R" if remote else "D", str(dlc), *([shown] if shown else [])])


def inputs(found: Counterexample, at: int) -> str:
    """The inputs of a bit time."""
    shown = [f"bus {LEVELS[found.number(at, 'gates.bus')]}"]
    if found.number(at, "gates.waits"):
        shown.append(f"pending frame {pending(found, at)}")
    if found.number(at, "gates.overload_request"):
        shown.append(f"overload frames requested: {found.number(at, 'gates.overload_count')}")
    if not found.number(at, "gates.enable"):
        shown.append("enable 0")
    return ", ".join(shown)


def valued(found: Counterexample, name: str, now: int) -> str:
    """The value of a word in the bit time `now`; if a part fails in the one after it, then its value there, too."""
    width = len(found.bit_times[0].netlist.words[name])
    numbers = [found.number(at, name) for at in range(now, found.at + 1)]
    shown = [f"{number:#x}" if width > 12 else str(number) for number in numbers]
    return f"{name} {' then '.join(dict.fromkeys(shown))}"


def bit_time_lines(found: Counterexample, now: int) -> list[str]:
    """The lines that show a bit time: the circuit's state before it, the inputs, what the circuit does."""
    lines = []
    if found.number(now, "gates.reset"):
        lines.append("  before: any state; reset")
    else:
        lines += [f"  before: {state(found, now)}", f"  inputs: {inputs(found, now)}"]
        drives, event = found.number(now, "gates.drive"), found.number(now, "gates.event_code")
        lines.append(f"  circuit: drives {LEVELS[drives]}, event {EVENTS[event] if event < len(EVENTS) else event}")
    if now < found.at:
        lines.append(f"  after: {state(found, found.at)}")
    return lines


def report(found: Counterexample) -> list[str]:
    """The lines that show a counterexample."""
    now = found.at - 1 if found.fails[0].startswith(HOLDS) else found.at
    lines = bit_time_lines(found, now)
    if found.query.startswith(FIRST):
        levels = [str(found.number(at, "gates.bus")) for at in range(1, found.at + 1)]
        lines.append(f"  bus levels from reset: {''.join(levels)}")
    for part in found.fails[:MOST_PARTS]:
        named = found.bit_times[0].netlist.named_by(part)
        lines.append(f"  {part} fails: {', '.join(valued(found, name, now) for name in named)}")
    if found.fails[MOST_PARTS:]:
        lines.append(f"  and {len(found.fails) - MOST_PARTS} more parts fail")
    return lines


def lines_of(result: Result, proved: str) -> list[str]:
    """The lines that show a result; one without a counterexample has the word `proved`."""
    if result.found is None:
        return [f"{result.query}: {proved}, {result.seconds:.1f} s"]
    return [f"{result.query}: counterexample, {result.seconds:.1f} s", *report(result.found)]


def write_waves(found: Counterexample, path: str | None, others: dict[str, Column] | None = None) -> None:
    """Writes waves, if they are asked for, with words that the netlist doesn't have."""
    if path:
        pathlib.Path(path).write_text(waves(found, others or {}), encoding="ascii")
        print(f"  waves: {path}")


def show(lines: list[str]) -> None:
    """Prints lines at once."""
    print("\n".join(lines), flush=True)


def detected(result: Result, where: str) -> list[str]:
    """The line of a self-check that found the mutation."""
    return [f"self-check: injected mutation detected, {result.seconds:.1f} s ({where})"]


def check_related(asking: Asking) -> None:
    """Raises Fault if the mapping is vacuous, or the injected mutations are not detected."""
    for query, why in (
        (asking.some, "no legal state of the circuit satisfies the register mapping"),
        (asking.some_step, "vacuous: enable is never 1 in a state that satisfies the mapping and its assumptions"),
        (asking.some_reset, "vacuous: reset is never 1 in a bit time that meets the assumptions given_.."),
    ):
        if asking.ask(query()).found is None:
            raise Fault(why, NOTHING_HELD)
    check = asking.ask(asking.self_check())
    if check.found is None:
        why = "self-check: a mutation was injected into the design and not detected: the register mapping is too weak"
        if not any(part.startswith(HOLDS) for part in asking.netlist.parts):
            why += "; it has no holds_..: give a wiring to --play or --find"
        raise Fault(why, NOTHING_HELD)
    show(detected(check, check.found.fails[0]))


def assumption(asking: Asking, part: str) -> str:
    """An assumption, with the words of the controllers that it depends on, if there are any."""
    named = asking.netlist.named_by(part)
    return f"{part} of {' '.join(named)}" if named else part


def show_assumptions(asking: Asking) -> list[str]:
    """Shows the assumptions, if there are any, and returns their names."""
    given = [name for name in asking.netlist.parts if name.startswith(GIVEN)]
    if given:
        show([f"assumed: {', '.join(assumption(asking, name) for name in given)}"])
    return given


def hold(asking: Asking, vcd: str | None) -> Outcome:
    """Runs the queries reset, outputs and step."""
    check_related(asking)
    results = []
    for query in (asking.reset, asking.outputs, asking.step):
        results.append(asking.ask(query()))
        show(lines_of(results[-1], "proved"))
    found = [result.found for result in results if result.found]
    if found:
        write_waves(found[0], vcd)
        if found[0].query != "reset":
            show([CHOICES])
        said = f"not proved: {MEANINGS[found[0].query]}"
        show([said])
        return refuted(said, results)
    given = show_assumptions(asking)
    if missing := asking.netlist.left_out(OUTPUTS):
        show([f"not compared: {' '.join(missing)}"])
    said = f"{EQUAL} that meets {', '.join(given)}" if given else EQUAL
    show([said])
    return Outcome(0, said)


def refuted(said: str, results: list[Result]) -> Outcome:
    """The outcome of queries of which some have a counterexample."""
    found = [result.found for result in results if result.found]
    lines = [line for result in results if result.found for line in lines_of(result, "proved")]
    return Outcome(DIFFERS, said, [name for it in found for name in it.fails], lines)


def smoke(asking: Asking, count: int, vcd: str | None) -> Outcome:
    """Checks the first bit times after a reset."""
    for query in asking.first(count, mutated=True):
        result = asking.ask(query)
        if result.found:
            show(detected(result, f"{result.found.fails[0]} in {result.query}"))
            break
    else:
        raise Fault(
            f"self-check: a mutation was injected into the design and not detected in {count} bit times", NOTHING_HELD
        )
    for query in asking.first(count, mutated=False):
        result = asking.ask(query)
        show(lines_of(result, "no difference"))
        if result.found:
            write_waves(result.found, vcd)
            show([CHOICES])
            return refuted(f"different in {result.query}", [result])
    show_assumptions(asking)
    said = f"no difference in the first {count} bit times"
    show([said])
    return Outcome(0, said)
