"""A run as a case of the conformance kit, with the transcript of the circuit."""

from __future__ import annotations

import pathlib
import sys

from holding.reporting import EVENTS
from playing.printing import start, verdict
from playing.simulating import DOMINANT, FORCED, Frame, Shown

sys.path.insert(0, str(pathlib.Path(__file__).resolve().parent.parent.parent / "conformance"))
from kit.documents import Case, Transcript, write_case, write_transcript

FAMILY = "play"
SENT, RECEIVED, RECOVERED = 1, 2, 11
MOST_OFFERS = 256


def obstacle(shown: Shown) -> str | None:
    """Why no case can express a run, if none can."""
    run = shown.run
    if any(row.reset for row in run.rows[1:]):
        return "it has a second reset"
    if not all(row.enable for row in run.rows):
        return "it depends on clock cycles in which enable is 0"
    if not run.is_queued:
        return "a pending frame disappears or changes, which a queue does not do"
    if not shown.model.has_own_frames():
        return "the wiring does not take the pending frame from its inputs"
    if run.needs_start:
        return "it depends on what registers hold before the reset"
    if sum(row.offer is not None for row in run.rows) > MOST_OFFERS:
        return f"it has more than {MOST_OFFERS} frames"
    if any(row.request > 2 for row in run.rows):
        return "it requests three overload frames at once"
    return None


def frame_text(frame: Frame) -> str:
    """A frame as its text."""
    head = f"E {frame.identifier:08x}" if frame.extended else f"S {frame.identifier & 0x7FF:03x}"
    count = 0 if frame.remote else min(frame.dlc, 8)
    data = frame.data.to_bytes(8, "little")[:count].hex()
    return " ".join([head, "R" if frame.remote else "D", str(frame.dlc), *([data] if data else [])])


def reported_frame(shown: Shown, at: int) -> str:
    """The frame of the circuit's event in a bit time."""
    fields = [shown.number(at, f"gates.frame_{it}") for it in ("extended", "remote", "identifier", "dlc", "data")]
    return frame_text(Frame(bool(fields[0]), bool(fields[1]), *fields[2:]))


def events(shown: Shown) -> list[tuple[int, str]]:
    """The circuit's events, with their bit times."""
    made = []
    for at in range(1, shown.at + 1):
        number = shown.number(at, "gates.event_code")
        if number:
            frame = [reported_frame(shown, at)] if number in (SENT, RECEIVED) else []
            made.append((at - 1, " ".join([EVENTS[number], *frame])))
    return made


def counters(shown: Shown) -> list[tuple[int, int, int]]:
    """TEC and REC after each bit time that changes one."""
    counts = [(shown.number(at, "gates.tec"), shown.number(at, "gates.rec")) for at in range(1, shown.at + 2)]
    return [(at, *counts[at + 1]) for at in range(shown.at) if counts[at + 1] != counts[at]]


def transcript(shown: Shown, name: str) -> Transcript:
    """What the circuit does in the run."""
    drove = "".join(str(shown.number(at, "gates.drive")) for at in range(1, shown.at + 1))
    end = shown.at + 1
    word = "off" if shown.number(end, "gates.off") else "passive" if shown.number(end, "gates.passive") else "active"
    state = (word, shown.number(end, "gates.tec"), shown.number(end, "gates.rec"))
    return Transcript(name, drove, events(shown), counters(shown), state)


def has_queue(shown: Shown) -> bool:
    """Whether more than one frame is pending at once."""
    waiting = 0
    for at, row in enumerate(shown.run.rows[: shown.at + 1]):
        waiting += row.offer is not None
        if waiting > 1:
            return True
        waiting -= waiting > 0 and shown.number(at, "gates.event_code") == SENT
    return False


def case(shown: Shown, name: str) -> Case:
    """The run as a case. A frame that is offered in the reset is there from bit time 0 on."""
    rows = shown.run.rows[: shown.at + 1]
    levels = "".join("0" if row.action == DOMINANT else "1" for row in rows[1:])
    offers = [(max(at - 1, 0), frame_text(row.offer)) for at, row in enumerate(rows) if row.offer]
    holds = [(at - 1, row.request) for at, row in enumerate(rows) if at and row.request >= 0]
    forced = [at - 1 for at, row in enumerate(rows) if at and row.action == FORCED]
    recovers = any(shown.number(at, "gates.event_code") == RECOVERED for at in range(1, shown.at + 1))
    asked = {"forced": bool(forced), "hold": bool(holds), "queue": has_queue(shown), "recovery": recovers}
    return Case(
        name=name,
        family=FAMILY,
        tester=[(levels, "")],
        purpose=verdict(shown).strip()[:200],
        start=start(shown),
        needs=[need for need, is_asked in asked.items() if is_asked],
        offers=offers,
        holds=holds,
        forced=forced,
    )


def keep(shown: Shown, path: str, seed: int) -> str:
    """Writes the case, and returns a line about it."""
    if why := obstacle(shown):
        return f"  no case: {why}"
    name = f"{FAMILY}-{seed}"
    text = "\n".join([write_case(case(shown, name)), write_transcript(transcript(shown, name)), ""])
    pathlib.Path(path).write_text(text, encoding="ascii")
    return f"  case: {path}"
