"""Reads and writes kit documents, which have cases and transcripts."""

from __future__ import annotations

import re
from dataclasses import dataclass, field
from typing import Any, Callable, Iterable, Tuple

from .frames import Frame
from .levels import read_levels, write_levels

loads: Callable[[str], dict[str, Any]]
try:
    import tomllib

    loads = tomllib.loads
except ImportError:  # Python before 3.11
    from . import toml_subset

    loads = toml_subset.loads

NEEDS = ("forced", "hold", "queue", "recovery")
CHOICES = (
    "reserved-levels",
    "stuff-exception",
    "own-start",
    "flag-error-once",
    "own-overload",
    "rec-127",
    "recovery-by-itself",
    "recovery-rows",
    "prompt",
)
MOST_CASES = 4096
MOST_BITS = 100_000
MOST_COUNT = 65_535

_CASE_KEYS = (
    *("version", "name", "family", "purpose", "start", "needs", "choices", "bits", "tester"),
    *("offers", "holds", "forced"),
)
_TRANSCRIPT_KEYS = ("version", "case", "drove", "events", "counters", "end")
_NAME = re.compile(r"[a-z0-9-]{1,80}")
_FAMILY = re.compile(r"[a-z0-9-]{1,40}")
_PLAIN_EVENTS = (
    *("lost", "bit error", "stuff error", "crc error", "form error", "ack error"),
    *("overload", "went off", "recovered"),
)

Event = Tuple[int, str]
State = Tuple[str, int, int]


# What a field must be, in the words of canhold (crates/kit_documents/src/field_words.rt); `[]` stands for a number.
RULES = {
    "toml": "must be a TOML document in UTF-8",
    "key": "a field at the top must be case or transcript",
    "case": "must be an array of at most 4096 tables, [[case]]",
    "transcript": "must be an array of at most 4096 tables, [[transcript]]",
    "case[]": "must be a table, [[case]]",
    "case[].key": "a field of this table must be version, name, family, purpose, start, needs, choices, bits, tester, "
    "offers, holds or forced",
    "case[].version": "must be 1",
    "case[].family": "must be 1 to 40 letters from a to z, digits and hyphens",
    "case[].name": "must begin with the family and a hyphen, have at most 80 letters a to z, digits and hyphens, "
    "and be new",
    "case[].purpose": "must be one line of at most 200 bytes",
    "case[].start": "must be 'idle' or 'joining'",
    "case[].needs": "must be some of 'forced', 'hold', 'queue', 'recovery', in this order, and include what the case "
    "uses",
    "case[].choices": "must be an array of names of choices, such as 'own-start'",
    "case[].bits": "must be 1 to 100000 bit times",
    "case[].tester": "must be an array of 1 to 4096 strings of levels, together one for each bit time",
    "case[].tester[]": "must be a string of levels, such as '1*9 0101'",
    "case[].offers": "must be an array of at most 256 elements [time, 'FRAME']",
    "case[].offers[]": "must be [time, 'FRAME'], with a time below bits and not before the preceding one",
    "case[].holds": "must be an array of at most 256 elements [time, n]",
    "case[].holds[]": "must be [time, n], n 0 to 2, with a time below bits and not before the preceding one",
    "case[].forced": "must be an array of at most 4096 times",
    "case[].forced[]": "must be a time below bits and after the preceding one, when the tester is recessive",
    "transcript[]": "must be a table, [[transcript]]",
    "transcript[].key": "a field of this table must be version, case, drove, events, counters or end",
    "transcript[].version": "must be 1",
    "transcript[].case": "must be the name of a case of the document that no earlier transcript has",
    "transcript[].drove": "must be an array of at most 4096 strings of levels, together at most 100000",
    "transcript[].drove[]": "must be a string of levels, such as '1*9 0101'",
    "transcript[].events": "must be an array of at most 100000 elements [time, 'EVENT']",
    "transcript[].events[]": "must be [time, 'EVENT'], with a time of at most 100000 and after the preceding one",
    "transcript[].counters": "must be an array of at most 100000 elements [time, TEC, REC]",
    "transcript[].counters[]": "must be [time, TEC, REC], at most 65535 each, with a time of at most 100000 and after "
    "the preceding one",
    "transcript[].end": "must be ['STATE', TEC, REC], STATE active, passive or off, and TEC and REC at most 65535",
}


class DocumentFault(Exception):
    """The first wrong field of a document, such as `P2 case[3].bits: must be 1 to 100000 bit times`."""

    def __init__(self, place: str) -> None:
        self.place = place
        rule = RULES[re.sub(r"\d+", "", place)]
        super().__init__(f"P2 {place}: {rule}")


@dataclass
class Case:
    """A test case: what the tester drives, and the frames and requests that the controller gets."""

    name: str
    family: str
    tester: list[tuple[str, str]]
    purpose: str = ""
    start: str = "idle"
    needs: list[str] = field(default_factory=list)
    choices: list[str] = field(default_factory=list)
    offers: list[tuple[int, str]] = field(default_factory=list)
    holds: list[tuple[int, int]] = field(default_factory=list)
    forced: list[int] = field(default_factory=list)

    @property
    def levels(self) -> str:
        """What the tester drives, a level for each bit time."""
        return "".join(levels for levels, _ in self.tester)


@dataclass
class Transcript:
    """What a controller did in a case. What it did not report is None."""

    case: str
    drove: str
    events: list[Event] | None = None
    counters: list[tuple[int, int, int]] | None = None
    end: State | None = None


def is_frame(text: object) -> bool:
    """Whether it is the text of a frame."""
    try:
        return isinstance(text, str) and Frame.parse(text) is not None
    except ValueError:
        return False


def is_event(text: object) -> bool:
    """Whether it is the text of an event."""
    if not isinstance(text, str):
        return False
    word, _, rest = text.partition(" ")
    if word in ("sent", "received"):
        return is_frame(rest)
    return text in _PLAIN_EVENTS


# Reading


def _require(holds: bool, place: str) -> None:
    if not holds:
        raise DocumentFault(place)


def _table_of(value: object, place: str) -> dict[str, Any]:
    if not isinstance(value, dict):
        raise DocumentFault(place)
    return value


def _list_of(value: object, place: str, least: int, most: int) -> list[Any]:
    if not isinstance(value, list) or not least <= len(value) <= most:
        raise DocumentFault(place)
    return value


def _is_number(value: object, least: int, most: int) -> bool:
    return isinstance(value, int) and not isinstance(value, bool) and least <= value <= most


def _strings(values: object, known: Iterable[str]) -> bool:
    order = list(known)
    if not isinstance(values, list) or not all(value in order for value in values):
        return False
    places = [order.index(value) for value in values]
    return all(one < other for one, other in zip(places, places[1:]))


def _levels_of(strings: object, place: str, least: int) -> list[tuple[str, str]]:
    read = []
    for index, text in enumerate(_list_of(strings, place, least, 4096)):
        try:
            read.append((read_levels(text), ""))
        except (ValueError, AttributeError):
            raise DocumentFault(f"{place}[{index}]") from None
    return read


def _rows(
    table: dict[str, Any], key: str, place: str, most: int, fits: Callable[[list[Any]], bool], strictly: bool
) -> list[Any]:
    """The rows of a list, whose first elements are times. They do not fall, or, strictly, they rise."""
    rows = _list_of(table.get(key, []), f"{place}.{key}", 0, most)
    last = -1 if strictly else 0
    for index, row in enumerate(rows):
        good = isinstance(row, list) and bool(row) and _is_number(row[0], 0, MOST_BITS) and fits(row)
        _require(good and (row[0] > last if strictly else row[0] >= last), f"{place}.{key}[{index}]")
        last = row[0]
    return [tuple(row) for row in rows]


def _read_case(value: object, place: str, names: dict[str, Case]) -> Case:
    table = _table_of(value, place)
    _require(all(key in _CASE_KEYS for key in table), f"{place}.key")
    _require(_is_number(table.get("version"), 1, 1), f"{place}.version")
    family, name = table.get("family"), table.get("name")
    _require(isinstance(family, str) and _FAMILY.fullmatch(family) is not None, f"{place}.family")
    good = isinstance(name, str) and _NAME.fullmatch(name) is not None and name not in names
    _require(good and str(name).startswith(f"{family}-"), f"{place}.name")
    purpose = table.get("purpose", "")
    good = isinstance(purpose, str) and len(purpose.encode()) <= 200 and "\n" not in purpose
    _require(good, f"{place}.purpose")
    _require(table.get("start") in ("idle", "joining"), f"{place}.start")
    needs, choices = table.get("needs", []), table.get("choices", [])
    _require(_strings(needs, NEEDS), f"{place}.needs")
    good = isinstance(choices, list) and all(choice in CHOICES for choice in choices)
    _require(good, f"{place}.choices")
    bits = table.get("bits")
    _require(_is_number(bits, 1, MOST_BITS), f"{place}.bits")
    tester = _levels_of(table.get("tester"), f"{place}.tester", 1)
    case = Case(str(name), str(family), tester, purpose, table["start"], needs, choices)
    _require(len(case.levels) == bits, f"{place}.tester")

    def is_offer(row: list[Any]) -> bool:
        return row[0] < len(case.levels) and len(row) == 2 and is_frame(row[1])

    def is_hold(row: list[Any]) -> bool:
        return row[0] < len(case.levels) and len(row) == 2 and _is_number(row[1], 0, 2)

    case.offers = _rows(table, "offers", place, 256, is_offer, False)
    case.holds = _rows(table, "holds", place, 256, is_hold, False)
    forced = _list_of(table.get("forced", []), f"{place}.forced", 0, 4096)
    for index, time in enumerate(forced):
        good = _is_number(time, 0, len(case.levels) - 1) and case.levels[time] == "1"
        _require(good and (index == 0 or time > forced[index - 1]), f"{place}.forced[{index}]")
    case.forced = forced
    asked = ("forced" in needs or not forced) and ("hold" in needs or not case.holds)
    _require(asked, f"{place}.needs")
    return case


def _is_count(row: list[Any]) -> bool:
    return len(row) == 3 and all(_is_number(number, 0, MOST_COUNT) for number in row[1:])


def _read_transcript(value: object, place: str, names: dict[str, Case], seen: dict[str, Any]) -> Transcript:
    table = _table_of(value, place)
    _require(all(key in _TRANSCRIPT_KEYS for key in table), f"{place}.key")
    _require(_is_number(table.get("version"), 1, 1), f"{place}.version")
    name = table.get("case")
    _require(isinstance(name, str) and name in names and name not in seen, f"{place}.case")
    drove = "".join(levels for levels, _ in _levels_of(table.get("drove"), f"{place}.drove", 0))
    _require(len(drove) <= MOST_BITS, f"{place}.drove")
    transcript = Transcript(str(name), drove)
    if "events" in table:
        rows = _rows(table, "events", place, MOST_BITS, lambda row: len(row) == 2 and is_event(row[1]), True)
        transcript.events = rows
    if "counters" in table:
        transcript.counters = _rows(table, "counters", place, MOST_BITS, _is_count, True)
    if "end" in table:
        end = table["end"]
        good = isinstance(end, list) and len(end) == 3 and end[0] in ("active", "passive", "off")
        _require(good and all(_is_number(it, 0, MOST_COUNT) for it in end[1:]), f"{place}.end")
        transcript.end = (end[0], end[1], end[2])
    return transcript


def read_document(text: str, known: Iterable[Case] = ()) -> tuple[list[Case], list[Transcript]]:
    """The cases and transcripts of a document. Transcripts may also name the cases that are known.

    Raises DocumentFault with the first wrong field.
    """
    try:
        document = loads(text)
    except (ValueError, RecursionError):
        raise DocumentFault("toml") from None
    _require(all(key in ("case", "transcript") for key in document), "key")
    for key in ("case", "transcript"):
        _list_of(document.get(key, []), key, 0, MOST_CASES)
    names: dict[str, Case] = {}
    for index, table in enumerate(document.get("case", [])):
        case = _read_case(table, f"case[{index}]", names)
        names[case.name] = case
    reachable = {**{case.name: case for case in known}, **names}
    transcripts: dict[str, Transcript] = {}
    for index, table in enumerate(document.get("transcript", [])):
        transcript = _read_transcript(table, f"transcript[{index}]", reachable, transcripts)
        transcripts[transcript.case] = transcript
    return list(names.values()), list(transcripts.values())


# Writing


def _array(values: Iterable[str]) -> str:
    return "[" + ", ".join(values) + "]"


def _long_array(key: str, values: list[str]) -> list[str]:
    if not values:
        return [f"{key} = []"]
    return [f"{key} = ["] + [f"    {value}," for value in values] + ["]"]


def _quoted(text: str) -> str:
    return '"' + text.replace("\\", "\\\\").replace('"', '\\"') + '"'


def write_case(case: Case) -> str:
    """The case as a table of a document. Strings of levels have their bit time and comment."""
    lines = ["[[case]]", "version = 1", f"name = {_quoted(case.name)}", f"family = {_quoted(case.family)}"]
    if case.purpose:
        lines.append(f"purpose = {_quoted(case.purpose)}")
    lines.append(f"start = {_quoted(case.start)}")
    for key, words in (("needs", case.needs), ("choices", case.choices)):
        if words:
            lines.append(f"{key} = {_array(map(_quoted, words))}")
    lines += [f"bits = {len(case.levels)}", "tester = ["]
    time = 0
    for levels, comment in case.tester:
        note = f"  # {time}: {comment}" if comment else ""
        lines.append(f"    {_quoted(write_levels(levels))},{note}")
        time += len(levels)
    lines.append("]")
    if case.offers:
        lines += _long_array("offers", [f"[{time}, {_quoted(frame)}]" for time, frame in case.offers])
    if case.holds:
        lines.append(f"holds = {_array(f'[{time}, {overloads}]' for time, overloads in case.holds)}")
    if case.forced:
        lines.append(f"forced = {_array(map(str, case.forced))}")
    return "\n".join(lines) + "\n"


def write_transcript(transcript: Transcript) -> str:
    """The transcript as a table of a document. What was not reported is left out."""
    lines = ["[[transcript]]", "version = 1", f"case = {_quoted(transcript.case)}"]
    lines.append(f"drove = [{_quoted(write_levels(transcript.drove))}]")
    if transcript.events is not None:
        lines += _long_array("events", [f"[{time}, {_quoted(event)}]" for time, event in transcript.events])
    if transcript.counters is not None:
        lines.append(f"counters = {_array(f'[{time}, {tec}, {rec}]' for time, tec, rec in transcript.counters)}")
    if transcript.end is not None:
        state, tec, rec = transcript.end
        lines.append(f"end = [{_quoted(state)}, {tec}, {rec}]")
    return "\n".join(lines) + "\n"
