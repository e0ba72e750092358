"""Reads a DBC file: its messages, with what a network needs to know of them."""

from __future__ import annotations

import decimal
import re
from collections.abc import Iterable, Iterator
from typing import NamedTuple

from riddlesage._frames import Frame, RiddlesageError

# The statements that end with their line, and those that end with a semicolon.
_LINES = frozenset("VERSION NS_ BS_ BU_ BO_ SG_".split())
_OTHERS = frozenset(
    "NS_DESC_ CM_ BA_ BA_DEF_ BA_DEF_DEF_ BA_DEF_REL_ BA_DEF_DEF_REL_ BA_DEF_SGTYPE_ BA_REL_ BA_SGTYPE_ BO_TX_BU_ "
    "BU_BO_REL_ BU_EV_REL_ BU_SG_REL_ CAT_ CAT_DEF_ ENVVAR_DATA_ EV_ EV_DATA_ FILTER SGTYPE_ SGTYPE_VAL_ "
    "SGTYPE_VALTYPE_ SG_MUL_VAL_ SIG_GROUP_ SIG_TYPE_REF_ SIG_VALTYPE_ SIGTYPE_VALTYPE_ VAL_ VAL_TABLE_".split()
)
_STRING = re.compile(r'"(?:[^"\\]|\\.)*"', re.DOTALL)
_KEYWORD = re.compile(r"\s*([A-Z][A-Z_]*)(?=\s|:|$)")

_CYCLE, _FAST, _DELAY = "GenMsgCycleTime", "GenMsgCycleTimeFast", "GenMsgDelayTime"
_SENDING, _FORMAT = "GenMsgSendType", "VFrameFormat"
_LONG_NAME, _LONG_NODE = "SystemMessageLongSymbol", "SystemNodeLongSymbol"
_NAMED = rf'"({_CYCLE}|{_FAST}|{_DELAY}|{_SENDING}|{_FORMAT}|{_LONG_NAME})"'
_WORD = r"[^\s:,;\x00-\x1f\x7f]+"
_VALUE = r'("[^"]*"|[^\s";]+)'
_MESSAGE = re.compile(rf"BO_\s+(\d{{1,10}})\s+({_WORD})\s*:\s*(\d{{1,4}})(?:\s+({_WORD}))?")
_DEFINITION = re.compile(rf"BA_DEF_\s+BO_\s+{_NAMED}\s+(\w+)\s*(.*);", re.DOTALL)
_DEFAULT = re.compile(rf"BA_DEF_DEF_\s+{_NAMED}\s+{_VALUE}\s*;")
_ATTRIBUTE = re.compile(rf"BA_\s+{_NAMED}\s+BO_\s+(\d{{1,10}})\s+{_VALUE}\s*;")
_NODE = re.compile(rf'BA_\s+"{_LONG_NODE}"\s+BU_\s+({_WORD})\s+"([^"]*)"\s*;')
_SENDERS = re.compile(rf"BO_TX_BU_\s+(\d{{1,10}})\s*:?\s*({_WORD}(?:[\s,]+{_WORD})*)\s*;")
# A statement that begins like the first pattern has to match the second.
_READ = {
    "BO_": (re.compile("BO_"), _MESSAGE),
    "BA_DEF_": (re.compile(rf"BA_DEF_\s+BO_\s+{_NAMED}"), _DEFINITION),
    "BA_DEF_DEF_": (re.compile(rf"BA_DEF_DEF_\s+{_NAMED}"), _DEFAULT),
    "BA_": (re.compile(rf"BA_\s+{_NAMED}"), _ATTRIBUTE),
    "BO_TX_BU_": (re.compile("BO_TX_BU_"), _SENDERS),
}

# The message of the signals that are in no message.
_NO_MESSAGE = "VECTOR__INDEPENDENT_SIG_MSG"
_NO_SENDER = "Vector__XXX"
# The names that canplan accepts.
_ACCEPTED = re.compile(r"[ !#-\[\]-~]{1,64}")
# This bit marks an extended identifier.
_EXTENDED = 1 << 31
_MOST_BYTES = 8
_MOST_CYCLE = 10**9


class BadDatabase(RiddlesageError, ValueError):
    """The text is not a DBC file of classical CAN. `faults` has the number of each wrong line, and why it is wrong."""

    def __init__(self, faults: list[tuple[int, str]]) -> None:
        super().__init__("; ".join(f"line {line}: {why}" for line, why in faults))
        self.faults = faults

    def __reduce__(self) -> tuple[type[BadDatabase], tuple[list[tuple[int, str]]]]:
        """How it is rebuilt when it is unpickled or copied."""
        return type(self), (self.faults,)


class _Fault(ValueError):
    """A line is wrong, and why."""

    def __init__(self, line: int, why: str) -> None:
        super().__init__(why)
        self.line = line


class Message(NamedTuple):
    """A message: the line of its `BO_`, its name, its sender, and a frame of it.

    Times are in microseconds, or 0 if the file has none: `cycle` is the cycle time, `fast` the fast cycle time, `delay`
    the least delay between two frames. `sending` is the send type, or empty; `senders` the number of senders. `short`
    is the name in the line of `BO_` if an attribute gives a longer one.
    """

    line: int
    name: str
    sender: str
    frame: Frame
    cycle: int
    sending: str
    senders: int
    fast: int = 0
    delay: int = 0
    short: str = ""

    @property
    def is_cyclic(self) -> bool:
        """Whether the send type says that time alone releases its frames."""
        return self.sending.lower() in ("cyclic", "cyclicx")

    @property
    def distance(self) -> int:
        """The shortest time between two releases that the file states, in microseconds; 0 if it states none.

        That is the shorter cycle time. The delay time counts too, unless the message is cyclic: an event may release a
        frame as soon as the delay is over.
        """
        times = (self.cycle, self.fast, 0 if self.is_cyclic else self.delay)
        return min((time for time in times if time), default=0)


class LeftOut(NamedTuple):
    """A message that is left out: the line of its `BO_`, its name, and why; without a reason if that was asked for.

    `number` is its identifier.
    """

    line: int
    name: str
    why: str
    number: int


class Database(NamedTuple):
    """The messages of a DBC file, and those that are left out, both in the order of the file."""

    messages: list[Message]
    left_out: list[LeftOut]


class _Statement(NamedTuple):
    line: int
    keyword: str
    text: str


def _keyword(line: str) -> str | None:
    """The keyword of the statement that a line begins, if it begins one."""
    found = _KEYWORD.match(line)
    return found[1] if found and (found[1] in _LINES or found[1] in _OTHERS) else None


def _is_ended(keyword: str, lines: list[str]) -> bool:
    """Whether a statement is complete. A keyword alone is one of the list of `NS_`.

    A comment may contain quotes and semicolons: it ends with a line that ends with one of each.
    """
    last = lines[-1].strip()
    if keyword in _LINES or lines[0].strip() == keyword:
        return True
    if keyword == "CM_" and last == ";":
        last = next((line for line in reversed(lines[:-1]) if line.strip()), "").rstrip() + last
    return last.endswith(";") and (keyword != "CM_" or last[:-1].rstrip().endswith('"'))


def _is_quoted(line: str) -> bool:
    """Whether a line opens or closes a string that contains a line end."""
    return (line.count('"') - line.count('\\"')) % 2 == 1


def _is_doubtful(lines: list[str]) -> bool:
    """Whether a statement may contain another one, and its quotes do not decide it."""
    if not any(map(_keyword, lines[1:])):
        return False
    without = _STRING.sub('""', "\n".join(lines))
    return without.count('"') % 2 == 1 or re.search(r'""\w', without) is not None


def _statements(text: str, faults: list[tuple[int, str]]) -> Iterator[_Statement]:
    """The statements of a text. A line outside all statements is a fault."""
    rest = text.replace("\r\n", "\n").replace("\r", "\n").split("\n")
    place = 0
    while place < len(rest):
        lines, begun, keyword = [rest[place]], place + 1, _keyword(rest[place])
        place += 1
        if keyword is None:
            line = lines[0].strip()
            if line and not _KEYWORD.fullmatch(line):
                faults.append((begun, f"this is not a statement of a DBC file: {line[:40]}"))
            continue
        quoted = _is_quoted(lines[0])
        while not _is_ended(keyword, lines):
            if place == len(rest) or (_keyword(rest[place]) and not quoted):
                faults.append((begun, f"this {keyword} does not end"))
                break
            lines.append(rest[place])
            quoted ^= _is_quoted(rest[place])
            place += 1
        else:
            if _is_doubtful(lines):
                faults.append((begun, f"the quotes of this {keyword} leave open where it ends"))
            yield _Statement(begun, keyword, "\n".join(lines).strip())


class _NotClassical(ValueError):
    """A message has no classical frame, and why."""


class _Found(NamedTuple):
    """What a line of `BO_` says of a message: the line, its names, its sender, and its size in bytes."""

    line: int
    name: str
    sender: str
    size: int


class _Reader:
    """Collects statements, and makes messages from them."""

    def __init__(self, without: frozenset[str], classical: bool) -> None:
        self.faults: list[tuple[int, str]] = []
        self.left_out: list[LeftOut] = []
        self.unknown = set(without)
        self._without, self._classical = without, classical
        self._found: dict[int, _Found] = {}
        self._enumerations: dict[str, list[str]] = {}
        self._defaults: dict[str, tuple[int, str]] = {}
        self._attributes: dict[tuple[str, int], tuple[int, str]] = {}
        self._nodes: dict[str, str] = {}
        self._senders: dict[int, int] = {}

    def take(self, statement: _Statement) -> None:
        """Adds a statement, if it is one of those that are needed."""
        line, keyword, text = statement
        node = _NODE.fullmatch(text) if keyword == "BA_" else None
        if node:
            self._nodes[node[1]] = node[2]
            return
        begin, whole = _READ.get(keyword, (None, None))
        if begin is None or whole is None or text == keyword or not begin.match(text):
            return
        found = whole.fullmatch(text)
        if not found:
            raise _Fault(line, f"this {keyword} cannot be read: {text[:60]}")
        if keyword == "BO_":
            self._take_message(line, *found.groups(""))
        elif keyword == "BA_DEF_":
            self._enumerations[found[1]] = re.findall(r'"([^"]*)"', found[3]) if found[2] == "ENUM" else []
        elif keyword == "BA_DEF_DEF_":
            self._defaults[found[1]] = (line, found[2])
        elif keyword == "BA_":
            self._attributes[found[1], int(found[2])] = (line, found[3])
        else:
            self._senders[int(found[1])] = len(set(re.split(r"[\s,]+", found[2])))

    def _take_message(self, line: int, number: str, name: str, size: str, sender: str) -> None:
        self.unknown.discard(name)
        if name == _NO_MESSAGE:
            return
        if name in self._without:
            self.left_out.append(LeftOut(line, name, "", int(number) & ~_EXTENDED))
            return
        place = int(number)
        if place in self._found:
            other = self._found[place]
            raise _Fault(line, f"message {name} has the same identifier as {other.name}, line {other.line}")
        self._found[place] = _Found(line, name, "" if sender == _NO_SENDER else sender, int(size))

    def _value(self, name: str, place: int) -> tuple[int, str]:
        """The value of an attribute of a message, and the line that gives it."""
        line, value = self._attributes.get((name, place)) or self._defaults.get(name) or (0, "")
        words = self._enumerations.get(name)
        if words and re.fullmatch("[0-9]{1,9}", value):
            if int(value) >= len(words):
                raise _Fault(line, f"{name} has no value number {value}")
            return line, words[int(value)]
        return line, value.strip('"')

    def _time(self, name: str, place: int, message: str) -> int:
        """The value of an attribute in milliseconds, in microseconds; 0 without it."""
        line, given = self._value(name, place)
        try:
            time = decimal.Decimal(given or "0")
            if not 0 <= time < _MOST_CYCLE:
                raise ValueError
        except (ArithmeticError, ValueError) as wrong:
            raise _Fault(line, f"{name} of {message} is not a number of milliseconds: {given}") from wrong
        return int(time * 1000)

    def _frame(self, place: int, name: str) -> Frame:
        """A frame of the message with this number."""
        line, size = self._found[place].line, self._found[place].size
        try:
            frame = Frame(place & ~_EXTENDED, b"", bool(place & _EXTENDED))
        except ValueError as refused:
            raise _Fault(line, f"message {name} has no valid identifier: {place} ({refused})") from refused
        if size > _MOST_BYTES:
            raise _NotClassical(
                f"{name} has {size} bytes; a classical frame has at most {_MOST_BYTES}: "
                "it is of CAN FD, or sent in parts"
            )
        if self._value(_FORMAT, place)[1].endswith("_FD"):
            raise _NotClassical(f"{name} is of CAN FD, according to {_FORMAT}")
        return Frame(frame.identifier, bytes(size), frame.extended)

    def _message(self, place: int, name: str) -> Message:
        """The message with this number, from all statements about it."""
        line, short, sender, _ = self._found[place]
        frame = self._frame(place, name)
        cycle, fast, delay = (self._time(attribute, place, name) for attribute in (_CYCLE, _FAST, _DELAY))
        return Message(
            line,
            name,
            self._nodes.get(sender) or sender,
            frame,
            cycle,
            self._value(_SENDING, place)[1],
            self._senders.get(place, 1),
            fast,
            delay,
            "" if short == name else short,
        )

    def messages(self) -> Iterator[Message]:
        """The messages in the order of the file."""
        for place, (line, short, _, _) in self._found.items():
            name = short
            try:
                name = self._value(_LONG_NAME, place)[1] or short
                self.unknown.discard(name)
                if name in self._without:
                    self.left_out.append(LeftOut(line, name, "", place & ~_EXTENDED))
                else:
                    yield self._message(place, name)
            except _NotClassical as other:
                if self._classical:
                    self.left_out.append(LeftOut(line, name, str(other), place & ~_EXTENDED))
                else:
                    self.faults.append((line, f"message {other}"))
            except _Fault as fault:
                self.faults.append((fault.line, str(fault)))


def text_of(document: bytes, encoding: str | None = None) -> str:
    """Decodes a file: from `encoding`; without it from UTF-8, or if it is not UTF-8, from Windows-1252."""
    try:
        if encoding is None:
            try:
                return document.decode("utf-8-sig")
            except UnicodeDecodeError:
                return document.decode("cp1252")
        return document.decode(encoding).lstrip("\ufeff")
    except UnicodeDecodeError as wrong:
        line = document.count(b"\n", 0, wrong.start) + 1
        raise BadDatabase([(line, f"this is not {wrong.encoding} text; --encoding names another encoding")]) from wrong


def read_database(text: str, without: Iterable[str] = (), *, classical: bool = False) -> Database:
    """The messages of a DBC file, and those that are left out: the ones named in `without`.

    If `classical` is set, a message that has no classical frame is left out too; otherwise it cannot be read. If
    something cannot be read, it raises BadDatabase, a ValueError; if a name is that of no message, LookupError.
    """
    reader = _Reader(frozenset(without), classical)
    for statement in _statements(text, reader.faults):
        try:
            reader.take(statement)
        except _Fault as fault:
            reader.faults.append((fault.line, str(fault)))
    messages = list(reader.messages())
    if reader.faults:
        raise BadDatabase(sorted(set(reader.faults)))
    for name in sorted(reader.unknown):
        raise LookupError(f"there is no message {name}")
    return Database(messages, sorted(reader.left_out))


def read(text: str, without: Iterable[str] = ()) -> list[Message]:
    """The messages of a DBC file, except those named in `without`; it raises what `read_database` raises."""
    return read_database(text, without).messages
