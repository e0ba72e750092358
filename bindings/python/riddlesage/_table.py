"""Reads a table in CSV: periods, jitters and deadlines of messages, by name or identifier."""

from __future__ import annotations

import csv
import re
from collections.abc import Iterator
from typing import NamedTuple

from riddlesage._dbc import Database, Message
from riddlesage._frames import RiddlesageError

_KEYS, _TIMES = ("name", "identifier"), ("period", "jitter", "deadline")
# The delimiters of tables; the first one that the header has is used.
_DELIMITERS = ";\t,"
_NUMBER = re.compile("[0-9]{1,18}")
_IDENTIFIER = re.compile("(?:0[xX](?P<any>[0-9A-Fa-f]{1,8})|S (?P<S>[0-9A-Fa-f]{3})|E (?P<E>[0-9A-Fa-f]{8}))")


class BadTable(RiddlesageError, ValueError):
    """The text is not such a table. `faults` has the number of each wrong line, and why it is wrong."""

    def __init__(self, faults: list[tuple[int, str]]) -> None:
        super().__init__("; ".join(f"line {line}: {why}" for line, why in faults))
        self.faults = faults

    def __reduce__(self) -> tuple[type[BadTable], tuple[list[tuple[int, str]]]]:
        """How it is rebuilt when it is unpickled or copied."""
        return type(self), (self.faults,)


class Times(NamedTuple):
    """Times of messages in microseconds, by name."""

    periods: dict[str, int]
    jitters: dict[str, int]
    deadlines: dict[str, int]


def read_table(text: str, database: Database) -> Times:
    """The times in a table. Its first line names the columns, in any order; the others are not read.

    The columns `name` and `identifier` (such as `0x100`, `S 100` or `E 18fef201`) say which message a line is of; one
    of them suffices. `period`, `jitter` and `deadline` are in microseconds, or empty. A line of a message that the
    database leaves out has no effect. If something cannot be read, it raises BadTable, a ValueError.
    """
    reader, times = _Reader(database), Times({}, {}, {})
    lines = _lines(text)
    header = [word.strip().lower() for word in next(lines, (1, []))[1]]
    if not set(_KEYS).intersection(header) or not set(_TIMES).intersection(header):
        raise BadTable([(1, f"the first line must name a column {_or(_KEYS)}, and a column {_or(_TIMES)}")])
    faults = [(1, f"column {word} is there twice") for word in _KEYS + _TIMES if header.count(word) > 1]
    for line, words in lines:
        row = dict(zip(header, (word.strip() for word in words)))
        try:
            if len(words) > len(header):
                raise ValueError(f"it has {len(words)} fields, and the first line {len(header)}")
            message = reader.message(line, row)
            for column, of in zip(_TIMES, times):
                if message and row.get(column):
                    of[message.name] = _time(column, row[column])
        except ValueError as wrong:
            faults.append((line, str(wrong)))
    if faults:
        raise BadTable(faults)
    return times


def _lines(text: str) -> Iterator[tuple[int, list[str]]]:
    """The fields of each line that is not empty, with its number."""
    rows = text.splitlines()
    header = rows[0] if rows else ""
    delimiter = next((it for it in _DELIMITERS if it in header), ",")
    reader = csv.reader(rows, delimiter=delimiter)
    return ((reader.line_num, words) for words in reader if any(word.strip() for word in words))


def _or(words: tuple[str, ...]) -> str:
    return f"{', '.join(words[:-1])} or {words[-1]}"


def _time(column: str, text: str) -> int:
    if not _NUMBER.fullmatch(text):
        raise ValueError(f"{column} is not a whole number of microseconds: {text}")
    return int(text)


class _Reader:
    """Finds the messages of lines."""

    def __init__(self, database: Database) -> None:
        self._names = {it.short: it for it in database.messages if it.short}
        self._names.update((it.name, it) for it in database.messages)
        self._identifiers = {(it.frame.extended, it.frame.identifier): it for it in database.messages}
        self._left_out = {it.name for it in database.left_out}
        self._numbers_left_out = {it.number for it in database.left_out}
        self._earlier: dict[str, int] = {}

    def message(self, line: int, row: dict[str, str]) -> Message | None:
        """The message of a line, or None if the database leaves it out."""
        name, identifier = row.get("name", ""), row.get("identifier", "")
        if not name and not identifier:
            raise ValueError("it names no message")
        found = {self._by_name(name)} if name else set()
        if identifier:
            found.add(self._by_identifier(identifier))
        if len(found) > 1:
            raise ValueError(f"{identifier} is not the identifier of {name}")
        message = found.pop()
        if message is None:
            return None
        if message.name in self._earlier:
            raise ValueError(f"message {message.name} is also in line {self._earlier[message.name]}")
        self._earlier[message.name] = line
        return message

    def _by_name(self, name: str) -> Message | None:
        if name not in self._names and name not in self._left_out:
            raise ValueError(f"there is no message {name}")
        return self._names.get(name)

    def _by_identifier(self, text: str) -> Message | None:
        found = _IDENTIFIER.fullmatch(text)
        if not found:
            raise ValueError(f"this is not an identifier, such as 0x100, S 100 or E 18fef201: {text}")
        number = int(found["any"] or found["S"] or found["E"], 16)
        kinds = (False, True) if found["any"] else (bool(found["E"]),)
        messages = [self._identifiers[kind, number] for kind in kinds if (kind, number) in self._identifiers]
        if len(messages) > 1:
            raise ValueError(f"{text} is a standard and an extended identifier; write S {number:03x} or E {number:08x}")
        if not messages and number not in self._numbers_left_out:
            raise ValueError(f"there is no message with the identifier {text}")
        return messages[0] if messages else None
