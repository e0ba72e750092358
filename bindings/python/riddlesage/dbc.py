"""Converts a DBC file to a network, the document that `canplan` reads.

    python3 -m riddlesage.dbc FILE --bitrate 500000 > network.toml

The messages are those of `BO_`, their periods those of the attribute GenMsgCycleTime, or of GenMsgCycleTimeFast or
GenMsgDelayTime if frames may come sooner. Options and a table in CSV give what the file cannot say; defaults that are
used instead are reported on standard error. Each line that cannot be read is reported.
"""

from __future__ import annotations

import argparse
import codecs
import re
import sys
from collections.abc import Iterable, Iterator, Mapping, Sequence
from typing import NamedTuple

from riddlesage._commands import Refusals, end_with, opened
from riddlesage._dbc import BadDatabase, Database, LeftOut, Message, read, read_database, text_of
from riddlesage._table import BadTable, Times, read_table

__all__ = [
    "Asked",
    "BadDatabase",
    "BadTable",
    "Database",
    "LeftOut",
    "Message",
    "main",
    "network",
    "read",
    "read_database",
    "read_table",
    "text_of",
]

# The names that canplan accepts.
_ACCEPTED = re.compile(r"[ !#-\[\]-~]{1,64}")


class Asked(NamedTuple):
    """What a DBC file does not say. Times are in microseconds, by message name; those of `""` are for all others.

    A period for a message's name replaces that of the file; one for all others is for messages for which it has none.
    `errors` is the error model of canplan: burst and spacing.
    """

    bitrate: int
    periods: Mapping[str, int] = {}
    jitters: Mapping[str, int] = {}
    deadlines: Mapping[str, int] = {}
    errors: tuple[int, int] | None = None

    def period(self, message: Message) -> int:
        """The period of a message, or 0 if it has none."""
        return self.periods.get(message.name, message.distance or self.periods.get("", 0))


def network(messages: Iterable[Message], asked: Asked) -> str:
    """The document of a network, in TOML, with the messages that have a period."""
    lines = ["version = 1", f"rate = {asked.bitrate}"]
    if asked.errors is not None:
        lines += ["", "[errors]", f"burst = {asked.errors[0]}", f"spacing = {asked.errors[1]}"]
    planned = [message for message in messages if asked.period(message)]
    unnamed = _unnamed(planned)
    for message in planned:
        lines += ["", *_message_lines(message, asked, message not in unnamed)]
    return "\n".join(lines) + "\n"


def _unnamed(messages: Sequence[Message]) -> list[Message]:
    """The messages whose names canplan would refuse: for a character, for their length, or as a repeated name."""
    earlier: set[str] = set()
    unnamed = []
    for message in messages:
        if message.name in earlier or not _ACCEPTED.fullmatch(message.name):
            unnamed.append(message)
        earlier.add(message.name)
    return unnamed


def _message_lines(message: Message, asked: Asked, is_named: bool) -> Iterator[str]:
    """The lines of a message, with its sender in a comment, and its name too if canplan would refuse it."""
    comment = [message.name] * (not is_named) + [f"sent by {message.sender}"] * bool(message.sender)
    if comment:
        yield f"# {', '.join(comment)}"
    yield "[[message]]"
    if is_named:
        yield f'name = "{message.name}"'
    yield 'frame = "' + " ".join(message.frame.text.split(" ")[:3]) + '"'
    yield f"dlc = {message.frame.dlc}"
    yield f"period = {asked.period(message)}"
    for field, times in (("jitter", asked.jitters), ("deadline", asked.deadlines)):
        time = times.get(message.name, times.get(""))
        if time is not None:
            yield f"{field} = {time}"


def _notes(file: str, database: Database, asked: Asked) -> Iterator[str]:
    """The notes on what is left out, what the bounds do not cover, and which defaults are used."""
    for it in database.left_out:
        if it.why:
            yield f"{file}:{it.line}: {it.why}; it is left out"
    left_out = [message for message in database.messages if not asked.period(message)]
    for message in left_out:
        wish = f"--period {message.name}=MICROSECONDS"
        yield f"{file}:{message.line}: {message.name} has no cycle time, and is left out; {wish} gives it a period"
    planned = [message for message in database.messages if asked.period(message)]
    for message in planned:
        if message.senders > 1:
            senders = f"{message.name} has {message.senders} senders"
            yield f"{file}:{message.line}: {senders}; the bounds of canplan hold for one sender"
    for message in _unnamed(planned):
        yield f"{file}:{message.line}: canplan would refuse the name {message.name}; it is in a comment"
    yield from _notes_on_periods(file, [it for it in planned if it.name not in asked.periods and it.distance])
    taken = [] if asked.jitters else ["jitter 0"]
    taken += [] if asked.deadlines else ["the period as deadline"]
    taken += [] if asked.errors else ["no bit errors"]
    counts = f"{len(planned)} messages, {len(left_out) + len(database.left_out)} left out"
    yield f"{file}: {counts}" + (f"; assumed: {', '.join(taken)}" if taken else "")


def _notes_on_periods(file: str, messages: Sequence[Message]) -> Iterator[str]:
    """The notes on periods that are not cycle times, and on messages that may come sooner than their period."""
    fast = [it for it in messages if it.distance == it.fast != it.cycle]
    delayed = [it for it in messages if it.distance not in (it.cycle, it.fast)]
    for kind, those in (("fast cycle time", fast), ("delay time", delayed)):
        if those:
            yield f"{file}: the period is the {kind}: {_names(those)}"
    sooner = [it for it in messages if it.sending and not it.is_cyclic and not it.delay]
    for sending in sorted({it.sending for it in sooner}):
        names = _names(it for it in sooner if it.sending == sending)
        yield f"{file}: assumed to be at least a cycle time apart, despite send type {sending}: {names}"


def _names(messages: Iterable[Message]) -> str:
    return ", ".join(message.name for message in messages)


def _number(text: str) -> int:
    if not re.fullmatch("[0-9]{1,18}", text):
        raise argparse.ArgumentTypeError(f"{text!r} is not a whole number")
    return int(text)


def _timed(text: str) -> tuple[str, int]:
    name, _, number = text.rpartition("=")
    return name, _number(number)


def _encoding(text: str) -> str:
    try:
        return codecs.lookup(text).name
    except LookupError as wrong:
        raise argparse.ArgumentTypeError(f"there is no encoding {text!r}") from wrong


def _parser() -> argparse.ArgumentParser:
    parser = argparse.ArgumentParser(
        prog="python3 -m riddlesage.dbc",
        description="Converts a DBC file to a network, a document for canplan. Periods are those of GenMsgCycleTime, "
        "or shorter ones of GenMsgCycleTimeFast and GenMsgDelayTime; a message without one is left out, and reported.",
        epilog="A line that cannot be read, or has no classical frame, is reported; then nothing is written, and the "
        "exit status is 1.",
    )
    add = parser.add_argument
    add("file", metavar="FILE", help="the DBC file, or - for standard input")
    add("--bitrate", type=_number, required=True, metavar="N", help="bit rate, in bits per second")
    for word, what in (
        ("period", "the period of a message, in place of its cycle time; without NAME, of all that have none"),
        ("jitter", "the longest time from release to queuing of a frame; without NAME, of all other messages"),
        ("deadline", "the time from its release by which a frame is to have ended; without NAME, of all others"),
    ):
        add(f"--{word}", type=_timed, action="append", default=[], metavar="[NAME=]MICROSECONDS", help=what)
    add("--burst", type=_number, metavar="N", help="error model: the most bit errors at once")
    add("--spacing", type=_number, metavar="MICROSECONDS", help="error model: one more bit error per this time")
    add("--table", metavar="CSV", help="a table of periods, jitters and deadlines, by name or identifier")
    add("--without", action="append", default=[], metavar="NAME", help="leaves this message out")
    add("--classical", action="store_true", help="leaves out, and lists, what is no classical frame")
    add("--encoding", type=_encoding, metavar="NAME", help="encoding of the file; default UTF-8, or Windows-1252")
    return parser


def _asked(
    parser: argparse.ArgumentParser, options: argparse.Namespace, messages: Sequence[Message], table: Times
) -> Asked:
    """The options as Asked, and the table for what they do not give. A name that is of no message is an error."""
    names = {it.short: it.name for it in messages if it.short} | {it.name: it.name for it in messages} | {"": ""}
    given: list[dict[str, int]] = []
    for option, times in zip((options.period, options.jitter, options.deadline), table):
        for name in sorted({name for name, _ in option} - set(names)):
            parser.error(f"there is no message {name}")
        given.append({**times, **{names[name]: time for name, time in option}})
    periods, jitters, deadlines = given
    errors = None if options.burst is options.spacing is None else (options.burst or 0, options.spacing or 0)
    return Asked(options.bitrate, periods, jitters, deadlines, errors)


def _bytes_of(file: str) -> bytes:
    with opened(file) as given:
        return given.read()


def _refused(file: str, faults: Iterable[tuple[int, str]]) -> int:
    """Reports the wrong lines of a file, and returns the exit status."""
    refusals = Refusals(file)
    for line, why in faults:
        refusals.add(line, why)
    return refusals.end()


def main(words: Sequence[str] | None = None) -> int:
    """Writes the network of a DBC file, and reports what is left out and which defaults are used."""
    parser = _parser()
    options = parser.parse_args(words)
    if not options.bitrate:
        parser.error("the bit rate must be above 0")
    table = Times({}, {}, {})
    try:
        text = text_of(_bytes_of(options.file), options.encoding)
        database = read_database(text, options.without, classical=options.classical)
        if options.table:
            table = read_table(text_of(_bytes_of(options.table)), database)
    except BadTable as wrong:
        return _refused(options.table, wrong.faults)
    except BadDatabase as wrong:
        return _refused(options.file, wrong.faults)
    except LookupError as unknown:
        parser.error(str(unknown.args[0]))
    asked = _asked(parser, options, database.messages, table)
    file = Refusals(options.file).file
    for note in _notes(file, database, asked):
        print(note, file=sys.stderr)
    if not any(map(asked.period, database.messages)):
        print(f"{file}: no message has a period", file=sys.stderr)
        return 1
    sys.stdout.buffer.write(network(database.messages, asked).encode("utf-8"))
    return 0


if __name__ == "__main__":
    end_with(main)
