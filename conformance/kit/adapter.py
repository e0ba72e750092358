"""Speaks the line protocol with an adapter, a program with the controller under test inside or connected to it."""

from __future__ import annotations

import os
import selectors
import signal
import subprocess
import time
from typing import IO, Sequence

from .documents import Event, State, is_event

LONGEST_LINE = 8192
MOST_LEVELS = 4096
GREETING_SECONDS = 60.0
ANSWER_SECONDS = 10.0
SECONDS_A_LEVEL = 0.001
ENDING_SECONDS = 2.0
MOST_SHOWN = 60
MOST_DIGITS = 9
EVENT_EXAMPLES = "an event such as 'stuff error', 'sent S 123 R 0' or 'received E 12345678 D 1 c3'"


class Void(Exception):
    """The case can't be judged. The reason is the exception's text."""


class Skip(Exception):
    """The adapter does not play the case. The reason is the exception's text."""


class NotStarted(OSError):
    """The adapter's command can't be started. The reason is the exception's text."""


def _unexpected(line: bytes, expected: str) -> Void:
    """Makes the case void: an unexpected reply. The reason shows the line, or its first bytes if it is long."""
    text = ascii(line[:MOST_SHOWN].decode("latin-1")) + (" .." if len(line) > MOST_SHOWN else "")
    return Void(f"protocol: {text}, expected {expected}")


def _is_number(word: str) -> bool:
    """Whether it is a number that an adapter may reply with: digits, and no more than any reply needs."""
    return word.isdigit() and len(word) <= MOST_DIGITS


class Adapter:
    """A running adapter.

    After a Void it has to be closed, and another one started. A carriage return before the line ends of its output is
    ignored.
    """

    def __init__(self, command: Sequence[str], errors: IO[str] | None = None) -> None:
        """Starts it in a session of its own, so that it can be ended together with all that it starts.

        Its standard error is the runner's, or goes to a file. Raises NotStarted.
        """
        try:
            self._process = subprocess.Popen(
                list(command), stdin=subprocess.PIPE, stdout=subprocess.PIPE, stderr=errors, start_new_session=True
            )
        except OSError as reason:
            raise NotStarted(f"the adapter can't be started: {reason}") from None
        self._selector = selectors.DefaultSelector()
        assert self._process.stdout is not None
        self._output = self._process.stdout.fileno()
        self._selector.register(self._output, selectors.EVENT_READ)
        self._pending = b""
        try:
            self.name = self._greeting()
        except Void:
            self.close()
            raise

    def _greeting(self) -> str:
        line = self._read_line(time.monotonic() + GREETING_SECONDS)
        words = line.split(" ", 2)
        if words[:2] != ["can-kit", "1"] or len(words) != 3:
            raise _unexpected(line.encode(), "'can-kit 1 NAME'")
        return words[2]

    def _read_line(self, deadline: float) -> str:
        while b"\n" not in self._pending:
            if len(self._pending) > LONGEST_LINE:
                raise _unexpected(self._pending, f"a line of at most {LONGEST_LINE} bytes")
            if not self._selector.select(max(0.0, deadline - time.monotonic())):
                raise Void("time-out")
            read = os.read(self._output, 65536)
            if not read:
                raise self._has_ended()
            self._pending += read
        line, _, self._pending = self._pending.partition(b"\n")
        if line.endswith(b"\r"):
            line = line[:-1]
        if len(line) >= LONGEST_LINE or not line.isascii():
            raise _unexpected(line, f"at most {LONGEST_LINE} bytes of ASCII")
        text = line.decode("ascii")
        if text.startswith("error ") or text == "error":
            raise Void(text)
        return text

    def _write_line(self, line: str) -> None:
        assert self._process.stdin is not None
        try:
            self._process.stdin.write(line.encode("ascii") + b"\n")
            self._process.stdin.flush()
        except (BrokenPipeError, OSError):
            raise self._has_ended() from None

    def _has_ended(self) -> Void:
        """Makes the case void: the adapter has ended or closed its output. The reason has its status or signal."""
        try:
            status = self._process.wait(timeout=ENDING_SECONDS)
        except subprocess.TimeoutExpired:
            return Void("ended")
        return Void(f"ended, status {status}" if status >= 0 else f"ended, signal {-status}")

    def begin(self, name: str, start: str) -> None:
        """Has it begin a case with a new controller. Raises Skip if the adapter does not play the case."""
        self._write_line(f"case {name} {start}")
        answer = self._read_line(time.monotonic() + ANSWER_SECONDS)
        if answer.startswith("skip "):
            raise Skip(answer[len("skip ") :])
        if answer != "ready":
            raise _unexpected(answer.encode(), "'ready' or 'skip REASON'")

    def offer(self, frame: str) -> None:
        """Offers the controller a frame."""
        self._write_line(f"offer {frame}")

    def hold(self, overloads: int) -> None:
        """Requests this number of overload frames from the controller."""
        self._write_line(f"hold {overloads}")

    def play(self, levels: str) -> tuple[str, list[Event]]:
        """Plays 1 to 4096 levels of `0`, `1` and `f`. Returns what was driven, and the events with their indices."""
        self._write_line(f"play {levels}")
        deadline = time.monotonic() + ANSWER_SECONDS + SECONDS_A_LEVEL * len(levels)
        events: list[Event] = []
        while True:
            line = self._read_line(deadline)
            word, _, rest = line.partition(" ")
            if word != "event":
                break
            place, _, event = rest.partition(" ")
            least = events[-1][0] + 1 if events else 0
            if not _is_number(place) or not least <= int(place) < len(levels):
                raise _unexpected(line.encode(), f"'event K EVENT' with K from {least} to {len(levels) - 1}")
            if not is_event(event):
                raise _unexpected(line.encode(), EVENT_EXAMPLES)
            events.append((int(place), event))
        if word != "drove":
            raise _unexpected(line.encode(), "'drove LEVELS' or 'event K EVENT'")
        if len(rest) != len(levels) or rest.strip("01"):
            raise _unexpected(line.encode(), f"'drove LEVELS' with {len(levels)} of 0 and 1")
        return rest, events

    def end(self) -> State | None:
        """The state after the last bit time; None if the adapter does not know it."""
        self._write_line("end")
        line = self._read_line(time.monotonic() + ANSWER_SECONDS)
        words = line.split(" ")
        if words == ["state", "unknown"]:
            return None
        good = len(words) == 4 and words[0] == "state" and words[1] in ("active", "passive", "off")
        if not good or not (_is_number(words[2]) and _is_number(words[3])):
            raise _unexpected(line.encode(), "'state STATE TEC REC' or 'state unknown'")
        return words[1], int(words[2]), int(words[3])

    def close(self) -> None:
        """Asks the adapter to end, and kills it if it does not."""
        try:
            self._write_line("quit")
        except Void:
            pass
        assert self._process.stdin is not None and self._process.stdout is not None
        try:
            self._process.stdin.close()
        except OSError:
            pass
        try:
            self._process.wait(timeout=ENDING_SECONDS)
        except subprocess.TimeoutExpired:
            self._kill()
            self._process.wait()
        self._selector.close()
        self._process.stdout.close()

    def _kill(self) -> None:
        """Kills it together with all that it has started, such as a simulator that a script runs."""
        try:
            os.killpg(self._process.pid, signal.SIGKILL)
        except ProcessLookupError:
            pass
