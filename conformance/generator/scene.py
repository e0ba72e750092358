"""A scene: a case under construction.

The tester's levels are played to the reference when they are added, so that later ones can depend on what the
controller did.
"""

from __future__ import annotations

from typing import Sequence

from kit.adapter import MOST_LEVELS, Adapter
from kit.documents import NEEDS, Case, Event, State, Transcript
from kit.frames import Frame, Wire

# others are offered after the start of this frame, so that a slow controller keeps up
ANCHOR = Frame.parse("S 2aa R 0")
OFFER_PLACE = 7
LONGEST_WAIT = 2000


def dominant_bits(count: int) -> str:
    """The number in words, for purposes and comments."""
    return f"{count} dominant bit{'' if count == 1 else 's'}"


class Scene:
    """The case so far, and the reference's controller that plays it."""

    def __init__(self, reference: Adapter, family: str, suffix: str, purpose: str, start: str = "idle") -> None:
        self.case = Case(f"{family}-{suffix}", family, [], purpose, start)
        self.drove = ""
        self.events: list[Event] = []
        self._reference = reference
        self._is_playing = False

    @property
    def time(self) -> int:
        """The number of bit times played."""
        return len(self.drove)

    # frames and requests for the controller

    def offer(self, frame: str) -> None:
        """Offers the controller a frame."""
        self._resume()
        self.case.offers.append((self.time, frame))
        self._reference.offer(frame)

    def hold(self, overloads: int) -> None:
        """Requests this number of overload frames from the controller."""
        self._resume()
        self.case.holds.append((self.time, overloads))
        self._reference.hold(overloads)

    # what the tester drives

    def play(self, levels: str, comment: str = "") -> str:
        """Adds levels of the tester, `f` for a forced bit time, and returns what the controller drove.

        With a comment they begin a new string.
        """
        if not levels:
            return ""
        self._resume()
        self.case.forced += [self.time + place for place, level in enumerate(levels) if level == "f"]
        self._add(levels.replace("f", "1"), comment)
        return self._send(levels)

    def rest(self, levels: int, comment: str = "") -> str:
        """Recessive levels."""
        return self.play("1" * levels, comment)

    def _add(self, levels: str, comment: str) -> None:
        tester = self.case.tester
        if comment or not tester:
            tester.append((levels, comment))
        else:
            before, note = tester[-1]
            tester[-1] = (before + levels, note)

    def _send(self, levels: str) -> str:
        before = self.time
        for front in range(0, len(levels), MOST_LEVELS):
            driven, events = self._reference.play(levels[front : front + MOST_LEVELS])
            self.events += [(before + front + place, event) for place, event in events]
            self.drove += driven
        return self.drove[before:]

    # what is asked of the reference

    def state(self) -> State:
        """The controller's state and counters now. The reference plays the scene again before it goes on."""
        self._resume()
        state = self._reference.end()
        if state is None:
            raise ValueError("the reference does not report its counters: its reply to `end` was `state unknown`")
        self._is_playing = False
        return state

    def _resume(self) -> None:
        if self._is_playing:
            return
        self._is_playing = True
        self._reference.begin(self.case.name, self.case.start)
        handed: list[tuple[int, str, object]] = [(time, "offer", frame) for time, frame in self.case.offers]
        handed += [(time, "hold", overloads) for time, overloads in self.case.holds]
        levels = list(self.case.levels)
        for time in self.case.forced:
            levels[time] = "f"
        marks = sorted({time for time, _, _ in handed} | {self.time})
        time = 0
        for mark in marks:
            for front in range(time, mark, MOST_LEVELS):
                self._reference.play("".join(levels[front : min(mark, front + MOST_LEVELS)]))
            for at, word, value in handed:
                if at == mark and word == "offer":
                    self._reference.offer(str(value))
                elif at == mark:
                    self._reference.hold(int(str(value)))
            time = mark

    @property
    def tec(self) -> int:
        """The reference's transmit error count."""
        return self.state()[1]

    @property
    def rec(self) -> int:
        """The reference's receive error count."""
        return self.state()[2]

    # frames of the tester

    def receive(
        self,
        frame: str,
        offers: Sequence[str] = (),
        before: int | None = None,
        wire: Wire | None = None,
        hold: int | None = None,
    ) -> Wire:
        """The tester sends a frame with a recessive ACK slot, or only its levels before a place.

        In its eighth bit, frames are offered and overload frames requested.
        """
        wire = wire or Frame.parse(frame).wire()
        levels = wire.levels[:before]
        self.play(levels[:OFFER_PLACE], f"sends {frame}")
        for other in offers:
            self.offer(other)
        if hold is not None:
            self.hold(hold)
        self.play(levels[OFFER_PLACE:])
        return wire

    def anchor(self, *offers: str) -> None:
        """A frame of the tester and its intermission. The frames that are offered in it follow."""
        self.receive(ANCHOR.text(), offers)
        self.rest(3, "intermission")

    # frames of the controller

    def waiting(self) -> list[str]:
        """The pending frames: offered, and not sent yet."""
        waiting = [frame for _, frame in self.case.offers]
        for _, event in self.events:
            if event.startswith("sent "):
                waiting.remove(event[len("sent ") :])
        return waiting

    def wait(self, comment: str = "waits for the start of a frame") -> None:
        """Recessive levels before the bit time in which the controller begins a frame."""
        if not self.begins(comment):
            raise ValueError(f"{self.case.name}: the controller begins no frame")

    def begins(self, comment: str = "waits for the start of a frame") -> bool:
        """Recessive levels before the bit time in which the controller drives a dominant one.

        False if it drives none for as long as bus-off lasts, or if no frame is pending any more.
        """
        self._resume()
        for waited in range(LONGEST_WAIT):
            driven, events = self._reference.play("1")
            if driven == "0":
                # that bit time belongs to the frame: it is played again
                self._reference.end()
                self._is_playing = False
                return True
            self._add("1", comment if waited == 0 else "")
            self.events += [(self.time, event) for _, event in events]
            self.drove += driven
            if events and not self.waiting():
                return False
        return False

    def sending(self, frame: str, before: int | None = None, comment: str = "") -> Wire:
        """The controller sends this frame from now on. The tester listens and acknowledges, until before a place."""
        wire = Frame.parse(frame).wire()
        slot = wire.place("ack")
        levels = ("1" * slot + "0" + "1" * 8)[:before]
        driven = self.play(levels, comment or f"listens to {frame}")
        if driven.startswith("1"):
            raise ValueError(f"{self.case.name}: the controller does not begin {frame}")
        return wire

    def wins(self, frame: str, against: str) -> None:
        """The controller sends this frame from now on, and wins arbitration against the tester, which acknowledges."""
        own, other = Frame.parse(frame).wire(), Frame.parse(against).wire()
        differ = next(place for place, (a, b) in enumerate(zip(own.levels, other.levels)) if a != b)
        self.play(other.levels[: differ + 1], f"sends {against} and loses")
        self.play("1" * (own.place("ack") - differ - 1) + "0" + "1" * 8, "listens")

    def sent(self, frame: str) -> None:
        """The controller sends this whole frame; intermission follows."""
        self.sending(frame)
        if (self.time - 1, f"sent {frame}") not in self.events:
            raise ValueError(f"{self.case.name}: the controller does not report {frame} as sent")
        self.rest(3)

    # errors

    def stuff_error(self) -> None:
        """Six dominant bits while the controller is idle."""
        self.play("000000", "a stuff error")

    def recover(self, comment: str = "flag, delimiter, intermission") -> None:
        """Recessive levels for a flag of six bits, a delimiter and an intermission."""
        self.rest(6 + 8 + 3, comment)

    def after_flag(self, dominant: int) -> None:
        """A flag of six bits, this number of dominant bits after it, a delimiter and an intermission."""
        self.rest(6, "the flag")
        self.play("0" * dominant, f"{dominant_bits(dominant)} after the flag" if dominant else "")
        self.rest(8 + 3, "delimiter, intermission")

    # the whole case

    def needed(self) -> list[str]:
        """What a test bench must be able to do."""
        needs = set()
        if self.case.forced:
            needs.add("forced")
        if self.case.holds:
            needs.add("hold")
        if any(event == "recovered" for _, event in self.events):
            needs.add("recovery")
        for count, (time, _) in enumerate(self.case.offers, start=1):
            sent = sum(1 for at, event in self.events if at < time and event.startswith("sent "))
            if count - sent > 1:
                needs.add("queue")
        return [need for need in NEEDS if need in needs]

    def finished(self, choices: Sequence[str] = ()) -> tuple[Case, Transcript]:
        """The case, and what the reference did in it."""
        self.case.needs = self.needed()
        self.case.choices = list(choices)
        return self.case, Transcript(self.case.name, self.drove, self.events or None, None, self.state())
