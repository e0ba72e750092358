"""Random traffic for a controller.

A tester sends correct and broken frames, listens, acknowledges or does not, and disturbs the bus. Its next action
depends on what the golden model did, so that frames really get through. The result is a case of the conformance kit,
which says what the tester drives in each bit time.
"""

from __future__ import annotations

import random

from generator.scene import Scene
from kit.adapter import Adapter
from kit.documents import Case, Transcript
from kit.frames import Frame, Wire

MOST_WAITING = 5
# a flag, its delimiter, and intermission without its last level
FLAG_LEVELS = 6 + 8 + 2
GAPS = (0, 1, 2, 3, 3, 3, 4, 8, 11, 12, 20)
# bytes that lead to stuff bits, and others
BYTES = (0x00, 0xFF, 0x0F, 0xF8, 0x07, 0x55, 0xC3)


def arbitration_field(text: str) -> str:
    """The levels that arbitration compares: the lower string has priority."""
    frame = Frame.parse(text)
    wire = frame.wire()
    parts = ("base", "srr", "ide", "extension", "rtr") if frame.extended else ("base", "rtr", "ide")
    return "".join(wire.levels[place] for part in parts for place in wire.places[part])


def first_difference(one: str, other: str) -> int | None:
    """The first place in which they differ."""
    return next((place for place, (a, b) in enumerate(zip(one, other)) if a != b), None)


class Traffic:
    """A run that is being made."""

    def __init__(self, name: str, seed: str, golden: Adapter) -> None:
        self._random = random.Random(seed)
        start = "joining" if self._random.random() < 0.2 else "idle"
        # in a rough run no frame of the controller gets through, until it is bus off
        self._is_rough = self._chance(0.2)
        self._scene = Scene(golden, "cosim", name, f"random traffic of seed {seed}", start)

    def made(self, bits: int) -> tuple[Case, Transcript]:
        """A run of at least this many bit times, and what the golden model did in it."""
        while self._scene.time < bits:
            self._hand_over()
            if self._chance(0.9):
                self._scene.rest(self._flag_left())
            self._step()
            if not self._scene.waiting() or self._chance(0.1):
                self._scene.rest(self._random.choice(GAPS))
        return self._scene.finished()

    def _flag_left(self) -> int:
        """The rest of the error or overload frame after the last event, and two levels of intermission."""
        events = self._scene.events
        if not events or not events[-1][1].endswith((" error", "overload")):
            return 0
        return max(0, events[-1][0] + 1 + FLAG_LEVELS - self._scene.time)

    def _step(self) -> None:
        kind = self._random.random()
        if kind < 0.05:
            self._noise()
        elif kind < 0.1:
            self._dominant_run()
        elif kind < 0.2:
            self._scene.rest(self._random.randint(1, 40))
        elif self._scene.waiting() and kind < 0.9:
            self._own_frame()
        else:
            self._tester_frame()

    def _chance(self, probability: float) -> bool:
        return self._random.random() < probability

    # frames and overload requests for the controller

    def _hand_over(self) -> None:
        if self._chance(0.5) and len(self._scene.waiting()) < MOST_WAITING:
            self._scene.offer(self._frame())
        if self._chance(0.05):
            self._scene.hold(self._random.randint(0, 2))

    def _frame(self) -> str:
        extended = self._chance(0.4)
        bits = 29 if extended else 11
        identifier = self._random.choice((0, 2**bits - 1, *[self._random.getrandbits(bits)] * 6))
        remote = self._chance(0.2)
        dlc = self._random.choice((0, 1, 1, 2, 2, 3, 4, 6, 8, self._random.randint(9, 15)))
        kinds = (*BYTES, self._random.randrange(256))
        data = bytes(self._random.choice(kinds) for _ in range(0 if remote else min(dlc, 8)))
        return Frame(extended, identifier, remote, dlc, data).text()

    # frames of the controller

    def _own_frame(self) -> None:
        if not self._scene.begins():
            return
        frame = min(self._scene.waiting(), key=arbitration_field)
        wire = Frame.parse(frame).wire()
        place = self._random.randrange(len(wire.levels))
        kind = self._random.uniform(0.75 if self._is_rough else 0.0, 1.0)
        if kind < 0.6:
            self._scene.sending(frame)
            self._scene.rest(self._random.choice((1, 2, 3, 3, 3)))
        elif kind < 0.75:
            self._contest(wire)
        elif kind < 0.8:
            self._scene.sending(frame, wire.place("ack"))
            self._scene.play(self._random.choice(("1", "10", "1110")), "no acknowledgement")
        else:
            self._scene.sending(frame, place)
            self._scene.play("f" if kind < 0.9 else "0", "another level on the bus")

    def _contest(self, own: Wire) -> None:
        """A frame of the tester begins together with the controller's; the loser listens, and acknowledges."""
        text = self._frame()
        levels = Frame.parse(text).wire().levels
        differs = first_difference(levels, own.levels)
        if differs is None or levels[differs] == "0":
            self._scene.play(levels, f"sends {text} at the same time")
        else:
            self._scene.play(levels[: differs + 1], f"sends {text}, and loses")
            self._scene.play("1" * (own.place("ack") - differs - 1) + "0" + "1" * 8)

    # frames of the tester

    def _tester_frame(self) -> None:
        text = self._frame()
        given = {part: self._random.choice("01") for part in ("srr", "r1", "r0") if self._chance(0.05)}
        turned = f"crc-{self._random.randrange(15)}" if self._chance(0.1) else ""
        wire = Frame.parse(text).wire(turned, **given)
        levels = wire.acknowledged() if self._chance(0.2) else wire.levels
        if self._chance(0.3):
            place = self._random.randrange(len(levels))
            wrong = "f" if self._chance(0.3) else "1" if levels[place] == "0" else "0"
            levels = levels[:place] + wrong + levels[place + 1 :] * self._random.randint(0, 1)
        self._scene.play(levels, f"sends {text}")

    # disturbances

    def _noise(self) -> None:
        dominant = self._random.choice((0.1, 0.5, 0.9))
        levels = ["0" if self._chance(dominant) else "1" for _ in range(self._random.randint(1, 30))]
        self._scene.play("".join(levels), "noise")

    def _dominant_run(self) -> None:
        self._scene.play("0" * self._random.randint(1, 40), "a dominant run")
