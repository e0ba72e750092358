#!/usr/bin/env python3
"""An adapter to start from: it speaks the line protocol. Its controller does not drive anything yet.

Fill in the methods of Controller: call a library or a simulator, or a test bench over a serial line.
"""

from __future__ import annotations

import sys


class Controller:
    """What the conformance kit needs from a controller. Levels are 0, dominant, and 1, recessive."""

    def __init__(self, joining: bool) -> None:
        """A new controller: idle, or, if joining, waiting for eleven recessive levels."""

    def offer(self, frame: str) -> None:
        """Queues a frame: standard, such as `S 123 D 2 c3a5`, or extended, such as `E 12345678 D 1 c3`.

        It is pending from the next bit time on.
        """

    def hold(self, overloads: int) -> None:
        """Requests this number of overload frames. `--without hold` skips such cases if yours sends none."""

    def drive(self) -> int:
        """The level that it drives in this bit time. It depends on earlier bit times only."""
        return 1

    def sample(self, level: int) -> str | None:
        """Samples the level of the bus in this bit time.

        Returns the event, such as `stuff error`, `sent S 123 R 0` or `received E 12345678 D 1 c3`, or None if there is
        none. A controller that does not report events always returns None.
        """
        return None

    def state(self) -> str:
        """`active`, `passive` or `off` with TEC and REC, such as `active 0 0`; or `unknown`."""
        return "unknown"


def play(controller: Controller, levels: str) -> list[str]:
    """Plays bit times. In each one the controller drives, the tester drives, and the controller sees the bus."""
    events: list[str] = []
    drove: list[str] = []
    for place, tester in enumerate(levels):
        driven = controller.drive()
        # with `f` it sees a recessive level, whatever it drives
        seen = 1 if tester == "f" else driven & int(tester)
        event = controller.sample(seen)
        if event is not None:
            events.append(f"event {place} {event}")
        drove.append(str(driven))
    return [*events, "drove " + "".join(drove)]


def answer(controller: Controller, line: str) -> tuple[Controller, list[str]]:
    """The controller after this line, a new one for each case, and the lines to reply with."""
    word, _, rest = line.partition(" ")
    if word == "case":
        return Controller(rest.endswith(" joining")), ["ready"]
    if word == "offer":
        controller.offer(rest)
        return controller, []
    if word == "hold":
        controller.hold(int(rest))
        return controller, []
    if word == "play":
        return controller, play(controller, rest)
    if word == "end":
        return controller, [f"state {controller.state()}"]
    return controller, ["error unknown command"]


def main() -> None:
    """Replies to the runner line by line."""
    print("can-kit 1 skeleton of an adapter", flush=True)
    controller = Controller(False)
    for line in sys.stdin:
        if line.strip() == "quit":
            return
        controller, lines = answer(controller, line.rstrip("\n"))
        for text in lines:
            print(text)
        sys.stdout.flush()


if __name__ == "__main__":
    main()
