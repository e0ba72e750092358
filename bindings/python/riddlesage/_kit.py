"""The conformance kit, which is in this package or in the repository, or where RIDDLESAGE_KIT says; and playing it."""

from __future__ import annotations

import importlib
import importlib.util
import os
import pathlib
import sys
from collections.abc import Iterator
from types import ModuleType
from typing import TYPE_CHECKING, Any, Protocol

from riddlesage._bus import Device
from riddlesage._frames import Frame
from riddlesage._ports import Event, Reported, State

if TYPE_CHECKING:
    from kit.documents import Case, Transcript

# The kit's package has this name, so that a project may have a package `kit` of its own.
_PACKAGE = "riddlesage_kit"

_EVENTS = {
    Event.SENT: "sent",
    Event.RECEIVED: "received",
    Event.LOST: "lost",
    Event.BIT_ERROR: "bit error",
    Event.STUFF_ERROR: "stuff error",
    Event.CRC_ERROR: "crc error",
    Event.FORM_ERROR: "form error",
    Event.ACK_ERROR: "ack error",
    Event.OVERLOAD: "overload",
    Event.WENT_OFF: "went off",
    Event.RECOVERED: "recovered",
}
_STATES = {State.ERROR_ACTIVE: "active", State.ERROR_PASSIVE: "passive", State.BUS_OFF: "off"}


class KitNotFoundError(Exception):
    """The conformance kit is not there."""


class Holding(Device, Protocol):
    """A controller that can send overload frames."""

    def hold(self, count: int, /) -> None:
        """Requests 0 to 2 overload frames, in place of an earlier request."""


def _find_kit() -> pathlib.Path:
    """The file of the kit's package."""
    here = pathlib.Path(__file__).resolve()
    named = os.environ.get("RIDDLESAGE_KIT")
    places = [pathlib.Path(named)] if named else [here.parent / "conformance", here.parents[3] / "conformance"]
    found = (place / "kit" / "__init__.py" for place in places)
    kit = next((file for file in found if file.is_file()), None)
    if kit is None:
        raise KitNotFoundError("the conformance kit is not found; RIDDLESAGE_KIT may name its folder")
    return kit


def kit(module: str) -> Any:
    """A module of the kit. Raises KitNotFoundError."""
    if _PACKAGE not in sys.modules:
        file = _find_kit()
        spec = importlib.util.spec_from_file_location(_PACKAGE, file, submodule_search_locations=[str(file.parent)])
        assert spec is not None and spec.loader is not None
        package: ModuleType = importlib.util.module_from_spec(spec)
        sys.modules[_PACKAGE] = package
        spec.loader.exec_module(package)
    return importlib.import_module(f"{_PACKAGE}.{module}")


def played(case: Case, device: Holding) -> Iterator[tuple[int, int, Reported | None]]:
    """Plays a case to a new controller: each bit time, the level that it drives, and the event that it reports."""
    offers, holds = case.offers[::-1], case.holds[::-1]
    for time, tester in enumerate(kit("playing").seen_levels(case)):
        while offers and offers[-1][0] == time:
            device.offer(Frame.from_text(offers.pop()[1]))
        while holds and holds[-1][0] == time:
            device.hold(holds.pop()[1])
        driven = device.drive()
        # with `f` it samples a recessive level, whatever it drives
        yield time, int(driven), device.sample(1 if tester == "f" else driven & int(tester))


def _event_text(reported: Reported) -> str:
    """The text of an event, in the words of the kit."""
    return _EVENTS[reported.event] + (f" {reported.frame.text}" if reported.frame else "")


def recorded(case: Case, device: Holding) -> Transcript:
    """The transcript of a new controller in a case, with the final state if it has `state` and `counters`."""
    drove: list[str] = []
    events: list[tuple[int, str]] = []
    for time, driven, event in played(case, device):
        drove.append(str(driven))
        if event is not None:
            events.append((time, _event_text(event)))
    state, counters = getattr(device, "state", None), getattr(device, "counters", None)
    end = None
    if state is not None and counters is not None:
        transmit, receive = counters
        end = (_STATES[State(state)], int(transmit), int(receive))
    given: Transcript = kit("documents").Transcript(case.name, "".join(drove), events or None, None, end)
    return given
