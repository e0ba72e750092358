r"""A reference model of a classical CAN controller, bit by bit (Bosch CAN 2.0 part B, ISO 11898-1).

    >>> from riddlesage import Frame, Port, encode
    >>> sender, receiver = Port(), Port()
    >>> sender.offer(Frame(0x123, b"\xaa\x55"))
    >>> for _ in range(80):
    ...     bus = sender.drive() & receiver.drive()
    ...     for port in (sender, receiver):
    ...         event = port.sample(bus)
    >>> receiver.log
    [Entry(frame=Frame(identifier=291, data=b'\xaaU', extended=False, remote=False, dlc=2), sent=False)]

A `Port` is a CAN node: a controller with a transmit queue and a log. One step is one bit time; bit timing and CAN FD
are not modelled. Levels are bit values: 0 is dominant, 1 recessive; lists of them are `bytes`. `play` runs ports on a
bus with one call, and injects bit errors. On a `Bus`, controllers of your own may take part as well.

The calls are those of riddlesage.h, in `libriddlesage.so`. It is searched for at the environment variable
RIDDLESAGE_LIBRARY; without that in this package and beside it, in bindings/out, and among the system's libraries. It is
loaded by the first call that needs it, so frames, DBC files and logs can be read without it. The Rattle functions that
its calls use are proved; this package is only tested.
"""

from __future__ import annotations

from typing import TYPE_CHECKING

from riddlesage._bus import Bus, Device, Happened
from riddlesage._frames import (
    DOMINANT,
    RECESSIVE,
    BadFrame,
    Fault,
    Frame,
    Heard,
    Refused,
    RiddlesageError,
    Status,
    decode,
    encode,
)
from riddlesage._library import MissingLibrary, version
from riddlesage._marks import Field, Mark, marks
from riddlesage._play import Played, play
from riddlesage._ports import Counters, Entry, Event, Phase, Port, Reported, Rule, Run, Standing, State
from riddlesage._texts import (
    BadByte,
    BadNetwork,
    BadScenario,
    Planned,
    PortTime,
    decode_trace,
    plan_network,
    port_times,
    run,
    worst_case,
)

__all__ = [
    "DOMINANT",
    "RECESSIVE",
    "BadByte",
    "BadFrame",
    "BadNetwork",
    "BadScenario",
    "Bus",
    "Counters",
    "Device",
    "Entry",
    "Event",
    "Fault",
    "Field",
    "Frame",
    "Happened",
    "Heard",
    "Mark",
    "MissingLibrary",
    "Phase",
    "Planned",
    "Played",
    "Port",
    "PortTime",
    "Refused",
    "Reported",
    "RiddlesageError",
    "Rule",
    "Run",
    "Standing",
    "State",
    "Status",
    "decode",
    "decode_trace",
    "encode",
    "marks",
    "plan_network",
    "play",
    "port_times",
    "run",
    "worst_case",
]

if TYPE_CHECKING:
    __version__: str
else:

    def __getattr__(name):  # noqa: ANN001, ANN202 - with types, each misspelt name would be a string
        """The version, which is that of the library."""
        if name == "__version__":
            return version()
        raise AttributeError(f"module {__name__!r} has no attribute {name!r}")
