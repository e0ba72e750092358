"""A simulated bus for python-can: `can.Bus("name", interface="riddlesage", bitrate=500000)`.

The `Bus` objects of a process that have the same channel are nodes of one bus, with arbitration, acknowledgement, bit
errors and fault confinement, bit time by bit time. A node on its own has nobody who acknowledges its frames.

    >>> import can
    >>> one, other = (can.Bus("demo", interface="riddlesage", clock="virtual") for _ in range(2))  # doctest: +SKIP
    >>> one.send(can.Message(arbitration_id=0x123, data=b"ab", is_extended_id=False))  # doctest: +SKIP
    >>> other.recv()  # doctest: +SKIP

This module needs python-can (Debian's package python3-can).
"""

from __future__ import annotations

import threading
from collections.abc import Sequence
from typing import Any

from can.bus import BusABC, BusState
from can.exceptions import CanInitializationError, CanOperationError
from can.message import Message

from riddlesage._frames import Frame, Refused
from riddlesage._network import Happening, Network
from riddlesage._ports import Counters, Event, State

__all__ = ["Network", "RiddlesageBus"]

_BITRATE, _QUEUE = 500_000, 256
# Without a timeout, `send` waits for so many seconds if the queue is full; so long in bus time `shutdown` waits.
_PATIENCE = 1.0
_CLOCKS = ("real", "virtual")

# Error frames have the format of Linux (linux/can/error.h): these bits of the identifier; kinds of errors in byte 2,
# places in byte 3, states of the controller in byte 1.
_CONTROLLER, _PROTOCOL, _ACKNOWLEDGE, _BUS_OFF, _BUS_ERROR, _RESTARTED, _COUNTERS = 4, 8, 0x20, 0x40, 0x80, 0x100, 0x200
_RECEIVER_PASSIVE, _TRANSMITTER_PASSIVE, _ACTIVE = 0x10, 0x20, 0x40
_KINDS = {Event.BIT_ERROR: 1, Event.FORM_ERROR: 2, Event.STUFF_ERROR: 4, Event.CRC_ERROR: 0, Event.ACK_ERROR: 0}
_TRANSMITTING, _IN_CRC, _IN_ACKNOWLEDGEMENT = 0x80, 0x08, 0x19
_PLACES = {Event.CRC_ERROR: _IN_CRC, Event.ACK_ERROR: _IN_ACKNOWLEDGEMENT}
# going off is reported in place of the error that leads to it
_CHANGES = {Event.WENT_OFF: _BUS_OFF | _BUS_ERROR, Event.RECOVERED: _RESTARTED}
_ERRORS = frozenset(_KINDS) | frozenset(_CHANGES)
_STATES = {
    State.ERROR_ACTIVE: BusState.ACTIVE,
    State.ERROR_PASSIVE: BusState.PASSIVE,
    State.BUS_OFF: BusState.ERROR,
}

_networks: dict[str, Network] = {}
_opening = threading.Lock()


class RiddlesageBus(BusABC):
    """A node of the simulated bus with the name `channel`.

    - `bitrate`: bits per second, 500000 without it; the same for all nodes of a channel
    - `clock`: "real", the bit times pass as the bit rate demands; or "virtual", they pass while `recv` waits, as fast
      as they can be computed. The same for all nodes of a channel
    - `receive_own_messages`: whether the node receives its own frames too, when they are sent
    - `ignore_rx_error_frames`: whether it receives no error frames; these have the format of Linux
    - `queue`: the capacity of its transmit queue, in frames

    A frame is received, and has its time, when its end of frame has ended. Times count from 0 if the clock is virtual.
    """

    def __init__(
        self,
        channel: Any = "riddlesage",
        can_filters: Any = None,
        *,
        bitrate: int | None = None,
        clock: str | None = None,
        receive_own_messages: bool = False,
        ignore_rx_error_frames: bool = False,
        queue: int = _QUEUE,
        **others: Any,
    ) -> None:
        if others.get("fd"):
            raise CanInitializationError("CAN FD is not modelled")
        self.channel_info = f"simulated bus {channel} of riddlesage"
        self._channel = str(channel)
        wanted = {Event.RECEIVED} | {Event.SENT for _ in range(receive_own_messages)}
        wanted |= set() if ignore_rx_error_frames else _ERRORS
        with _opening:
            self.network = _opened(self._channel, bitrate, clock)
            try:
                self.node = self.network.attach(queue, frozenset(wanted))
            except Refused as refused:
                raise CanInitializationError(f"channel {channel} takes no more nodes: {refused}") from refused
            finally:
                if not self.network.count:
                    _networks.pop(self._channel)
        self._is_open = True
        super().__init__(channel=channel, can_filters=can_filters, **others)

    def send(self, msg: Message, timeout: float | None = None) -> None:
        """Queues a frame. If the queue is full, it waits up to the timeout, without it for a second."""
        self._demand_open()
        frame = _frame_of(msg)
        try:
            self.network.offer(self.node, frame, _PATIENCE if timeout is None else timeout)
        except Refused as refused:
            raise CanOperationError(f"the frame is not queued: {refused}") from refused

    def _recv_internal(self, timeout: float | None) -> tuple[Message | None, bool]:
        self._demand_open()
        happened = self.network.following(self.node, timeout)
        return (None if happened is None else self._message(happened)), False

    def shutdown(self) -> None:
        """Leaves the bus when the frames that are queued are sent, or after a second of its time."""
        if not self._is_open:
            return
        super().shutdown()
        self._is_open = False
        with _opening:
            if not self.network.detach(self.node, _PATIENCE):
                _networks.pop(self._channel, None)

    @property
    def state(self) -> BusState:
        """Error active, error passive, or ERROR: bus off."""
        return _STATES[self.network.state(self.node)[0]]

    @state.setter
    def state(self, new_state: BusState) -> None:
        if new_state is not BusState.ACTIVE:
            raise NotImplementedError("a node that only listens is not modelled")

    @property
    def counters(self) -> Counters:
        """The error counters, TEC and REC."""
        return self.network.state(self.node)[1]

    @staticmethod
    def _detect_available_configs() -> list[Any]:
        with _opening:
            return [{"interface": "riddlesage", "channel": name} for name in _networks]

    def _demand_open(self) -> None:
        if not self._is_open:
            raise CanOperationError("the bus has been shut down")

    def _message(self, happened: Happening) -> Message:
        """The message of an event."""
        # a receiver has the frame one bit time before the end of its end of frame
        ended = happened.time + (2 if happened.event is Event.RECEIVED else 1)
        stamp = self.network.epoch + ended / self.network.bitrate
        frame = happened.frame
        if frame is None:
            identifier, data = _error_of(happened)
            return Message(
                stamp, identifier, is_extended_id=False, is_error_frame=True, channel=self._channel, dlc=8, data=data
            )
        return Message(
            stamp,
            frame.identifier,
            is_extended_id=frame.extended,
            is_remote_frame=frame.remote,
            channel=self._channel,
            dlc=frame.dlc,
            data=frame.data,
            is_rx=happened.event is Event.RECEIVED,
        )


def _opened(channel: str, bitrate: int | None, clock: str | None) -> Network:
    """The bus of a channel, which is made if there is none."""
    if clock not in (None, *_CLOCKS):
        raise CanInitializationError(f"there is no clock {clock!r}, only {' and '.join(_CLOCKS)}")
    network = _networks.get(channel)
    if network is None:
        if bitrate is not None and bitrate <= 0:
            raise CanInitializationError("a bit rate must be above 0")
        network = _networks[channel] = Network(bitrate or _BITRATE, clock != "virtual")
    if bitrate not in (None, network.bitrate):
        raise CanInitializationError(f"the bit rate of channel {channel} is {network.bitrate}")
    if clock not in (None, _CLOCKS[not network.real]):
        raise CanInitializationError(f"the clock of channel {channel} is {_CLOCKS[not network.real]}")
    return network


def _frame_of(message: Message) -> Frame:
    """The frame of a message."""
    if message.is_fd:
        raise CanOperationError("CAN FD is not modelled")
    if message.is_error_frame:
        raise CanOperationError("an error frame cannot be sent; network.hit_next injects a bit error")
    data = b"" if message.is_remote_frame else bytes(message.data)
    try:
        return Frame(message.arbitration_id, data, message.is_extended_id, message.is_remote_frame, message.dlc)
    except ValueError as wrong:
        raise CanOperationError(f"this is no classical frame: {wrong}") from wrong


def _error_of(happened: Happening) -> tuple[int, Sequence[int]]:
    """The identifier and the data of Linux' error frame for an event."""
    event, counters = happened.event, happened.counters
    data = [0, 0, 0, 0, 0, 0, min(counters.transmit, 255), min(counters.receive, 255)]
    identifier = _COUNTERS | _CHANGES.get(event, 0)
    if event in _KINDS:
        identifier |= _BUS_ERROR | (_ACKNOWLEDGE if event is Event.ACK_ERROR else _PROTOCOL)
        data[2] = _KINDS[event] | (_TRANSMITTING if happened.sender else 0)
        data[3] = _PLACES.get(event, 0)
    if happened.state is not happened.before and event not in _CHANGES:
        identifier |= _CONTROLLER
        passive = _TRANSMITTER_PASSIVE if counters.transmit > 127 else _RECEIVER_PASSIVE
        data[1] = passive if happened.state is State.ERROR_PASSIVE else _ACTIVE
    return identifier, data
