"""A simulated bus for python-can: two frames in one arbitration, and a bit error."""

from __future__ import annotations

from typing import Any

import can

words: dict[str, Any] = {"interface": "riddlesage", "bitrate": 500000, "clock": "virtual"}
nodes: list[Any] = [can.Bus("demo", **words) for _ in range(3)]
engine, brakes, logger = nodes
engine.send(can.Message(arbitration_id=0x300, data=b"ab", is_extended_id=False))
brakes.send(can.Message(arbitration_id=0x100, is_extended_id=False))
for message in (logger.recv(), logger.recv()):
    print(f"{message.arbitration_id:x} {message.timestamp:.6f}")  # 300 0.000228

engine.network.hit_next(offset=20)  # a bit error in the next transmission attempt
engine.send(can.Message(arbitration_id=0x300, is_extended_id=False))
print(logger.recv().is_error_frame, f"{logger.recv().arbitration_id:x}")  # True 300
print(engine.counters, engine.state)  # Counters(transmit=8, receive=0) BusState.ACTIVE
for bus in nodes:
    bus.shutdown()
