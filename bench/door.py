"""Like door.c, but with the Python package."""

import sys

from riddlesage import Event, Frame, Port

frame = Frame(0x123, bytes.fromhex("0123456789abcdef"))
one, other, sent = Port(1, 0), Port(0, 0), 0
one.offer(frame)
for _ in range(int(sys.argv[1])):
    bus = one.drive() & other.drive()
    other.sample(bus)
    happened = one.sample(bus)
    if happened and happened.event == Event.SENT:
        sent += 1
        one.offer(frame)
print(sent)
