"""Like door.c, but with a Bus, one bit time a call."""

import sys

from riddlesage import Bus, Event, Frame, Port

frame = Frame(0x123, bytes.fromhex("0123456789abcdef"))
bus, sent = Bus(Port(1, 0), Port(0, 0)), 0
bus.offer(0, frame)
for _ in range(int(sys.argv[1])):
    for happened in bus.step():
        if happened.event == Event.SENT:
            sent += 1
            bus.offer(0, frame)
print(sent)
