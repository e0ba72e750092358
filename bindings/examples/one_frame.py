"""The example of bindings/python/README.md: a port with a frame to send, coding, and frames on a bus."""

from __future__ import annotations

from riddlesage import Bus, Fault, Frame, Port, decode, decode_trace, encode, play

port = Port()
port.offer(Frame(0x123, b"\xaa\x55"))
event = port.sample(port.drive())  # the event of this bit time, or None
print(port.phase)  # stuffed-part 1, sender; Arbitration
run = port.run(bytes(100))  # many bit times in one call: the level driven and the event in each
print(decode_trace("111 000000"))  # ['3 fault C3 at 8']
try:
    decode(encode(Frame(0x123))[:20])
except Fault as fault:
    print(fault.name, fault.place)  # SHORT 20

played = play([Port(), Port()], 200, [(5, 0, Frame(0x123))], hit_in=[(0, 16)])  # a bus with one call
print(played.levels.index(0))  # 5

bus = Bus(Port(), Port())  # or controllers of your own
bus.offer(0, Frame.from_text("S 123 D 2 aa55"), time=20)
bus.hit_in(attempt=0, offset=16)  # a bit error; also hit_at(time), and view(time, place) for one node
for happened in bus.run(200):
    print(happened.time, happened.place, happened.event.name)
