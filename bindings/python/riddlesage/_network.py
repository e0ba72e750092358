"""A simulated bus that threads share: its nodes come and go, and its time passes as its clock demands."""

from __future__ import annotations

import collections
import ctypes
import threading
import time
from types import TracebackType
from typing import NamedTuple

from riddlesage._frames import Frame, Refused, Status, demand, frame_of
from riddlesage._library import HitKind, PlainFrame, PlainHit, PlainPort, PlainWire, lib
from riddlesage._play import count_in
from riddlesage._ports import Counters, Event, Phase, Port, State

# Seconds: for how long a busy bus waits at once, and for how long it computes without letting other threads in.
_TICK, _SHIFT = 0.001, 0.02
# How many bit times pass before other threads are let in.
_STRIDE = 10000
# After this many bit times without an event the bus may be idle.
_MOST_BUSY = 200
_MOST_NODES = 64
# The events of a node that are kept if nobody takes them.
_MOST_KEPT = 10000


class Happening(NamedTuple):
    """An event of a node: the bit time, the event, and its frame if it has one.

    How the node is afterwards: whether it is a transmitter, its counters, its state, and its state before the event.
    """

    time: int
    event: Event
    frame: Frame | None
    sender: bool
    counters: Counters
    state: State
    before: State


class Node:
    """A node of a network: its port, how many of its frames are not sent, and those of its events that are wanted.

    `missed` is how many of these events were lost, because nobody took the ones before.
    """

    def __init__(self, queue: int, wanted: frozenset[Event], joining: bool) -> None:
        self.port = Port(queue, 0, joining=joining)
        self.happened: collections.deque[Happening] = collections.deque()
        self.pending = self.missed = 0
        self._wanted = wanted
        self._state = State.ERROR_ACTIVE

    def take(self, event: Event, frame: Frame | None, now: int) -> None:
        """Keeps an event, if it is wanted."""
        before, self._state = self._state, self.port.state
        self.pending -= event is Event.SENT
        if event not in self._wanted:
            return
        if len(self.happened) >= _MOST_KEPT:
            self.missed += 1
            return
        sender, counters = self.port.phase.sender, self.port.counters
        self.happened.append(Happening(now, event, frame, sender, counters, self._state, before))


class _Bus:
    """The library's bus with these nodes, and its hits. With `earlier` it continues that bus with other nodes."""

    def __init__(self, nodes: list[Node], earlier: _Bus | None = None) -> None:
        self.nodes = nodes
        self._wire: PlainWire = PlainWire() if earlier is None else earlier._wire
        # hits that all nodes see; of single nodes in bit times; and of single nodes in attempts, with offsets
        self._hits: list[PlainHit] = [] if earlier is None else earlier._hits
        self._views: list[tuple[int, Node]] = [] if earlier is None else earlier._views
        self._inside: dict[int, list[tuple[Node, int]]] = {} if earlier is None else earlier._inside
        count = len(nodes)
        self._ports = (ctypes.POINTER(PlainPort) * count)(*(ctypes.pointer(node.port._port) for node in nodes))
        self._events, self._frames = ctypes.create_string_buffer(count), (PlainFrame * count)()
        self._passed = ctypes.c_size_t()

    @property
    def time(self) -> int:
        """How many bit times have passed."""
        return int(self._wire.time)

    @property
    def attempts(self) -> int:
        """How many transmission attempts have begun."""
        return int(self._wire.attempts)

    @property
    def has_hits(self) -> bool:
        """Whether hits may come on an idle bus."""
        return bool(self._views) or any(hit.kind == HitKind.AT for hit in self._hits)

    def is_idle(self) -> bool:
        """Whether nothing happens until a frame is queued or a hit occurs."""
        return (
            not self._wire.until_rest
            and not any(node.pending for node in self.nodes)
            and all(node.port.phase.phase is Phase.IDLE for node in self.nodes)
        )

    def hit_at(self, at: int, only: Node | None) -> None:
        """Adds a hit in a bit time."""
        if at < self.time:
            return
        if only is None:
            self._hits.append(PlainHit(time=at, kind=HitKind.AT))
        else:
            self._views.append((at, only))

    def hit_in(self, attempt: int, offset: int, only: Node | None) -> None:
        """Adds a hit in an attempt that has not begun."""
        if only is None:
            self._hits.append(PlainHit(attempt=attempt, offset=offset, kind=HitKind.IN))
        else:
            self._inside.setdefault(attempt, []).append((only, offset))

    def advance(self, until: int) -> None:
        """Passes bit times before this one, some or until a node has an event; idle ones at once."""
        if self.is_idle():
            timed = [hit.time for hit in self._hits if hit.kind == HitKind.AT] + [at for at, _ in self._views]
            self._wire.time = min([until, *timed])
        if self.time < until and self.nodes:
            # a hit of one node in an attempt becomes one at a time as soon as the attempt has begun
            self._run(1 if self._inside else min(until - self.time, _MOST_BUSY))

    def _run(self, bits: int) -> None:
        """Passes bit times until a node has an event, but at most these."""
        hits = [*self._hits, *self._views_of_nodes()]
        begun = self.attempts
        status = lib.riddlesage_wire_run(
            self._wire,
            self._ports,
            len(self.nodes),
            (PlainHit * len(hits))(*hits),
            len(hits),
            bits,
            self._events,
            self._frames,
            self._passed,
        )
        demand(status)
        if self.attempts > begun:
            for node, offset in self._inside.pop(begun, ()):
                self._views.append((self._wire.start + offset, node))
        self._drop_hits()
        for place, code in enumerate(self._events.raw):
            if code:
                frame = frame_of(self._frames[place]) if code <= Event.RECEIVED else None
                self.nodes[place].take(Event(code), frame, self.time - 1)

    def _views_of_nodes(self) -> list[PlainHit]:
        """The hits of single nodes in bit times, with the places of these nodes."""
        places = {id(node): place for place, node in enumerate(self.nodes)}
        there = [(at, places[id(node)]) for at, node in self._views if id(node) in places]
        return [PlainHit(time=at, port=place, kind=HitKind.VIEW) for at, place in there]

    def _drop_hits(self) -> None:
        """Removes the hits that have occurred, or cannot occur any more."""
        now, last = self.time, self.attempts - 1
        if self._hits:
            self._hits[:] = [
                hit for hit in self._hits if (hit.time >= now if hit.kind == HitKind.AT else hit.attempt >= last)
            ]
        if self._views:
            self._views[:] = [(at, node) for at, node in self._views if at >= now]


class Network:
    """A bus at a bit rate, from bit time 0 on. Each call may be made by any thread.

    If `real` is set, as many bit times have passed as the bit rate demands since it was made. On a machine that is too
    slow for that, its time passes more slowly, and `late` is by how many bit times. Otherwise time passes only while
    someone waits for an event or for capacity in a queue, as fast as it can be computed. It stops when the bus is idle.

    `with network:` keeps other threads out, and its time stops: frames that are sent inside are queued in one bit time.
    """

    def __init__(self, bitrate: int, real: bool) -> None:
        if bitrate <= 0:
            raise ValueError("a bit rate must be above 0")
        self.bitrate, self.real = bitrate, real
        self.late = 0
        self._changed = threading.Condition(threading.RLock())
        # how often the thread that has the lock has entered
        self._depth = 0
        self._bus = _Bus([])
        # bit time 0, as a time of day in seconds, and by the clock that nobody sets
        self.epoch, self._begun = time.time() if real else 0.0, time.monotonic()

    def __enter__(self) -> Network:
        self._changed.acquire()
        self._depth += 1
        if self._depth == 1:
            self._catch_up()
        return self

    def __exit__(
        self, kind: type[BaseException] | None, error: BaseException | None, trace: TracebackType | None
    ) -> None:
        self._depth -= 1
        self._changed.notify_all()
        self._changed.release()

    @property
    def time(self) -> int:
        """How many bit times have passed."""
        with self:
            return self._bus.time

    @property
    def count(self) -> int:
        """How many nodes it has."""
        with self:
            return len(self._bus.nodes)

    @property
    def attempts(self) -> int:
        """How many transmission attempts have begun."""
        with self:
            return self._bus.attempts

    def attach(self, queue: int, wanted: frozenset[Event]) -> Node:
        """Adds a node with a queue of this capacity. Before bit time 0 it is idle, later it first integrates.

        If the bus has 64 nodes, it raises Refused.
        """
        with self:
            if len(self._bus.nodes) == _MOST_NODES:
                raise Refused(Status.BAD_BUS)
            node = Node(queue, wanted, joining=self._bus.time > 0)
            self._bus = _Bus([*self._bus.nodes, node], self._bus)
            return node

    def detach(self, node: Node, seconds: float) -> int:
        """Removes a node when its frames are sent, or after this many seconds of bus time. Returns how many remain."""
        with self:
            end = self._bus.time + int(seconds * self.bitrate)
            # without another node nothing is acknowledged
            while node.pending and len(self._bus.nodes) > 1 and self._bus.time < end:
                self._wait(_TICK)
                self._advance(None)
            self._bus = _Bus([it for it in self._bus.nodes if it is not node], self._bus)
            return len(self._bus.nodes)

    def offer(self, node: Node, frame: Frame, seconds: float) -> None:
        """Queues a frame. If the queue is full, it waits for this many seconds, and then raises Refused."""
        end = time.monotonic() + seconds
        with self:
            while True:
                try:
                    node.port.offer(frame)
                except Refused as full:
                    left = end - time.monotonic()
                    if full.status != Status.QUEUE_FULL or left <= 0:
                        raise
                    self._wait(left)
                    self._advance(None)
                else:
                    node.pending += 1
                    return

    def following(self, node: Node, seconds: float | None) -> Happening | None:
        """The next event of a node. It waits for this many seconds; without them, for as long as there is none."""
        end = None if seconds is None else time.monotonic() + seconds
        with self:
            while True:
                self._advance(node)
                if node.happened:
                    return node.happened.popleft()
                left = None if end is None else end - time.monotonic()
                if left is not None and left <= 0:
                    return None
                self._wait(left)

    def run(self, until: int) -> None:
        """Passes all bit times before this one. If time is real, nobody can: that is a ValueError."""
        with self:
            if self.real:
                raise ValueError("the time of this bus is real: it passes by itself")
            self._pass(until)

    def hit_at(self, at: int, only: Node | None = None) -> None:
        """Injects a bit error: the level of the bus is inverted in bit time `at`; with `only`, for this node alone."""
        with self:
            self._bus.hit_at(count_in(at), only)

    def hit_next(self, offset: int, attempts: int = 1, only: Node | None = None) -> None:
        """Injects a bit error into each of the next transmission attempts, `offset` bit times after its start.

        With `only`, this node alone samples the inverse level, and the offset is at least 1.
        """
        offset = count_in(offset)
        if only is not None and offset == 0:
            raise ValueError("a bit error of one node alone cannot be at offset 0")
        with self:
            first = self._bus.attempts
            for attempt in range(first, first + count_in(attempts)):
                self._bus.hit_in(attempt, offset, only)

    def state(self, node: Node) -> tuple[State, Counters]:
        """The state of a node, and its counters."""
        with self:
            return node.port.state, node.port.counters

    def _advance(self, node: Node | None) -> None:
        """Passes bit times that are due; if time is not real, some, or those until this node has an event."""
        if self.real:
            self._catch_up()
            return
        bus, end = self._bus, self._bus.time + _STRIDE
        while bus.time < end and not (node and node.happened) and not (node and bus.is_idle() and not bus.has_hits):
            bus.advance(end)

    def _catch_up(self) -> None:
        """If time is real, passes the bit times that are due. What takes too long is not due any more."""
        if not self.real:
            return
        now = time.monotonic()
        due = int((now - self._begun) * self.bitrate)
        while self._bus.time < due:
            self._bus.advance(due)
            if self._bus.time < due and time.monotonic() > now + _SHIFT:
                self.late += due - self._bus.time
                self._begun = now - self._bus.time / self.bitrate
                return

    def _wait(self, seconds: float | None) -> None:
        """Lets other threads in: for this time if the bus is idle, otherwise for a moment."""
        if not self._bus.is_idle() or self._bus.has_hits:
            most = _TICK if self.real else 0
            seconds = most if seconds is None else min(seconds, most)
        depth, self._depth = self._depth, 0
        self._changed.wait(seconds)
        self._depth = depth

    def _pass(self, until: int) -> None:
        """Passes all bit times before this one."""
        while self._bus.time < until:
            self._bus.advance(until)
