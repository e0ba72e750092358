"""A controller written from docs/ACCESS.md and docs/FRAMES.md, with the ports and registers of the verified circuit.

It shares no code with that circuit.
"""

from __future__ import annotations

from dataclasses import dataclass, fields, replace
from typing import Any

from holding.gates import FALSE, TRUE
from peer.front import Frame, Front, data_end, heard_frame, masked
from peer.graph import Graph, Word, constant

(
    IDLE,
    JOINING,
    STUFFED_PART,
    CRC_DELIMITER,
    ACK_SLOT,
    ACK_DELIMITER,
    END_OF_FRAME,
    ERROR_FLAG,
    PASSIVE_FLAG,
    OVERLOAD_FLAG,
    AFTER_FLAG,
    DELIMITER,
    INTERMISSION,
    SUSPEND,
    BUS_OFF,
) = range(15)
(
    NOTHING,
    SENT,
    RECEIVED,
    LOST,
    BIT_ERROR,
    STUFF_ERROR,
    CRC_ERROR,
    FORM_ERROR,
    ACK_ERROR,
    OVERLOAD,
    WENT_OFF,
    RECOVERED,
) = range(12)
UNCOUNTED, RECEIVER_BY_1, RECEIVER_BY_8, SENDER_BY_8, FRAME_SENT, FRAME_RECEIVED = range(6)


def nibble(number: int) -> Word:
    """A number below 16."""
    return constant(number, 4)


@dataclass
class Move:
    """The effect of a bus level: the next values of registers, what the error counters count, and the event."""

    phase: Word
    place: Word
    last: int  # in a passive error flag: its last level
    unacknowledged: int
    first: int  # after a flag: no level has come yet
    sender: int
    pending: Word
    used: Word
    cause: Word
    event: Word
    takes: int = FALSE  # the pending frame is transmitted from now on
    begins: int = FALSE  # the level is a start of frame
    hears: int = FALSE  # the level is one of the stuffed part


class Controller:
    """The circuit while it is built."""

    def __init__(self) -> None:
        self.graph = Graph()
        self.declare_inputs()
        self.declare_registers()
        graph = self.graph
        self.dominant = self.bus ^ 1
        self.receiver = self.sender ^ 1
        self.passive = graph.any(*self.tec[7:], self.rec[7])
        asks = graph.both(self.overload_request, graph.is_number(self.overload_count, 3) ^ 1)
        self.requested = graph.select(asks, [*self.overload_count, FALSE, FALSE], self.pending)
        self.held_back = graph.both(self.sender, self.passive)
        self.is_in = [graph.is_number(self.phase, number) for number in range(15)]
        self.agrees = graph.is_number(self.front.check, 0)
        self.next_place = graph.more(self.place)
        self.row_ends = graph.both(self.bus, self.under(10) ^ 1)
        self.recovers = graph.all(self.is_in[BUS_OFF], self.row_ends, graph.is_number(self.occurrences, 127))
        self.heard = self.front.hearing(graph, self.bus)

    def declare_inputs(self) -> None:
        """The circuit's inputs."""
        put = self.graph.input
        (self.reset,) = put("reset", 1, "loads the idle state, or that of bus integration, whatever `enable` is")
        (self.integrating,) = put(
            "integrating", 1, "with `reset`: bus integration, it waits for eleven recessive levels first"
        )
        (self.enable,) = put("enable", 1, "a bit time passes; if it is 0, nothing changes")
        (self.bus,) = put("bus", 1, "the sampled level: 1 is recessive")
        (self.overload_request,) = put(
            "overload_request", 1, "with `enable`: requests own overload frames, before the bit time"
        )
        self.overload_count = put("overload_count", 2, "how many, 0 to 2; 3 changes nothing")
        (self.waits,) = put("waits", 1, "a frame is pending")
        self.waiting = Frame(
            put("wait_extended", 1, "it has an extended identifier"),
            put("wait_remote", 1, "it is a remote frame"),
            put("wait_identifier", 29, "a standard one is in the lowest 11 bits"),
            put("wait_dlc", 4, "its data length code"),
            put("wait_data", 64, "byte k is at [8*k +: 8]"),
        )

    def declare_registers(self) -> None:
        """The circuit's registers."""
        put = self.graph.register
        self.phase = put("phase", 4, "idle 0, joining 1, stuffed part 2, .., bus off 14")
        self.place = put("place", 4, "the place within the phase, or a count of levels in a row")
        (self.last,) = put("last", 1, "in a passive error flag: its last level was recessive")
        (self.unacknowledged,) = put("unacknowledged", 1, "in a passive error flag: that of a missing acknowledgement")
        (self.first,) = put("first", 1, "after a flag: the next level is the first after an error flag")
        (self.sender,) = put("sender", 1, "transmitter of the frame on the bus")
        self.pending = put("pending", 4, "own overload frames that are requested")
        self.used = put("used", 4, "own overload frames since the last start of frame")
        self.tec = put("tec_count", 9, "TEC")
        self.rec = put("rec_count", 8, "REC")
        self.occurrences = put("occurrences", 7, "bus off: sequences of eleven recessive levels")
        self.front = Front(
            put("heard", 103, "the frame on the bus: the destuffed level at each position, 0 past those received"),
            put("heard_count", 7, "how many levels were received, without stuff bits"),
            put("heard_last", 1, "the last level, also that of a stuff bit")[0],
            put("heard_run", 4, "how many equal levels end with the last one"),
            put("heard_check", 15, "the CRC register, the level that is sent first at [0]"),
        )
        self.own = put("own", 103, "the transmitted frame, as in `heard`, but complete")

    # moves

    def goes(self, phase: int, place: Word | None = None, event: int = NOTHING, cause: int = UNCOUNTED) -> Move:
        """A move to a phase, with no other effect."""
        return Move(
            phase=nibble(phase),
            place=place or nibble(0),
            last=FALSE,
            unacknowledged=FALSE,
            first=FALSE,
            sender=self.sender,
            pending=self.requested,
            used=self.used,
            cause=nibble(cause),
            event=nibble(event),
        )

    def choose(self, test: int, a: Move, b: Move) -> Move:
        """The first move if the test is true, otherwise the second."""
        if test in (TRUE, FALSE):
            return a if test else b
        made: dict[str, Any] = {}
        for field in fields(Move):
            x, y = getattr(a, field.name), getattr(b, field.name)
            is_word = isinstance(x, list)
            made[field.name] = self.graph.select(test, x, y) if is_word else self.graph.choose(test, x, y)
        return Move(**made)

    def fails(self, event: Word, cause: Word, unacknowledged: int = FALSE) -> Move:
        """An error flag begins: a passive one if the controller is error passive."""
        active = replace(self.goes(ERROR_FLAG), event=event, cause=cause)
        passive = replace(self.goes(PASSIVE_FLAG), event=event, cause=cause, last=TRUE, unacknowledged=unacknowledged)
        return self.choose(self.passive, passive, active)

    def error_cause(self, receiver: int = RECEIVER_BY_1) -> Word:
        """The cause of counting for an error."""
        return self.graph.select(self.sender, nibble(SENDER_BY_8), nibble(receiver))

    def errs(self, event: int) -> Move:
        """An error of this kind, which is counted."""
        return self.fails(nibble(event), self.error_cause())

    def breaks_form(self) -> Move:
        """A dominant level in a fixed-form field."""
        event = self.graph.select(self.sender, nibble(BIT_ERROR), nibble(FORM_ERROR))
        return self.fails(event, self.error_cause())

    def overloads(self) -> Move:
        """An overload flag begins."""
        return self.goes(OVERLOAD_FLAG, event=OVERLOAD)

    def starts(self, sends: int) -> Move:
        """The level is a start of frame."""
        return replace(self.goes(STUFFED_PART), sender=sends, takes=sends, begins=TRUE, used=nibble(0))

    def closes(self) -> Move:
        """Intermission begins, or an own overload frame instead."""
        graph = self.graph
        asks = graph.all(self.receiver, graph.is_number(self.requested, 0) ^ 1, graph.is_under(self.used, 2))
        own = replace(self.overloads(), pending=graph.less(self.requested), used=graph.more(self.used))
        return self.choose(asks, own, self.goes(INTERMISSION))

    def under(self, number: int) -> int:
        """Whether the place is less."""
        return self.graph.is_under(self.place, number)

    def step(self, phase: int) -> Move:
        """The next place within the same phase."""
        return self.goes(phase, self.next_place)

    # between frames

    def joining(self) -> Move:
        """Rule Joining."""
        silent = self.choose(self.under(10), self.step(JOINING), self.goes(IDLE))
        return self.choose(self.dominant, self.goes(JOINING), silent)

    def idle(self) -> Move:
        """Rule Start of frame."""
        overridden = self.fails(nibble(BIT_ERROR), nibble(SENDER_BY_8))
        overridden = replace(overridden, sender=TRUE, takes=TRUE)
        silent = self.choose(self.waits, overridden, self.goes(IDLE))
        return self.choose(self.dominant, self.starts(self.waits), silent)

    def intermission(self) -> Move:
        """Rule Intermission."""
        sends = self.graph.both(self.waits, self.held_back ^ 1)
        dominant = self.choose(self.under(2), self.overloads(), self.starts(sends))
        over = self.choose(self.held_back, self.goes(SUSPEND), replace(self.goes(IDLE), sender=FALSE))
        return self.choose(self.dominant, dominant, self.choose(self.under(2), self.step(INTERMISSION), over))

    def suspend(self) -> Move:
        """Rule Suspend transmission."""
        silent = self.choose(self.under(7), self.step(SUSPEND), replace(self.goes(IDLE), sender=FALSE))
        return self.choose(self.dominant, self.starts(FALSE), silent)

    # in a frame

    def stuffed_part(self) -> Move:
        """Rules Stuff places, Overridden stuff bit, Arbitration."""
        graph, front = self.graph, self.front
        arbitrates = front.in_arbitration(graph, self.own)
        uncounted = graph.all(self.sender, self.dominant, arbitrates)
        stuff_cause = graph.select(uncounted, nibble(UNCOUNTED), self.error_cause())
        stuff_error = self.fails(nibble(STUFF_ERROR), stuff_cause)
        ended = replace(self.goes(CRC_DELIMITER), hears=TRUE)
        goes_on = replace(self.goes(STUFFED_PART), hears=TRUE)
        heard = self.choose(self.heard.is_whole(graph), ended, goes_on)
        lost = replace(heard, sender=FALSE, event=nibble(LOST))
        other = self.choose(graph.both(self.dominant, arbitrates), lost, self.errs(BIT_ERROR))
        differs = graph.differ(front.next_sent(graph, self.own), self.bus)
        sent = self.choose(graph.both(self.sender, differs), other, heard)
        repeats = graph.differ(self.bus, front.last) ^ 1
        return self.choose(front.is_stuff_due(graph), self.choose(repeats, stuff_error, heard), sent)

    def crc_delimiter(self) -> Move:
        """Rule Fixed form."""
        return self.choose(self.dominant, self.breaks_form(), self.goes(ACK_SLOT))

    def ack_slot(self) -> Move:
        """Rules Acknowledgement, Unacknowledged passive sender."""
        cause = self.graph.select(self.passive, nibble(UNCOUNTED), nibble(SENDER_BY_8))
        missing = self.fails(nibble(ACK_ERROR), cause, self.passive)
        sent = self.choose(self.dominant, self.goes(ACK_DELIMITER), missing)
        counted = self.goes(ACK_DELIMITER, cause=FRAME_RECEIVED)
        received = self.choose(self.dominant, counted, self.errs(BIT_ERROR))
        received = self.choose(self.agrees, received, self.goes(ACK_DELIMITER))
        return self.choose(self.sender, sent, received)

    def ack_delimiter(self) -> Move:
        """Rules Fixed form, Refused CRC sequence."""
        refuses = self.graph.both(self.receiver, self.agrees ^ 1)
        silent = self.choose(refuses, self.errs(CRC_ERROR), self.goes(END_OF_FRAME))
        return self.choose(self.dominant, self.breaks_form(), silent)

    def end_of_frame(self) -> Move:
        """Rules Frame validation, Dominant last level."""
        sent = replace(self.closes(), cause=nibble(FRAME_SENT), event=nibble(SENT))
        sender = self.choose(self.under(6), self.step(END_OF_FRAME), sent)
        sender = self.choose(self.dominant, self.errs(BIT_ERROR), sender)
        valid = replace(self.step(END_OF_FRAME), event=nibble(RECEIVED))
        silent = self.choose(self.under(6), valid, self.closes())
        silent = self.choose(self.under(5), self.step(END_OF_FRAME), silent)
        broken = self.choose(self.under(6), self.errs(FORM_ERROR), self.overloads())
        return self.choose(self.sender, sender, self.choose(self.dominant, broken, silent))

    # error and overload frames

    def flag(self, phase: int) -> Move:
        """An active error flag, or an overload flag; rule Error in an own flag."""
        broken = self.fails(nibble(BIT_ERROR), self.error_cause(RECEIVER_BY_8))
        ended = replace(self.goes(AFTER_FLAG), first=TRUE if phase == ERROR_FLAG else FALSE)
        return self.choose(self.dominant, self.choose(self.under(5), self.step(phase), ended), broken)

    def passive_flag(self) -> Move:
        """Rules Error flags, Unacknowledged passive sender."""
        graph = self.graph
        run = graph.select(graph.differ(self.bus, self.last), nibble(1), self.next_place)
        counts = graph.both(self.unacknowledged, self.dominant)
        cause = graph.select(counts, nibble(SENDER_BY_8), nibble(UNCOUNTED))
        goes_on = replace(
            self.goes(PASSIVE_FLAG, run),
            last=self.bus,
            unacknowledged=graph.both(self.unacknowledged, self.bus),
            cause=cause,
        )
        ended = replace(self.goes(AFTER_FLAG), first=TRUE, cause=cause)
        return self.choose(graph.is_under(run, 6), goes_on, ended)

    def after_flag(self) -> Move:
        """Rule After a flag: `place` counts dominant levels, modulo eight."""
        graph = self.graph
        eighth = self.under(7) ^ 1
        counts = graph.either(eighth, graph.both(self.receiver, self.first))
        cause = graph.select(counts, self.error_cause(RECEIVER_BY_8), nibble(UNCOUNTED))
        place = graph.select(eighth, nibble(0), self.next_place)
        dominant = replace(self.goes(AFTER_FLAG, place), cause=cause)
        return self.choose(self.dominant, dominant, self.goes(DELIMITER, nibble(1)))

    def delimiter(self) -> Move:
        """Rule Delimiter."""
        broken = self.choose(self.under(7), self.errs(FORM_ERROR), self.overloads())
        silent = self.choose(self.under(7), self.step(DELIMITER), self.closes())
        return self.choose(self.dominant, broken, silent)

    def bus_off(self) -> Move:
        """Rule Bus off: `place` counts recessive levels in a row."""
        row = self.graph.select(self.graph.either(self.dominant, self.under(10) ^ 1), nibble(0), self.next_place)
        return self.choose(self.recovers, self.goes(IDLE, event=RECOVERED), self.goes(BUS_OFF, row))

    def moved(self) -> Move:
        """The move of the current phase, before counters change."""
        moves = {
            IDLE: self.idle(),
            JOINING: self.joining(),
            STUFFED_PART: self.stuffed_part(),
            CRC_DELIMITER: self.crc_delimiter(),
            ACK_SLOT: self.ack_slot(),
            ACK_DELIMITER: self.ack_delimiter(),
            END_OF_FRAME: self.end_of_frame(),
            ERROR_FLAG: self.flag(ERROR_FLAG),
            PASSIVE_FLAG: self.passive_flag(),
            OVERLOAD_FLAG: self.flag(OVERLOAD_FLAG),
            AFTER_FLAG: self.after_flag(),
            DELIMITER: self.delimiter(),
            INTERMISSION: self.intermission(),
            SUSPEND: self.suspend(),
        }
        made = self.bus_off()
        for phase, move in moves.items():
            made = self.choose(self.is_in[phase], move, made)
        return made

    # counters

    def counted(self, cause: Word) -> tuple[Word, Word]:
        """TEC and REC after a cause of counting."""
        graph, tec, rec = self.graph, self.tec, self.rec
        causes = [graph.is_number(cause, number) for number in range(6)]
        by = graph.select(causes[RECEIVER_BY_8], constant(8, 8), constant(1, 8))
        raised, over = graph.sum(rec, by)
        raised = [graph.either(literal, over) for literal in raised]
        lower = graph.select(graph.is_number(rec, 0), rec, graph.less(rec))
        lower = graph.select(rec[7], constant(127, 8), lower)
        kept = graph.select(causes[FRAME_RECEIVED], lower, rec)
        next_rec = graph.select(graph.either(causes[RECEIVER_BY_1], causes[RECEIVER_BY_8]), raised, kept)
        fewer = graph.select(graph.is_number(tec, 0), tec, graph.less(tec))
        kept = graph.select(causes[FRAME_SENT], fewer, tec)
        return graph.select(causes[SENDER_BY_8], graph.sum(tec, constant(8, 9))[0], kept), next_rec

    def made(self) -> Graph:
        """The whole circuit."""
        graph = self.graph
        off = self.is_in[BUS_OFF]
        move = self.moved()
        tec, rec = self.counted(move.cause)
        goes_off = graph.both(off ^ 1, tec[8])
        left = replace(move, phase=nibble(BUS_OFF), place=nibble(0), sender=FALSE, event=nibble(WENT_OFF))
        left = replace(left, last=FALSE, unacknowledged=FALSE, first=FALSE)
        move = self.choose(goes_off, left, move)
        rows = graph.select(self.row_ends, graph.more(self.occurrences), self.occurrences)
        rows = graph.select(graph.either(self.recovers, off ^ 1), constant(0, 7), rows)
        tec = graph.select(self.recovers, constant(0, 9), graph.select(off, self.tec, tec))
        rec = graph.select(self.recovers, constant(0, 8), graph.select(off, self.rec, rec))
        self.take_all(move, [(self.tec, tec), (self.rec, rec), (self.occurrences, rows)])
        self.put_outputs(move)
        return graph

    def take(self, register: Word, word: Word, cleared: Word | None = None) -> None:
        """Sets a register's next value: with `reset` that in `cleared`, without `enable` its present value."""
        graph = self.graph
        kept = graph.select(self.enable, word, register)
        graph.take(register, graph.select(self.reset, cleared or constant(0, len(register)), kept))

    def take_all(self, move: Move, counters: list[tuple[Word, Word]]) -> None:
        """Sets the next values of all registers."""
        graph = self.graph
        self.take(self.phase, move.phase, [self.integrating, FALSE, FALSE, FALSE])
        for register, word in [(self.place, move.place), (self.pending, move.pending), (self.used, move.used)]:
            self.take(register, word)
        for bit, literal in [(self.last, move.last), (self.first, move.first), (self.sender, move.sender)]:
            self.take([bit], [literal])
        self.take([self.unacknowledged], [move.unacknowledged])
        for register, word in counters:
            self.take(register, word)
        behind = self.front.chosen(graph, move.begins, move.hears, self.heard)
        for register, word in zip(self.front.words(), behind.words()):
            self.take(register, word)
        self.take(self.own, graph.select(move.takes, self.waiting.levels(graph), self.own))

    # outputs

    def driven(self) -> int:
        """The driven level."""
        graph, front, is_in = self.graph, self.front, self.is_in
        stuff_bit = front.last ^ 1
        sent = graph.choose(front.is_stuff_due(graph), stuff_bit, front.next_sent(graph, self.own))
        dominant = graph.any(
            is_in[ERROR_FLAG],
            is_in[OVERLOAD_FLAG],
            graph.both(is_in[IDLE], self.waits),
            graph.all(is_in[ACK_SLOT], self.receiver, self.agrees),
            graph.all(is_in[STUFFED_PART], self.sender, sent ^ 1),
        )
        return dominant ^ 1

    def put_outputs(self, move: Move) -> None:
        """All outputs."""
        graph, put = self.graph, self.graph.output
        put("drive", [self.driven()], "the driven level of this bit time")
        passes = graph.both(self.enable, self.reset ^ 1)
        put("event_code", [graph.both(passes, literal) for literal in move.event], "the event of this bit time, or 0")
        is_sent = graph.is_number(move.event, SENT)
        frame = heard_frame(graph, self.own).chosen(graph, is_sent, heard_frame(graph, self.front.levels))
        frame = masked(graph, frame)
        put("frame_extended", frame.extended, "of the frame that is sent or received; at other times undefined")
        put("frame_remote", frame.remote, "it is a remote frame")
        put("frame_identifier", frame.identifier, "its identifier")
        put("frame_dlc", frame.dlc, "its data length code")
        put("frame_data", frame.data, "its data; bytes past the data length are 0")
        put("tec", self.tec, "TEC before this bit time")
        put("rec", self.rec, "REC before this bit time")
        put("passive", [self.passive], "a counter is at least 128")
        put("off", [self.is_in[BUS_OFF]], "bus off")
        put("legal", [self.legal()], "1 in every state that a run from reset reaches")

    def legal(self) -> int:
        """An invariant of the registers in every run from reset."""
        graph, is_in, front = self.graph, self.is_in, self.front
        most = {JOINING: 11, END_OF_FRAME: 7, ERROR_FLAG: 6, PASSIVE_FLAG: 6, OVERLOAD_FLAG: 6, AFTER_FLAG: 8}
        most |= {DELIMITER: 8, INTERMISSION: 3, SUSPEND: 8, BUS_OFF: 11}
        parts = [graph.implies(is_in[phase], self.under(most.get(phase, 1))) for phase in range(15)]
        parts += [graph.implies(is_in[DELIMITER], self.under(1) ^ 1)]
        parts += [graph.implies(self.first, graph.both(is_in[AFTER_FLAG], self.under(1)))]
        parts += [graph.is_under(self.phase, 15), graph.is_under(self.tec, 264)]
        parts += [graph.differ(is_in[BUS_OFF], self.tec[8]) ^ 1]
        parts += [graph.is_under(self.pending, 3), graph.is_under(self.used, 3)]
        parts += [graph.implies(is_in[BUS_OFF] ^ 1, graph.is_number(self.occurrences, 0))]
        parts += [graph.implies(graph.any(is_in[IDLE], is_in[JOINING], is_in[BUS_OFF]), self.receiver)]
        length = graph.sum(data_end(graph, heard_frame(graph, front.levels)), constant(15, 7))[0]
        part = is_in[STUFFED_PART]
        behind = graph.any(*is_in[CRC_DELIMITER : END_OF_FRAME + 1])
        is_whole = graph.is_equal(front.count, length)
        due = front.is_stuff_due(graph)
        parts += [graph.implies(part, graph.is_below(length, front.count) ^ 1)]
        parts += [graph.implies(part, graph.is_number(front.count, 0) ^ 1)]
        parts += [graph.implies(part, graph.both(graph.is_number(front.run, 0) ^ 1, graph.is_under(front.run, 6)))]
        parts += [graph.implies(part, graph.implies(is_whole, due)), graph.implies(behind, is_whole)]
        for place, level in enumerate(front.levels):
            unheard = graph.is_under(front.count, place + 1) if place else TRUE
            parts.append(graph.implies(graph.all(graph.either(part, behind), level, unheard), FALSE))
        return graph.all(*parts)


def controller() -> Graph:
    """The circuit."""
    return Controller().made()
