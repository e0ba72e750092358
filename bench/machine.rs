//! A plain controller with a queue and a log, for bit-level simulators of classical CAN. It is written from
//! docs/ACCESS.md, independent of the crates, and uses only the standard library. Its frames are in `frames.rs`.
//! `simulator.rs` has a bus of such controllers, `encoder.rs` encodes its frames, and
//! `conformance/adapters/simulator.rs` plays the conformance kit with one. Each of the three programs uses a part of
//! this file.
#![allow(dead_code)]

#[path = "frames.rs"]
mod frames;

use self::frames::Hearing;
pub use self::frames::{Dominant, Frame, Level, Recessive};
use std::collections::VecDeque;

// Fault confinement

pub enum Cause {
    ReceiverError,
    ReceiverEight,
    SenderEight,
    FrameSent,
    FrameReceived,
}

#[derive(Clone, Copy, PartialEq, Eq)]
pub enum State {
    Active,
    Passive,
    BusOff,
}

#[derive(Default)]
pub struct Counters {
    pub transmit: u32,
    pub receive: u32,
}

impl Counters {
    pub fn state(&self) -> State {
        if self.transmit >= 256 {
            State::BusOff
        } else if self.transmit >= 128 || self.receive >= 128 {
            State::Passive
        } else {
            State::Active
        }
    }

    fn count(&mut self, cause: Cause) {
        match cause {
            Cause::ReceiverError => self.receive = (self.receive + 1).min(255),
            Cause::ReceiverEight => self.receive = (self.receive + 8).min(255),
            Cause::SenderEight => self.transmit += 8,
            Cause::FrameSent => self.transmit = self.transmit.saturating_sub(1),
            Cause::FrameReceived if self.receive > 127 => self.receive = 127,
            Cause::FrameReceived => self.receive = self.receive.saturating_sub(1),
        }
    }
}

// Medium access

#[derive(Clone, Copy)]
pub enum Phase {
    Idle,
    Joining { row: u32 },
    StuffedPart,
    CrcDelimiter,
    AckSlot,
    AckDelimiter,
    EndOfFrame { place: u32 },
    ErrorFlag { place: u32 },
    PassiveFlag { last: Level, run: u32, unacknowledged: bool },
    OverloadFlag { place: u32 },
    AfterFlag { first: bool, dominant: u32 },
    Delimiter { place: u32 },
    Intermission { place: u32 },
    Suspend { place: u32 },
    BusOff { occurrences: u32, row: u32 },
}

#[derive(Clone, Copy, PartialEq, Eq)]
pub enum ErrorKind {
    Stuff,
    Bit,
    Form,
    Crc,
    Acknowledgement,
}

/// The event of a bit time. The frame of the first two is the controller's `frame`.
#[derive(Clone, Copy)]
pub enum Event {
    Sent,
    Received,
    Lost,
    Error(ErrorKind),
    Overload,
    WentOff,
    Recovered,
}

pub struct Controller {
    phase: Phase,
    hearing: Hearing,
    /// The frame that the controller transmits, with its unstuffed levels.
    sending: Option<(Frame, Vec<Level>)>,
    /// Whether the received CRC sequence is right, and the frame.
    agrees: bool,
    pub frame: Option<Frame>,
    pub counters: Counters,
    pub overloads_wanted: u32,
    overloads_used: u32,
}

impl Controller {
    pub fn new(phase: Phase) -> Controller {
        Controller {
            phase,
            hearing: Hearing::new(),
            sending: None,
            agrees: false,
            frame: None,
            counters: Counters::default(),
            overloads_wanted: 0,
            overloads_used: 0,
        }
    }

    fn is_passive(&self) -> bool {
        self.counters.state() != State::Active
    }

    #[inline]
    fn drive(&self, waiting: Option<&Frame>) -> Level {
        match self.phase {
            Phase::Idle if waiting.is_some() => Dominant,
            Phase::StuffedPart => match &self.sending {
                None => Recessive,
                Some(_) if self.hearing.is_stuff_place() => self.hearing.last.opposite(),
                Some((_, levels)) => levels[self.hearing.levels.len()],
            },
            Phase::AckSlot if self.sending.is_none() && self.agrees => Dominant,
            Phase::ErrorFlag { .. } | Phase::OverloadFlag { .. } => Dominant,
            _ => Recessive,
        }
    }

    /// Counts an error or a success. With a TEC of 256 the controller is bus off.
    fn count(&mut self, cause: Cause) {
        self.counters.count(cause);
    }

    fn start_flag(&mut self, unacknowledged: bool) {
        self.phase = if self.is_passive() {
            Phase::PassiveFlag { last: Recessive, run: 0, unacknowledged }
        } else {
            Phase::ErrorFlag { place: 0 }
        };
    }

    fn error(&mut self, kind: ErrorKind) -> Option<Event> {
        self.start_flag(false);
        self.count(if self.sending.is_some() {
            Cause::SenderEight
        } else {
            Cause::ReceiverError
        });
        Some(Event::Error(kind))
    }

    /// An error in a field of fixed form: for a transmitter, a bit error if it sees another level than its own.
    fn error_of_form(&mut self) -> Option<Event> {
        self.error(if self.sending.is_some() { ErrorKind::Bit } else { ErrorKind::Form })
    }

    fn error_in_flag(&mut self) -> Option<Event> {
        self.start_flag(false);
        self.count(self.eight());
        Some(Event::Error(ErrorKind::Bit))
    }

    fn eight(&self) -> Cause {
        if self.sending.is_some() {
            Cause::SenderEight
        } else {
            Cause::ReceiverEight
        }
    }

    fn overload(&mut self) -> Option<Event> {
        self.phase = Phase::OverloadFlag { place: 0 };
        Some(Event::Overload)
    }

    fn begin(&mut self, waiting: Option<&Frame>) {
        self.sending = waiting.map(|frame| (*frame, frame.unstuffed()));
        self.overloads_used = 0;
        self.hearing.begin();
        self.phase = Phase::StuffedPart;
    }

    fn rest(&mut self) {
        self.sending = None;
        self.phase = Phase::Idle;
    }

    fn enter_intermission(&mut self) -> Option<Event> {
        if self.sending.is_none() && self.overloads_wanted > 0 && self.overloads_used < 2 {
            self.overloads_wanted -= 1;
            self.overloads_used += 1;
            self.overload()
        } else {
            self.phase = Phase::Intermission { place: 0 };
            None
        }
    }

    #[inline]
    fn idle(&mut self, waiting: Option<&Frame>, seen: Level) -> Option<Event> {
        match (waiting, seen) {
            (_, Dominant) => self.begin(waiting),
            // its own start of frame is not on the bus
            (Some(frame), Recessive) => {
                self.sending = Some((*frame, frame.unstuffed()));
                return self.error(ErrorKind::Bit);
            }
            (None, Recessive) => {}
        }
        None
    }

    fn hear_level(&mut self, level: Level) -> Option<Event> {
        let place = self.hearing.levels.len();
        if !self.hearing.hear(level) {
            let counts_nothing = level == Dominant
                && matches!(&self.sending, Some((frame, _)) if place <= frame.rtr_place());
            if counts_nothing {
                self.start_flag(false);
                return Some(Event::Error(ErrorKind::Stuff));
            }
            return self.error(ErrorKind::Stuff);
        }
        if self.hearing.has_ended() {
            self.agrees = self.hearing.agrees();
            self.frame = Some(self.hearing.frame());
            self.phase = Phase::CrcDelimiter;
        }
        None
    }

    fn stuffed_part(&mut self, seen: Level) -> Option<Event> {
        if let Some((frame, levels)) = &self.sending {
            let place = self.hearing.levels.len();
            if !self.hearing.is_stuff_place() && levels[place] != seen {
                if seen == Recessive || place > frame.rtr_place() {
                    return self.error(ErrorKind::Bit);
                }
                // arbitration is lost
                self.sending = None;
                return self.hear_level(seen).or(Some(Event::Lost));
            }
        }
        self.hear_level(seen)
    }

    fn ack_slot(&mut self, seen: Level) -> Option<Event> {
        self.phase = Phase::AckDelimiter;
        match (&self.sending, seen) {
            (Some(_), Recessive) if self.is_passive() => {
                self.start_flag(true);
                return Some(Event::Error(ErrorKind::Acknowledgement));
            }
            (Some(_), Recessive) => return self.error(ErrorKind::Acknowledgement),
            (None, Recessive) if self.agrees => return self.error(ErrorKind::Bit),
            (None, Dominant) if self.agrees => self.count(Cause::FrameReceived),
            (Some(_), Dominant) | (None, _) => {}
        }
        None
    }

    fn ack_delimiter(&mut self, seen: Level) -> Option<Event> {
        match seen {
            Recessive if self.sending.is_some() || self.agrees => {
                self.phase = Phase::EndOfFrame { place: 0 };
                None
            }
            Dominant => self.error_of_form(),
            Recessive => self.error(ErrorKind::Crc),
        }
    }

    fn end_of_frame(&mut self, place: u32, seen: Level) -> Option<Event> {
        match (&self.sending, place, seen) {
            (Some((frame, _)), 6, Recessive) => {
                self.frame = Some(*frame);
                self.count(Cause::FrameSent);
                self.enter_intermission();
                Some(Event::Sent)
            }
            (None, 6, Dominant) => self.overload(),
            (None, 6, Recessive) => self.enter_intermission(),
            (_, _, Dominant) => self.error_of_form(),
            (sending, _, Recessive) => {
                let is_valid = sending.is_none() && place == 5;
                self.phase = Phase::EndOfFrame { place: place + 1 };
                is_valid.then_some(Event::Received)
            }
        }
    }

    fn passive_flag(&mut self, last: Level, run: u32, unacknowledged: bool, seen: Level) {
        let run = if seen == last { run + 1 } else { 1 };
        self.phase = if run == 6 {
            Phase::AfterFlag { first: true, dominant: 0 }
        } else {
            let unacknowledged = unacknowledged && seen == Recessive;
            Phase::PassiveFlag { last: seen, run, unacknowledged }
        };
        if unacknowledged && seen == Dominant {
            self.count(Cause::SenderEight);
        }
    }

    fn after_flag(&mut self, first: bool, dominant: u32, seen: Level) {
        if seen == Recessive {
            self.phase = Phase::Delimiter { place: 1 };
            return;
        }
        let dominant = dominant + 1;
        self.phase = Phase::AfterFlag { first: false, dominant: dominant % 8 };
        if dominant == 8 || first && self.sending.is_none() {
            self.count(self.eight());
        }
    }

    fn delimiter(&mut self, place: u32, seen: Level) -> Option<Event> {
        match seen {
            Dominant if place == 7 => self.overload(),
            Dominant => self.error(ErrorKind::Form),
            Recessive if place == 7 => self.enter_intermission(),
            Recessive => {
                self.phase = Phase::Delimiter { place: place + 1 };
                None
            }
        }
    }

    fn intermission(&mut self, place: u32, waiting: Option<&Frame>, seen: Level) -> Option<Event> {
        let is_held_back = self.sending.is_some() && self.is_passive();
        match seen {
            Dominant if place < 2 => return self.overload(),
            Dominant => self.begin(waiting.filter(|_| !is_held_back)),
            Recessive if place < 2 => self.phase = Phase::Intermission { place: place + 1 },
            Recessive if is_held_back => self.phase = Phase::Suspend { place: 0 },
            Recessive => self.rest(),
        }
        None
    }

    fn recover(&mut self, occurrences: u32, row: u32, seen: Level) -> Option<Event> {
        let row = if seen == Recessive { row + 1 } else { 0 };
        let (occurrences, row) = if row == 11 { (occurrences + 1, 0) } else { (occurrences, row) };
        if occurrences == 128 {
            self.counters = Counters::default();
            self.rest();
            Some(Event::Recovered)
        } else {
            self.phase = Phase::BusOff { occurrences, row };
            None
        }
    }

    /// Samples a level at a controller that is on the bus or joining.
    #[inline]
    fn take_part(&mut self, waiting: Option<&Frame>, seen: Level) -> Option<Event> {
        match (self.phase, seen) {
            (Phase::Idle, _) => return self.idle(waiting, seen),
            (Phase::Joining { .. }, Dominant) => self.phase = Phase::Joining { row: 0 },
            (Phase::Joining { row: 10 }, Recessive) => self.phase = Phase::Idle,
            (Phase::Joining { row }, Recessive) => self.phase = Phase::Joining { row: row + 1 },
            (Phase::StuffedPart, _) => return self.stuffed_part(seen),
            (Phase::CrcDelimiter, Dominant) => return self.error_of_form(),
            (Phase::CrcDelimiter, Recessive) => self.phase = Phase::AckSlot,
            (Phase::AckSlot, _) => return self.ack_slot(seen),
            (Phase::AckDelimiter, _) => return self.ack_delimiter(seen),
            (Phase::EndOfFrame { place }, _) => return self.end_of_frame(place, seen),
            (Phase::ErrorFlag { place: 5 }, Dominant) => {
                self.phase = Phase::AfterFlag { first: true, dominant: 0 };
            }
            (Phase::OverloadFlag { place: 5 }, Dominant) => {
                self.phase = Phase::AfterFlag { first: false, dominant: 0 };
            }
            (Phase::ErrorFlag { place }, Dominant) => {
                self.phase = Phase::ErrorFlag { place: place + 1 };
            }
            (Phase::OverloadFlag { place }, Dominant) => {
                self.phase = Phase::OverloadFlag { place: place + 1 };
            }
            (Phase::ErrorFlag { .. } | Phase::OverloadFlag { .. }, Recessive) => {
                return self.error_in_flag();
            }
            (Phase::PassiveFlag { last, run, unacknowledged }, _) => {
                self.passive_flag(last, run, unacknowledged, seen);
            }
            (Phase::AfterFlag { first, dominant }, _) => self.after_flag(first, dominant, seen),
            (Phase::Delimiter { place }, _) => return self.delimiter(place, seen),
            (Phase::Intermission { place }, _) => return self.intermission(place, waiting, seen),
            (Phase::Suspend { .. }, Dominant) => self.begin(None),
            (Phase::Suspend { place: 7 }, Recessive) => self.rest(),
            (Phase::Suspend { place }, Recessive) => self.phase = Phase::Suspend { place: place + 1 },
            (Phase::BusOff { occurrences, row }, _) => return self.recover(occurrences, row, seen),
        }
        None
    }

    #[inline]
    fn sample(&mut self, waiting: Option<&Frame>, seen: Level) -> Option<Event> {
        let was_off = matches!(self.phase, Phase::BusOff { .. });
        let event = self.take_part(waiting, seen);
        if !was_off && self.counters.state() == State::BusOff {
            self.phase = Phase::BusOff { occurrences: 0, row: 0 };
            self.sending = None;
            return Some(Event::WentOff);
        }
        event
    }
}

// Ports

pub struct Port {
    pub controller: Controller,
    pub queue: VecDeque<Frame>,
    pub queue_room: usize,
    /// The place of the frame with the highest priority.
    pub next: usize,
    pub log: Vec<(Frame, bool)>,
    pub log_room: usize,
    pub missed: u32,
}

impl Port {
    pub fn new(phase: Phase, queue_room: usize, log_room: usize) -> Port {
        Port {
            controller: Controller::new(phase),
            queue: VecDeque::with_capacity(queue_room),
            queue_room,
            next: 0,
            log: Vec::with_capacity(log_room),
            log_room,
            missed: 0,
        }
    }

    fn waiting(&self) -> Option<&Frame> {
        self.queue.get(self.next)
    }

    /// Finds the first of the frames with the lowest key.
    fn find_next(&mut self) {
        let keys = self.queue.iter().map(Frame::key).enumerate();
        self.next = keys.min_by_key(|&(_, key)| key).map_or(0, |(place, _)| place);
    }

    pub fn offer(&mut self, frame: Frame) -> bool {
        if self.queue.len() == self.queue_room {
            return false;
        }
        self.queue.push_back(frame);
        self.find_next();
        true
    }

    fn note(&mut self, frame: Frame, sent: bool) {
        if self.log.len() < self.log_room {
            self.log.push((frame, sent));
        } else {
            self.missed = self.missed.saturating_add(1);
        }
    }

    #[inline]
    pub fn drive(&self) -> Level {
        self.controller.drive(self.waiting())
    }

    #[inline]
    pub fn sample(&mut self, seen: Level) -> Option<Event> {
        let waiting = self.queue.get(self.next);
        let event = self.controller.sample(waiting, seen);
        match (event, self.controller.frame) {
            (Some(Event::Sent), Some(frame)) => {
                let sent = self.queue.iter().position(|it| it.key() == frame.key());
                if let Some(place) = sent {
                    self.queue.remove(place);
                    self.find_next();
                }
                self.note(frame, true);
            }
            (Some(Event::Received), Some(frame)) => self.note(frame, false),
            _ => {}
        }
        event
    }
}
