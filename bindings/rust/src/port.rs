//! Ports: CAN nodes.

use std::ffi::c_int;
use std::fmt;
use std::ptr::NonNull;

use crate::{named, sys, Frame, Level, Refused};

/// The event of a bit time, as a port reports it.
#[derive(Clone, Copy, Debug, PartialEq, Eq, Hash)]
pub enum Event {
    /// This frame was transmitted: reported in the last bit of its end of frame (5).
    Sent(Frame),
    /// This frame was received: reported in the last bit but one of its end of frame (5).
    Received(Frame),
    /// Arbitration was lost: the port continues as a receiver (3.2.1).
    Lost,
    /// The sampled bit differs from the one that was sent (7.1).
    BitError,
    /// A sixth equal bit in a row, where a stuff bit is due (7.1).
    StuffError,
    /// The CRC sequence is wrong: reported in the ACK delimiter (7.1, 7.2).
    CrcError,
    /// A bit of fixed form has the wrong level (7.1).
    FormError,
    /// The transmitter sees a recessive ACK slot (7.1).
    AckError,
    /// An overload flag starts with the next bit time (3.2.4).
    Overload,
    /// The port is bus off from the next bit time on (8).
    WentOff,
    /// Bus off has ended: 128 times eleven recessive bits have passed (8).
    Recovered,
}

impl Event {
    pub(crate) fn of(code: u8, frame: &sys::Frame) -> Option<Self> {
        EventKind::of(code).map(|kind| match kind {
            EventKind::Sent => Self::Sent(Frame::of(frame)),
            EventKind::Received => Self::Received(Frame::of(frame)),
            EventKind::Lost => Self::Lost,
            EventKind::BitError => Self::BitError,
            EventKind::StuffError => Self::StuffError,
            EventKind::CrcError => Self::CrcError,
            EventKind::FormError => Self::FormError,
            EventKind::AckError => Self::AckError,
            EventKind::Overload => Self::Overload,
            EventKind::WentOff => Self::WentOff,
            EventKind::Recovered => Self::Recovered,
        })
    }
}

/// The event of a bit time, without the frame that was sent or received. It is displayed by its name, such as
/// `bit error`.
#[derive(Clone, Copy, Debug, PartialEq, Eq, Hash)]
pub enum EventKind {
    /// A frame was transmitted.
    Sent = 1,
    /// A frame was received.
    Received = 2,
    /// Arbitration was lost: the port continues as a receiver (3.2.1).
    Lost = 3,
    /// The sampled bit differs from the one that was sent (7.1).
    BitError = 4,
    /// A sixth equal bit in a row, where a stuff bit is due (7.1).
    StuffError = 5,
    /// The CRC sequence is wrong: reported in the ACK delimiter (7.1, 7.2).
    CrcError = 6,
    /// A bit of fixed form has the wrong level (7.1).
    FormError = 7,
    /// The transmitter sees a recessive ACK slot (7.1).
    AckError = 8,
    /// An overload flag starts with the next bit time (3.2.4).
    Overload = 9,
    /// The port is bus off from the next bit time on (8).
    WentOff = 10,
    /// Bus off has ended: 128 times eleven recessive bits have passed (8).
    Recovered = 11,
}

impl EventKind {
    pub(crate) fn of(code: u8) -> Option<Self> {
        Some(match code {
            0 => return None,
            1 => Self::Sent,
            2 => Self::Received,
            3 => Self::Lost,
            4 => Self::BitError,
            5 => Self::StuffError,
            6 => Self::CrcError,
            7 => Self::FormError,
            8 => Self::AckError,
            9 => Self::Overload,
            10 => Self::WentOff,
            11 => Self::Recovered,
            _ => unreachable!("riddlesage reports event {code}"),
        })
    }
}

impl fmt::Display for EventKind {
    fn fmt(&self, out: &mut fmt::Formatter<'_>) -> fmt::Result {
        // SAFETY: the call takes any number
        out.pad(named(unsafe { sys::riddlesage_event_name(*self as c_int) }))
    }
}

/// The phase of a port before a bit time, without the place within it. It is displayed by its name, such as
/// `end-of-frame`.
#[derive(Clone, Copy, Debug, PartialEq, Eq, Hash)]
pub enum PhaseKind {
    /// Between frames, and free to send.
    Idle = 0,
    /// Bus integration.
    Joining = 1,
    /// Start of frame to CRC sequence.
    StuffedPart = 2,
    /// The CRC delimiter is next.
    CrcDelimiter = 3,
    /// The ACK slot is next.
    AckSlot = 4,
    /// The ACK delimiter is next.
    AckDelimiter = 5,
    /// End of frame.
    EndOfFrame = 6,
    /// Active error flag.
    ErrorFlag = 7,
    /// Passive error flag.
    PassiveFlag = 8,
    /// Overload flag.
    OverloadFlag = 9,
    /// After a flag, until a recessive level.
    AfterFlag = 10,
    /// Error or overload delimiter.
    Delimiter = 11,
    /// Intermission.
    Intermission = 12,
    /// Suspend transmission.
    Suspend = 13,
    /// Bus off.
    BusOff = 14,
}

impl PhaseKind {
    pub(crate) fn of(code: u8) -> Self {
        Phase::of(code, 0).kind()
    }
}

impl fmt::Display for PhaseKind {
    fn fmt(&self, out: &mut fmt::Formatter<'_>) -> fmt::Result {
        // SAFETY: the call takes any number
        out.pad(named(unsafe { sys::riddlesage_phase_name(*self as c_int) }))
    }
}

/// The phase of a port before a bit time, and the place within it.
#[derive(Clone, Copy, Debug, PartialEq, Eq, Hash)]
pub enum Phase {
    /// Between frames, and free to send.
    Idle,
    /// Bus integration: how many recessive levels in a row so far, 0 to 10.
    Joining(u8),
    /// Start of frame to CRC sequence: how many bits so far, without stuff bits, 1 to 118.
    StuffedPart(u8),
    /// The CRC delimiter is next.
    CrcDelimiter,
    /// The ACK slot is next.
    AckSlot,
    /// The ACK delimiter is next.
    AckDelimiter,
    /// How many of its seven bits have passed, 0 to 6.
    EndOfFrame(u8),
    /// Active error flag: how many of its six bits have passed, 0 to 5.
    ErrorFlag(u8),
    /// Passive error flag: how many equal levels came last, 0 to 5.
    PassiveFlag(u8),
    /// How many of its six bits have passed, 0 to 5.
    OverloadFlag(u8),
    /// After a flag, until a recessive level: how many dominant levels so far, modulo 8.
    AfterFlag(u8),
    /// Error or overload delimiter: how many of its eight bits have passed, 1 to 7.
    Delimiter(u8),
    /// How many of its three bits have passed, 0 to 2.
    Intermission(u8),
    /// Suspend transmission: how many of its eight bits have passed, 0 to 7.
    Suspend(u8),
    /// How many times eleven recessive levels have passed, 0 to 127.
    BusOff(u8),
}

impl Phase {
    fn of(code: u8, place: u8) -> Self {
        match code {
            0 => Self::Idle,
            1 => Self::Joining(place),
            2 => Self::StuffedPart(place),
            3 => Self::CrcDelimiter,
            4 => Self::AckSlot,
            5 => Self::AckDelimiter,
            6 => Self::EndOfFrame(place),
            7 => Self::ErrorFlag(place),
            8 => Self::PassiveFlag(place),
            9 => Self::OverloadFlag(place),
            10 => Self::AfterFlag(place),
            11 => Self::Delimiter(place),
            12 => Self::Intermission(place),
            13 => Self::Suspend(place),
            14 => Self::BusOff(place),
            _ => unreachable!("riddlesage returns phase {code}"),
        }
    }

    /// The phase without the place.
    #[must_use]
    pub fn kind(self) -> PhaseKind {
        match self {
            Self::Idle => PhaseKind::Idle,
            Self::Joining(_) => PhaseKind::Joining,
            Self::StuffedPart(_) => PhaseKind::StuffedPart,
            Self::CrcDelimiter => PhaseKind::CrcDelimiter,
            Self::AckSlot => PhaseKind::AckSlot,
            Self::AckDelimiter => PhaseKind::AckDelimiter,
            Self::EndOfFrame(_) => PhaseKind::EndOfFrame,
            Self::ErrorFlag(_) => PhaseKind::ErrorFlag,
            Self::PassiveFlag(_) => PhaseKind::PassiveFlag,
            Self::OverloadFlag(_) => PhaseKind::OverloadFlag,
            Self::AfterFlag(_) => PhaseKind::AfterFlag,
            Self::Delimiter(_) => PhaseKind::Delimiter,
            Self::Intermission(_) => PhaseKind::Intermission,
            Self::Suspend(_) => PhaseKind::Suspend,
            Self::BusOff(_) => PhaseKind::BusOff,
        }
    }
}

/// The rule of `docs/ACCESS.md` that decides in a bit time. It is displayed by its name, such as `Stuff places`.
#[derive(Clone, Copy, Debug, PartialEq, Eq, Hash)]
#[non_exhaustive]
pub enum Rule {
    /// Bus integration.
    Joining = 0,
    /// The start of a frame.
    StartOfFrame = 1,
    /// A transmitter after arbitration.
    KeptFrame = 2,
    /// Intermission.
    Intermission = 3,
    /// Suspend transmission.
    SuspendTransmission = 4,
    /// Bus off.
    BusOff = 5,
    /// A transmitter up to and including its RTR bit.
    Arbitration = 6,
    /// A receiver from the start of frame to the CRC sequence.
    StuffPlaces = 7,
    /// The bits of fixed form.
    FixedForm = 8,
    /// The ACK slot.
    Acknowledgement = 9,
    /// An active or a passive error flag.
    ErrorFlags = 12,
    /// After a flag, before the first recessive level.
    AfterAFlag = 14,
    /// The error or overload delimiter.
    Delimiter = 15,
    /// An overload flag.
    OverloadFlags = 16,
}

impl Rule {
    fn of(code: u8) -> Self {
        match code {
            0 => Self::Joining,
            1 => Self::StartOfFrame,
            2 => Self::KeptFrame,
            3 => Self::Intermission,
            4 => Self::SuspendTransmission,
            5 => Self::BusOff,
            6 => Self::Arbitration,
            7 => Self::StuffPlaces,
            8 => Self::FixedForm,
            9 => Self::Acknowledgement,
            12 => Self::ErrorFlags,
            14 => Self::AfterAFlag,
            15 => Self::Delimiter,
            16 => Self::OverloadFlags,
            _ => unreachable!("riddlesage returns rule {code}"),
        }
    }
}

impl fmt::Display for Rule {
    fn fmt(&self, out: &mut fmt::Formatter<'_>) -> fmt::Result {
        // SAFETY: the call takes any number
        out.pad(named(unsafe { sys::riddlesage_rule_name(*self as c_int) }))
    }
}

/// The protocol state of a port before a bit time.
#[derive(Clone, Copy, Debug, PartialEq, Eq, Hash)]
pub struct Standing {
    /// Its phase.
    pub phase: Phase,
    /// Whether it is the transmitter of the frame on the bus.
    pub sender: bool,
    /// The rule that decides in the phase.
    pub rule: Rule,
}

/// The state of fault confinement (8).
#[derive(Clone, Copy, Debug, PartialEq, Eq, Hash)]
pub enum State {
    /// Both counters are at most 127.
    ErrorActive,
    /// A counter is at least 128, and the transmit error counter at most 255.
    ErrorPassive,
    /// The transmit error counter is at least 256.
    BusOff,
}

/// The error counters.
#[derive(Clone, Copy, Debug, Default, PartialEq, Eq, Hash)]
pub struct Counters {
    /// The transmit error counter, 0 to 263.
    pub transmit: u16,
    /// The receive error counter, 0 to 255.
    pub receive: u16,
}

/// An entry of a port's log.
#[derive(Clone, Copy, Debug, PartialEq, Eq, Hash)]
pub struct Entry {
    /// The frame.
    pub frame: Frame,
    /// Whether the port sent it; otherwise it received it.
    pub sent: bool,
}

/// A CAN node: a controller with a transmit queue, and a log of the frames that it has sent and received.
#[derive(Debug)]
pub struct Port {
    /// A port that the library has allocated, and frees when this is dropped.
    at: NonNull<sys::Port>,
}

// SAFETY: a port belongs to no thread. It is not `Sync`: calls for one port must not run at the same time.
unsafe impl Send for Port {}

impl Port {
    /// Makes a port that is on the bus and idle, with the capacity of its transmit queue, in frames, and of its log, in
    /// entries.
    ///
    /// # Errors
    ///
    /// [`Refused::NoMemory`].
    pub fn idle(queue: usize, log: usize) -> Result<Self, Refused> {
        Self::made(queue, log, sys::riddlesage_port_idle)
    }

    /// Makes a port that begins with bus integration: it waits for eleven recessive levels in a row before it takes
    /// part.
    ///
    /// # Errors
    ///
    /// [`Refused::NoMemory`].
    pub fn joining(queue: usize, log: usize) -> Result<Self, Refused> {
        Self::made(queue, log, sys::riddlesage_port_joining)
    }

    fn made(
        queue: usize,
        log: usize,
        make: unsafe extern "C" fn(*mut sys::Port, usize, usize) -> sys::Status,
    ) -> Result<Self, Refused> {
        // SAFETY: the call has no requirements
        let at = NonNull::new(unsafe { sys::riddlesage_port_new() }).ok_or(Refused::NoMemory)?;
        let port = Self { at };
        // SAFETY: the port is at the address at which the library allocated it
        Refused::of(unsafe { make(port.at.as_ptr(), queue, log) })?;
        Ok(port)
    }

    /// Copies the port: from then on the copy behaves as this one does.
    ///
    /// # Errors
    ///
    /// [`Refused::NoMemory`].
    pub fn copy(&self) -> Result<Self, Refused> {
        // SAFETY: the call has no requirements
        let at = NonNull::new(unsafe { sys::riddlesage_port_new() }).ok_or(Refused::NoMemory)?;
        let port = Self { at };
        // SAFETY: both ports are at their addresses; this one does not change
        Refused::of(unsafe { sys::riddlesage_port_copy(port.at.as_ptr(), self.at.as_ptr()) })?;
        Ok(port)
    }

    /// Its address.
    pub(crate) fn place(&self) -> *mut sys::Port {
        self.at.as_ptr()
    }

    /// Checks calls that cannot fail, because the port is live.
    pub(crate) fn sure(status: sys::Status) {
        assert_eq!(status, sys::OK, "a call of a live port failed");
    }

    /// Queues a frame for transmission.
    ///
    /// # Errors
    ///
    /// [`Refused::QueueFull`].
    pub fn offer(&mut self, frame: &Frame) -> Result<(), Refused> {
        // SAFETY: here and below the port is at its address, and references satisfy what the header requires of
        // pointers
        Refused::of(unsafe { sys::riddlesage_port_offer(self.at.as_ptr(), &frame.plain()) })
    }

    /// Requests 0 to 2 overload frames, in place of an earlier request (3.2.4).
    ///
    /// # Errors
    ///
    /// [`Refused::BadCount`].
    pub fn hold(&mut self, count: u8) -> Result<(), Refused> {
        // SAFETY: as for an offer
        Refused::of(unsafe { sys::riddlesage_port_hold(self.at.as_ptr(), count) })
    }

    /// The level that the port drives in this bit time.
    #[must_use]
    pub fn drive(&self) -> Level {
        let mut level = 0;
        // SAFETY: as for an offer; the port does not change
        Self::sure(unsafe { sys::riddlesage_port_drive(self.at.as_ptr(), &mut level) });
        Level::of(level)
    }

    /// Passes one bit time: samples the level of the bus, and returns the event, if there is one.
    pub fn sample(&mut self, bus: Level) -> Option<Event> {
        let (mut code, mut frame) = (0, sys::Frame::default());
        // SAFETY: as for an offer
        Self::sure(unsafe { sys::riddlesage_port_sample(self.at.as_ptr(), bus as u8, &mut code, &mut frame) });
        Event::of(code, &frame)
    }

    /// Samples these levels, one per bit time, whatever the port drives. Returns the level that it drove in each, and
    /// the event of each, if there is one.
    ///
    /// # Errors
    ///
    /// [`Refused::NoLevels`].
    pub fn run(&mut self, levels: &[Level]) -> Result<(Vec<Level>, Vec<Option<EventKind>>), Refused> {
        let count = levels.len();
        let (mut drives, mut events) = (vec![0; count], vec![0; count]);
        // SAFETY: as for an offer; a Level is a byte
        Refused::of(unsafe {
            sys::riddlesage_port_run(
                self.at.as_ptr(),
                levels.as_ptr().cast(),
                count,
                drives.as_mut_ptr(),
                events.as_mut_ptr(),
            )
        })?;
        Ok((drives.into_iter().map(Level::of).collect(), events.into_iter().map(EventKind::of).collect()))
    }

    /// The error counters.
    #[must_use]
    pub fn counters(&self) -> Counters {
        let mut counters = Counters::default();
        // SAFETY: as for an offer; the port does not change
        Self::sure(unsafe {
            sys::riddlesage_port_counters(self.at.as_ptr(), &mut counters.transmit, &mut counters.receive)
        });
        counters
    }

    /// The state of fault confinement.
    #[must_use]
    pub fn state(&self) -> State {
        let mut state = 0;
        // SAFETY: as for an offer; the port does not change
        Self::sure(unsafe { sys::riddlesage_port_state(self.at.as_ptr(), &mut state) });
        match state {
            0 => State::ErrorActive,
            1 => State::ErrorPassive,
            _ => State::BusOff,
        }
    }

    /// The phase of the port before the next bit time, and the rule that decides in it.
    #[must_use]
    pub fn phase(&self) -> Standing {
        let mut at = sys::Standing::default();
        // SAFETY: as for an offer; the port does not change
        Self::sure(unsafe { sys::riddlesage_port_phase(self.at.as_ptr(), &mut at) });
        Standing { phase: Phase::of(at.phase, at.place), sender: at.sender != 0, rule: Rule::of(at.rule) }
    }

    /// The number of entries for which the log had no capacity.
    #[must_use]
    pub fn missed(&self) -> u32 {
        let mut count = 0;
        // SAFETY: as for an offer; the port does not change
        Self::sure(unsafe { sys::riddlesage_port_missed(self.at.as_ptr(), &mut count) });
        count
    }

    /// The entry of the log with this number, the oldest being 0.
    #[must_use]
    pub fn entry(&self, number: usize) -> Option<Entry> {
        let (mut frame, mut sent) = (sys::Frame::default(), 0);
        // SAFETY: as for an offer; the port does not change
        let status = unsafe { sys::riddlesage_port_entry(self.at.as_ptr(), number, &mut frame, &mut sent) };
        if status == sys::NO_ENTRY {
            return None;
        }
        Self::sure(status);
        Some(Entry { frame: Frame::of(&frame), sent: sent != 0 })
    }

    /// The frames that were sent and received, the oldest first.
    ///
    /// # Panics
    ///
    /// Never: the log has as many entries as it says.
    #[must_use]
    pub fn log(&self) -> impl ExactSizeIterator<Item = Entry> + '_ {
        let mut count = 0;
        // SAFETY: as for an offer; the port does not change
        Self::sure(unsafe { sys::riddlesage_port_log_length(self.at.as_ptr(), &mut count) });
        (0..count).map(|number| self.entry(number).expect("the log has as many entries"))
    }
}

impl Drop for Port {
    fn drop(&mut self) {
        // SAFETY: the port is at its address, and no call uses it any more
        Self::sure(unsafe { sys::riddlesage_port_delete(self.at.as_ptr()) });
    }
}
