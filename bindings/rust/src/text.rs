//! Scenarios and traces as text.

use std::error::Error;
use std::fmt;

use crate::{sys, Counters, EventKind, Level, PhaseKind};

/// The first capacity for a text, which suffices for most.
const ROOM: usize = 1 << 16;

/// Why there is no result for a scenario.
#[derive(Clone, Debug, PartialEq, Eq, Hash)]
#[non_exhaustive]
pub enum ScenarioFault {
    /// The text is not a valid scenario: the first field that is wrong, such as `port[0].log`.
    Field(String),
    /// There is no memory for the simulation.
    NoMemory,
    /// The report has more than 33,554,432 bytes.
    TooLong,
    /// The scenario has no port with this number.
    NoSuchPort,
}

impl fmt::Display for ScenarioFault {
    fn fmt(&self, out: &mut fmt::Formatter<'_>) -> fmt::Result {
        match self {
            Self::Field(field) if field == "toml" => out.write_str("bad scenario: toml: not a valid TOML document"),
            Self::Field(field) if field.rsplit('.').next() == Some("key") => {
                write!(out, "bad scenario: {field}: a field of this table is unknown")
            }
            Self::Field(field) => write!(out, "bad scenario: {field}: missing, or not a valid value"),
            Self::NoMemory => out.write_str("no memory: there is none for the simulation"),
            Self::TooLong => out.write_str("no room: the report has more than 33,554,432 bytes"),
            Self::NoSuchPort => out.write_str("no such port: the scenario has no port with this number"),
        }
    }
}

impl Error for ScenarioFault {}

/// Why the lines of a trace are missing or incomplete.
#[derive(Clone, Debug, PartialEq, Eq, Hash)]
#[non_exhaustive]
pub enum TraceFault {
    /// A byte is neither a level, nor a space, nor part of a line end.
    BadByte {
        /// How many bytes come before it.
        place: usize,
        /// The lines of the levels before it.
        lines: String,
    },
    /// There is no memory for the lines.
    NoMemory,
    /// The lines have more than 33,554,432 bytes.
    TooLong,
}

impl fmt::Display for TraceFault {
    fn fmt(&self, out: &mut fmt::Formatter<'_>) -> fmt::Result {
        match self {
            Self::BadByte { place, .. } => write!(out, "bad byte at {place}: it is not a level"),
            Self::NoMemory => out.write_str("no memory: there is none for the lines"),
            Self::TooLong => out.write_str("no room: the lines have more than 33,554,432 bytes"),
        }
    }
}

impl Error for TraceFault {}

/// The status of a call and the text that it writes; if the first buffer is too small, it is called again with a larger
/// one.
pub(crate) fn written(mut call: impl FnMut(&mut [u8], &mut usize) -> sys::Status) -> (sys::Status, String) {
    let mut text = vec![0; ROOM];
    let mut count = 0;
    let mut status = call(&mut text, &mut count);
    if status == sys::NO_ROOM && count > text.len() {
        text.resize(count, 0);
        status = call(&mut text, &mut count);
    }
    text.truncate(count);
    (status, String::from_utf8_lossy(&text).into_owned())
}

/// The text before the first 0.
pub(crate) fn until_zero(bytes: &[u8]) -> String {
    bytes.iter().take_while(|byte| **byte != 0).map(|byte| char::from(*byte)).collect()
}

/// Simulates a scenario, a TOML document, and returns its report: the output of `canbit run`.
///
/// # Errors
///
/// [`ScenarioFault`].
pub fn run(scenario: &str) -> Result<String, ScenarioFault> {
    let mut field = [0; sys::FIELD_ROOM];
    let (status, report) = written(|text, count| {
        // SAFETY: references satisfy what the header requires of pointers, and `field` has the capacity that it names
        unsafe {
            sys::riddlesage_run(
                scenario.as_ptr(),
                scenario.len(),
                text.as_mut_ptr(),
                text.len(),
                count,
                field.as_mut_ptr(),
            )
        }
    });
    ran(status, &field).map(|()| report)
}

/// Why a scenario has no result, if it has none.
fn ran(status: sys::Status, field: &[u8]) -> Result<(), ScenarioFault> {
    Err(match status {
        sys::OK => return Ok(()),
        sys::NO_MEMORY => ScenarioFault::NoMemory,
        sys::NO_ROOM => ScenarioFault::TooLong,
        sys::NO_SUCH_PORT => ScenarioFault::NoSuchPort,
        sys::BAD_SCENARIO => ScenarioFault::Field(until_zero(field)),
        _ => unreachable!("a call for a scenario returns status {status}"),
    })
}

/// What a port of a scenario did in a bit time.
#[derive(Clone, Copy, Debug, PartialEq, Eq, Hash)]
pub struct PortTime {
    /// The error counters before the bit time.
    pub counters: Counters,
    /// The phase before the bit time.
    pub phase: PhaseKind,
    /// Whether the port was the transmitter of the frame on the bus.
    pub sender: bool,
    /// The level that it drove.
    pub drives: Level,
    /// The level that it sampled.
    pub samples: Level,
    /// The event of the bit time, if there was one.
    pub event: Option<EventKind>,
}

impl PortTime {
    fn of(plain: &sys::PortTime) -> Self {
        Self {
            counters: Counters { transmit: plain.transmit, receive: plain.receive },
            phase: PhaseKind::of(plain.phase),
            sender: plain.sender != 0,
            drives: Level::of(plain.drives),
            samples: Level::of(plain.samples),
            event: EventKind::of(plain.event),
        }
    }
}

/// Simulates a scenario, and returns what one of its ports did in each bit time; the first port is 0.
///
/// ```
/// use riddlesage::{port_times, EventKind, PhaseKind, ScenarioFault};
///
/// let scenario = "version = 1\nbits = 60\nport = [{ queue = ['S 001 D 0'] }, {}]";
/// let times = port_times(scenario, 1)?;
/// assert_eq!((times.len(), times[1].phase), (60, PhaseKind::StuffedPart));
/// assert_eq!(times.iter().position(|time| time.event == Some(EventKind::Received)), Some(45));
/// assert_eq!(port_times(scenario, 2), Err(ScenarioFault::NoSuchPort));
/// # Ok::<(), ScenarioFault>(())
/// ```
///
/// # Errors
///
/// [`ScenarioFault`].
pub fn port_times(scenario: &str, port: usize) -> Result<Vec<PortTime>, ScenarioFault> {
    let mut field = [0; sys::FIELD_ROOM];
    let (mut times, mut count) = (vec![sys::PortTime::default(); sys::MOST_BITS], 0);
    // SAFETY: as for a run
    let status = unsafe {
        sys::riddlesage_port_times(
            scenario.as_ptr(),
            scenario.len(),
            port,
            times.as_mut_ptr(),
            times.len(),
            &mut count,
            field.as_mut_ptr(),
        )
    };
    ran(status, &field).map(|()| times[..count].iter().map(PortTime::of).collect())
}

/// Decodes a trace, a text of `0` and `1` with spaces and line ends, and returns a line for each frame and fault: the
/// output of `canbit decode`.
///
/// # Errors
///
/// [`TraceFault`].
pub fn decode_trace(trace: &str) -> Result<String, TraceFault> {
    let mut place = 0;
    let (status, lines) = written(|text, count| {
        // SAFETY: as for a run
        unsafe {
            sys::riddlesage_decode_trace(trace.as_ptr(), trace.len(), text.as_mut_ptr(), text.len(), count, &mut place)
        }
    });
    decoded(status, place, lines)
}

/// Decodes a trace given as levels, and returns the lines of [`decode_trace`] for the same levels as text.
///
/// # Errors
///
/// [`TraceFault`], but not a bad byte.
pub fn decode_levels(levels: &[Level]) -> Result<String, TraceFault> {
    let (at, mut place) = (levels.as_ptr().cast(), 0);
    let (status, lines) = written(|text, count| {
        // SAFETY: as for a run, and a Level is a byte
        unsafe { sys::riddlesage_decode_levels(at, levels.len(), text.as_mut_ptr(), text.len(), count, &mut place) }
    });
    decoded(status, place, lines)
}

/// The lines of a trace, or why they are missing or incomplete.
fn decoded(status: sys::Status, place: usize, lines: String) -> Result<String, TraceFault> {
    match status {
        sys::OK => Ok(lines),
        sys::NO_MEMORY => Err(TraceFault::NoMemory),
        sys::NO_ROOM => Err(TraceFault::TooLong),
        sys::BAD_BYTE => Err(TraceFault::BadByte { place, lines }),
        _ => unreachable!("decoding a trace returns status {status}"),
    }
}
