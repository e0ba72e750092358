//! A reference model of a classical CAN controller, bit by bit (Bosch CAN Specification 2.0 part B, and the classical
//! frames of ISO 11898-1). Numbers in brackets are sections of Bosch, part B.
//!
//! One step is one bit time. A [`Port`] is a CAN node: a controller with a transmit queue and a log. Bit timing,
//! synchronisation and CAN FD are not modelled.
//!
//! ```
//! use riddlesage::{Event, Frame, Port};
//!
//! let mut sender = Port::idle(16, 64)?;
//! let mut receiver = Port::idle(16, 64)?;
//! let frame = Frame::standard(0x123, &[0xaa, 0x55])?;
//! sender.offer(&frame)?;
//! let mut received = None;
//! for _ in 0..80 {
//!     let bus = sender.drive() & receiver.drive();
//!     sender.sample(bus);
//!     if let Some(Event::Received(frame)) = receiver.sample(bus) {
//!         received = Some(frame);
//!     }
//! }
//! assert_eq!(received, Some(frame));
//! # Ok::<(), riddlesage::Refused>(())
//! ```
//!
//! The calls are those of `riddlesage.h`. The Rattle functions that they use are proved; this crate is only tested. The
//! types exclude most invalid arguments, so few calls can fail.

mod bus;
mod coverage;
mod frame;
mod network;
mod port;
mod sys;
mod text;

use std::error::Error;
use std::ffi::{c_char, CStr};
use std::fmt;

pub use bus::{play, Hit, Offer, Played, Ran, Wire};
pub use coverage::Coverage;
pub use frame::{decode, encode, marks, Fault, FaultKind, Field, Frame, Heard, Level, Mark};
pub use network::{plan, worst_case, NetworkFault, Planned};
pub use port::{Counters, Entry, Event, EventKind, Phase, PhaseKind, Port, Rule, Standing, State};
pub use text::{decode_levels, decode_trace, port_times, run, PortTime, ScenarioFault, TraceFault};

/// Why a call failed. It has changed nothing.
#[derive(Clone, Copy, Debug, PartialEq, Eq, Hash)]
#[non_exhaustive]
pub enum Refused {
    /// There is no memory for the port, or for the run of a bus.
    NoMemory,
    /// The transmit queue is full.
    QueueFull,
    /// The identifier is above 0x7ff and not extended, or above `0x1fff_ffff`.
    BadIdentifier,
    /// The DLC is above 15, or the data do not have the length that it means.
    BadDlc,
    /// More than two overload frames were requested.
    BadCount,
    /// There are no levels to sample.
    NoLevels,
    /// A bus has no ports, or more than 64.
    BadBus,
    /// An offer or a hit names no port of the bus.
    NoSuchPort,
    /// An offer is earlier than the previous one, or a hit is not above the previous one.
    BadOrder,
}

impl Refused {
    fn of(status: sys::Status) -> Result<(), Self> {
        Err(match status {
            sys::OK => return Ok(()),
            sys::NO_MEMORY => Self::NoMemory,
            sys::QUEUE_FULL => Self::QueueFull,
            sys::BAD_IDENTIFIER => Self::BadIdentifier,
            sys::BAD_DLC => Self::BadDlc,
            sys::BAD_COUNT => Self::BadCount,
            sys::NO_LEVELS => Self::NoLevels,
            sys::BAD_BUS => Self::BadBus,
            sys::NO_SUCH_PORT => Self::NoSuchPort,
            sys::BAD_ORDER => Self::BadOrder,
            // according to the header the others need arguments that this crate never passes
            _ => unreachable!("riddlesage returns status {status}"),
        })
    }
}

impl fmt::Display for Refused {
    fn fmt(&self, out: &mut fmt::Formatter<'_>) -> fmt::Result {
        out.write_str(match self {
            Self::NoMemory => "no memory: there is none for the port or the bus",
            Self::QueueFull => "queue full: the transmit queue is full",
            Self::BadIdentifier => "bad identifier: 0 to 0x7ff, or to 0x1fffffff if it is extended",
            Self::BadDlc => "bad dlc: 0 to 15, with as many data bytes as it means",
            Self::BadCount => "bad count: 0 to 2 overload frames can be requested",
            Self::NoLevels => "no levels: there are no levels to sample",
            Self::BadBus => "bad bus: a bus has 1 to 64 ports",
            Self::NoSuchPort => "no such port: an offer or a hit names no port of the bus",
            Self::BadOrder => "bad order: offers or hits are not in order",
        })
    }
}

impl Error for Refused {}

/// The version of the library.
///
/// # Panics
///
/// Never: it is ASCII.
#[must_use]
pub fn version() -> &'static str {
    // SAFETY: the call has no argument
    named(unsafe { sys::riddlesage_version() })
}

/// A text of the library; empty for a null pointer.
fn named(at: *const c_char) -> &'static str {
    if at.is_null() {
        return "";
    }
    // SAFETY: the library returns a string with a terminating 0, and never frees it
    unsafe { CStr::from_ptr(at) }.to_str().expect("texts of the library are ASCII")
}
