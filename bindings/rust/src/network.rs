//! Networks as text: bounds on response times, and worst cases.

use std::error::Error;
use std::fmt;

use crate::sys;
use crate::text::{until_zero, written};

/// Why there is no result for a network.
#[derive(Clone, Debug, PartialEq, Eq, Hash)]
#[non_exhaustive]
pub enum NetworkFault {
    /// The text is not a valid network.
    Field {
        /// The first field that is wrong, such as `message[3].period`.
        field: String,
        /// What it must be, such as `must be 0 to 15`.
        words: String,
    },
    /// No message of the network has this `frame`.
    NoMessage,
    /// The worst case is longer than a scenario can be, or has no end.
    Endless,
    /// There is no memory for the analysis.
    NoMemory,
    /// The text has more than 33,554,432 bytes.
    TooLong,
}

impl fmt::Display for NetworkFault {
    fn fmt(&self, out: &mut fmt::Formatter<'_>) -> fmt::Result {
        match self {
            Self::Field { field, words } => write!(out, "bad network: {field}: {words}"),
            Self::NoMessage => out.write_str(
                "no message: no message of the network has this frame; it is written as there, such as S 300 D",
            ),
            Self::Endless => out.write_str("too long: the busy period has more than 999,999 bit times, or no end"),
            Self::NoMemory => out.write_str("no memory: there is none for the analysis"),
            Self::TooLong => out.write_str("no room: the text has more than 33,554,432 bytes"),
        }
    }
}

impl Error for NetworkFault {}

/// The result of [`plan`].
#[derive(Clone, Debug, PartialEq, Eq, Hash)]
pub struct Planned {
    /// A line for each message, and lines for the network.
    pub report: String,
    /// How many messages may miss their deadlines.
    pub late: usize,
}

/// Analyses a network, a TOML document, and returns an upper bound on the response time of each message: the output of
/// `canplan`, or with `details` of `canplan --details`.
///
/// ```
/// use riddlesage::{plan, worst_case, NetworkFault};
///
/// let network = "version = 1\n[[message]]\nframe = 'S 100 D'\ndlc = 0\nperiod = 500\n";
/// let planned = plan(network, false)?;
/// assert_eq!(planned.late, 0);
/// assert!(planned.report.ends_with("late 0 of 1\n"));
/// let scenario = worst_case(network, "S 100 D")?;
/// assert!(riddlesage::run(&scenario).is_ok());
/// # Ok::<(), NetworkFault>(())
/// ```
///
/// # Errors
///
/// [`NetworkFault`], but neither `NoMessage` nor `Endless`.
pub fn plan(network: &str, details: bool) -> Result<Planned, NetworkFault> {
    let (mut late, mut wrong) = (0, nothing_wrong());
    let (status, report) = written(|text, count| {
        // SAFETY: references satisfy what the header requires of pointers
        unsafe {
            sys::riddlesage_plan(
                network.as_ptr(),
                network.len(),
                details.into(),
                text.as_mut_ptr(),
                text.len(),
                count,
                &mut late,
                &mut wrong,
            )
        }
    });
    planned(status, &wrong).map(|()| Planned { report, late })
}

/// Returns the worst case of a message of a network, such as `S 300 D`, without bit errors, as a scenario for
/// [`run`](crate::run): the output of `canplan --timeline`. The message is named by its `frame`, as the network has it.
/// Its port in the scenario is its place in the report of [`plan`], the first being 0, and at most 63.
///
/// # Errors
///
/// [`NetworkFault`].
pub fn worst_case(network: &str, message: &str) -> Result<String, NetworkFault> {
    let mut wrong = nothing_wrong();
    let (status, scenario) = written(|text, count| {
        // SAFETY: as for a plan
        unsafe {
            sys::riddlesage_worst_case(
                network.as_ptr(),
                network.len(),
                message.as_ptr(),
                message.len(),
                text.as_mut_ptr(),
                text.len(),
                count,
                &mut wrong,
            )
        }
    });
    planned(status, &wrong).map(|()| scenario)
}

fn nothing_wrong() -> sys::Wrong {
    sys::Wrong { field: [0; sys::FIELD_ROOM], words: [0; sys::WORDS_ROOM] }
}

/// Why there is no result, if there is none.
fn planned(status: sys::Status, wrong: &sys::Wrong) -> Result<(), NetworkFault> {
    Err(match status {
        sys::OK => return Ok(()),
        sys::NO_MEMORY => NetworkFault::NoMemory,
        sys::NO_ROOM => NetworkFault::TooLong,
        sys::NO_MESSAGE => NetworkFault::NoMessage,
        sys::TOO_LONG => NetworkFault::Endless,
        sys::BAD_NETWORK => NetworkFault::Field { field: until_zero(&wrong.field), words: until_zero(&wrong.words) },
        _ => unreachable!("a call for a network returns status {status}"),
    })
}
