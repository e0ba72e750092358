//! Rule coverage: which rules a port has applied.

use std::ops::AddAssign;

use crate::{named, sys, Event, Level, Port};

/// In how many bit times each combination of a rule of `docs/ACCESS.md`, a role and an error state has occurred
/// (`docs/COVERAGE.md`).
///
/// ```
/// use riddlesage::{Coverage, Frame, Port, Refused};
///
/// let mut port = Port::idle(16, 64)?;
/// let mut coverage = Coverage::new();
/// port.offer(&Frame::standard(0x123, &[])?)?;
/// for _ in 0..60 {
///     let level = port.drive();
///     coverage.sample(&mut port, level);
/// }
/// let lines: Vec<_> = (0..Coverage::ITEMS).map(|item| coverage.line(item)).collect();
/// assert!(lines.contains(&"coverage 2 Start of frame, transmitter active".to_string()));
/// assert_eq!(lines[0], "coverage 0 Joining, receiver active; case joining-frame-after-ten reaches it");
/// # Ok::<(), Refused>(())
/// ```
#[derive(Clone, Debug, PartialEq, Eq, Hash)]
pub struct Coverage {
    plain: sys::Coverage,
}

impl Coverage {
    /// How many combinations can occur.
    pub const ITEMS: usize = sys::COVERAGE_ITEMS;

    /// Counts before the first bit time.
    #[must_use]
    pub fn new() -> Self {
        Self { plain: sys::Coverage { counts: [0; Self::ITEMS] } }
    }

    /// Passes one bit time of a port, as [`Port::sample`] does, and counts the rules that it applies in it.
    pub fn sample(&mut self, port: &mut Port, bus: Level) -> Option<Event> {
        let (mut code, mut frame) = (0, sys::Frame::default());
        // SAFETY: the port is live; references satisfy what the header requires of pointers
        Port::sure(unsafe {
            sys::riddlesage_coverage_sample(port.place(), &mut self.plain, bus as u8, &mut code, &mut frame)
        });
        Event::of(code, &frame)
    }

    /// The count of each combination.
    #[must_use]
    pub fn counts(&self) -> &[u64; Self::ITEMS] {
        &self.plain.counts
    }

    /// The line of a combination in a report. If it has not occurred, the line also names a case of the conformance
    /// kit in which it does.
    ///
    /// # Panics
    ///
    /// If `item` is not below [`Coverage::ITEMS`].
    #[must_use]
    pub fn line(&self, item: usize) -> String {
        let mut line = [0; sys::COVERAGE_LINE];
        // SAFETY: references satisfy what the header requires of pointers, and `line` has the capacity that it names
        let status = unsafe { sys::riddlesage_coverage_line(&self.plain, item, line.as_mut_ptr()) };
        assert_eq!(status, sys::OK, "there are {} combinations", Self::ITEMS);
        crate::text::until_zero(&line)
    }

    /// The name of a combination, such as `Suspend transmission, transmitter passive`; none for an undefined number.
    #[must_use]
    pub fn name(item: usize) -> Option<&'static str> {
        // SAFETY: the call takes any number
        (item < Self::ITEMS).then(|| named(unsafe { sys::riddlesage_coverage_name(item) }))
    }

    /// The name of a case of the conformance kit in which a combination occurs, such as `suspend-after-error`; none for
    /// an undefined number, or if no case reaches it.
    #[must_use]
    pub fn case(item: usize) -> Option<&'static str> {
        // SAFETY: the call takes any number
        Some(named(unsafe { sys::riddlesage_coverage_case(item) })).filter(|case| !case.is_empty())
    }
}

impl Default for Coverage {
    fn default() -> Self {
        Self::new()
    }
}

/// Adds the counts of another one.
impl AddAssign<&Coverage> for Coverage {
    fn add_assign(&mut self, other: &Coverage) {
        for (count, more) in self.plain.counts.iter_mut().zip(&other.plain.counts) {
            *count += more;
        }
    }
}
