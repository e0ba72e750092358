//! Ports on a bus that runs with one call, and a bus that runs bit time by bit time, or to the next event.

use crate::{sys, Event, Frame, Level, Port, Refused};

/// A frame that is queued at a port while the bus runs.
#[derive(Clone, Copy, Debug, PartialEq, Eq, Hash)]
pub struct Offer {
    /// The bit time before which it is queued; the first of the call is 0.
    pub time: u64,
    /// The index of the port; the first is 0.
    pub port: usize,
    /// The frame.
    pub frame: Frame,
}

/// An injected bit error, in one bit time of a bus.
///
/// Hits are ordered by kind, in the order below, then by the fields of the kind.
#[derive(Clone, Copy, Debug, PartialEq, Eq, PartialOrd, Ord, Hash)]
pub enum Hit {
    /// For all nodes, the level of the bus is inverted in this bit time; the first of the call is 0.
    At(u64),
    /// For all nodes, it is inverted in a transmission attempt.
    In {
        /// The attempt; the first of the call is 0.
        attempt: u64,
        /// How many bit times after its start, unless a later one has begun by then.
        offset: u64,
    },
    /// One port alone samples the inverse of the level of the bus.
    View {
        /// The bit time; the first of the call is 0.
        time: u64,
        /// The index of the port; the first is 0.
        port: usize,
    },
}

impl Hit {
    fn plain(self) -> sys::Hit {
        let none = sys::Hit::default();
        match self {
            Self::At(time) => sys::Hit { time, kind: sys::HIT_AT, ..none },
            Self::In { attempt, offset } => sys::Hit { attempt, offset, kind: sys::HIT_IN, ..none },
            Self::View { time, port } => sys::Hit { time, port: port as u64, kind: sys::HIT_VIEW, ..none },
        }
    }
}

/// The result of [`play`].
#[derive(Clone, Debug, PartialEq, Eq, Hash)]
pub struct Played {
    /// The level of the bus in each bit time.
    pub levels: Vec<Level>,
    /// How many of the offers a full queue refused.
    pub refused: usize,
}

/// Runs a bus of 1 to 64 ports for `bits` bit times, queues frames at their times, and injects bit errors.
///
/// The ports continue from their present state, and keep the state that they reach. Before the call the bus counts as
/// recessive for eleven bit times.
///
/// ```
/// use riddlesage::{play, Frame, Hit, Offer, Port, Refused};
///
/// let mut ports = [Port::idle(16, 64)?, Port::idle(16, 64)?];
/// let offer = Offer { time: 5, port: 0, frame: Frame::standard(0x123, &[])? };
/// let played = play(&mut ports, 200, &[offer], &[Hit::In { attempt: 0, offset: 16 }])?;
/// assert_eq!((played.levels.len(), played.refused), (200, 0));
/// assert_eq!((ports[0].counters().transmit, ports[1].log().len()), (7, 1));
/// # Ok::<(), Refused>(())
/// ```
///
/// # Errors
///
/// No port has changed if it fails:
///
/// - [`Refused::BadBus`]: there are no ports, or more than 64;
/// - [`Refused::NoMemory`];
/// - for the first offer that is wrong, or otherwise the first hit: [`Refused::BadOrder`] if the offer is earlier than
///   the previous one, or the hit not above the previous one; [`Refused::NoSuchPort`].
pub fn play(ports: &mut [Port], bits: usize, offers: &[Offer], hits: &[Hit]) -> Result<Played, Refused> {
    let at: Vec<_> = ports.iter().map(Port::place).collect();
    let offers: Vec<_> = offers
        .iter()
        .map(|offer| sys::Offer { time: offer.time, port: offer.port as u64, frame: offer.frame.plain() })
        .collect();
    let hits: Vec<_> = hits.iter().map(|hit| hit.plain()).collect();
    let (mut levels, mut refused) = (vec![0; bits], 0);
    // SAFETY: the ports are live, and no two are the same, because they are borrowed here; references satisfy what the
    // header requires of pointers
    Refused::of(unsafe {
        sys::riddlesage_play(
            at.as_ptr(),
            at.len(),
            offers.as_ptr(),
            offers.len(),
            hits.as_ptr(),
            hits.len(),
            levels.as_mut_ptr(),
            bits,
            &mut refused,
        )
    })?;
    Ok(Played { levels: levels.into_iter().map(Level::of).collect(), refused })
}

/// The result of [`Wire::run`].
#[derive(Clone, Debug, PartialEq, Eq, Hash)]
pub struct Ran {
    /// How many bit times have passed.
    pub passed: usize,
    /// The event of each port in the last of them, if there was one.
    pub events: Vec<Option<Event>>,
}

/// The state of a bus between two bit times, without its nodes: for a bus on which some nodes are your own code.
///
/// At first no bit time has passed, and the bus counts as recessive for eleven.
///
/// ```
/// use riddlesage::{Hit, Level, Port, Refused, Wire};
///
/// let mut port = Port::idle(16, 64)?;
/// let mut wire = Wire::new();
/// let mut seen = [Level::Recessive; 2];
/// let drives = [port.drive(), Level::Dominant]; // a controller of your own starts a frame
/// let level = wire.step(&drives, &[Hit::View { time: 0, port: 0 }], &mut seen)?;
/// assert_eq!((level, seen), (Level::Dominant, [Level::Recessive, Level::Dominant]));
/// assert_eq!((wire.time(), wire.attempts()), (1, 1));
/// port.sample(seen[0]);
/// # Ok::<(), Refused>(())
/// ```
#[derive(Clone, Debug, Default, PartialEq, Eq, Hash)]
pub struct Wire {
    plain: sys::Wire,
}

impl Wire {
    /// A bus before its first bit time.
    #[must_use]
    pub fn new() -> Self {
        Self::default()
    }

    /// How many bit times have passed.
    #[must_use]
    pub fn time(&self) -> u64 {
        self.plain.time
    }

    /// How many transmission attempts have begun.
    #[must_use]
    pub fn attempts(&self) -> u64 {
        self.plain.attempts
    }

    /// Passes one bit time: returns the level of the bus, dominant if any node drives dominant, and inverted if a hit
    /// falls on it; and writes what each node samples.
    ///
    /// The hits may be in any order, and differ from bit time to bit time. Hits in other bit times have no effect.
    ///
    /// # Errors
    ///
    /// [`Refused::NoSuchPort`] for a view of no node; nothing has changed then.
    ///
    /// # Panics
    ///
    /// If `seen` is not as long as `drives`.
    pub fn step(&mut self, drives: &[Level], hits: &[Hit], seen: &mut [Level]) -> Result<Level, Refused> {
        assert_eq!(drives.len(), seen.len(), "`seen` needs a level for each node");
        let hits: Vec<_> = hits.iter().map(|hit| hit.plain()).collect();
        let mut level = 0;
        // SAFETY: a Level is a byte with its number; references satisfy what the header requires of pointers
        Refused::of(unsafe {
            sys::riddlesage_wire_step(
                &mut self.plain,
                drives.as_ptr().cast(),
                drives.len(),
                hits.as_ptr(),
                hits.len(),
                &mut level,
                seen.as_mut_ptr().cast(),
            )
        })?;
        Ok(Level::of(level))
    }

    /// Passes bit times of a bus of 1 to 64 ports until one of them has an event, but at most `bits`.
    ///
    /// The hits may be in any order, and differ from call to call.
    ///
    /// ```
    /// use riddlesage::{Event, Frame, Port, Refused, Wire};
    ///
    /// let mut ports = [Port::idle(16, 64)?, Port::idle(16, 64)?];
    /// let frame = Frame::standard(0x123, &[0xaa, 0x55])?;
    /// ports[0].offer(&frame)?;
    /// let ran = Wire::new().run(&mut ports, &[], 1000)?;
    /// assert_eq!((ran.passed, ran.events), (61, vec![None, Some(Event::Received(frame))]));
    /// # Ok::<(), Refused>(())
    /// ```
    ///
    /// # Errors
    ///
    /// Nothing has changed if it fails:
    ///
    /// - [`Refused::BadBus`]: there are no ports, or more than 64;
    /// - [`Refused::NoSuchPort`] for a view of no port.
    pub fn run(&mut self, ports: &mut [Port], hits: &[Hit], bits: usize) -> Result<Ran, Refused> {
        let at: Vec<_> = ports.iter().map(Port::place).collect();
        let hits: Vec<_> = hits.iter().map(|hit| hit.plain()).collect();
        let (mut events, mut frames) = ([0; sys::MOST_PORTS], [sys::Frame::default(); sys::MOST_PORTS]);
        let mut passed = 0;
        // SAFETY: the ports are live, and no two are the same, because they are borrowed here; references satisfy what
        // the header requires of pointers, and a bus has no more ports than the arrays have elements
        Refused::of(unsafe {
            sys::riddlesage_wire_run(
                &mut self.plain,
                at.as_ptr(),
                at.len(),
                hits.as_ptr(),
                hits.len(),
                bits,
                events.as_mut_ptr(),
                frames.as_mut_ptr(),
                &mut passed,
            )
        })?;
        let events = events.iter().zip(&frames).take(at.len()).map(|(code, frame)| Event::of(*code, frame)).collect();
        Ok(Ran { passed, events })
    }
}
