//! Levels and frames; encoding and decoding of frames.

use std::error::Error;
use std::fmt;
use std::ops::{BitAnd, BitAndAssign, Not};

use crate::{sys, Refused};

/// A level: the value of a bit. Dominant overrides recessive: `a & b` is the level of a bus that both drive (2).
#[derive(Clone, Copy, Debug, PartialEq, Eq, Hash)]
#[repr(u8)]
pub enum Level {
    /// The level 0.
    Dominant = 0,
    /// The level 1.
    Recessive = 1,
}

impl Level {
    pub(crate) fn of(number: u8) -> Self {
        if number == 0 {
            Self::Dominant
        } else {
            Self::Recessive
        }
    }
}

impl BitAnd for Level {
    type Output = Self;

    fn bitand(self, other: Self) -> Self {
        match self {
            Self::Recessive => other,
            Self::Dominant => Self::Dominant,
        }
    }
}

impl BitAndAssign for Level {
    fn bitand_assign(&mut self, other: Self) {
        *self = *self & other;
    }
}

impl Not for Level {
    type Output = Self;

    fn not(self) -> Self {
        match self {
            Self::Dominant => Self::Recessive,
            Self::Recessive => Self::Dominant,
        }
    }
}

/// `0` or `1`.
impl fmt::Display for Level {
    fn fmt(&self, out: &mut fmt::Formatter<'_>) -> fmt::Result {
        fmt::Display::fmt(&(*self as u8), out)
    }
}

/// A data frame or a remote frame. Its fields are always in range.
///
/// It is displayed in the format `S 123 D 2 aa55`.
#[derive(Clone, Copy, PartialEq, Eq, Hash)]
pub struct Frame {
    identifier: u32,
    extended: bool,
    remote: bool,
    dlc: u8,
    data: [u8; 8],
}

impl Frame {
    /// A data frame with a standard identifier, 0 to 0x7ff, and at most eight bytes.
    ///
    /// # Errors
    ///
    /// [`Refused::BadIdentifier`]; [`Refused::BadDlc`] if there are more than eight bytes.
    pub fn standard(identifier: u32, data: &[u8]) -> Result<Self, Refused> {
        Self::new(identifier, false, false, Self::dlc_of(data)?, data)
    }

    /// A data frame with an extended identifier, 0 to `0x1fff_ffff`, and at most eight bytes.
    ///
    /// # Errors
    ///
    /// Those of [`Frame::standard`].
    pub fn extended(identifier: u32, data: &[u8]) -> Result<Self, Refused> {
        Self::new(identifier, true, false, Self::dlc_of(data)?, data)
    }

    /// A frame from its fields. A DLC of 9 to 15 means eight bytes; a remote frame has none.
    ///
    /// # Errors
    ///
    /// [`Refused::BadIdentifier`]; [`Refused::BadDlc`], also if the number of bytes is not that of the DLC.
    pub fn new(identifier: u32, extended: bool, remote: bool, dlc: u8, data: &[u8]) -> Result<Self, Refused> {
        let mut frame = Self { identifier, extended, remote, dlc, data: [0; 8] };
        // the library decides which fields are in range
        frame.levels()?;
        if data.len() != frame.data().len() {
            return Err(Refused::BadDlc);
        }
        frame.data[..data.len()].copy_from_slice(data);
        Ok(frame)
    }

    fn dlc_of(data: &[u8]) -> Result<u8, Refused> {
        u8::try_from(data.len()).ok().filter(|length| *length <= 8).ok_or(Refused::BadDlc)
    }

    /// The identifier.
    #[must_use]
    pub fn identifier(&self) -> u32 {
        self.identifier
    }

    /// Whether the identifier has 29 bits.
    #[must_use]
    pub fn is_extended(&self) -> bool {
        self.extended
    }

    /// Whether it is a remote frame.
    #[must_use]
    pub fn is_remote(&self) -> bool {
        self.remote
    }

    /// The data length code, 0 to 15.
    #[must_use]
    pub fn dlc(&self) -> u8 {
        self.dlc
    }

    /// The bytes of a data frame; none for a remote frame.
    #[must_use]
    pub fn data(&self) -> &[u8] {
        let count = if self.remote { 0 } else { usize::from(self.dlc).min(8) };
        &self.data[..count]
    }

    /// Has the library encode these fields, which it refuses if they are no frame.
    fn levels(&self) -> Result<Vec<Level>, Refused> {
        let (mut levels, mut count) = ([0; sys::MOST_LEVELS], 0);
        // SAFETY: each argument is of its size, and no two overlap
        Refused::of(unsafe { sys::riddlesage_encode(&self.plain(), levels.as_mut_ptr(), levels.len(), &mut count) })?;
        Ok(levels[..count].iter().copied().map(Level::of).collect())
    }

    pub(crate) fn plain(&self) -> sys::Frame {
        sys::Frame {
            identifier: self.identifier,
            extended: self.extended.into(),
            remote: self.remote.into(),
            dlc: self.dlc,
            data: self.data,
        }
    }

    pub(crate) fn of(plain: &sys::Frame) -> Self {
        Self {
            identifier: plain.identifier,
            extended: plain.extended != 0,
            remote: plain.remote != 0,
            dlc: plain.dlc,
            data: plain.data,
        }
    }
}

impl fmt::Display for Frame {
    fn fmt(&self, out: &mut fmt::Formatter<'_>) -> fmt::Result {
        if self.extended {
            write!(out, "E {:08x}", self.identifier)?;
        } else {
            write!(out, "S {:03x}", self.identifier)?;
        }
        write!(out, " {} {}", if self.remote { 'R' } else { 'D' }, self.dlc)?;
        for (place, byte) in self.data().iter().enumerate() {
            write!(out, "{}{byte:02x}", if place == 0 { " " } else { "" })?;
        }
        Ok(())
    }
}

impl fmt::Debug for Frame {
    fn fmt(&self, out: &mut fmt::Formatter<'_>) -> fmt::Result {
        write!(out, "Frame({self})")
    }
}

/// Encodes a frame: the levels that its transmitter drives from the start of frame to the end of frame, with stuff
/// bits, the ACK slot recessive (3.2.1, 3.2.2, 6).
///
/// # Panics
///
/// Never: the fields of a [`Frame`] are in range.
#[must_use]
pub fn encode(frame: &Frame) -> Vec<Level> {
    frame.levels().expect("the fields of a frame are in range")
}

/// A frame as received, with the bits for which a receiver accepts either level.
#[derive(Clone, Copy, Debug, PartialEq, Eq, Hash)]
pub struct Heard {
    /// The frame.
    pub frame: Frame,
    /// Whether the ACK slot is dominant.
    pub acknowledged: bool,
    /// The SRR bit; recessive in a standard frame, which has none.
    pub srr: Level,
    /// The reserved bit r1; dominant in a standard frame, which has none.
    pub r1: Level,
    /// The reserved bit r0.
    pub r0: Level,
    /// The last bit of the end of frame.
    pub last: Level,
    /// How many levels the frame has, stuff bits included.
    pub length: usize,
}

/// What is wrong with levels that begin with no frame.
#[derive(Clone, Copy, Debug, PartialEq, Eq, Hash)]
pub struct Fault {
    /// The kind of the fault.
    pub kind: FaultKind,
    /// How many levels come before the first wrong one.
    pub place: usize,
}

/// Why levels begin with no frame.
#[derive(Clone, Copy, Debug, PartialEq, Eq, Hash)]
pub enum FaultKind {
    /// The levels end before the frame does.
    Short,
    /// The first level is recessive, so it is no start of frame.
    NoStart,
    /// Stuff error: a sixth equal level in a row (7.1).
    Stuff,
    /// The CRC sequence is wrong.
    Crc,
    /// Form error: a delimiter, or one of the first six bits of the end of frame, is dominant (7.1).
    Form,
}

impl fmt::Display for Fault {
    fn fmt(&self, out: &mut fmt::Formatter<'_>) -> fmt::Result {
        let (name, meaning) = match self.kind {
            FaultKind::Short => ("short", "the levels end before the frame does"),
            FaultKind::NoStart => ("no start", "the first level is recessive, so it is no start of frame"),
            FaultKind::Stuff => ("stuff", "stuff error, a sixth equal level in a row"),
            FaultKind::Crc => ("crc", "the CRC sequence is wrong"),
            FaultKind::Form => ("form", "form error, a bit of fixed form is dominant"),
        };
        write!(out, "{name} at {}: {meaning}", self.place)
    }
}

impl Error for Fault {}

/// Decodes the frame with which the levels begin. Later levels have no effect.
///
/// # Errors
///
/// A [`Fault`] with its place, if the levels begin with no frame.
pub fn decode(levels: &[Level]) -> Result<Heard, Fault> {
    let (mut heard, mut place) = (sys::Heard::default(), 0);
    // SAFETY: a Level is a byte; each argument is of its size, and no two overlap
    let status = unsafe { sys::riddlesage_decode(levels.as_ptr().cast(), levels.len(), &mut heard, &mut place) };
    let kind = match status {
        sys::OK => {
            return Ok(Heard {
                frame: Frame::of(&heard.frame),
                acknowledged: heard.acknowledged != 0,
                srr: Level::of(heard.srr),
                r1: Level::of(heard.r1),
                r0: Level::of(heard.r0),
                last: Level::of(heard.last),
                length: place,
            })
        }
        sys::SHORT => FaultKind::Short,
        sys::NO_START => FaultKind::NoStart,
        sys::STUFF => FaultKind::Stuff,
        sys::CRC => FaultKind::Crc,
        sys::FORM => FaultKind::Form,
        _ => unreachable!("riddlesage_decode returns status {status}"),
    };
    Err(Fault { kind, place })
}

/// The field of a frame in which a level is (3.2.1).
#[derive(Clone, Copy, Debug, PartialEq, Eq, Hash)]
pub enum Field {
    /// Start of frame.
    StartOfFrame,
    /// Identifier.
    Identifier,
    /// RTR or SRR, if the levels end before the IDE bit.
    RtrOrSrr,
    /// RTR.
    Rtr,
    /// SRR.
    Srr,
    /// IDE.
    Ide,
    /// The reserved bit r1.
    R1,
    /// The reserved bit r0.
    R0,
    /// The data length code, DLC.
    DataLengthCode,
    /// The data bytes.
    Data,
    /// The CRC sequence.
    CrcSequence,
    /// The CRC delimiter.
    CrcDelimiter,
    /// The ACK slot.
    AckSlot,
    /// The ACK delimiter.
    AckDelimiter,
    /// End of frame.
    EndOfFrame,
}

impl Field {
    fn of(code: u8) -> Self {
        match code {
            0 => Self::StartOfFrame,
            1 => Self::Identifier,
            2 => Self::RtrOrSrr,
            3 => Self::Rtr,
            4 => Self::Srr,
            5 => Self::Ide,
            6 => Self::R1,
            7 => Self::R0,
            8 => Self::DataLengthCode,
            9 => Self::Data,
            10 => Self::CrcSequence,
            11 => Self::CrcDelimiter,
            12 => Self::AckSlot,
            13 => Self::AckDelimiter,
            14 => Self::EndOfFrame,
            _ => unreachable!("riddlesage returns field {code}"),
        }
    }
}

/// What a level is.
#[derive(Clone, Copy, Debug, PartialEq, Eq, Hash)]
pub struct Mark {
    /// Its field. A stuff bit has that of the level before it.
    pub field: Field,
    /// Whether it is a stuff bit.
    pub stuffed: bool,
}

/// Names the field of each level of a frame, and its stuff bits.
///
/// Levels have a mark from a start of frame on, to the end of the frame, or to a wrong stuff bit. If the first level is
/// recessive, none has one. It reads at most the first 157 levels: no frame has more.
///
/// # Panics
///
/// Never: a [`Level`] is 0 or 1.
#[must_use]
pub fn marks(levels: &[Level]) -> Vec<Mark> {
    let (mut fields, mut stuffed, mut count) = ([0; sys::MOST_LEVELS], [0; sys::MOST_LEVELS], 0);
    // SAFETY: a Level is a byte; each argument is of its size, and no two overlap
    let status = unsafe {
        sys::riddlesage_marks(
            levels.as_ptr().cast(),
            levels.len(),
            fields.as_mut_ptr(),
            stuffed.as_mut_ptr(),
            &mut count,
        )
    };
    assert_eq!(status, sys::OK, "levels are 0 or 1");
    let mark = |(field, stuffed): (&u8, &u8)| Mark { field: Field::of(*field), stuffed: *stuffed != 0 };
    fields.iter().zip(&stuffed).take(count).map(mark).collect()
}
