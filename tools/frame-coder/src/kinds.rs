//! Kinds, grades and lengths.

use crate::Refusal;

/// The coordinates of the longest frame.
pub const MAX_FRAME_LENGTH: usize = 64;

/// The bytes of the longest message.
pub const MAX_MESSAGE_LENGTH: usize = 46;

/// A kind of frame, by its number.
///
/// ```
/// use frame_coder::{Kind, Refusal};
///
/// assert_eq!(Kind::try_from(6), Ok(Kind::Six));
/// assert_eq!(Kind::new(7), Err(Refusal::Kind));
/// assert_eq!(Kind::Six.frame_length(), 64);
/// ```
#[derive(Clone, Copy, Debug, PartialEq, Eq, PartialOrd, Ord, Hash)]
#[repr(u8)]
#[non_exhaustive]
pub enum Kind {
    /// 8 coordinates, one level.
    Three = 3,
    /// 16 coordinates, two levels.
    Four = 4,
    /// 32 coordinates, two levels.
    Five = 5,
    /// 64 coordinates, three levels.
    Six = 6,
}

impl Kind {
    /// All kinds.
    pub const ALL: &'static [Kind] = &[Kind::Three, Kind::Four, Kind::Five, Kind::Six];

    /// The kind with this number.
    ///
    /// # Errors
    ///
    /// [`Refusal::Kind`] where there is none.
    pub const fn new(number: u8) -> Result<Kind, Refusal> {
        match number {
            3 => Ok(Kind::Three),
            4 => Ok(Kind::Four),
            5 => Ok(Kind::Five),
            6 => Ok(Kind::Six),
            _ => Err(Refusal::Kind),
        }
    }

    /// Its number.
    #[must_use]
    pub const fn number(self) -> u8 {
        self as u8
    }

    /// The coordinates of a frame of this kind.
    #[must_use]
    pub const fn frame_length(self) -> usize {
        1 << self.number()
    }

    /// The bytes of a record of this kind.
    ///
    /// ```
    /// use frame_coder::Kind;
    ///
    /// let lengths: Vec<usize> = Kind::ALL.iter().map(|kind| kind.record_length()).collect();
    /// assert_eq!(lengths, [40, 72, 136, 264]);
    /// ```
    #[must_use]
    pub const fn record_length(self) -> usize {
        8 + 4 * self.frame_length()
    }

    /// The squared distance below which a near reading finds a frame of this kind; none where the kind has no
    /// near reading. It is a quarter of the least squared distance of two frames.
    ///
    /// ```
    /// use frame_coder::Kind;
    ///
    /// let limits: Vec<Option<f64>> = Kind::ALL.iter().map(|kind| kind.near_limit()).collect();
    /// assert_eq!(limits, [Some(1.0), Some(2.0), Some(4.0), None]);
    /// ```
    #[must_use]
    pub const fn near_limit(self) -> Option<f64> {
        match self {
            Kind::Three => Some(1.0),
            Kind::Four => Some(2.0),
            Kind::Five => Some(4.0),
            Kind::Six => None,
        }
    }
}

impl TryFrom<u8> for Kind {
    type Error = Refusal;

    fn try_from(number: u8) -> Result<Kind, Refusal> {
        Kind::new(number)
    }
}

impl From<Kind> for u8 {
    fn from(kind: Kind) -> u8 {
        kind.number()
    }
}

/// A grade, 1 to 4: a higher one has longer messages and frames of more energy.
///
/// ```
/// use frame_coder::{Grade, Refusal};
///
/// assert_eq!(Grade::try_from(4), Ok(Grade::Four));
/// assert_eq!(Grade::new(0), Err(Refusal::Grade));
/// ```
#[derive(Clone, Copy, Debug, PartialEq, Eq, PartialOrd, Ord, Hash)]
#[repr(u8)]
#[non_exhaustive]
pub enum Grade {
    /// The lowest.
    One = 1,
    /// The second.
    Two = 2,
    /// The third.
    Three = 3,
    /// The highest.
    Four = 4,
}

impl Grade {
    /// All grades.
    pub const ALL: &'static [Grade] = &[Grade::One, Grade::Two, Grade::Three, Grade::Four];

    /// The grade with this number.
    ///
    /// # Errors
    ///
    /// [`Refusal::Grade`] where there is none.
    pub const fn new(number: u8) -> Result<Grade, Refusal> {
        match number {
            1 => Ok(Grade::One),
            2 => Ok(Grade::Two),
            3 => Ok(Grade::Three),
            4 => Ok(Grade::Four),
            _ => Err(Refusal::Grade),
        }
    }

    /// Its number.
    #[must_use]
    pub const fn number(self) -> u8 {
        self as u8
    }
}

impl TryFrom<u8> for Grade {
    type Error = Refusal;

    fn try_from(number: u8) -> Result<Grade, Refusal> {
        Grade::new(number)
    }
}

impl From<Grade> for u8 {
    fn from(grade: Grade) -> u8 {
        grade.number()
    }
}

/// The bits of a message; those past them, up to whole bytes, are spare.
#[must_use]
pub const fn message_bits(kind: Kind, grade: Grade) -> usize {
    let grade = grade.number() as usize;
    match kind {
        Kind::Three => 4 + 8 * grade,
        Kind::Four => 20 + 16 * grade,
        Kind::Five => 32 + 32 * grade,
        Kind::Six => 112 + 64 * grade,
    }
}

/// The bytes of a message.
///
/// ```
/// use frame_coder::{message_bits, message_length, Grade, Kind};
///
/// assert_eq!(message_bits(Kind::Three, Grade::One), 12);
/// assert_eq!(message_length(Kind::Three, Grade::One), 2);
/// assert_eq!(message_length(Kind::Six, Grade::Four), 46);
/// ```
#[must_use]
pub const fn message_length(kind: Kind, grade: Grade) -> usize {
    message_bits(kind, grade).div_ceil(8)
}
