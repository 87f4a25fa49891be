//! The refusals.

use std::error::Error;
use std::fmt::{Display, Formatter};

/// Why the library refuses, by the numbers of documents 01 and 02 that can occur here (12 is a refusal of a sheet).
///
/// ```
/// use frame_coder::Refusal;
///
/// assert_eq!(Refusal::SpareBits.number(), 5);
/// assert_eq!(Refusal::SpareBits.to_string(), "refused 5: a spare or free bit of the message is set");
/// assert_eq!(Refusal::try_from(5), Ok(Refusal::SpareBits));
/// assert_eq!(Refusal::try_from(12).unwrap_err().to_string(), "12 is the number of no refusal here");
/// ```
#[derive(Clone, Copy, Debug, PartialEq, Eq, PartialOrd, Ord, Hash)]
#[repr(u8)]
#[non_exhaustive]
pub enum Refusal {
    /// The kind is not 3 to 6; near reading: not 3 to 5.
    Kind = 1,
    /// The grade is not 1 to 4.
    Grade = 2,
    /// The message bytes differ from [`message_length`](crate::message_length); those of a queue are not
    /// whole messages.
    MessageLength = 3,
    /// The coordinates, or the samples, differ from [`Kind::frame_length`](crate::Kind::frame_length); the
    /// coordinates of a queue from that times its messages.
    FrameLength = 4,
    /// Sending: a spare bit of the message is set, or a free one.
    SpareBits = 5,
    /// Reading: a coordinate is over [`MAX_COORDINATE`](crate::MAX_COORDINATE) in size.
    OverRange = 6,
    /// Reading: the coordinates' bits of weight 1 are not a codeword.
    BrokenLevel0 = 7,
    /// Reading at kinds 4 to 6: the coordinates' bits of weight 2 are not a codeword.
    BrokenLevel1 = 8,
    /// Strict reading: the frame is not the one that is sent for its message under the number.
    Unshaped = 9,
    /// Reading a record: the mark 4C 46 does not stand at the place, or not all of it.
    Mark = 10,
    /// Sending with an account: it has 1,000,000 frames or more.
    AccountFull = 11,
    /// Reading at kind 6: the coordinates' bits of weight 4 are not a codeword. Tested after
    /// [`BrokenLevel1`](Refusal::BrokenLevel1).
    BrokenLevel2 = 13,
    /// Opening an account: the changeover is above 1,000,000.
    Changeover = 14,
    /// Near reading: a sample is no number, or no whole number of 256ths from −128 to 128.
    UnfitSample = 15,
    /// Near reading: no frame of the coding set is nearer than [`Kind::near_limit`](crate::Kind::near_limit).
    TooFar = 16,
    /// More than [`MAX_FREE`](crate::MAX_FREE) bits are to be free.
    FreeCount = 17,
    /// Two recordings: both are near, and their messages differ.
    AtOdds = 18,
    /// Records: the buffer from the place on is too short for the record.
    RecordEnd = 19,
}

impl Refusal {
    /// All refusals, in order of their numbers.
    pub const ALL: &'static [Refusal] = &[
        Refusal::Kind,
        Refusal::Grade,
        Refusal::MessageLength,
        Refusal::FrameLength,
        Refusal::SpareBits,
        Refusal::OverRange,
        Refusal::BrokenLevel0,
        Refusal::BrokenLevel1,
        Refusal::Unshaped,
        Refusal::Mark,
        Refusal::AccountFull,
        Refusal::BrokenLevel2,
        Refusal::Changeover,
        Refusal::UnfitSample,
        Refusal::TooFar,
        Refusal::FreeCount,
        Refusal::AtOdds,
        Refusal::RecordEnd,
    ];

    /// Its number.
    #[must_use]
    pub const fn number(self) -> u8 {
        self as u8
    }

    /// The reason in words.
    #[must_use]
    pub const fn reason(self) -> &'static str {
        match self {
            Refusal::Kind => "the kind is not 3 to 6, or for a near reading not 3 to 5",
            Refusal::Grade => "the grade is not 1 to 4",
            Refusal::MessageLength => "the message bytes are too few or too many for the kind and grade",
            Refusal::FrameLength => "the coordinates or samples are too few or too many",
            Refusal::SpareBits => "a spare or free bit of the message is set",
            Refusal::OverRange => "a coordinate is outside -16777216 to 16777216",
            Refusal::BrokenLevel0 => "level 0 of the frame is not a codeword",
            Refusal::BrokenLevel1 => "level 1 of the frame is not a codeword",
            Refusal::Unshaped => "the frame is not the one that is sent for its message under the number",
            Refusal::Mark => "there is no mark 4C 46 at the place",
            Refusal::AccountFull => "the account is full",
            Refusal::BrokenLevel2 => "level 2 of the frame is not a codeword",
            Refusal::Changeover => "the changeover is above 1000000",
            Refusal::UnfitSample => "a sample is not a whole number of 256ths from -128 to 128",
            Refusal::TooFar => "no frame of the coding set is near to the samples",
            Refusal::FreeCount => "more than 4 bits are to be free",
            Refusal::AtOdds => "the two recordings are near to different messages",
            Refusal::RecordEnd => "the buffer ends before the record does",
        }
    }
}

impl Display for Refusal {
    fn fmt(&self, out: &mut Formatter<'_>) -> std::fmt::Result {
        write!(out, "refused {}: {}", self.number(), self.reason())
    }
}

impl Error for Refusal {}

/// A queue that stopped at a refusal, with what was sent before it.
///
/// ```
/// use frame_coder::{Refusal, Stopped};
///
/// let stopped = Stopped { sent: 12, refusal: Refusal::AccountFull };
/// assert_eq!(stopped.to_string(), "12 sent, then refused 11: the account is full");
/// ```
#[derive(Clone, Copy, Debug, PartialEq, Eq, Hash)]
pub struct Stopped {
    /// The messages that were sent: their frames are written, and the account has grown by them. Where one
    /// message is refused, it is the one at this place, counted from 0.
    pub sent: usize,
    /// Why no more were sent.
    pub refusal: Refusal,
}

impl Display for Stopped {
    fn fmt(&self, out: &mut Formatter<'_>) -> std::fmt::Result {
        write!(out, "{} sent, then {}", self.sent, self.refusal)
    }
}

impl Error for Stopped {}

/// A number that no refusal here has.
#[derive(Clone, Copy, Debug, PartialEq, Eq, Hash)]
pub struct UnknownNumber(pub u8);

impl Display for UnknownNumber {
    fn fmt(&self, out: &mut Formatter<'_>) -> std::fmt::Result {
        write!(out, "{} is the number of no refusal here", self.0)
    }
}

impl Error for UnknownNumber {}

impl TryFrom<u8> for Refusal {
    type Error = UnknownNumber;

    fn try_from(number: u8) -> Result<Refusal, UnknownNumber> {
        Refusal::ALL.iter().copied().find(|refusal| refusal.number() == number).ok_or(UnknownNumber(number))
    }
}

impl From<Refusal> for u8 {
    fn from(refusal: Refusal) -> u8 {
        refusal.number()
    }
}
