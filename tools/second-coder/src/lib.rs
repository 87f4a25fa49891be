//! A second coder of document 01, written apart from the library, to check it against.
//!
//! It is slow and plain on purpose: codewords come from the definition by masks, and the sent
//! frame from a search of the leader's class that keeps every member of least energy. Of these an
//! even number sends the first in reading order, and an odd one the last. The near reading takes
//! its frame from a list of all whole frames within reach of the samples; of two recordings each is read so,
//! and messages and distances are compared. Where bits of the message are free, the class of each filling is
//! searched, every filling of least energy is kept, and of these the smallest is found on the bits of the messages. A recorded frame is
//! built as a row of bits, and passes when the record made anew for its message is the same.

pub mod account;
pub mod calls;
pub mod class;
pub mod code;
pub mod far;
pub mod frame;
pub mod free;
pub mod free_file;
pub mod near;
pub mod noisy;
pub mod pairs;
pub mod queues;
pub mod random;
pub mod recordings;
pub mod records;
pub mod records_file;
pub mod sheet;
pub mod test_file;
pub mod vectors;

/// The numbers of document 01 by which input is refused.
pub mod refusal {
    pub const KIND: u8 = 1;
    pub const GRADE: u8 = 2;
    pub const MESSAGE_LENGTH: u8 = 3;
    pub const FRAME_LENGTH: u8 = 4;
    pub const SPARE_BITS: u8 = 5;
    pub const OVER_RANGE: u8 = 6;
    pub const BROKEN_LEVEL_0: u8 = 7;
    pub const BROKEN_LEVEL_1: u8 = 8;
    pub const UNSHAPED: u8 = 9;
    pub const MARK: u8 = 10;
    pub const ACCOUNT_FULL: u8 = 11;
    pub const LONG_SHEET: u8 = 12;
    pub const BROKEN_LEVEL_2: u8 = 13;
    pub const CHANGEOVER: u8 = 14;
    pub const UNFIT_SAMPLE: u8 = 15;
    pub const TOO_FAR: u8 = 16;
    pub const FREE_COUNT: u8 = 17;
    pub const AT_ODDS: u8 = 18;
    pub const RECORD_END: u8 = 19;
}
