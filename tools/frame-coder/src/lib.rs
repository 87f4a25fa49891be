//! The frame coder's static library for Rust: safe functions over its proved ones.
//!
//! A message of 2 to 46 bytes becomes a frame of 8, 16, 32 or 64 whole numbers, by [`send`]; a reading
//! gives the message back: [`read_open`] of any frame of the coding set, [`read_strict`] of the one
//! that is sent alone. Each gives the frame's energy, the sum of the squares of its coordinates. The
//! power of a frame is its energy divided by the number of coordinates; an [`Account`] adds it up, and
//! keeps the largest energy of a block. [`Account::send_queue`] sends many messages in one call.
//!
//! ```
//! use frame_coder::{read_open_to_vec, read_strict_to_vec, send_to_vec, Grade, Kind, Refusal};
//!
//! # fn main() -> Result<(), Refusal> {
//! let (kind, grade, message) = (Kind::new(3)?, Grade::new(1)?, [0x00, 0x08]);
//! let (even, energy) = send_to_vec(kind, grade, 0, &message)?;
//! assert_eq!((&even[..], energy), (&[-4, 0, 0, 0, 0, 0, 0, 0][..], 16));
//! assert_eq!(read_strict_to_vec(kind, grade, 0, &even)?, (message.to_vec(), 16));
//!
//! // Of the same class and energy, and so of the same message, but sent under odd numbers.
//! let (odd, energy) = send_to_vec(kind, grade, 1, &message)?;
//! assert_eq!((&odd[..], energy), (&[4, 0, 0, 0, 0, 0, 0, 0][..], 16));
//! assert_eq!(read_open_to_vec(kind, grade, &odd)?, (message.to_vec(), 16));
//! assert_eq!(read_strict_to_vec(kind, grade, 1, &odd)?, (message.to_vec(), 16));
//! assert_eq!(read_strict_to_vec(kind, grade, 0, &odd), Err(Refusal::Unshaped));
//! # Ok(())
//! # }
//! ```
//!
//! A message's bit k is bit k mod 8, lowest first, of byte k div 8. Bits past the last
//! ([`message_bits`]) are spare and must be 0.
//!
//! A frame carries a number, and is judged by it. Among frames of least energy an even number is sent as the
//! first in reading order, an odd one as the last: at the first coordinate where two differ, the smaller comes
//! first. With an account the count before the send is the number, from the account's changeover on.
//!
//! The last bits of a message, up to four, can be left to the sender, who makes the frame quieter by them: [`send_free`] sends the
//! smallest of the fillings of least energy, and [`read_open_free`] and [`read_strict_free`] give the other bits.
//!
//! What a receiver has of a frame is noisy samples. Of kinds 3 to 5 [`read_near`] finds the frame of the coding set
//! that is near to them, of which there is never a second one, and gives its message and how far it is. Of two receivers'
//! samples [`closer`] gives back those whose near reading is closer.
//!
//! A sent frame can be carried in bytes: [`write_record`] puts its record, with its kind, grade and number, at a place of a buffer,
//! [`read_record`] reads it from there, strictly, and [`records`] goes through a buffer of records one behind the other.
//!
//! A repeater adds sent frames of one kind, whatever their grades and numbers. [`read_open`] takes the sum as it takes any frame
//! with coordinates up to [`MAX_COORDINATE`] in size, which those of up to 131,072 frames added are, and gives the message of the
//! sum itself. A sum in range is always read at kinds 3 to 5; at kind 6 it is read, or it has left the coding set and is refused
//! by [`Refusal::BrokenLevel2`], never by another broken level.
//!
//! Bad input is refused with a [`Refusal`], and what was lent is then as it was. A queue keeps what was
//! sent before the refused message, and says how many they are ([`Stopped`]); [`records`] says where the refused
//! record is ([`RefusedRecord`]).
//!
//! # Panics
//!
//! No function panics with the archive of the same version. Should another one answer with a number
//! that is not known here, the call panics.

mod account;
mod archive;
pub mod by_number;
mod kinds;
mod records;
mod refusal;

pub use account::Account;
pub use kinds::{message_bits, message_length, Grade, Kind, MAX_FRAME_LENGTH, MAX_MESSAGE_LENGTH};
pub use records::{
    read_record, read_record_to_vec, records, write_record, write_record_to_vec, Record, Recorded, Records,
    RefusedRecord, MAX_RECORD_LENGTH,
};
pub use refusal::{Refusal, Stopped, UnknownNumber};

/// The version, which `frame_coder.h` has too.
pub const VERSION: &str = env!("CARGO_PKG_VERSION");

/// The most bits of a message that may be free.
pub const MAX_FREE: u8 = 4;

/// A reading takes coordinates from minus this to this. The energy of a frame of them is 2^54 at most.
pub const MAX_COORDINATE: i32 = 16_777_216;

/// Sends under a number: fills the frame of the message, and gives its energy, which is the same under every
/// number.
///
/// ```
/// use frame_coder::{message_length, send, Grade, Kind};
///
/// const KIND: Kind = Kind::Four;
/// const GRADE: Grade = Grade::One;
/// let mut message = [0; message_length(KIND, GRADE)];
/// message[0] = 0x20;
/// let mut frame = [0; KIND.frame_length()];
/// assert_eq!(send(KIND, GRADE, 0, &message, &mut frame), Ok(64));
/// assert_eq!(frame, [-2; 16]);
/// assert_eq!(send(KIND, GRADE, 1, &message, &mut frame), Ok(64));
/// assert_eq!(frame, [2; 16]);
/// ```
///
/// # Errors
///
/// In this order: the message's length, the frame's length, spare bits.
pub fn send(kind: Kind, grade: Grade, number: u32, message: &[u8], frame: &mut [i32]) -> Result<u64, Refusal> {
    by_number::send(kind.number(), grade.number(), number, message, frame)
}

/// Sends under a number with the last bits of the message free, `free` of them, from 0 to [`MAX_FREE`]: they are left to the sender,
/// and must be given as 0.
///
/// Each way to set them is a filling of the message, the free bits read as a number, lowest bit first. Of the fillings whose frames
/// have the least energy the smallest is sent, the same under every number; its frame never has more energy than without free bits.
///
/// ```
/// use frame_coder::{read_open_free_to_vec, read_strict_free_to_vec, send, send_free, Grade, Kind, Refusal};
///
/// let (kind, grade, message) = (Kind::Three, Grade::One, [0x12, 0x00]);
/// let mut frame = [0; 8];
/// assert_eq!(send(kind, grade, 0, &message, &mut frame), Ok(12));
/// assert_eq!(send_free(kind, grade, 0, 2, &message, &mut frame), Ok(4));
///
/// // The fillings are 12 00, 12 04, 12 08 and 12 0C: the second and the third have the least energy, and the second is sent.
/// assert_eq!(frame, [0, -1, 0, 1, 0, 1, 0, -1]);
/// assert_eq!(read_strict_free_to_vec(kind, grade, 0, 2, &frame), Ok((message.to_vec(), 4)));
///
/// // The frame of the third is read as the message too, but not strictly.
/// let third = [0, -1, 0, 1, 0, 1, 0, 1];
/// assert_eq!(read_open_free_to_vec(kind, grade, 2, &third), Ok((message.to_vec(), 4)));
/// assert_eq!(read_strict_free_to_vec(kind, grade, 0, 2, &third), Err(Refusal::Unshaped));
///
/// // A free bit that is 1, and too many free bits.
/// assert_eq!(send_free(kind, grade, 0, 2, &[0x12, 0x04], &mut frame), Err(Refusal::SpareBits));
/// assert_eq!(send_free(kind, grade, 0, 5, &message, &mut frame), Err(Refusal::FreeCount));
/// ```
///
/// # Errors
///
/// In this order: the free count, the message's length, the frame's length, spare and free bits.
pub fn send_free(
    kind: Kind,
    grade: Grade,
    number: u32,
    free: u8,
    message: &[u8],
    frame: &mut [i32],
) -> Result<u64, Refusal> {
    by_number::send_free(kind.number(), grade.number(), number, free, message, frame)
}

/// Reads any frame of the coding set, under whatever number it was sent: fills its message, and gives the
/// frame's energy.
///
/// ```
/// use frame_coder::{read_open, Grade, Kind, Refusal};
///
/// let mut message = [0; 2];
/// let mut frame = [0, 2, 0, 0, 0, 0, 0, 0];
/// assert_eq!(read_open(Kind::Three, Grade::One, &frame, &mut message), Ok(4));
/// assert_eq!(message, [0x10, 0x00]);
/// frame[0] = 1;
/// assert_eq!(read_open(Kind::Three, Grade::One, &frame, &mut message), Err(Refusal::BrokenLevel0));
/// ```
///
/// # Errors
///
/// In this order: the frame's length, the message's length, a coordinate over range, a broken level, the
/// lowest first.
pub fn read_open(kind: Kind, grade: Grade, frame: &[i32], message: &mut [u8]) -> Result<u64, Refusal> {
    by_number::read_open(kind.number(), grade.number(), frame, message)
}

/// Reads the frame alone that is sent under the number: fills its message, and gives the frame's energy.
///
/// ```
/// use frame_coder::{read_strict, Grade, Kind, Refusal};
///
/// let mut message = [0; 2];
/// assert_eq!(read_strict(Kind::Three, Grade::One, 7, &[1; 8], &mut message), Ok(8));
/// assert_eq!(message, [0x01, 0x00]);
/// assert_eq!(read_strict(Kind::Three, Grade::One, 8, &[1; 8], &mut message), Err(Refusal::Unshaped));
/// ```
///
/// # Errors
///
/// As [`read_open`], and last [`Refusal::Unshaped`] for a frame that is not the one that is sent under the
/// number.
pub fn read_strict(kind: Kind, grade: Grade, number: u32, frame: &[i32], message: &mut [u8]) -> Result<u64, Refusal> {
    by_number::read_strict(kind.number(), grade.number(), number, frame, message)
}

/// Reads as [`read_open`] does, with the last bits of the message free: fills them as 0. The frames of all fillings of a message are
/// read as the message.
///
/// # Errors
///
/// As [`read_open`], and before that [`Refusal::FreeCount`].
pub fn read_open_free(kind: Kind, grade: Grade, free: u8, frame: &[i32], message: &mut [u8]) -> Result<u64, Refusal> {
    by_number::read_open_free(kind.number(), grade.number(), free, frame, message)
}

/// Reads the frame alone that [`send_free`] sends under the number: fills the message, its free bits as 0, and gives the frame's
/// energy.
///
/// ```
/// use frame_coder::{read_open_free, read_strict_free, send_to_vec, Grade, Kind, Refusal};
///
/// let (kind, grade, mut message) = (Kind::Three, Grade::One, [0; 2]);
/// // The fillings of 12 00 with two bits free, and their energies.
/// for (last, energy) in [(0x00, 12), (0x04, 4), (0x08, 4), (0x0C, 12)] {
///     let (frame, own) = send_to_vec(kind, grade, 0, &[0x12, last])?;
///     assert_eq!(own, energy);
///     let answer = read_strict_free(kind, grade, 0, 2, &frame, &mut message);
///     assert_eq!(answer, if last == 0x04 { Ok(4) } else { Err(Refusal::Unshaped) });
///     assert_eq!(read_open_free(kind, grade, 2, &frame, &mut message), Ok(energy));
///     assert_eq!(message, [0x12, 0x00]);
/// }
/// # Ok::<(), Refusal>(())
/// ```
///
/// # Errors
///
/// As [`read_open_free`], and last [`Refusal::Unshaped`] for a frame that is not the one that is sent under the number: so for that of
/// any other filling, also of one with the same energy.
pub fn read_strict_free(
    kind: Kind,
    grade: Grade,
    number: u32,
    free: u8,
    frame: &[i32],
    message: &mut [u8],
) -> Result<u64, Refusal> {
    by_number::read_strict_free(kind.number(), grade.number(), number, free, frame, message)
}

/// Reads noisy samples: fills the message of the frame of the coding set that is near to them, and gives the
/// squared distance of the two, which is exact.
///
/// Near is a frame at a squared distance below [`Kind::near_limit`]: there is none or one, and it is found where
/// there is one, also where it is the sent frame under no number. So noise whose squared length is below that
/// is always taken off a sent frame. Each sample is a whole number of 256ths from −128 to 128; −0.0 is 0. Samples that are
/// finer are rounded first, by `(x * 256.0).round() / 256.0`: the distance is then that of the rounded ones.
///
/// Too far is an answer like the broken levels of a frame, which a receiver has to expect.
///
/// ```
/// use frame_coder::{read_near, Grade, Kind, Refusal};
///
/// // Of the frame 0 1 0 1 0 1 0 1, with noise.
/// let mut samples = [0.0, 1.25, 0.0, 0.5, -0.25, 1.0, 0.0, 1.0];
/// let mut message = [0; 2];
/// assert_eq!(read_near(Kind::Three, Grade::One, &samples, &mut message), Ok(0.375));
/// assert_eq!(message, [0x02, 0x00]);
///
/// samples[0] = 0.875;
/// match read_near(Kind::Three, Grade::One, &samples, &mut message) {
///     Ok(distance) => println!("read, at the squared distance {distance}"),
///     Err(Refusal::TooFar) => println!("lost"),
///     Err(refusal) => panic!("{refusal}"),
/// }
/// # assert_eq!(read_near(Kind::Three, Grade::One, &samples, &mut message), Err(Refusal::TooFar));
/// samples[0] = 1.0 / 512.0;
/// assert_eq!(read_near(Kind::Three, Grade::One, &samples, &mut message), Err(Refusal::UnfitSample));
/// ```
///
/// # Errors
///
/// In this order: [`Refusal::Kind`] for kind 6, which has no near reading, the number of samples
/// ([`Refusal::FrameLength`]), the message's length, [`Refusal::UnfitSample`], [`Refusal::TooFar`]. The message is
/// then as it was.
pub fn read_near(kind: Kind, grade: Grade, samples: &[f32], message: &mut [u8]) -> Result<f64, Refusal> {
    by_number::read_near(kind.number(), grade.number(), samples, message)
}

/// Chooses between the recordings that two receivers have of one frame: gives the slice back, the first or the second, whose near
/// reading ([`read_near`]) is closer.
///
/// Where both are near to one message, it is the one at the smaller squared distance, and on equal distance the first; distances
/// are compared exactly. Where one is refused, too far included, it is the other. The messages are compared, not the frames:
/// recordings of two frames of one class, as a message has under an even and an odd number, are not at odds. The slices may
/// overlap, or be the same.
///
/// ```
/// use frame_coder::{closer, read_near_to_vec, Grade, Kind, Refusal};
///
/// let (kind, grade) = (Kind::Three, Grade::One);
/// // Of the frame 0 1 0 1 0 1 0 1, with noise of the squares 0.375 and 0.3125.
/// let first = [0.0, 1.25, 0.0, 0.5, -0.25, 1.0, 0.0, 1.0];
/// let second = [0.25, 1.0, 0.0, 1.0, 0.0, 1.5, 0.0, 1.0];
/// let chosen = closer(kind, grade, &first, &second)?;
/// assert!(std::ptr::eq(chosen, &second));
/// assert_eq!(read_near_to_vec(kind, grade, chosen)?, (vec![0x02, 0x00], 0.3125));
///
/// // Too far, and the other is taken; near to another message; and refused both, by the number of the first.
/// let (far, another) = ([0.5; 8], [0.0; 8]);
/// assert!(std::ptr::eq(closer(kind, grade, &first, &far)?, &first));
/// assert_eq!(closer(kind, grade, &first, &another), Err(Refusal::AtOdds));
/// assert_eq!(closer(kind, grade, &far, &first[..7]), Err(Refusal::TooFar));
/// # Ok::<(), Refusal>(())
/// ```
///
/// # Errors
///
/// Where both are refused, why the first is: [`Refusal::Kind`] for kind 6, the number of samples ([`Refusal::FrameLength`]),
/// [`Refusal::UnfitSample`] or [`Refusal::TooFar`], in this order. Where both are near to different messages, [`Refusal::AtOdds`].
pub fn closer<'a>(kind: Kind, grade: Grade, first: &'a [f32], second: &'a [f32]) -> Result<&'a [f32], Refusal> {
    by_number::closer(kind.number(), grade.number(), first, second)
}

/// Sends under a number: the frame of the message, and its energy.
///
/// # Errors
///
/// As [`send`], but for the frame's length.
pub fn send_to_vec(kind: Kind, grade: Grade, number: u32, message: &[u8]) -> Result<(Vec<i32>, u64), Refusal> {
    let mut frame = vec![0; kind.frame_length()];
    let energy = send(kind, grade, number, message, &mut frame)?;
    Ok((frame, energy))
}

/// Sends under a number with the last bits free: the frame of the smallest filling of least energy, and its energy.
///
/// # Errors
///
/// As [`send_free`], but for the frame's length.
pub fn send_free_to_vec(
    kind: Kind,
    grade: Grade,
    number: u32,
    free: u8,
    message: &[u8],
) -> Result<(Vec<i32>, u64), Refusal> {
    let mut frame = vec![0; kind.frame_length()];
    let energy = send_free(kind, grade, number, free, message, &mut frame)?;
    Ok((frame, energy))
}

/// Reads any frame of the coding set with the last bits free: its message, and the frame's energy.
///
/// # Errors
///
/// As [`read_open_free`], but for the message's length.
pub fn read_open_free_to_vec(kind: Kind, grade: Grade, free: u8, frame: &[i32]) -> Result<(Vec<u8>, u64), Refusal> {
    let mut message = vec![0; message_length(kind, grade)];
    let energy = read_open_free(kind, grade, free, frame, &mut message)?;
    Ok((message, energy))
}

/// Reads the frame alone that is sent under the number with the last bits free: its message, and the frame's energy.
///
/// # Errors
///
/// As [`read_strict_free`], but for the message's length.
pub fn read_strict_free_to_vec(
    kind: Kind,
    grade: Grade,
    number: u32,
    free: u8,
    frame: &[i32],
) -> Result<(Vec<u8>, u64), Refusal> {
    let mut message = vec![0; message_length(kind, grade)];
    let energy = read_strict_free(kind, grade, number, free, frame, &mut message)?;
    Ok((message, energy))
}

/// Reads any frame of the coding set: its message, and the frame's energy.
///
/// # Errors
///
/// As [`read_open`], but for the message's length.
pub fn read_open_to_vec(kind: Kind, grade: Grade, frame: &[i32]) -> Result<(Vec<u8>, u64), Refusal> {
    let mut message = vec![0; message_length(kind, grade)];
    let energy = read_open(kind, grade, frame, &mut message)?;
    Ok((message, energy))
}

/// Reads the frame alone that is sent under the number: its message, and the frame's energy.
///
/// # Errors
///
/// As [`read_strict`], but for the message's length.
pub fn read_strict_to_vec(kind: Kind, grade: Grade, number: u32, frame: &[i32]) -> Result<(Vec<u8>, u64), Refusal> {
    let mut message = vec![0; message_length(kind, grade)];
    let energy = read_strict(kind, grade, number, frame, &mut message)?;
    Ok((message, energy))
}

/// Reads noisy samples: the message of the near frame, and the squared distance.
///
/// # Errors
///
/// As [`read_near`], but for the message's length.
pub fn read_near_to_vec(kind: Kind, grade: Grade, samples: &[f32]) -> Result<(Vec<u8>, f64), Refusal> {
    let mut message = vec![0; message_length(kind, grade)];
    let distance = read_near(kind, grade, samples, &mut message)?;
    Ok((message, distance))
}
