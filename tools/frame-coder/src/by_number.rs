//! The functions with kind and grade by number, as the bytes that stand in a record: wrong ones are refused
//! too, before anything else.
//!
//! ```
//! use frame_coder::{by_number, Refusal};
//!
//! let mut frame = [0; 8];
//! assert_eq!(by_number::send(3, 1, 0, &[0x02, 0x08], &mut frame), Ok(12));
//! assert_eq!(frame, [0, -3, 0, 1, 0, 1, 0, 1]);
//! assert_eq!(by_number::send(3, 1, 1, &[0x02, 0x08], &mut frame), Ok(12));
//! assert_eq!(frame, [0, 1, 0, 1, 0, 1, 0, -3]);
//! assert_eq!(by_number::send(7, 1, 0, &[0x02, 0x08], &mut frame), Err(Refusal::Kind));
//! assert_eq!(by_number::send(3, 5, 0, &[0x02, 0x08], &mut frame), Err(Refusal::Grade));
//! ```

use crate::{archive, Account, Refusal, Stopped};

/// The energy, or the refusal that a negative answer tells.
pub(crate) fn answer(answer: i64) -> Result<u64, Refusal> {
    if let Ok(energy) = u64::try_from(answer) {
        return Ok(energy);
    }
    match u8::try_from(answer.unsigned_abs()).map(Refusal::try_from) {
        Ok(Ok(refusal)) => Err(refusal),
        _ => unknown(answer),
    }
}

pub(crate) fn unknown(answer: i64) -> ! {
    panic!("the archive answered {answer}, which version {} does not know", crate::VERSION)
}

/// As [`crate::send`].
///
/// # Errors
///
/// In this order: kind, grade, the message's length, the frame's length, spare bits.
pub fn send(kind: u8, grade: u8, number: u32, message: &[u8], frame: &mut [i32]) -> Result<u64, Refusal> {
    send_free(kind, grade, number, 0, message, frame)
}

/// As [`crate::send_free`].
///
/// # Errors
///
/// In this order: kind, grade, the free count, the message's length, the frame's length, spare and free bits.
pub fn send_free(
    kind: u8,
    grade: u8,
    number: u32,
    free: u8,
    message: &[u8],
    frame: &mut [i32],
) -> Result<u64, Refusal> {
    let (bytes, coordinates) = (message.len(), frame.len());
    // SAFETY: both slices are lent for the call, the frame alone; the lengths are theirs.
    answer(unsafe {
        archive::coder_send(kind, grade, number, free, message.as_ptr(), bytes, frame.as_mut_ptr(), coordinates)
    })
}

/// As [`crate::read_open`].
///
/// # Errors
///
/// In this order: kind, grade, the frame's length, the message's length, a coordinate over range, a
/// broken level, the lowest first.
pub fn read_open(kind: u8, grade: u8, frame: &[i32], message: &mut [u8]) -> Result<u64, Refusal> {
    read_open_free(kind, grade, 0, frame, message)
}

/// As [`crate::read_open_free`].
///
/// # Errors
///
/// As [`read_open`], and the free count after the grade.
pub fn read_open_free(kind: u8, grade: u8, free: u8, frame: &[i32], message: &mut [u8]) -> Result<u64, Refusal> {
    let (coordinates, bytes) = (frame.len(), message.len());
    // SAFETY: both slices are lent for the call, the message alone; the lengths are theirs.
    answer(unsafe {
        archive::coder_read_open(kind, grade, free, frame.as_ptr(), coordinates, message.as_mut_ptr(), bytes)
    })
}

/// As [`crate::read_strict`].
///
/// # Errors
///
/// As [`read_open`], and last a frame that is not the one that is sent under the number.
pub fn read_strict(kind: u8, grade: u8, number: u32, frame: &[i32], message: &mut [u8]) -> Result<u64, Refusal> {
    read_strict_free(kind, grade, number, 0, frame, message)
}

/// As [`crate::read_strict_free`].
///
/// # Errors
///
/// As [`read_open_free`], and last a frame that is not the one that is sent under the number.
pub fn read_strict_free(
    kind: u8,
    grade: u8,
    number: u32,
    free: u8,
    frame: &[i32],
    message: &mut [u8],
) -> Result<u64, Refusal> {
    let (coordinates, bytes) = (frame.len(), message.len());
    // SAFETY: both slices are lent for the call, the message alone; the lengths are theirs.
    answer(unsafe {
        archive::coder_read_strict(kind, grade, number, free, frame.as_ptr(), coordinates, message.as_mut_ptr(), bytes)
    })
}

/// As [`crate::read_near`].
///
/// # Errors
///
/// In this order: kind, which has to be 3 to 5, grade, the number of samples, the message's length, an unfit
/// sample, too far.
pub fn read_near(kind: u8, grade: u8, samples: &[f32], message: &mut [u8]) -> Result<f64, Refusal> {
    let (length, bytes, mut distance) = (samples.len(), message.len(), 0.0);
    // SAFETY: both slices and the distance are lent for the call, the message and the distance each alone; the
    // lengths are the slices'.
    answer(unsafe {
        archive::coder_read_near(kind, grade, samples.as_ptr(), length, message.as_mut_ptr(), bytes, &mut distance)
    })?;
    Ok(distance)
}

/// As [`crate::closer`].
///
/// # Errors
///
/// Where both are refused, as the near reading of the first: kind, which has to be 3 to 5, grade, the number of samples, an
/// unfit sample, too far. Last, where both are near, different messages.
pub fn closer<'a>(kind: u8, grade: u8, first: &'a [f32], second: &'a [f32]) -> Result<&'a [f32], Refusal> {
    let (one, length, other, other_length) = (first.as_ptr(), first.len(), second.as_ptr(), second.len());
    // SAFETY: both slices are lent for the call, to be read; the lengths are theirs.
    let chosen = unsafe { archive::coder_closer(kind, grade, one, length, other, other_length) };
    match answer(chosen)? {
        1 => Ok(first),
        2 => Ok(second),
        _ => unknown(chosen),
    }
}

/// As [`Account::send`].
///
/// # Errors
///
/// As [`send`], and last an account that is full.
pub fn send_counted(
    kind: u8,
    grade: u8,
    message: &[u8],
    frame: &mut [i32],
    account: &mut Account,
) -> Result<u64, Refusal> {
    send_counted_free(kind, grade, 0, message, frame, account)
}

/// As [`Account::send_free`].
///
/// # Errors
///
/// As [`send_free`], and last an account that is full.
pub fn send_counted_free(
    kind: u8,
    grade: u8,
    free: u8,
    message: &[u8],
    frame: &mut [i32],
    account: &mut Account,
) -> Result<u64, Refusal> {
    // SAFETY: all is lent for the call, the frame and the account's three figures each alone; the lengths
    // are the slices'.
    answer(unsafe {
        archive::coder_send_counted(
            kind,
            grade,
            free,
            message.as_ptr(),
            message.len(),
            frame.as_mut_ptr(),
            frame.len(),
            &mut account.count,
            &mut account.sum,
            &mut account.largest,
            account.changeover,
        )
    })
}

/// As [`Account::send_queue`].
///
/// # Errors
///
/// In this order: kind, grade, the messages' bytes, the coordinates, none of which sends a message; then
/// of each message in its turn spare bits, and an account that is full.
pub fn send_queue(
    kind: u8,
    grade: u8,
    messages: &[u8],
    frames: &mut [i32],
    account: &mut Account,
) -> Result<usize, Stopped> {
    let mut sent = 0;
    // SAFETY: all is lent for the call, the frames, the account's three figures and the number sent each
    // alone; the lengths are the slices'.
    let queued = answer(unsafe {
        archive::coder_send_queue(
            kind,
            grade,
            messages.as_ptr(),
            messages.len(),
            frames.as_mut_ptr(),
            frames.len(),
            &mut account.count,
            &mut account.sum,
            &mut account.largest,
            account.changeover,
            &mut sent,
        )
    });
    queued.map(|_| sent).map_err(|refusal| Stopped { sent, refusal })
}

/// As [`crate::write_record`].
///
/// # Errors
///
/// In this order: kind, grade, the message's length, spare bits, a buffer that from the place on is too short.
pub fn write_record(
    kind: u8,
    grade: u8,
    number: u32,
    message: &[u8],
    buffer: &mut [u8],
    place: usize,
) -> Result<usize, Refusal> {
    let (bytes, length, mut next) = (message.len(), buffer.len(), 0);
    let (message, buffer) = (message.as_ptr(), buffer.as_mut_ptr());
    // SAFETY: both slices and the place after the record are lent for the call, the buffer and that place each alone; the lengths
    // are the slices'.
    answer(unsafe {
        archive::coder_write_record(kind, grade, number, message, bytes, buffer, length, place, &mut next)
    })?;
    Ok(next)
}

/// As [`crate::Kind::record_length`]: 0 where there is no such kind.
#[must_use]
pub fn record_length(kind: u8) -> usize {
    // SAFETY: nothing is lent.
    unsafe { archive::coder_record_length(kind) }
}
