//! Records by hand: a frame is sent into an array of its own, tested against the buffer's end, and copied; and it is copied out and read
//! strictly, into a message that is not asked for, before it is handed over.

use super::{read_strict, refusal, send};

const MARK: [u8; 2] = [0x4C, 0x46];

/// What a record says of its frame, the frame's energy, and the place after the record.
#[derive(Clone, Copy, Debug, PartialEq)]
pub struct Record {
    pub kind: u8,
    pub grade: u8,
    pub number: u32,
    pub energy: u64,
    pub next: usize,
}

/// Sends under a number, puts the record of the frame at a place of the buffer and gives the place after it; or refuses and leaves the
/// buffer as it is.
#[inline(never)]
pub fn write_record(
    kind: u8,
    grade: u8,
    number: u32,
    message: &[u8],
    buffer: &mut [u8],
    place: usize,
) -> Result<usize, u8> {
    match kind {
        3 => write::<8>(kind, grade, number, message, buffer, place),
        4 => write::<16>(kind, grade, number, message, buffer, place),
        5 => write::<32>(kind, grade, number, message, buffer, place),
        6 => write::<64>(kind, grade, number, message, buffer, place),
        _ => Err(refusal::KIND),
    }
}

#[inline(always)]
fn write<const N: usize>(
    kind: u8,
    grade: u8,
    number: u32,
    message: &[u8],
    buffer: &mut [u8],
    place: usize,
) -> Result<usize, u8> {
    let mut frame = [0; N];
    send(kind, grade, number, message, &mut frame)?;
    let record = buffer.get_mut(place..).and_then(|left| left.get_mut(..8 + 4 * N)).ok_or(refusal::RECORD_END)?;
    let (words, _) = record.as_chunks_mut::<4>();
    words[0] = [MARK[0], MARK[1], kind, grade];
    words[1] = number.to_le_bytes();
    for (word, x) in words[2..].iter_mut().zip(frame) {
        *word = x.to_le_bytes();
    }
    Ok(place + 8 + 4 * N)
}

/// Reads the record at a place strictly: fills its frame and gives the rest; or refuses and leaves the frame as it is.
#[inline(never)]
pub fn read_record(buffer: &[u8], place: usize, frame: &mut [i32]) -> Result<Record, u8> {
    let record = buffer.get(place..).unwrap_or(&[]);
    let [kind, grade] = match *record {
        [0x4C, 0x46, kind, grade, ..] => [kind, grade],
        [0x4C, 0x46, 3..=6] | [0x4C, 0x46] => return Err(refusal::RECORD_END),
        [0x4C, 0x46, _] => return Err(refusal::KIND),
        _ => return Err(refusal::MARK),
    };
    let b = grade as usize;
    let read = match (kind, grade) {
        (3, 1..=4) => read::<8>,
        (4, 1..=4) => read::<16>,
        (5, 1..=4) => read::<32>,
        (6, 1..=4) => read::<64>,
        (3..=6, _) => return Err(refusal::GRADE),
        _ => return Err(refusal::KIND),
    };
    let bytes = [b + 1, 2 * b + 3, 4 * b + 4, 8 * b + 14][kind as usize - 3];
    let (number, energy) = read(kind, grade, bytes, record, frame)?;
    Ok(Record { kind, grade, number, energy, next: place + 8 + 4 * frame.len() })
}

/// The number and the energy.
fn read<const N: usize>(kind: u8, grade: u8, bytes: usize, record: &[u8], frame: &mut [i32]) -> Result<(u32, u64), u8> {
    let frame: &mut [i32; N] = frame.try_into().map_err(|_| refusal::FRAME_LENGTH)?;
    let (words, _) = record.get(..8 + 4 * N).ok_or(refusal::RECORD_END)?.as_chunks::<4>();
    let number = u32::from_le_bytes(words[1]);
    let mut copy = [0; N];
    for (x, word) in copy.iter_mut().zip(&words[2..]) {
        *x = i32::from_le_bytes(*word);
    }
    let energy = read_strict(kind, grade, number, &copy, &mut [0; 46][..bytes])?;
    *frame = copy;
    Ok((number, energy))
}
