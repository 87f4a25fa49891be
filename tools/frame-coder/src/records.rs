//! Records: sent frames in bytes, written to a buffer and read from it.

use std::error::Error;
use std::fmt::{Display, Formatter};
use std::iter::FusedIterator;
use std::mem::replace;

use crate::{archive, by_number, Grade, Kind, Refusal};

/// The bytes of the longest record.
pub const MAX_RECORD_LENGTH: usize = Kind::Six.record_length();

/// What a record says of its frame, the frame's energy, and the place after the record.
#[derive(Clone, Copy, Debug, PartialEq, Eq, Hash)]
pub struct Record {
    /// The frame's kind.
    pub kind: Kind,
    /// Its grade.
    pub grade: Grade,
    /// The number that it was sent under.
    pub number: u32,
    /// Its energy.
    pub energy: u64,
    /// The place after the record, which is that of the next where they stand one behind the other.
    pub next: usize,
}

/// Writes a record: sends the message under the number, puts the frame's record at a place of the buffer, and gives the place after
/// it. No byte outside the record is changed.
///
/// A record is the mark 4C 46, a byte for the kind, one for the grade, the number as 4 bytes, and the coordinates as 4 bytes each: all
/// lowest byte first, coordinates in two's complement; [`Kind::record_length`] bytes. The place may be any number. Records of any kinds
/// may stand one behind the other.
///
/// ```
/// use frame_coder::{write_record, Grade, Kind, Refusal};
///
/// let mut buffer = [0xA5; 2 * Kind::Three.record_length() + 1];
/// let place = write_record(Kind::Three, Grade::One, 4_294_967_294, &[0x00, 0x08], &mut buffer, 1)?;
/// assert_eq!(place, 41);
/// assert_eq!(buffer[..9], [0xA5, 0x4C, 0x46, 0x03, 0x01, 0xFE, 0xFF, 0xFF, 0xFF]);
/// assert_eq!(buffer[9..13], (-4i32).to_le_bytes());
/// assert_eq!(write_record(Kind::Three, Grade::One, 1, &[0x00, 0x08], &mut buffer, place), Ok(81));
/// assert_eq!(buffer[49..53], 4i32.to_le_bytes());
///
/// // There is no room for a third.
/// assert_eq!(write_record(Kind::Three, Grade::One, 2, &[0x00, 0x08], &mut buffer, 81), Err(Refusal::RecordEnd));
/// # Ok::<(), Refusal>(())
/// ```
///
/// # Errors
///
/// In this order: the message's length, spare bits, and [`Refusal::RecordEnd`] where the buffer from the place on is too short. The
/// buffer is then as it was.
pub fn write_record(
    kind: Kind,
    grade: Grade,
    number: u32,
    message: &[u8],
    buffer: &mut [u8],
    place: usize,
) -> Result<usize, Refusal> {
    by_number::write_record(kind.number(), grade.number(), number, message, buffer, place)
}

/// The same with a buffer of its own: the record alone.
///
/// # Errors
///
/// As [`write_record`], but for the record's end.
pub fn write_record_to_vec(kind: Kind, grade: Grade, number: u32, message: &[u8]) -> Result<Vec<u8>, Refusal> {
    let mut record = vec![0; kind.record_length()];
    write_record(kind, grade, number, message, &mut record, 0)?;
    Ok(record)
}

/// Reads the record at a place of the buffer: fills its frame, and gives what the record says and the frame's energy. The frame is read
/// strictly, under the record's number.
///
/// The place may be any number; at the buffer's end there is no record, which is [`Refusal::Mark`]. What [`write_record`] writes is read
/// back the same, and a record that is read is the one that it writes for its message, which a reading of the frame gives.
///
/// ```
/// use frame_coder::{read_record, write_record_to_vec, Grade, Kind, Record, Refusal};
///
/// let (kind, grade, number) = (Kind::Four, Grade::One, 7);
/// let mut buffer = write_record_to_vec(kind, grade, number, &[0x20, 0, 0, 0, 0])?;
/// let mut frame = [0; Kind::Four.frame_length()];
/// assert_eq!(read_record(&buffer, 0, &mut frame), Ok(Record { kind, grade, number, energy: 64, next: 72 }));
/// assert_eq!(frame, [2; 16]);
/// assert_eq!(read_record(&buffer, 72, &mut frame), Err(Refusal::Mark));
/// assert_eq!(read_record(&buffer[..71], 0, &mut frame), Err(Refusal::RecordEnd));
///
/// // Under an even number another frame is sent.
/// buffer[4] = 8;
/// assert_eq!(read_record(&buffer, 0, &mut frame), Err(Refusal::Unshaped));
/// # Ok::<(), Refusal>(())
/// ```
///
/// # Errors
///
/// In this order: [`Refusal::Mark`], the record's kind and grade, the frame's length, which must be that of the kind,
/// [`Refusal::RecordEnd`], then as the strict reading: a coordinate over range, a broken level, the lowest first, and
/// [`Refusal::Unshaped`]. Where the kind's or the grade's byte is missing it is [`Refusal::RecordEnd`]. The frame is then as it was.
pub fn read_record(buffer: &[u8], place: usize, frame: &mut [i32]) -> Result<Record, Refusal> {
    let (mut kind, mut grade, mut number, mut next) = (0, 0, 0, 0);
    // SAFETY: both slices and the four numbers are lent for the call, all but the buffer alone; the lengths are the slices'.
    let answer = unsafe {
        archive::coder_read_record(
            buffer.as_ptr(),
            buffer.len(),
            place,
            frame.as_mut_ptr(),
            frame.len(),
            &mut kind,
            &mut grade,
            &mut number,
            &mut next,
        )
    };
    let energy = by_number::answer(answer)?;
    let (Ok(kind), Ok(grade)) = (Kind::new(kind), Grade::new(grade)) else {
        by_number::unknown(answer);
    };
    Ok(Record { kind, grade, number, energy, next })
}

/// The same with a frame of its own.
///
/// # Errors
///
/// As [`read_record`], but for the frame's length.
pub fn read_record_to_vec(buffer: &[u8], place: usize) -> Result<(Vec<i32>, Record), Refusal> {
    // Where there is no such kind the record is refused before the frame's length is tested.
    let kind = place.checked_add(2).and_then(|place| buffer.get(place)).and_then(|&kind| Kind::new(kind).ok());
    let mut frame = vec![0; kind.map_or(0, Kind::frame_length)];
    let record = read_record(buffer, place, &mut frame)?;
    Ok((frame, record))
}

/// A record with its place and its frame, as [`records`] gives it.
#[derive(Clone, Debug, PartialEq, Eq, Hash)]
pub struct Recorded {
    /// Where the record begins.
    pub place: usize,
    /// The frame's kind.
    pub kind: Kind,
    /// Its grade.
    pub grade: Grade,
    /// The number that it was sent under.
    pub number: u32,
    /// Its energy.
    pub energy: u64,
    /// The frame.
    pub frame: Vec<i32>,
}

/// A record that was refused, with its place.
///
/// ```
/// use frame_coder::{Refusal, RefusedRecord};
///
/// let refused = RefusedRecord { place: 40, refusal: Refusal::RecordEnd };
/// assert_eq!(refused.to_string(), "record at 40: refused 19: the buffer ends before the record does");
/// ```
#[derive(Clone, Copy, Debug, PartialEq, Eq, Hash)]
pub struct RefusedRecord {
    /// Where the record begins, or would.
    pub place: usize,
    /// Why it is refused.
    pub refusal: Refusal,
}

impl Display for RefusedRecord {
    fn fmt(&self, out: &mut Formatter<'_>) -> std::fmt::Result {
        write!(out, "record at {}: {}", self.place, self.refusal)
    }
}

impl Error for RefusedRecord {}

/// The records of a buffer, which stand one behind the other from its beginning on: each as it is read, up to the buffer's end or to the
/// first that is refused, which comes last.
///
/// ```
/// use frame_coder::{records, write_record_to_vec, Grade, Kind, Refusal, RefusedRecord};
///
/// let mut buffer = write_record_to_vec(Kind::Three, Grade::One, 0, &[0x00, 0x08])?;
/// buffer.extend(write_record_to_vec(Kind::Four, Grade::One, 1, &[0x20, 0, 0, 0, 0])?);
/// let all = records(&buffer).collect::<Result<Vec<_>, _>>().expect("each is a record");
/// assert_eq!(all[0].frame, [-4, 0, 0, 0, 0, 0, 0, 0]);
/// assert_eq!((all[1].place, all[1].kind, all[1].number), (40, Kind::Four, 1));
/// assert_eq!(all[1].frame, [2; 16]);
///
/// // A byte too many.
/// buffer.push(0);
/// let last = records(&buffer).last();
/// assert_eq!(last, Some(Err(RefusedRecord { place: 112, refusal: Refusal::Mark })));
/// # Ok::<(), Refusal>(())
/// ```
pub fn records(buffer: &[u8]) -> Records<'_> {
    Records { buffer, place: 0 }
}

/// What [`records`] gives.
#[derive(Clone, Debug)]
#[must_use]
pub struct Records<'a> {
    buffer: &'a [u8],
    /// The place of the next record; the buffer's length where there is none, also behind a refusal.
    place: usize,
}

impl Iterator for Records<'_> {
    type Item = Result<Recorded, RefusedRecord>;

    fn next(&mut self) -> Option<Self::Item> {
        if self.place == self.buffer.len() {
            return None;
        }
        let read = read_record_to_vec(self.buffer, self.place);
        let next = read.as_ref().map_or(self.buffer.len(), |(_, record)| record.next);
        let place = replace(&mut self.place, next);
        Some(match read {
            Ok((frame, Record { kind, grade, number, energy, .. })) => {
                Ok(Recorded { place, kind, grade, number, energy, frame })
            }
            Err(refusal) => Err(RefusedRecord { place, refusal }),
        })
    }

    /// One at least where bytes are left, and no more than as many of the shortest records and a refusal.
    fn size_hint(&self) -> (usize, Option<usize>) {
        let left = self.buffer.len() - self.place;
        (usize::from(left > 0), Some(left.div_ceil(Kind::Three.record_length())))
    }
}

impl FusedIterator for Records<'_> {}
