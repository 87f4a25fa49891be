//! Recorded frames: one row of bits, eight to a byte, in which each figure stands lowest bit first. The reader takes the message of the
//! frame that it finds, makes the record of that message under the number anew, and passes the record when it is the same.

use crate::frame::{read_open, send, Format, KINDS};
use crate::refusal;

/// The mark of a record.
pub const MARK: [u8; 2] = [0x4C, 0x46];

/// The lowest bits of a whole number, lowest first. Halving rounds down, so that a number below 0 has those of two's complement.
fn bits(x: i64, count: usize) -> Vec<bool> {
    let halves = std::iter::successors(Some(x), |x| Some(x.div_euclid(2)));
    halves.take(count).map(|x| x.rem_euclid(2) == 1).collect()
}

/// The number that bits make, lowest first.
fn value(bits: &[bool]) -> i64 {
    bits.iter().rev().fold(0, |x, &bit| 2 * x + bit as i64)
}

/// The record of a frame.
pub fn record(kind: u8, grade: u8, number: u32, frame: &[i64]) -> Vec<u8> {
    let head = [MARK[0], MARK[1], kind, grade].map(|byte| (byte as i64, 8));
    let figures = [number as i64].into_iter().chain(frame.iter().copied()).map(|x| (x, 32));
    let row: Vec<bool> = head.into_iter().chain(figures).flat_map(|(x, count)| bits(x, count)).collect();
    row.chunks_exact(8).map(|byte| value(byte) as u8).collect()
}

/// How many bytes a record of this kind has, and 0 where there is no such kind.
pub fn length(kind: u8) -> u64 {
    if !KINDS.contains(&kind) {
        return 0;
    }
    record(kind, 1, 0, &vec![0; 1 << kind]).len() as u64
}

/// The number and the coordinates of a whole record.
pub fn figures(record: &[u8]) -> (u32, Vec<i64>) {
    let row: Vec<bool> = record[4..].iter().flat_map(|&byte| bits(byte as i64, 8)).collect();
    let (number, coordinates) = row.split_at(32);
    // The last bit of a coordinate weighs −2^31.
    let coordinate = |x: &[bool]| value(&x[..31]) - ((x[31] as i64) << 31);
    (value(number) as u32, coordinates.chunks_exact(32).map(coordinate).collect())
}

/// The bytes of a buffer from a place on: none where the place is past its end.
pub fn from_place(buffer: &[u8], place: u64) -> &[u8] {
    usize::try_from(place).ok().and_then(|place| buffer.get(place..)).unwrap_or(&[])
}

/// Writing of the frame that is sent under a number: the buffer with its record at the place, and the place after it.
pub fn write(
    kind: u8,
    grade: u8,
    number: u32,
    message: &[u8],
    buffer: &[u8],
    place: u64,
) -> Result<(Vec<u8>, u64), u8> {
    let record = record(kind, grade, number, &send(kind, grade, number, message)?.frame);
    let rest = from_place(buffer, place);
    if rest.len() < record.len() {
        return Err(refusal::RECORD_END);
    }
    let (before, behind) = (&buffer[..buffer.len() - rest.len()], &rest[record.len()..]);
    Ok(([before, &record, behind].concat(), (before.len() + record.len()) as u64))
}

/// What the reader gives of a record that passes.
#[derive(Clone, Debug, PartialEq)]
pub struct Recorded {
    pub kind: u8,
    pub grade: u8,
    pub number: u32,
    pub energy: u64,
    pub frame: Vec<i64>,
    pub after: u64,
}

/// Reading of the record at a place, with the number of coordinates that the caller lends for the frame.
pub fn read(buffer: &[u8], place: u64, coordinates: usize) -> Result<Recorded, u8> {
    let rest = from_place(buffer, place);
    let behind = rest.strip_prefix(&MARK).ok_or(refusal::MARK)?;
    let (&kind, behind) = behind.split_first().ok_or(refusal::RECORD_END)?;
    if !KINDS.contains(&kind) {
        return Err(refusal::KIND);
    }
    let &grade = behind.first().ok_or(refusal::RECORD_END)?;
    if Format::new(kind, grade)?.length() != coordinates {
        return Err(refusal::FRAME_LENGTH);
    }
    let own = rest.get(..length(kind) as usize).ok_or(refusal::RECORD_END)?;
    let (number, frame) = figures(own);
    let (message, energy) = read_open(kind, grade, &frame)?;
    let (again, bytes) = write(kind, grade, number, &message, &vec![0; own.len()], 0)?;
    if again != own {
        return Err(refusal::UNSHAPED);
    }
    Ok(Recorded { kind, grade, number, energy, frame, after: place + bytes })
}

#[cfg(test)]
mod tests {
    use super::*;
    use crate::frame::{read_strict, GRADES};
    use crate::random::Random;
    use crate::vectors::{dense, moved_by_point, tied_edge, tied_throughout};

    fn formats() -> impl Iterator<Item = (u8, u8, Format)> {
        let all = KINDS.flat_map(|kind| GRADES.map(move |grade| (kind, grade)));
        all.map(|(kind, grade)| (kind, grade, Format::new(kind, grade).unwrap()))
    }

    /// 00 08 at kind 3, grade 1: −4 at the first place under an even number, 4 under an odd one.
    #[test]
    fn by_hand() {
        let zeros = [0; 28];
        let even = [&[0x4C, 0x46, 3, 1, 0xFE, 0xFF, 0xFF, 0xFF, 0xFC, 0xFF, 0xFF, 0xFF][..], &zeros].concat();
        let odd = [&[0x4C, 0x46, 3, 1, 0xFF, 0xFF, 0xFF, 0xFF, 0x04, 0, 0, 0][..], &zeros].concat();
        assert_eq!(write(3, 1, 4_294_967_294, &[0x00, 0x08], &[9; 40], 0), Ok((even.clone(), 40)));
        assert_eq!(write(3, 1, 4_294_967_295, &[0x00, 0x08], &[9; 40], 0), Ok((odd.clone(), 40)));
        let within = [&[9; 3][..], &even, &[9; 2]].concat();
        assert_eq!(write(3, 1, 4_294_967_294, &[0x00, 0x08], &[9; 45], 3), Ok((within.clone(), 43)));
        let frame = vec![-4, 0, 0, 0, 0, 0, 0, 0];
        let read_back = Recorded { kind: 3, grade: 1, number: 4_294_967_294, energy: 16, frame, after: 43 };
        assert_eq!(read(&within, 3, 8), Ok(read_back));
        // The number's lowest byte becomes odd: the frame is not the one that is sent.
        let mut other = even.clone();
        other[4] = 0xFF;
        assert_eq!(read(&other, 0, 8), Err(refusal::UNSHAPED));
        other[4] = 0x02;
        assert_eq!(read(&other, 0, 8).map(|read| read.number), Ok(4_294_967_042));
        // 16,777,216 is 00 00 00 01, and a point of the lattice; the next number, 01 00 00 01, is over the range.
        other[8..12].copy_from_slice(&[0, 0, 0, 1]);
        assert_eq!(read(&other, 0, 8), Err(refusal::UNSHAPED));
        other[8] = 1;
        assert_eq!(read(&other, 0, 8), Err(refusal::OVER_RANGE));
        // 1 at the first place, and −1 throughout, the frame of 01 00.
        other[11] = 0;
        assert_eq!(read(&other, 0, 8), Err(refusal::BROKEN_LEVEL_0));
        other[8..].fill(0xFF);
        assert_eq!(read(&other, 0, 8).map(|read| (read.frame, read.energy)), Ok((vec![-1; 8], 8)));
    }

    #[test]
    fn lengths_of_records() {
        let of = |kind| match kind {
            3 => 40,
            4 => 72,
            5 => 136,
            6 => 264,
            _ => 0,
        };
        assert!((0..=255).all(|kind| length(kind) == of(kind)));
    }

    /// The bits of a number are those that the machine has.
    #[test]
    fn rows_of_bits() {
        let mut random = Random::new(70);
        let any = (0..200).map(|_| random.draw() as u32).collect::<Vec<_>>();
        for number in any.into_iter().chain([0, 1, 1 << 31, u32::MAX - 1, u32::MAX]) {
            let x = number as i32;
            let made = record(3, 4, number, &[x as i64; 8]);
            assert_eq!(made[..4], [0x4C, 0x46, 3, 4]);
            assert_eq!(made[4..8], number.to_le_bytes());
            assert!(made[8..].chunks_exact(4).all(|bytes| bytes == x.to_le_bytes()));
            assert_eq!(figures(&made), (number, vec![x as i64; 8]));
        }
    }

    /// The tests of the writer in their order: each is wrong with all that come later.
    #[test]
    fn order_of_refusals_in_writing() {
        let far = 1u64 << 63;
        let wrong = |kind, grade, message: &[u8]| write(kind, grade, 0, message, &[7; 20], far).err();
        assert_eq!(wrong(2, 0, &[255; 9]), Some(refusal::KIND));
        assert_eq!(wrong(7, 0, &[255; 9]), Some(refusal::KIND));
        assert_eq!(wrong(3, 0, &[255; 9]), Some(refusal::GRADE));
        assert_eq!(wrong(3, 5, &[255; 9]), Some(refusal::GRADE));
        assert_eq!(wrong(3, 1, &[255; 9]), Some(refusal::MESSAGE_LENGTH));
        assert_eq!(wrong(3, 1, &[255; 2]), Some(refusal::SPARE_BITS));
        assert_eq!(wrong(3, 1, &[0; 2]), Some(refusal::RECORD_END));
        let at = |bytes: usize, place| write(3, 1, 0, &[0; 2], &vec![7; bytes], place).map(|(_, after)| after);
        assert_eq!((at(40, 0), at(45, 5), at(45, 2)), (Ok(40), Ok(45), Ok(42)));
        for (bytes, place) in [(39, 0), (45, 6), (45, 45), (45, 46), (0, 0), (0, 1), (45, far)] {
            assert_eq!(at(bytes, place), Err(refusal::RECORD_END));
        }
        for place in [u64::MAX, u64::MAX - 7, u64::MAX - 39, u64::MAX - 38] {
            assert_eq!(at(45, place), Err(refusal::RECORD_END));
            assert_eq!(read(&[7; 45], place, 8), Err(refusal::MARK));
        }
    }

    /// The tests of the reader in their order.
    #[test]
    fn order_of_refusals_in_reading() {
        // Over the range at the first place, where all levels are broken too.
        let mut bytes = record(6, 1, 0, &[0; 64]);
        bytes[8..12].copy_from_slice(&[7, 0, 0, 1]);
        for lent in [0, 63, 64, 65] {
            let ended = |bytes: &[u8]| read(bytes, 0, lent).err();
            for mark in [[0x4C, 0x43], [0x46, 0x4C], [0x00, 0x46], [0x4C, 0x47]] {
                assert_eq!(ended(&[&mark[..], &[7, 0]].concat()), Some(refusal::MARK));
                assert_eq!(ended(&[&mark[..], &bytes[2..]].concat()), Some(refusal::MARK));
            }
            assert_eq!((ended(&[]), ended(&[0x4C])), (Some(refusal::MARK), Some(refusal::MARK)));
            assert_eq!(ended(&[0x4C, 0x46]), Some(refusal::RECORD_END));
            for kind in [0, 2, 7, 255] {
                assert_eq!(ended(&[0x4C, 0x46, kind]), Some(refusal::KIND));
                assert_eq!(ended(&[0x4C, 0x46, kind, 0]), Some(refusal::KIND));
            }
            assert_eq!(ended(&[0x4C, 0x46, 6]), Some(refusal::RECORD_END));
            assert_eq!(ended(&[0x4C, 0x46, 6, 0]), Some(refusal::GRADE));
            assert_eq!(ended(&[0x4C, 0x46, 6, 5]), Some(refusal::GRADE));
            let length = if lent == 64 { refusal::RECORD_END } else { refusal::FRAME_LENGTH };
            assert_eq!(ended(&[0x4C, 0x46, 6, 1]), Some(length));
            assert_eq!(ended(&bytes[..263]), Some(length));
        }
        let mut judged = |first: [u8; 4]| {
            bytes[8..12].copy_from_slice(&first);
            read(&bytes, 0, 64).err()
        };
        assert_eq!(judged([7, 0, 0, 1]), Some(refusal::OVER_RANGE));
        assert_eq!(judged([0, 0, 0, 0x80]), Some(refusal::OVER_RANGE));
        assert_eq!(judged([7, 1, 0, 0]), Some(refusal::BROKEN_LEVEL_0));
        assert_eq!(judged([6, 1, 0, 0]), Some(refusal::BROKEN_LEVEL_1));
        assert_eq!(judged([4, 1, 0, 0]), Some(refusal::BROKEN_LEVEL_2));
        assert_eq!(judged([0, 1, 0, 0]), Some(refusal::UNSHAPED));
        assert_eq!(judged([0, 0, 0, 0]), None);
    }

    /// What is written is read back; and the reader judges a frame as the strict reading does under the number.
    #[test]
    fn written_and_read_back() {
        let mut random = Random::new(71);
        for (kind, grade, format) in formats() {
            let n = format.length();
            for i in 0..12 {
                let message = match i % 3 {
                    0 => dense(&format, &mut random),
                    1 => tied_edge(&format, &mut random),
                    _ => tied_throughout(&format),
                };
                let number = random.draw() as u32;
                let place = random.below(9);
                let buffer: Vec<u8> = (0..length(kind) + 9).map(|_| random.byte()).collect();
                let (left, after) = write(kind, grade, number, &message, &buffer, place).unwrap();
                let own = place as usize..after as usize;
                assert_eq!((own.len(), left.len()), (8 + 4 * n, buffer.len()));
                assert_eq!((&left[..own.start], &left[own.end..]), (&buffer[..own.start], &buffer[own.end..]));
                let sent = send(kind, grade, number, &message).unwrap();
                let recorded = Recorded { kind, grade, number, energy: sent.energy, frame: sent.frame.clone(), after };
                assert_eq!(read(&left, place, n), Ok(recorded));
                let mut others: Vec<Vec<i64>> =
                    (0..4).map(|_| moved_by_point(&format, &sent.frame, &mut random)).collect();
                others.push(send(kind, grade, number ^ 1, &message).unwrap().frame);
                for by in [1, 2, 4, 1 << 24] {
                    others.push(sent.frame.clone());
                    others.last_mut().unwrap()[random.below(n as u64) as usize] += by;
                }
                for frame in others {
                    let judged = read(&record(kind, grade, number, &frame), 0, n);
                    let strict = read_strict(kind, grade, number, &frame);
                    assert_eq!(judged.map(|read| read.energy), strict.map(|(_, energy)| energy));
                }
            }
        }
    }
}
