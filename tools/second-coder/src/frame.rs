//! Kinds and grades, sending, the two readings.

use std::ops::RangeInclusive;

use crate::class::{self, Block};
use crate::{code, refusal};

/// The kinds and the grades that there are.
pub const KINDS: RangeInclusive<u8> = 3..=6;
pub const GRADES: RangeInclusive<u8> = 1..=4;

/// The readings take coordinates from −FURTHEST to FURTHEST.
pub const FURTHEST: i64 = 16_777_216;

/// The refusal for each level that is not a codeword.
const BROKEN: [u8; 3] = [refusal::BROKEN_LEVEL_0, refusal::BROKEN_LEVEL_1, refusal::BROKEN_LEVEL_2];

/// What a kind and a grade fix.
#[derive(Clone, Copy, Debug)]
pub struct Format {
    /// The length n is 2 to the m.
    pub m: u32,
    /// The degree r of each level's code.
    pub levels: &'static [u32],
    pub grade: usize,
}

impl Format {
    pub fn new(kind: u8, grade: u8) -> Result<Format, u8> {
        let levels: &[u32] = match kind {
            3 => &[1],
            4 | 5 => &[1, 3],
            6 => &[1, 3, 5],
            _ => return Err(refusal::KIND),
        };
        if !GRADES.contains(&grade) {
            return Err(refusal::GRADE);
        }
        Ok(Format { m: kind as u32, levels, grade: grade as usize })
    }

    pub fn length(&self) -> usize {
        1 << self.m
    }

    pub fn scale(&self) -> i64 {
        1 << (self.levels.len() + self.grade)
    }

    pub fn message_bits(&self) -> usize {
        let dimensions = self.levels.iter().map(|&r| code::masks(r, self.m).len());
        dimensions.sum::<usize>() + self.length() * self.grade
    }

    pub fn message_bytes(&self) -> usize {
        self.message_bits().div_ceil(8)
    }

    /// The bits of s1 to s8.
    fn widths(&self) -> [usize; 8] {
        let b = self.grade;
        [b - 1, b, b, b, b, b, b, b + 1]
    }
}

pub fn bit(message: &[u8], k: usize) -> bool {
    message[k / 8] >> (k % 8) & 1 == 1
}

/// Takes the next bits of a message, lowest first.
struct Bits<'a> {
    message: &'a [u8],
    next: usize,
}

impl Bits<'_> {
    fn take(&mut self, count: usize) -> Vec<bool> {
        let bits = (self.next..self.next + count).map(|k| bit(self.message, k)).collect();
        self.next += count;
        bits
    }

    fn number(&mut self, count: usize) -> i64 {
        self.take(count).iter().enumerate().map(|(i, &bit)| (bit as i64) << i).sum()
    }
}

/// The most bits that may be free.
pub const MOST_FREE: u8 = 4;

pub fn test_free(free: u8) -> Result<(), u8> {
    if free > MOST_FREE {
        return Err(refusal::FREE_COUNT);
    }
    Ok(())
}

/// The tests of sending, with so many bits of the message free, and the number of coordinates that the caller lends: gives the format.
pub fn test(kind: u8, grade: u8, free: u8, message: &[u8], coordinates: usize) -> Result<Format, u8> {
    let format = Format::new(kind, grade)?;
    test_free(free)?;
    if message.len() != format.message_bytes() {
        return Err(refusal::MESSAGE_LENGTH);
    }
    if coordinates != format.length() {
        return Err(refusal::FRAME_LENGTH);
    }
    // Free bits and spare bits are 0.
    let fixed = format.message_bits() - free as usize;
    if (fixed..message.len() * 8).any(|k| bit(message, k)) {
        return Err(refusal::SPARE_BITS);
    }
    Ok(format)
}

/// The coset leader of a message.
pub fn leader(format: &Format, message: &[u8]) -> Vec<i64> {
    let mut bits = Bits { message, next: 0 };
    let mut leader = vec![0; format.length()];
    for (level, &r) in format.levels.iter().enumerate() {
        let word = code::codeword(&bits.take(code::masks(r, format.m).len()), r, format.m);
        for (x, &value) in leader.iter_mut().zip(&word) {
            *x += (value as i64) << level;
        }
    }
    for block in leader.chunks_exact_mut(8) {
        for (x, width) in block.iter_mut().zip(format.widths()) {
            *x += bits.number(width) << format.levels.len();
        }
    }
    assert_eq!(bits.next, format.message_bits());
    leader
}

/// Which one is sent of several frames of least energy: the first in reading order, or the last.
#[derive(Clone, Copy, Debug)]
pub enum Tie {
    First,
    Last,
}

impl Tie {
    /// The rule of a frame's number: an even one has the first, an odd one the last.
    pub fn of(number: u32) -> Tie {
        match number % 2 {
            0 => Tie::First,
            _ => Tie::Last,
        }
    }

    /// Of blocks in reading order, the one that is sent.
    fn choose(self, all: &[Block]) -> Block {
        match self {
            Tie::First => all[0],
            Tie::Last => all[all.len() - 1],
        }
    }
}

/// A sent frame, its energy, and the number of frames of least energy in its class.
pub struct Sent {
    pub frame: Vec<i64>,
    pub energy: u64,
    pub least: u64,
}

/// The first or the last in reading order of the least members of the frame's class. Each block has its least members for itself, so
/// the first frame has the first of each block, and the last the last.
pub fn shaped(format: &Format, tie: Tie, leader: &[i64]) -> Sent {
    let mut sent = Sent { frame: Vec::new(), energy: 0, least: 1 };
    for block in leader.chunks_exact(8) {
        let block: Block = block.try_into().unwrap();
        let all = class::least_members(&block, format.scale());
        let chosen = tie.choose(&all);
        sent.energy += class::energy(&chosen);
        sent.least *= all.len() as u64;
        sent.frame.extend(chosen);
    }
    sent
}

/// Sending by one rule for ties, with the number of coordinates that the caller lends for the frame.
pub fn send_by(kind: u8, grade: u8, tie: Tie, message: &[u8], coordinates: usize) -> Result<Sent, u8> {
    let format = test(kind, grade, 0, message, coordinates)?;
    Ok(shaped(&format, tie, &leader(&format, message)))
}

/// Sending under a number, with the number of coordinates that the caller lends for the frame.
pub fn send_into(kind: u8, grade: u8, number: u32, message: &[u8], coordinates: usize) -> Result<Sent, u8> {
    send_by(kind, grade, Tie::of(number), message, coordinates)
}

/// Sending under a number, with a frame of the right length lent.
pub fn send(kind: u8, grade: u8, number: u32, message: &[u8]) -> Result<Sent, u8> {
    let coordinates = Format::new(kind, grade).map_or(0, |format| format.length());
    send_into(kind, grade, number, message, coordinates)
}

/// s1 to s8 of a block v: in their ranges, and v − s a point of 2^b times E8. For each of the two
/// parities of twice the point the remainders give s up to the top bit of s8, which is tried.
fn block_numbers(v: &Block, grade: usize) -> Block {
    let scale = 1i64 << grade;
    let half = scale / 2;
    let mut found = Vec::new();
    for parity in 0..2 {
        let low: Block = v.map(|x| (x - parity * half).rem_euclid(scale));
        for top in 0..2 {
            let mut s = low;
            s[7] += top * scale;
            if s[0] < half && class::same_class(v, &s, scale) {
                found.push(s);
            }
        }
    }
    assert_eq!(found.len(), 1, "one message for each class");
    found[0]
}

/// The message of a frame of the coding set, whatever the size of its coordinates, or the refusal for the first level that is broken.
pub fn message_of(format: &Format, frame: &[i64]) -> Result<Vec<u8>, u8> {
    let mut bits = Vec::new();
    let mut rest = frame.to_vec();
    for (level, &r) in format.levels.iter().enumerate() {
        let word: Vec<bool> = rest.iter().map(|x| x.rem_euclid(2) == 1).collect();
        bits.extend(code::message_bits(&word, r, format.m).ok_or(BROKEN[level])?);
        for (x, &value) in rest.iter_mut().zip(&word) {
            *x = (*x - value as i64) / 2;
        }
    }
    for block in rest.chunks_exact(8) {
        let s = block_numbers(&block.try_into().unwrap(), format.grade);
        for (x, width) in s.iter().zip(format.widths()) {
            assert!(*x >> width == 0);
            bits.extend((0..width).map(|i| x >> i & 1 == 1));
        }
    }
    let mut message = vec![0; format.message_bytes()];
    for (k, &bit) in bits.iter().enumerate() {
        message[k / 8] |= (bit as u8) << (k % 8);
    }
    Ok(message)
}

/// Reading openly, with the number of message bytes that the caller lends: the message and the energy.
pub fn read_open_into(kind: u8, grade: u8, frame: &[i64], bytes: usize) -> Result<(Vec<u8>, u64), u8> {
    let format = Format::new(kind, grade)?;
    if frame.len() != format.length() {
        return Err(refusal::FRAME_LENGTH);
    }
    if bytes != format.message_bytes() {
        return Err(refusal::MESSAGE_LENGTH);
    }
    if frame.iter().any(|x| !(-FURTHEST..=FURTHEST).contains(x)) {
        return Err(refusal::OVER_RANGE);
    }
    Ok((message_of(&format, frame)?, class::energy(frame)))
}

/// Reading strictly under a number: the frame must be the one that is sent under it for the message that the open reading gives.
pub fn read_strict_into(kind: u8, grade: u8, number: u32, frame: &[i64], bytes: usize) -> Result<(Vec<u8>, u64), u8> {
    let (message, energy) = read_open_into(kind, grade, frame, bytes)?;
    if send(kind, grade, number, &message)?.frame != frame {
        return Err(refusal::UNSHAPED);
    }
    Ok((message, energy))
}

/// Reading openly, with message bytes of the right number lent.
pub fn read_open(kind: u8, grade: u8, frame: &[i64]) -> Result<(Vec<u8>, u64), u8> {
    read_open_into(kind, grade, frame, Format::new(kind, grade).map_or(0, |format| format.message_bytes()))
}

/// Reading strictly under a number, with message bytes of the right number lent.
pub fn read_strict(kind: u8, grade: u8, number: u32, frame: &[i64]) -> Result<(Vec<u8>, u64), u8> {
    read_strict_into(kind, grade, number, frame, Format::new(kind, grade).map_or(0, |format| format.message_bytes()))
}

#[cfg(test)]
mod tests {
    use super::*;
    use crate::far::{added, times};
    use crate::random::Random;

    /// The frame and the energy under a number.
    fn numbered(kind: u8, grade: u8, number: u32, message: &[u8]) -> (Vec<i64>, u64) {
        let sent = send(kind, grade, number, message).unwrap();
        (sent.frame, sent.energy)
    }

    /// By the old rule, which is that of number 0.
    fn sent(kind: u8, grade: u8, message: &[u8]) -> (Vec<i64>, u64) {
        numbered(kind, grade, 0, message)
    }

    #[test]
    fn table_of_kinds() {
        for b in 1..=4 {
            let format = |kind| Format::new(kind, b as u8).unwrap();
            assert_eq!((format(3).message_bits(), format(3).message_bytes()), (4 + 8 * b, b + 1));
            assert_eq!((format(4).message_bits(), format(4).message_bytes()), (20 + 16 * b, 2 * b + 3));
            assert_eq!((format(5).message_bits(), format(5).message_bytes()), (32 + 32 * b, 4 * b + 4));
            assert_eq!((format(6).message_bits(), format(6).message_bytes()), (112 + 64 * b, 8 * b + 14));
            assert_eq!((format(6).length(), format(6).scale()), (64, 8 << b));
        }
    }

    #[test]
    fn exam_frames() {
        assert_eq!(sent(3, 1, &[0x00, 0x00]), (vec![0; 8], 0));
        assert_eq!(sent(3, 1, &[0x01, 0x00]), (vec![-1; 8], 8));
        assert_eq!(sent(3, 1, &[0x02, 0x00]), (vec![0, 1, 0, 1, 0, 1, 0, 1], 4));
        assert_eq!(sent(3, 1, &[0x10, 0x00]), (vec![0, 2, 0, 0, 0, 0, 0, 0], 4));
        assert_eq!(sent(3, 1, &[0x00, 0x04]), (vec![0, 0, 0, 0, 0, 0, 0, 2], 4));
        assert_eq!(sent(3, 1, &[0x10, 0x04]), (vec![0, -2, 0, 0, 0, 0, 0, -2], 8));
        assert_eq!(sent(3, 1, &[0x00, 0x08]), (vec![-4, 0, 0, 0, 0, 0, 0, 0], 16));
        assert_eq!(sent(3, 1, &[0xF0, 0x07]), (vec![-2, 0, 0, 0, 0, 0, 0, 0], 4));
        assert_eq!(sent(4, 1, &[0x01, 0, 0, 0, 0]), (vec![1; 16], 16));
        assert_eq!(sent(4, 1, &[0x20, 0, 0, 0, 0]), (vec![-2; 16], 64));
    }

    #[test]
    fn further_cases() {
        assert_eq!(read_open(4, 1, &[2; 16]), Ok((vec![0x20, 0, 0, 0, 0], 64)));
        assert_eq!(read_strict(4, 1, 0, &[2; 16]), Err(refusal::UNSHAPED));
        for grade in 1..=4 {
            assert_eq!(read_open(3, grade, &[1, 0, 0, 0, 0, 0, 0, 0]), Err(refusal::BROKEN_LEVEL_0));
        }
        assert_eq!(send(3, 1, 0, &[0x00, 0x10]).err(), Some(refusal::SPARE_BITS));
    }

    #[test]
    fn ends_of_the_range() {
        let alone = |x| [0, 0, 0, x, 0, 0, 0, 0];
        for sign in [-1, 1] {
            for x in [sign * 1_048_576, sign * 16_777_216] {
                assert_eq!(read_open(3, 1, &alone(x)), Ok((vec![0, 0], (x * x) as u64)));
                assert_eq!(read_strict(3, 1, 0, &alone(x)), Err(refusal::UNSHAPED));
            }
            for frame in [alone(sign * 16_777_217), [sign * 16_777_217; 8], alone(sign * i32::MAX as i64)] {
                assert_eq!(read_open(3, 1, &frame), Err(refusal::OVER_RANGE));
                assert_eq!(read_strict(3, 1, 0, &frame), Err(refusal::OVER_RANGE));
            }
            // 1,048,577 is an odd number like any other.
            let x = sign * 1_048_577;
            assert_eq!(read_open(3, 1, &[x; 8]), Ok((vec![1, 0], 8 * (x * x) as u64)));
            assert_eq!(read_strict(3, 1, 0, &[x; 8]), Err(refusal::UNSHAPED));
            assert_eq!(read_open(3, 1, &alone(x)), Err(refusal::BROKEN_LEVEL_0));
            assert_eq!(read_strict(3, 1, 0, &alone(x)), Err(refusal::BROKEN_LEVEL_0));
        }
        for (kind, grade) in KINDS.flat_map(|kind| GRADES.map(move |grade| (kind, grade))) {
            let format = Format::new(kind, grade).unwrap();
            let (m, n) = (format.message_bytes(), format.length());
            for end in [-FURTHEST, FURTHEST] {
                assert_eq!(read_open(kind, grade, &vec![end; n]), Ok((vec![0; m], 1 << (48 + kind))));
                assert_eq!(read_strict(kind, grade, 0, &vec![end; n]), Err(refusal::UNSHAPED));
                for place in 0..n {
                    let mut frame = vec![0; n];
                    frame[place] = end;
                    assert_eq!(read_open(kind, grade, &frame), Ok((vec![0; m], 1 << 48)));
                    frame[place] += end.signum();
                    assert_eq!(read_open(kind, grade, &frame), Err(refusal::OVER_RANGE));
                }
            }
        }
    }

    /// A message of kind 6 with one bit set.
    fn one_bit(grade: u8, k: usize) -> Vec<u8> {
        let mut message = vec![0; Format::new(6, grade).unwrap().message_bytes()];
        message[k / 8] = 1 << (k % 8);
        message
    }

    /// 64 coordinates, all 0 but the first ones.
    fn begun(first: &[i64]) -> Vec<i64> {
        let mut frame = first.to_vec();
        frame.resize(64, 0);
        frame
    }

    #[test]
    fn frames_of_kind_6() {
        assert_eq!(sent(6, 1, &one_bit(1, 0)), (vec![1; 64], 64));
        assert_eq!(sent(6, 1, &one_bit(1, 7)), (vec![2; 64], 256));
        assert_eq!(sent(6, 1, &one_bit(1, 49)), (vec![-4; 64], 1024));
        let mut last = vec![0; 64];
        last[62..].fill(4);
        assert_eq!(sent(6, 1, &one_bit(1, 111)), (last, 32));
        assert_eq!(sent(6, 1, &one_bit(1, 112)), (begun(&[0, 8]), 64));
        assert_eq!(one_bit(1, 112)[14], 1);
        assert_eq!(sent(6, 4, &one_bit(4, 143)), (begun(&[-128]), 16_384));
    }

    #[test]
    fn readings_of_kind_6() {
        for grade in 1..=4 {
            for (first, number) in [(1, 7), (2, 8), (3, 7), (4, 13), (5, 7), (6, 8), (7, 7), (-1, 7), (-2, 8), (-4, 13)]
            {
                assert_eq!(read_open(6, grade, &begun(&[first])), Err(number));
                assert_eq!(read_strict(6, grade, 0, &begun(&[first])), Err(number));
            }
            // Two coordinates moved by 4 are at squared distance 32, and of the coding set again.
            assert_eq!(read_strict(6, grade, 0, &begun(&[4, 4])).unwrap().1, 32);
        }
        assert_eq!(read_open(6, 1, &[4; 64]), Ok((one_bit(1, 49), 1024)));
        assert_eq!(read_strict(6, 1, 0, &[4; 64]), Err(refusal::UNSHAPED));
        for end in [-FURTHEST, FURTHEST] {
            assert_eq!(read_open(6, 4, &[end; 64]), Ok((vec![0; 46], 1 << 54)));
            assert_eq!(read_strict(6, 4, 0, &[end; 64]), Err(refusal::UNSHAPED));
            let past = begun(&[4, end + end.signum()]);
            assert_eq!(read_open(6, 4, &past), Err(refusal::OVER_RANGE));
            assert_eq!(read_strict(6, 4, 0, &past), Err(refusal::OVER_RANGE));
        }
    }

    /// Two sent frames of kind 6 whose sum leaves the coding set, and two whose sum does not: 2 where the place has the bits of a mask.
    /// The carry into level 2 is at places that have the bits of both masks: six bits, which is one too many, or four.
    #[test]
    fn sums_of_two_frames_of_kind_6() {
        for grade in GRADES {
            let [low, high, other] = [(29, 7), (48, 56), (30, 11)].map(|(k, mask)| {
                let frame: Vec<i64> = (0..64).map(|p| if p & mask == mask { 2 } else { 0 }).collect();
                for number in [0, 1] {
                    assert_eq!(numbered(6, grade, number, &one_bit(grade, k)).0, frame);
                }
                frame
            });
            let broken = added(&low, &high);
            assert_eq!(read_open(6, grade, &broken), Err(refusal::BROKEN_LEVEL_2));
            assert_eq!(read_strict(6, grade, 0, &broken), Err(refusal::BROKEN_LEVEL_2));
            // 4 at four places, 2 at eight more: energy 4 · 16 + 8 · 4.
            let read = added(&low, &other);
            let (message, energy) = read_open(6, grade, &read).unwrap();
            assert_eq!((message[3], energy), (0x60, 96));
            assert_eq!(read_strict(6, grade, 0, &read), Ok((message, energy)));
        }
    }

    /// 131,072 times the frame that has −128, or 128, at its first place.
    #[test]
    fn as_many_as_the_range_takes() {
        let message = one_bit(4, 143);
        assert_eq!((message[17], message.len()), (128, 46));
        for (number, sign) in [(0, -1), (1, 1)] {
            let frame = numbered(6, 4, number, &message).0;
            assert_eq!(frame, begun(&[sign * 128]));
            let sum = times(131_072, &frame);
            assert_eq!(sum, begun(&[sign * FURTHEST]));
            assert_eq!(read_open(6, 4, &sum), Ok((vec![0; 46], 1 << 48)));
            assert_eq!(read_strict(6, 4, number, &sum), Err(refusal::UNSHAPED));
            assert_eq!(read_open(6, 4, &times(131_073, &frame)), Err(refusal::OVER_RANGE));
            assert_eq!(read_strict(6, 4, number, &times(131_073, &frame)), Err(refusal::OVER_RANGE));
        }
    }

    /// Sums of sent frames, of few and of many, are read at kinds 3 to 5, and at kind 6 read or refused by 13. They are never refused by
    /// 7 or 8, and up to 131,072 frames never by 6.
    #[test]
    fn sums_of_frames() {
        let mut random = Random::new(8);
        for (kind, grade) in KINDS.flat_map(|kind| GRADES.map(move |grade| (kind, grade))) {
            let format = Format::new(kind, grade).unwrap();
            let mut left = 0;
            for counts in
                [&[1; 2][..], &[1; 3], &[1; 100], &[1, 2, 3], &[131_071, 1], &[65_536, 32_769, 32_767]].repeat(6)
            {
                let mut sum = vec![0; format.length()];
                for &count in counts {
                    let message = crate::vectors::dense(&format, &mut random);
                    let frame = numbered(kind, grade, random.draw() as u32, &message).0;
                    sum = added(&sum, &times(count, &frame));
                }
                if let Err(number) = read_open(kind, grade, &sum) {
                    assert_eq!((kind, number), (6, refusal::BROKEN_LEVEL_2));
                    left += 1;
                }
            }
            assert!(if kind == 6 { (6..30).contains(&left) } else { left == 0 });
        }
    }

    #[test]
    fn order_of_refusals() {
        assert_eq!(send_into(2, 0, 0, &[0; 9], 9).err(), Some(refusal::KIND));
        assert_eq!(send_into(3, 0, 0, &[0; 9], 9).err(), Some(refusal::GRADE));
        assert_eq!(send_into(3, 1, 0, &[255; 9], 9).err(), Some(refusal::MESSAGE_LENGTH));
        assert_eq!(send_into(3, 1, 0, &[255; 2], 9).err(), Some(refusal::FRAME_LENGTH));
        assert_eq!(send_into(3, 1, 0, &[255; 2], 8).err(), Some(refusal::SPARE_BITS));
        let far = FURTHEST + 1;
        assert_eq!(read_open_into(7, 9, &[far; 9], 9), Err(refusal::KIND));
        assert_eq!(read_open_into(4, 5, &[far; 9], 9), Err(refusal::GRADE));
        assert_eq!(read_open_into(4, 1, &[far; 9], 9), Err(refusal::FRAME_LENGTH));
        assert_eq!(read_open_into(4, 1, &[far; 16], 9), Err(refusal::MESSAGE_LENGTH));
        assert_eq!(read_open_into(4, 1, &[far; 16], 5), Err(refusal::OVER_RANGE));
        let mut frame = [0; 16];
        frame[0] = 3;
        assert_eq!(read_open_into(4, 1, &frame, 5), Err(refusal::BROKEN_LEVEL_0));
        frame[0] = 2;
        assert_eq!(read_open_into(4, 1, &frame, 5), Err(refusal::BROKEN_LEVEL_1));
        assert_eq!(send_into(6, 1, 0, &[255; 46], 63).err(), Some(refusal::MESSAGE_LENGTH));
        assert_eq!(send_into(6, 4, 0, &[255; 46], 63).err(), Some(refusal::FRAME_LENGTH));
        assert_eq!(read_open_into(6, 5, &[far; 63], 9), Err(refusal::GRADE));
        assert_eq!(read_open_into(6, 4, &[far; 63], 9), Err(refusal::FRAME_LENGTH));
        assert_eq!(read_open_into(6, 4, &[far; 64], 9), Err(refusal::MESSAGE_LENGTH));
        assert_eq!(read_open_into(6, 4, &[far; 64], 46), Err(refusal::OVER_RANGE));
    }

    /// Numbers of each parity: the ends, and some between.
    const EVEN: [u32; 6] = [0, 2, 1_000_000, 1 << 31, u32::MAX - 3, u32::MAX - 1];
    const ODD: [u32; 6] = [1, 3, 999_999, (1 << 31) + 1, u32::MAX - 2, u32::MAX];

    #[test]
    fn frames_of_odd_numbers() {
        for (kind, message, even, odd) in [
            (3, &[0x00, 0x08][..], vec![-4, 0, 0, 0, 0, 0, 0, 0], vec![4, 0, 0, 0, 0, 0, 0, 0]),
            (3, &[0x02, 0x08], vec![0, -3, 0, 1, 0, 1, 0, 1], vec![0, 1, 0, 1, 0, 1, 0, -3]),
            (3, &[0x01, 0x00], vec![-1; 8], vec![1; 8]),
            (3, &[0x10, 0x04], vec![0, -2, 0, 0, 0, 0, 0, -2], vec![0, 2, 0, 0, 0, 0, 0, 2]),
            (3, &[0x02, 0x00], vec![0, 1, 0, 1, 0, 1, 0, 1], vec![0, 1, 0, 1, 0, 1, 0, 1]),
            (4, &[0x20, 0, 0, 0, 0], vec![-2; 16], vec![2; 16]),
            (4, &[0x01, 0, 0, 0, 0], vec![1; 16], vec![1; 16]),
            (6, &one_bit(1, 49), vec![-4; 64], vec![4; 64]),
            // The top bit of the fourth block's s8: M at one place of 16, the first of which is −M and the last M, both at the first.
            (6, &one_bit(1, 112 + 31), place(24, -16), place(24, 16)),
        ] {
            for (numbers, frame) in [(EVEN, &even), (ODD, &odd)] {
                for number in numbers {
                    assert_eq!(numbered(kind, 1, number, message), (frame.clone(), class::energy(frame)));
                }
            }
        }
    }

    /// 64 coordinates, all 0 but one.
    fn place(p: usize, x: i64) -> Vec<i64> {
        let mut frame = vec![0; 64];
        frame[p] = x;
        frame
    }

    #[test]
    fn strict_readings_under_a_number() {
        let message = vec![0x00, 0x08];
        for (numbers, first) in [(EVEN, -4), (ODD, 4)] {
            for number in numbers {
                let frame = |x| [x, 0, 0, 0, 0, 0, 0, 0];
                assert_eq!(read_strict(3, 1, number, &frame(first)), Ok((message.clone(), 16)));
                assert_eq!(read_strict(3, 1, number, &frame(-first)), Err(refusal::UNSHAPED));
                // The same energy, and neither the first nor the last.
                assert_eq!(read_strict(3, 1, number, &[0, 0, 0, -4, 0, 0, 0, 0]), Err(refusal::UNSHAPED));
                // No tie: the frame passes under every number.
                assert_eq!(read_strict(3, 1, number, &[0, 1, 0, 1, 0, 1, 0, 1]), Ok((vec![0x02, 0x00], 4)));
            }
        }
        // A frame with the first of one block and the last of the other passes under no number.
        let mixed = [[0, -4, 0, 0, 0, 0, 0, -4], [0, 4, 0, 0, 0, 0, 0, 4]].concat();
        let (message, energy) = read_open(4, 1, &mixed).unwrap();
        assert_eq!(energy, 64);
        for number in [EVEN, ODD].concat() {
            assert_eq!(read_strict(4, 1, number, &mixed), Err(refusal::UNSHAPED));
            assert_eq!(numbered(4, 1, number, &message).1, 64);
        }
    }

    #[test]
    fn every_message_of_kind_3_grade_1_comes_back() {
        for message in (0..1u32 << 12).map(|bits| bits.to_le_bytes()[..2].to_vec()) {
            for number in [0, 1] {
                let (frame, energy) = numbered(3, 1, number, &message);
                assert_eq!(read_strict(3, 1, number, &frame), Ok((message.clone(), energy)));
            }
        }
    }

    /// The frames of all messages of kind 3 and a grade, under two numbers, added up.
    fn total(grade: u8, numbers: [u32; 2]) -> [i64; 8] {
        let format = Format::new(3, grade).unwrap();
        let mut total = [0; 8];
        for bits in 0..1u32 << format.message_bits() {
            let message = &bits.to_le_bytes()[..format.message_bytes()];
            for number in numbers {
                let (frame, _) = numbered(3, grade, number, message);
                total.iter_mut().zip(frame).for_each(|(sum, x)| *sum += x);
            }
        }
        total
    }

    #[test]
    fn even_and_odd_frames_of_all_messages_add_up_to_zero() {
        for numbers in [[0, 1], [1, 0], [u32::MAX - 1, 1], [1_000_000, u32::MAX]] {
            assert_eq!(total(1, numbers), [0; 8]);
        }
        // Of one rule they do not: the transformer saturates.
        assert!(total(1, [0, 2])[0] < 0);
        assert!(total(1, [1, 3])[0] > 0);
    }

    /// The same of the 2^20 messages of grade 2.
    #[test]
    fn so_do_those_of_grade_2() {
        assert_eq!(total(2, [0, 1]), [0; 8]);
    }

    #[test]
    fn messages_come_back_and_lattice_points_do_not_change_them() {
        let mut random = Random::new(1);
        for round in 0..1200 {
            let (kind, grade) = (3 + (round % 4) as u8, 1 + (round / 4 % 4) as u8);
            let number = random.draw() as u32;
            let format = Format::new(kind, grade).unwrap();
            let message = crate::vectors::dense(&format, &mut random);
            let sent = send(kind, grade, number, &message).unwrap();
            assert!(sent.frame.iter().all(|x| (-format.scale()..=format.scale()).contains(x)));
            assert_eq!(read_strict(kind, grade, number, &sent.frame), Ok((message.clone(), sent.energy)));
            let moved = crate::vectors::moved_by_point(&format, &sent.frame, &mut random);
            assert_eq!(read_open(kind, grade, &moved).unwrap().0, message);
            assert_eq!(read_strict(kind, grade, number, &moved), Err(refusal::UNSHAPED));
        }
    }
}
