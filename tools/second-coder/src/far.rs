//! Frames with large coordinates: of the coding set, of the class of a sent frame, and sums of sent frames.

use crate::class::{twice_e8, Block};
use crate::frame::{leader, Format, FURTHEST};
use crate::random::Random;
use crate::vectors::dense;

/// The sum of two frames, coordinate by coordinate.
pub fn added(one: &[i64], other: &[i64]) -> Vec<i64> {
    one.iter().zip(other).map(|(x, y)| x + y).collect()
}

/// The sum of a frame that comes so many times.
pub fn times(count: i64, frame: &[i64]) -> Vec<i64> {
    frame.iter().map(|x| count * x).collect()
}

/// A frame with these values, but with the level bits of a random message: each coordinate is the next below that has them, at most 7 less.
fn member(format: &Format, random: &mut Random, mut value: impl FnMut(&mut Random) -> i64) -> Vec<i64> {
    let leader = leader(format, &dense(format, random));
    let below = |x: i64, value: i64| value - (value - x).rem_euclid(1 << format.levels.len());
    leader.into_iter().map(|x| below(x, value(random))).collect()
}

/// A frame of the coding set with any coordinates of the range.
pub fn any_member(format: &Format, random: &mut Random) -> Vec<i64> {
    member(format, random, |random| FURTHEST - random.below(2 * FURTHEST as u64 - 6) as i64)
}

/// A frame of the coding set with any coordinates of the range, and this one at a place, which may lie past it.
pub fn member_with(format: &Format, place: usize, x: i64, random: &mut Random) -> Vec<i64> {
    loop {
        let mut frame = any_member(format, random);
        if (frame[place] - x) % (1 << format.levels.len()) == 0 {
            frame[place] = x;
            return frame;
        }
    }
}

/// A frame of the coding set with coordinates of both signs in the outer quarter of the range.
pub fn outer_member(format: &Format, random: &mut Random) -> Vec<i64> {
    member(format, random, |random| {
        let size = FURTHEST - 7 - random.below(FURTHEST as u64 / 4 - 14) as i64;
        if random.one_in(2) {
            size
        } else {
            -size
        }
    })
}

/// A frame with a point of the lattice added that brings every coordinate to one sign and about a size: past no size, and less than M
/// below it, the last of a block less than 2M.
pub fn moved_far(
    format: &Format,
    frame: &[i64],
    sign: i64,
    random: &mut Random,
    mut size: impl FnMut(&mut Random) -> i64,
) -> Vec<i64> {
    let half = format.scale() / 2;
    let mut moved = Vec::new();
    for block in frame.chunks_exact(8) {
        let odd = random.below(2) as i64;
        let mut w: Block = std::array::from_fn(|i| {
            let most = (size(random) - sign * block[i]).div_euclid(half);
            most - (most - odd).rem_euclid(2)
        });
        w[7] -= if twice_e8(&w) { 0 } else { 2 };
        moved.extend(block.iter().zip(w).map(|(x, w)| x + sign * half * w));
    }
    moved
}

/// A coordinate moved by so much past 0: with that many bits kept it would be the same.
pub fn turned(x: i64, by: i64) -> i64 {
    if x > 0 {
        x - by
    } else {
        x + by
    }
}

#[cfg(test)]
pub mod tests {
    use super::*;
    use crate::frame::{message_of, read_open, read_strict, send, GRADES, KINDS};
    use crate::refusal;

    /// Whether a coordinate lies outside of these ends.
    pub fn outside(frame: &[i64], low: i64, high: i64) -> bool {
        frame.iter().any(|x| !(low..=high).contains(x))
    }

    /// Whether a coordinate is past the range.
    pub fn past(frame: &[i64]) -> bool {
        outside(frame, -FURTHEST, FURTHEST)
    }

    /// A test of the range that someone could make wrong.
    type Past = fn(&[i64]) -> bool;

    /// Such tests, each with the first kind that can have it: a frame of kind 3 is one block.
    pub const WRONG_RANGES: [(&str, u8, Past); 17] = [
        ("1,048,576 as the end", 3, |frame| outside(frame, -1_048_576, 1_048_576)),
        ("one too many", 3, |frame| outside(frame, -FURTHEST - 1, FURTHEST + 1)),
        ("one too many above", 3, |frame| outside(frame, -FURTHEST, FURTHEST + 1)),
        ("one too many below", 3, |frame| outside(frame, -FURTHEST - 1, FURTHEST)),
        ("the upper end refused", 3, |frame| outside(frame, -FURTHEST, FURTHEST - 1)),
        ("the lower end refused", 3, |frame| outside(frame, 1 - FURTHEST, FURTHEST)),
        ("no upper end", 3, |frame| outside(frame, -FURTHEST, i64::MAX)),
        ("no lower end", 3, |frame| outside(frame, i64::MIN, FURTHEST)),
        ("a size that wraps", 3, |frame| frame.iter().any(|&x| (x as i32).wrapping_abs() as i64 > FURTHEST)),
        ("the first coordinate alone", 3, |frame| past(&frame[..1])),
        ("the last alone", 3, |frame| past(&frame[frame.len() - 1..])),
        ("all but the first", 3, |frame| past(&frame[1..])),
        ("all but the last", 3, |frame| past(&frame[..frame.len() - 1])),
        ("the first block alone", 4, |frame| past(&frame[..8])),
        ("the last block alone", 4, |frame| past(&frame[frame.len() - 8..])),
        ("all but the first block", 3, |frame| past(&frame[8..])),
        ("all but the last block", 3, |frame| past(&frame[..frame.len() - 8])),
    ];

    fn formats() -> impl Iterator<Item = (u8, u8, Format)> {
        let all = KINDS.flat_map(|kind| GRADES.map(move |grade| (kind, grade)));
        all.map(|(kind, grade)| (kind, grade, Format::new(kind, grade).unwrap()))
    }

    #[test]
    fn members_are_of_the_coding_set() {
        let mut random = Random::new(40);
        for (kind, grade, format) in formats() {
            for _ in 0..20 {
                assert!(read_open(kind, grade, &any_member(&format, &mut random)).is_ok());
                let outer = outer_member(&format, &mut random);
                assert!(outer.iter().all(|x| x.abs() >= FURTHEST / 4 * 3));
                assert!(read_open(kind, grade, &outer).is_ok());
                let place = random.below(format.length() as u64) as usize;
                for x in [FURTHEST, -FURTHEST] {
                    assert!(read_open(kind, grade, &member_with(&format, place, x, &mut random)).is_ok());
                }
                // The range alone refuses it.
                for x in [FURTHEST + 1, -FURTHEST - 1, i32::MAX as i64, i32::MIN as i64] {
                    let past = member_with(&format, place, x, &mut random);
                    assert_eq!(past.iter().filter(|x| x.abs() > FURTHEST).count(), 1);
                    assert_eq!(read_open(kind, grade, &past), Err(refusal::OVER_RANGE));
                    assert!(message_of(&format, &past).is_ok());
                }
            }
        }
    }

    #[test]
    fn moved_frames_keep_their_message() {
        let mut random = Random::new(41);
        for (kind, grade, format) in formats() {
            let message = dense(&format, &mut random);
            let (scale, sent) = (format.scale(), send(kind, grade, 0, &message).unwrap().frame);
            for (sign, size) in
                [1, -1].into_iter().flat_map(|sign| [1 << 8, 1 << 20, FURTHEST].map(|size| (sign, size)))
            {
                let moved = moved_far(&format, &sent, sign, &mut random, |_| size);
                for (i, x) in moved.iter().enumerate() {
                    let least = size - if i % 8 == 7 { 2 * scale } else { scale };
                    assert!(least < sign * x && sign * x <= size);
                }
                assert_eq!(read_open(kind, grade, &moved).map(|read| read.0), Ok(message.clone()));
                assert_eq!(read_strict(kind, grade, 0, &moved), Err(refusal::UNSHAPED));
            }
            for bits in [8, 16, 20, 24] {
                let moved: Vec<i64> = sent.iter().map(|&x| turned(x, 1 << bits)).collect();
                assert_eq!(read_open(kind, grade, &moved).map(|read| read.0), Ok(message.clone()));
                assert_eq!(read_strict(kind, grade, 0, &moved), Err(refusal::UNSHAPED));
            }
        }
    }
}
