//! The near reading of noisy samples (request E6), by going through all whole frames that are near. Distances are squared, in parts of
//! 1 / 65,536.

use std::ops::RangeInclusive;

use crate::frame::{read_open_into, Format};
use crate::{code, refusal};

/// The kinds that have a near reading.
pub const KINDS: RangeInclusive<u8> = 3..=5;

/// The distance that is no longer near: 1, 2 or 4.
pub fn limit(kind: u8) -> i64 {
    65_536 << (kind - 3)
}

/// A sample in 256ths, or None where it is unfit. An f64 holds 256 times any f32, so that nothing is rounded.
pub fn in_256ths(sample: f32) -> Option<i64> {
    let x = f64::from(sample) * 256.0;
    // What is no number, and an infinity, have no fraction that is 0.
    (x.fract() == 0.0 && x.abs() <= 32_768.0).then_some(x as i64)
}

/// The distance of one coordinate from a sample in 256ths.
pub fn gap(sample: i64, x: i64) -> i64 {
    (sample - 256 * x).pow(2)
}

/// The same from the nearest number.
fn least_gap(sample: i64) -> i64 {
    let below = sample.div_euclid(256);
    gap(sample, below).min(gap(sample, below + 1))
}

/// Goes through every whole frame that begins with the chosen coordinates and is below the limit. The room is what is left up to the limit
/// when each further coordinate is the nearest number to its sample.
fn walk(samples: &[i64], room: i64, chosen: &mut Vec<i64>, each: &mut dyn FnMut(&[i64], i64)) {
    let Some(&sample) = samples.get(chosen.len()) else {
        return each(chosen, room);
    };
    let below = sample.div_euclid(256);
    let least = least_gap(sample);
    // Down from the sample, and up from it, as far as there is room.
    for (first, step) in [(below, -1), (below + 1, 1)] {
        let mut x = first;
        while gap(sample, x) - least < room {
            chosen.push(x);
            walk(samples, room - (gap(sample, x) - least), chosen, each);
            chosen.pop();
            x += step;
        }
    }
}

/// All whole frames at a distance below the limit whose bits at each of these levels are a codeword, with their distances.
pub fn frames_within(samples: &[i64], limit: i64, levels: &[u32]) -> Vec<(Vec<i64>, i64)> {
    let checks: Vec<Vec<u64>> = levels.iter().map(|&r| code::checks(r, samples.len().ilog2())).collect();
    let belongs = |frame: &[i64], level: usize| {
        let bits = frame.iter().map(|x| (x >> level & 1) as u64);
        let word: u64 = bits.enumerate().map(|(p, bit)| bit << p).sum();
        checks[level].iter().all(|check| (word & check).count_ones().is_multiple_of(2))
    };
    let room = limit - samples.iter().map(|&sample| least_gap(sample)).sum::<i64>();
    let mut found = Vec::new();
    walk(samples, room, &mut Vec::new(), &mut |frame, room| {
        if (0..levels.len()).all(|level| belongs(frame, level)) {
            found.push((frame.to_vec(), limit - room));
        }
    });
    found
}

/// The near frame with its message and its squared distance.
pub struct Near {
    pub frame: Vec<i64>,
    pub message: Vec<u8>,
    pub distance: f64,
}

/// The near frame and its distance, of as many samples as the format has coordinates; or the number of what is unfit or too far.
pub fn near_frame(format: &Format, samples: &[f32]) -> Result<(Vec<i64>, i64), u8> {
    let samples: Option<Vec<i64>> = samples.iter().map(|&sample| in_256ths(sample)).collect();
    let samples = samples.ok_or(refusal::UNFIT_SAMPLE)?;
    let mut near = frames_within(&samples, limit(format.m as u8), format.levels);
    assert!(near.len() <= 1, "there is never a second one");
    near.pop().ok_or(refusal::TOO_FAR)
}

/// The near reading, with the number of message bytes that the caller lends.
pub fn read_near(kind: u8, grade: u8, samples: &[f32], bytes: usize) -> Result<Near, u8> {
    if !KINDS.contains(&kind) {
        return Err(refusal::KIND);
    }
    let format = Format::new(kind, grade)?;
    if samples.len() != format.length() {
        return Err(refusal::FRAME_LENGTH);
    }
    if bytes != format.message_bytes() {
        return Err(refusal::MESSAGE_LENGTH);
    }
    let (frame, parts) = near_frame(&format, samples)?;
    let (message, _) = read_open_into(kind, grade, &frame, bytes)?;
    Ok(Near { frame, message, distance: parts as f64 / 65_536.0 })
}

#[cfg(test)]
mod tests {
    use super::*;
    use crate::frame::{read_open, send, GRADES};
    use crate::random::Random;
    use crate::vectors::dense;

    /// The same by the sample's bits: 2^e times a whole number is a whole number of 256ths when its last −8 − e bits are 0.
    fn by_bits(sample: f32) -> Option<i64> {
        let bits = sample.to_bits() as i64;
        let (negative, exponent, fraction) = (bits >> 31 == 1, bits >> 23 & 0xFF, bits & 0x7F_FFFF);
        let (size, e) = if exponent == 0 { (fraction, -149) } else { (fraction | 0x80_0000, exponent - 150) };
        let size = match e + 8 {
            _ if size == 0 => 0,
            -24..0 if size % (1 << (-8 - e)) == 0 => size >> (-8 - e),
            // From e = -8 on it is past the ends, and otherwise no whole number of 256ths.
            _ => return None,
        };
        (size <= 32_768).then_some(if negative { -size } else { size })
    }

    #[test]
    fn samples_in_256ths() {
        for t in -32_768..=32_768 {
            assert_eq!(in_256ths(t as f32 / 256.0), Some(t));
        }
        assert_eq!(in_256ths(-0.0), Some(0));
        let above = 128f32.to_bits() + 1;
        for x in [
            f32::NAN,
            f32::INFINITY,
            1.0 / 512.0,
            f32::MIN_POSITIVE,
            f32::MAX,
            f32::from_bits(above),
            128.0 + 1.0 / 256.0,
        ] {
            assert_eq!((in_256ths(x), in_256ths(-x)), (None, None));
        }
        let mut random = Random::new(31);
        for i in 0..2_000_000u32 {
            // Any bits, those about the ends and the zeros, and few bits at each exponent.
            let bits = match i % 3 {
                0 => random.draw() as u32,
                1 => [0, 0x4300_0000, 0x8000_0000, 0xC300_0000][i as usize / 3 % 4] + random.below(16) as u32,
                _ => random.draw() as u32 & 0xFFFF_0000,
            };
            let x = f32::from_bits(bits);
            assert_eq!(in_256ths(x), by_bits(x), "{bits:08X}");
        }
    }

    /// For kind 3 against all frames with coordinates among the four whole numbers around each sample.
    #[test]
    fn the_list_against_all_frames_around() {
        let mut random = Random::new(32);
        let mut near = 0;
        for i in 0..100 {
            let even = i % 2 == 0;
            let samples: Vec<i64> = (0..8)
                .map(|_| match even {
                    true => 512 * (random.below(9) as i64 - 4) + random.below(181) as i64 - 90,
                    false => random.below(4096) as i64 - 2048,
                })
                .collect();
            let mut all = Vec::new();
            for number in 0..1i64 << 16 {
                let around = |(p, t): (usize, &i64)| t.div_euclid(256) - 1 + (number >> (2 * p) & 3);
                let frame: Vec<i64> = samples.iter().enumerate().map(around).collect();
                let distance: i64 = samples.iter().zip(&frame).map(|(&t, &x)| gap(t, x)).sum();
                if distance < limit(3) && read_open(3, 1, &frame).is_ok() {
                    all.push((frame, distance));
                }
            }
            near += all.len();
            assert_eq!(frames_within(&samples, limit(3), &[1]), all);
        }
        assert!((30..100).contains(&near));
    }

    /// About the frame all zeros there are as many whole frames nearer than 1, 2 and 4 as ways to choose places and signs.
    #[test]
    fn the_list_about_zeros() {
        assert_eq!(frames_within(&[0; 8], limit(3), &[]).len(), 1);
        assert_eq!(frames_within(&[0; 16], limit(4), &[]).len(), 1 + 2 * 16);
        assert_eq!(frames_within(&[0; 32], limit(5), &[]).len(), 1 + 2 * 32 + 4 * 496 + 8 * 4960);
    }

    /// Sent frames come back from three quarters of the limit.
    #[test]
    fn sent_frames_come_back() {
        let mut random = Random::new(33);
        for (kind, grade) in KINDS.flat_map(|kind| GRADES.map(move |grade| (kind, grade))) {
            let format = Format::new(kind, grade).unwrap();
            let message = dense(&format, &mut random);
            for number in [0, 1] {
                let frame = send(kind, grade, number, &message).unwrap().frame;
                let noise = [0.25, 0.5, -0.25, 0.0].iter().cycle();
                let samples: Vec<f32> = frame.iter().zip(noise).map(|(&x, e)| x as f32 + e).collect();
                let near = read_near(kind, grade, &samples, message.len()).unwrap();
                assert_eq!((near.frame, near.message), (frame, message.clone()));
                assert_eq!(near.distance, 0.75 * (limit(kind) / 65_536) as f64);
            }
        }
    }

    #[test]
    fn order_of_refusals() {
        let number = |kind, grade, sample: f32, n, bytes| read_near(kind, grade, &vec![sample; n], bytes).err();
        assert_eq!(number(6, 1, 0.0, 64, 22), Some(refusal::KIND));
        assert_eq!(number(2, 0, f32::NAN, 9, 9), Some(refusal::KIND));
        assert_eq!(number(3, 0, f32::NAN, 9, 9), Some(refusal::GRADE));
        assert_eq!(number(3, 1, f32::NAN, 9, 9), Some(refusal::FRAME_LENGTH));
        assert_eq!(number(3, 1, f32::NAN, 8, 9), Some(refusal::MESSAGE_LENGTH));
        assert_eq!(number(3, 1, f32::NAN, 8, 2), Some(refusal::UNFIT_SAMPLE));
        assert_eq!(number(3, 1, 0.5, 8, 2), Some(refusal::TOO_FAR));
        assert_eq!(number(3, 1, -0.0, 8, 2), None);
    }
}
