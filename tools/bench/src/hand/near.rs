//! The near reading by hand: a search of the library's kind. Samples are counted in 256ths, squared distances in parts of 1/65,536.
//!
//! A frame is near where its parities are a codeword of level 0, its bits of weight 2 one of level 1 (at kind 3 every word is
//! one), and its squared distance is below a limit, which is 4 at most. Let its parities be given. At each place the nearest
//! number of the parity is d away, where d is at most 1; the second nearest is 2 − d away, on the other side of the sample, and
//! has the other bit of weight 2; all further ones are 2 away or more. So a near frame has the nearest number at each place, or
//! at some of them the second nearest, which costs (2 − d)² − d² = 4 − 4d more.
//!
//! The codewords of level 0 come in Gray order, a row apart, and one is left as soon as its parities are too far. For one that is
//! not, the sets of places that have the second nearest number are gone through depth first, and one is left as soon as it is
//! too far, up to the first that makes the bits of weight 2 a codeword.

use super::{parities, refusal, rule, Format, ROWS_5};

/// The sample 1, in 256ths, and the squared distance 1.
const ONE: i32 = 256;
const ONE_SQUARED: u32 = 65_536;

/// A sample in 256ths, and whether it is fit. What is no number is equal to none, and what is too large for an i32 becomes an
/// end of it.
#[inline(always)]
fn in_256ths(sample: f32) -> (i32, bool) {
    let sample = sample * ONE as f32;
    let whole = sample as i32;
    (whole, (whole as f32 == sample) & (whole.unsigned_abs() <= 128 * ONE as u32))
}

/// A place that may have the second nearest number: what that costs, and what it changes in the syndrome.
#[derive(Clone, Copy, Default)]
struct Change {
    place: usize,
    cost: u32,
    syndrome: u32,
}

/// The places to change, as a word, so that the syndrome is mended at a cost below `left`; and the cost.
fn mend(changes: &[Change], syndrome: u32, left: u32) -> Option<(u32, u32)> {
    for (i, change) in changes.iter().enumerate() {
        if change.cost >= left {
            continue;
        }
        if change.syndrome == syndrome {
            return Some((1 << change.place, change.cost));
        }
        if let Some((places, cost)) = mend(&changes[i + 1..], syndrome ^ change.syndrome, left - change.cost) {
            return Some((places | 1 << change.place, cost + change.cost));
        }
    }
    None
}

impl<const KIND: usize, const B: usize> Format<KIND, B> {
    const LIMIT: u32 = ONE_SQUARED << (KIND - 3);

    /// The masks with more than three bits set: a word is one of level 1 where its parities at these, its syndrome, are 0.
    const HEAVY: u32 = {
        let (mut heavy, mut mask) = (0, 0);
        while mask < Self::N {
            heavy |= ((mask.count_ones() > 3) as u32) << mask;
            mask += 1;
        }
        heavy
    };

    /// Fills the near frame with these parities, and gives its squared distance; `distance` is that of the nearest numbers.
    #[inline(always)]
    fn near_with(samples: &[i32], word: u32, distance: u32, frame: &mut [i32]) -> Option<u32> {
        let left = Self::LIMIT - distance;
        let (mut second, mut changes, mut count) = (0, [Change::default(); 32], 0);
        for (p, (sample, number)) in samples.iter().zip(frame.iter_mut()).enumerate() {
            let parity = (word >> p & 1) as i32;
            *number = 2 * ((sample - ONE * parity + ONE) >> 9) + parity;
            second |= (*number as u32 >> 1 & 1) << p;
            let cost = 4 * ONE_SQUARED - 4 * ONE as u32 * sample.abs_diff(ONE * *number);
            changes[count] = Change { place: p, cost, syndrome: parities(1 << p) & Self::HEAVY };
            count += (cost < left) as usize;
        }
        let syndrome = parities(second) & Self::HEAVY;
        if syndrome == 0 {
            return Some(distance);
        }
        let (places, cost) = mend(&changes[..count], syndrome, left)?;
        for (p, (sample, number)) in samples.iter().zip(frame).enumerate() {
            let other = if *sample < ONE * *number { -2 } else { 2 };
            *number += other * (places >> p & 1) as i32;
        }
        Some(distance + cost)
    }

    /// Fills the near frame, and gives its squared distance.
    #[inline(always)]
    fn near(samples: &[i32], frame: &mut [i32]) -> Option<u32> {
        let mut costs = [[0; 2]; 32];
        for (costs, sample) in costs.iter_mut().zip(samples) {
            let even = (((sample + ONE) & (2 * ONE - 1)) - ONE).unsigned_abs();
            *costs = [even, ONE as u32 - even].map(|off| off * off);
        }
        let mut word = 0;
        'next: for i in 0..2usize << KIND {
            if i > 0 {
                word ^= ROWS_5[i.trailing_zeros() as usize];
            }
            let mut distance = 0;
            for (p, costs) in costs[..Self::N].iter().enumerate() {
                distance += costs[(word >> p & 1) as usize];
                if distance >= Self::LIMIT {
                    continue 'next;
                }
            }
            let found = Self::near_with(samples, word, distance, frame);
            if found.is_some() {
                return found;
            }
        }
        None
    }

    pub(super) fn read_near(samples: &[f32], message: &mut [u8]) -> Result<f64, u8> {
        if samples.len() != Self::N {
            return Err(refusal::FRAME_LENGTH);
        }
        if message.len() != Self::BYTES {
            return Err(refusal::MESSAGE_LENGTH);
        }
        let (mut whole, mut frame, mut all_fit) = ([0; 64], [0; 64], true);
        let (whole, frame) = (&mut whole[..Self::N], &mut frame[..Self::N]);
        for (whole, sample) in whole.iter_mut().zip(samples) {
            let fit;
            (*whole, fit) = in_256ths(*sample);
            all_fit &= fit;
        }
        if !all_fit {
            return Err(refusal::UNFIT_SAMPLE);
        }
        let distance = Self::near(whole, frame).ok_or(refusal::TOO_FAR)?;
        Self::read::<{ rule::NONE }>(frame, message)?;
        Ok(distance as f64 / ONE_SQUARED as f64)
    }
}
