//! Frames with large coordinates, over all of the range that is read, and a little past it.

use crate::hand::FURTHEST;
use crate::random::Random;

fn sign(random: &mut Random) -> i32 {
    [-1, 1][random.below(2) as usize]
}

/// Anywhere in the range, or the first number past either end.
pub fn anywhere(random: &mut Random) -> i32 {
    random.below(2 * FURTHEST as u64 + 3) as i32 - FURTHEST - 1
}

/// At an end of the range, one past it, or one or two before it.
pub fn about_an_end(random: &mut Random) -> i32 {
    sign(random) * (FURTHEST - 2 + random.below(4) as i32)
}

/// Another frame of a sent frame's class: a power of two added at a place or at every place, which is a point of the lattice from
/// 2^8 on and with 2^24 may pass the end; or every coordinate brought as near as the class allows to the upper end, to the
/// lower one, to either, or to anywhere between.
pub fn in_the_class(sent: &[i32], scale: i32, random: &mut Random) -> Vec<i32> {
    let mut frame = sent.to_vec();
    let how = random.below(8);
    match how {
        0 => frame[random.below(sent.len() as u64) as usize] += sign(random) << (8 + random.below(17)),
        1 => {
            let power = 1 << (8 + random.below(17));
            frame.iter_mut().for_each(|x| *x += sign(random) * power);
        }
        _ => {
            for block in frame.as_chunks_mut::<8>().0 {
                *block = brought(block, scale, random, |random| match how {
                    2 | 3 => FURTHEST,
                    4 | 5 => -FURTHEST,
                    6 => sign(random) * FURTHEST,
                    _ => random.below(2 * FURTHEST as u64 + 1) as i32 - FURTHEST,
                });
            }
        }
    }
    frame
}

/// The block and half the scale times w, twice a point of E8 of any parity: each coordinate near to what `to` says, and not past an
/// end of the range.
fn brought(block: &[i32; 8], scale: i32, random: &mut Random, to: impl Fn(&mut Random) -> i32) -> [i32; 8] {
    let toward_0 = |w: i32| if w > 0 { -1 } else { 1 };
    let odd = random.below(2) as i32;
    let mut w = block.map(|x| (to(random) - x) / (scale / 2));
    for w in &mut w {
        *w += toward_0(*w) * ((*w & 1) ^ odd);
    }
    if w.iter().sum::<i32>() & 3 != 0 {
        let w = &mut w[random.below(8) as usize];
        *w += 2 * toward_0(*w);
    }
    std::array::from_fn(|i| block[i] + scale / 2 * w[i])
}

/// A sum of sent frames, as a repeater makes it: of one to four of them, each once, or again and again as long as no coordinate
/// passes the end; and at times of one more.
pub fn sum(length: usize, random: &mut Random, sent: impl Fn(&mut Random) -> Vec<i32>) -> Vec<i32> {
    let (mut sum, mut left) = (vec![0; length], FURTHEST);
    for _ in 0..1 + random.below(4) {
        let frame = sent(random);
        let size = frame.iter().fold(1, |most, x| x.abs().max(most));
        let most = left / size;
        let times = match random.below(4) {
            0 | 1 => most.min(1),
            2 => random.below(most as u64 + 1) as i32,
            _ => most,
        };
        sum.iter_mut().zip(frame).for_each(|(sum, x)| *sum += times * x);
        left -= times * size;
    }
    if random.below(8) == 0 {
        sum.iter_mut().zip(sent(random)).for_each(|(sum, x)| *sum += x);
    }
    sum
}
