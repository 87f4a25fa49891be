//! Two recordings of one frame (request E9): each is read nearly on its own, whatever the other is, and what the two hear is compared.
//! Distances are squared, in parts of 1 / 65,536, and are compared as whole numbers.

use crate::frame::{read_open, Format};
use crate::near::{near_frame, KINDS};
use crate::refusal;

/// What a recording is near to, and how near.
#[derive(Clone, Debug, PartialEq)]
pub struct Heard {
    pub frame: Vec<i64>,
    pub message: Vec<u8>,
    pub parts: i64,
}

/// The near reading of one recording. No message bytes are lent, so none can be too few.
pub fn hear(kind: u8, grade: u8, samples: &[f32]) -> Result<Heard, u8> {
    if !KINDS.contains(&kind) {
        return Err(refusal::KIND);
    }
    let format = Format::new(kind, grade)?;
    if samples.len() != format.length() {
        return Err(refusal::FRAME_LENGTH);
    }
    let (frame, parts) = near_frame(&format, samples)?;
    let (message, _) = read_open(kind, grade, &frame)?;
    Ok(Heard { frame, message, parts })
}

/// Which of two recordings is chosen, 1 or 2, by what each hears; or the number.
pub fn choose(first: &Result<Heard, u8>, second: &Result<Heard, u8>) -> Result<u8, u8> {
    match (first, second) {
        (Err(number), Err(_)) => Err(*number),
        (Ok(_), Err(_)) => Ok(1),
        (Err(_), Ok(_)) => Ok(2),
        (Ok(one), Ok(other)) if one.message != other.message => Err(refusal::AT_ODDS),
        (Ok(one), Ok(other)) => Ok(if other.parts < one.parts { 2 } else { 1 }),
    }
}

/// The recording that is closer: 1 for the first, 2 for the second; or the number by which there is none.
pub fn closer(kind: u8, grade: u8, first: &[f32], second: &[f32]) -> Result<u8, u8> {
    choose(&hear(kind, grade, first), &hear(kind, grade, second))
}

#[cfg(test)]
mod tests {
    use super::*;
    use crate::frame::{send, GRADES};
    use crate::near::{limit, read_near};
    use crate::noisy::{as_samples, coded, noise, with_noise};
    use crate::random::Random;

    /// Eight samples, all 0 but at these places.
    fn eight(places: &[(usize, f32)]) -> Vec<f32> {
        let mut samples = vec![0.0; 8];
        places.iter().for_each(|&(p, x)| samples[p] = x);
        samples
    }

    /// Kind 3, grade 1, in both orders.
    fn both(one: &[f32], other: &[f32]) -> [Result<u8, u8>; 2] {
        [closer(3, 1, one, other), closer(3, 1, other, one)]
    }

    #[test]
    fn by_hand() {
        let zeros = eight(&[]);
        // The message 00 08 is sent as −4 at the first place, or as 4; 10 00 as 2 at the second.
        let [even, odd, another] = [(0, -4.0), (0, 4.0), (1, 2.0)].map(|place| eight(&[place]));
        assert_eq!(both(&even, &odd), [Ok(1), Ok(1)]);
        assert_eq!(both(&zeros, &another), [Err(18), Err(18)]);
        assert_eq!(both(&zeros, &even), [Err(18), Err(18)]);
        assert_eq!(both(&eight(&[(0, -4.0), (5, 1.0 / 256.0)]), &odd), [Ok(2), Ok(1)]);
        assert_eq!(both(&eight(&[(0, 4.25)]), &eight(&[(0, -3.75)])), [Ok(1), Ok(1)]);
        assert_eq!(both(&eight(&[(0, 4.25)]), &eight(&[(0, -4.0), (7, 0.25), (6, -0.25)])), [Ok(1), Ok(2)]);
        // Two places off by 3/8 and 4/8, and one off by 5/8, are as far.
        assert_eq!(both(&eight(&[(2, 0.375), (3, -0.5)]), &eight(&[(7, 0.625)])), [Ok(1), Ok(1)]);
        assert_eq!(both(&zeros, &eight(&[(4, -0.0)])), [Ok(1), Ok(1)]);
        assert_eq!(both(&zeros, &eight(&[(4, 1.0 / 256.0)])), [Ok(1), Ok(2)]);
        // Off by 255/256 it is near, and off by 1 too far.
        let (inside, on) = (eight(&[(4, 255.0 / 256.0)]), eight(&[(4, 1.0)]));
        assert_eq!(both(&zeros, &inside), [Ok(1), Ok(2)]);
        assert_eq!(both(&inside, &on), [Ok(1), Ok(2)]);
        assert_eq!(both(&another, &inside), [Err(18), Err(18)]);
        assert_eq!(both(&another, &on), [Ok(1), Ok(2)]);
        assert_eq!(both(&on, &[0.5; 8]), [Err(16), Err(16)]);
        // All 2 and all −2 have one message at kind 4.
        assert_eq!(closer(4, 1, &[2.0; 16], &[-2.0; 16]), Ok(1));
        assert_eq!(closer(4, 1, &[2.25; 16], &[-2.0; 16]), Ok(2));
    }

    /// The number of the first, by the tests in their order, and whatever the second is refused by.
    #[test]
    fn order_of_refusals() {
        let (unfit, far, long) = (vec![f32::NAN; 8], vec![0.5; 8], vec![f32::NAN; 9]);
        assert_eq!(closer(6, 1, &[0.0; 64], &[0.0; 64]), Err(refusal::KIND));
        assert_eq!(closer(2, 0, &long, &unfit), Err(refusal::KIND));
        assert_eq!(closer(3, 0, &long, &unfit), Err(refusal::GRADE));
        assert_eq!(closer(3, 5, &[0.0; 8], &[0.0; 8]), Err(refusal::GRADE));
        let all = [(&long, refusal::FRAME_LENGTH), (&unfit, refusal::UNFIT_SAMPLE), (&far, refusal::TOO_FAR)];
        for (first, number) in all {
            for (second, _) in all {
                assert_eq!(closer(3, 1, first, second), Err(number));
            }
            assert_eq!(closer(3, 1, first, &[]), Err(number));
            assert_eq!(closer(3, 1, &[], first), Err(refusal::FRAME_LENGTH));
            assert_eq!(both(first, &[0.0; 8]), [Ok(2), Ok(1)]);
        }
        assert_eq!(closer(3, 1, &[], &[]), Err(refusal::FRAME_LENGTH));
    }

    /// A recording is heard as the near reading reads it with a buffer of the right length.
    #[test]
    fn heard_as_it_is_read() {
        let mut random = Random::new(50);
        for (kind, grade) in KINDS.flat_map(|kind| GRADES.map(move |grade| (kind, grade))) {
            let format = Format::new(kind, grade).unwrap();
            for i in 0..40 {
                let total = random.below(limit(kind) as u64 * 5 / 4) as i64;
                let mut samples =
                    as_samples(&with_noise(&coded(&format, &mut random), &noise(total, format.length(), &mut random)));
                match i {
                    0 => samples[3] = f32::NAN,
                    1 => samples.truncate(7),
                    _ => (),
                }
                let read = read_near(kind, grade, &samples, format.message_bytes());
                let heard = hear(kind, grade, &samples);
                assert_eq!(heard.as_ref().err(), read.as_ref().err());
                if let (Ok(heard), Ok(read)) = (heard, read) {
                    assert_eq!((heard.frame, heard.message), (read.frame, read.message));
                    assert_eq!(heard.parts as f64 / 65_536.0, read.distance);
                    assert!(total >= limit(kind) || heard.parts == total);
                }
            }
        }
    }

    /// With the two exchanged the answer is exchanged, but on equal distance; messages and numbers decide alone.
    #[test]
    fn exchanged() {
        let mut random = Random::new(51);
        for (kind, grade) in KINDS.flat_map(|kind| GRADES.map(move |grade| (kind, grade))) {
            let format = Format::new(kind, grade).unwrap();
            let message = crate::vectors::tied_edge(&format, &mut random);
            for i in 0..20 {
                let totals = [(); 2].map(|()| random.below(limit(kind) as u64) as i64);
                let totals = if i % 5 == 4 { [totals[0]; 2] } else { totals };
                let [first, second] = [0, 1].map(|j: usize| {
                    let frame = send(kind, grade, j as u32, &message).unwrap().frame;
                    as_samples(&with_noise(&frame, &noise(totals[j], format.length(), &mut random)))
                });
                let [one, other] = [closer(kind, grade, &first, &second), closer(kind, grade, &second, &first)];
                assert_eq!(one, Ok(if totals[1] < totals[0] { 2 } else { 1 }));
                assert_eq!(other, Ok(if totals[0] < totals[1] { 2 } else { 1 }));
            }
        }
    }
}
