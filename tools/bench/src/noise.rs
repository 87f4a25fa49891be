//! Samples of a frame with noise on them.

use bench::random::Random;

/// The squared distance below which a frame of a kind is near.
pub fn limit(kind: u8) -> f64 {
    [1.0, 2.0, 4.0][kind as usize - 3]
}

/// The samples of a frame with this noise, each rounded to a whole number of 256ths.
pub fn samples(frame: &[i32], noise: &[f64]) -> Vec<f32> {
    frame.iter().zip(noise).map(|(&x, off)| ((x as f64 + off) * 256.0).round() as f32 / 256.0).collect()
}

/// Noise of this squared length in any direction.
pub fn spread(length: usize, squared: f64, random: &mut Random) -> Vec<f64> {
    let noise: Vec<f64> =
        (0..length).map(|_| (0..6).map(|_| random.below(2001) as f64 - 1000.0).sum::<f64>()).collect();
    let own = noise.iter().map(|x| x * x).sum::<f64>().max(1.0);
    noise.iter().map(|x| x * (squared / own).sqrt()).collect()
}

/// Noise of this squared length that is alike, and large, at so many places, and of the size `small` at the others; of any signs.
pub fn at_places(length: usize, places: usize, squared: f64, small: f64, random: &mut Random) -> Vec<f64> {
    let large = ((squared - small * small * (length - places) as f64) / places as f64).max(0.0).sqrt();
    let mut noise: Vec<f64> = (0..length).map(|i| if i < places { large } else { small }).collect();
    for i in 0..places {
        noise.swap(i, i + random.below((length - i) as u64) as usize);
    }
    noise.iter().map(|x| x * [-1.0, 1.0][random.below(2) as usize]).collect()
}
