//! The tables of near readings: by the sort of noise, of two recordings, and the worst samples that a search finds. All are at one
//! grade: the search does not hang on it, only the reading of the frame that is found.

use std::hint::black_box;
use std::time::{Duration, Instant};

use super::{least, line, median, sent, turn};
use crate::lengths;
use crate::noise::{at_places, limit, samples, spread};
use bench::random::Random;
use bench::{exported, hand};

const GRADE: u8 = 4;

/// More samples than the processor can learn the ways of, as a receiver has: so many times 1024 in a pass, and so many passes.
const TIMES: usize = 8;
const PASSES: usize = 30;

/// Samples of a frame of a kind.
type Noise = fn(u8, &[i32], &mut Random) -> Vec<f32>;

/// The noise by which the others are measured: of a quarter of the limit, in any direction.
const TYPICAL: Noise = |kind, frame, random| anywhere(kind, frame, 0.25, random);

/// What is read in each row, with the squared length of the noise.
const NOISES: [(&str, Noise); 10] = [
    ("none", |kind, frame, random| anywhere(kind, frame, 0.0, random)),
    ("a quarter of the limit", TYPICAL),
    ("0.97 of the limit", |kind, frame, random| anywhere(kind, frame, 0.97, random)),
    ("1.03 of the limit", |kind, frame, random| anywhere(kind, frame, 1.03, random)),
    ("4 times the limit", |kind, frame, random| anywhere(kind, frame, 4.0, random)),
    ("0.97, mostly at one place", |kind, frame, random| mostly(kind, frame, 1, random)),
    ("0.97, mostly at two", |kind, frame, random| mostly(kind, frame, 2, random)),
    ("0.97, mostly at three", |kind, frame, random| mostly(kind, frame, 3, random)),
    ("1/4 at each place", |_, frame, random| samples(frame, &at_places(frame.len(), 0, 0.0, 0.25, random))),
    ("1/2 at each place", |_, frame, random| samples(frame, &at_places(frame.len(), 0, 0.0, 0.5, random))),
];

/// Noise of so many times the limit in any direction.
fn anywhere(kind: u8, frame: &[i32], part: f64, random: &mut Random) -> Vec<f32> {
    samples(frame, &spread(frame.len(), part * limit(kind), random))
}

/// Noise just inside the limit that is mostly at so many places, and a little at every other.
fn mostly(kind: u8, frame: &[i32], places: usize, random: &mut Random) -> Vec<f32> {
    let small = 0.06 + random.below(4) as f64 / 100.0;
    samples(frame, &at_places(frame.len(), places, 0.97 * limit(kind), small, random))
}

/// The near reading of the library.
#[inline(always)]
fn read_near(kind: u8, grade: u8, samples: &[f32], message: &mut [u8]) -> (i64, f64) {
    let mut distance = 0.0;
    (exported::read_near(kind, grade, samples, message, &mut distance), distance)
}

/// Samples of random frames.
fn noisy(kind: u8, noise: Noise, random: &mut Random) -> Vec<Vec<f32>> {
    let frames = (0..TIMES).flat_map(|_| sent(kind, GRADE, random).1).collect::<Vec<_>>();
    frames.iter().map(|frame| noise(kind, frame, random)).collect()
}

fn noises(random: &mut Random) {
    println!("| kind | noise, squared | near | library, ns a frame | by hand, ns a frame | ratio |");
    println!("|---|---|---|---|---|---|");
    for kind in 3..=5 {
        let bytes = lengths(kind, GRADE).1;
        for (what, noise) in NOISES {
            let samples = noisy(kind, noise, random);
            let mut library = pass!(read_near, kind, GRADE, &samples, vec![0; bytes]);
            let mut hand = pass!(hand::read_near, kind, GRADE, &samples, vec![0; bytes]);
            let times: Vec<[f64; 2]> = (0..PASSES).map(|_| [turn(&mut library), turn(&mut hand)]).collect();
            let [library, hand] = least(&times).map(|time| time / TIMES as f64);
            let near = samples.iter().filter(|samples| BY_HAND(kind, GRADE, samples, &mut vec![0; bytes])).count();
            line(&format!("{kind} | {what} | {} %", 100 * near / samples.len()), library, hand);
        }
    }
}

/// Two recordings of a frame.
type Pair = [Vec<f32>; 2];

/// The noise of both, in each row.
const PAIRS: [(&str, [Noise; 2]); 2] = [
    ("both a quarter of the limit", [TYPICAL, TYPICAL]),
    ("a quarter, and 1.03: too far", [TYPICAL, |kind, frame, random| anywhere(kind, frame, 1.03, random)]),
];

/// The choice between two recordings by the library, and by hand.
#[inline(always)]
fn closer(kind: u8, grade: u8, [first, second]: &Pair, _: &mut [u8]) -> i64 {
    exported::closer(kind, grade, first, second)
}

#[inline(always)]
fn closer_by_hand(kind: u8, grade: u8, [first, second]: &Pair, _: &mut [u8]) -> Result<u8, u8> {
    hand::closer(kind, grade, first, second)
}

/// The near readings of both by the library, one after the other.
#[inline(always)]
fn read_both(kind: u8, grade: u8, pair: &Pair, message: &mut [u8]) -> [(i64, f64); 2] {
    [0, 1].map(|i| read_near(kind, grade, &pair[i], message))
}

fn recordings(random: &mut Random) {
    println!("| kind | two recordings, noise squared | library, ns a pair | by hand, ns a pair | ratio | two near readings of the library, ns |");
    println!("|---|---|---|---|---|---|");
    for kind in 3..=5 {
        for (what, noises) in PAIRS {
            let frames = (0..TIMES).flat_map(|_| sent(kind, GRADE, random).1).collect::<Vec<_>>();
            let pairs: Vec<Pair> = frames.iter().map(|frame| noises.map(|noise| noise(kind, frame, random))).collect();
            let bytes = lengths(kind, GRADE).1;
            let mut library = pass!(closer, kind, GRADE, &pairs, vec![]);
            let mut hand = pass!(closer_by_hand, kind, GRADE, &pairs, vec![]);
            let mut both = pass!(read_both, kind, GRADE, &pairs, vec![0; bytes]);
            let times: Vec<[f64; 3]> =
                (0..PASSES).map(|_| [turn(&mut library), turn(&mut hand), turn(&mut both)]).collect();
            let [library, hand, both] = least(&times).map(|time| time / TIMES as f64);
            println!("| {kind} | {what} | {library:.1} | {hand:.1} | {:.2} | {both:.1} |", library / hand);
        }
    }
}

/// A near reading, of the library or by hand: whether a frame is near.
type Reading = fn(u8, u8, &[f32], &mut [u8]) -> bool;

const LIBRARY: Reading = |kind, grade, samples, message| read_near(kind, grade, samples, message).0 == 0;
const BY_HAND: Reading = |kind, grade, samples, message| hand::read_near(kind, grade, samples, message).is_ok();

/// Single calls by the clock, each after calls on other samples, so that the processor has not learned the way that it takes.
struct Single {
    kind: u8,
    others: Vec<Vec<f32>>,
    next: usize,
    /// What the clock itself takes.
    clock: f64,
}

impl Single {
    fn new(kind: u8, others: Vec<Vec<f32>>) -> Single {
        let clock = (0..1000).map(|_| Instant::now().elapsed().as_nanos() as f64).fold(f64::INFINITY, f64::min);
        Single { kind, others, next: 0, clock }
    }

    /// The least time of so many calls.
    fn least(&mut self, turns: usize, samples: &[f32], read: Reading) -> f64 {
        let mut message = [0; 64];
        let message = &mut message[..lengths(self.kind, GRADE).1];
        let one = |_| {
            for _ in 0..4 {
                self.next = (self.next + 1) % self.others.len();
                black_box(read(self.kind, GRADE, &self.others[self.next], message));
            }
            let start = Instant::now();
            black_box(read(self.kind, GRADE, black_box(samples), message));
            start.elapsed().as_nanos() as f64 - self.clock
        };
        (0..turns).map(one).fold(f64::INFINITY, f64::min)
    }

    /// The time of the library on samples that may be slower than this: by few calls where they are not, else by many.
    fn slower(&mut self, than: f64, samples: &[f32]) -> Option<f64> {
        let seems = self.least(8, samples, LIBRARY) > than;
        seems.then(|| self.least(64, samples, LIBRARY)).filter(|time| *time > than)
    }
}

/// How long the worst samples are looked for at a kind, and from how many beginnings.
const LOOKING: Duration = Duration::from_secs(6);
const BEGINNINGS: u32 = 4;

/// Samples changed at one to three places: by up to an eighth, to another place's fraction, or to anywhere within 2.
fn changed(samples: &[f32], random: &mut Random) -> Vec<f32> {
    let mut changed = samples.to_vec();
    for _ in 0..1 + random.below(3) {
        let place = random.below(samples.len() as u64) as usize;
        let other = samples[random.below(samples.len() as u64) as usize];
        let off = (random.below(1025) as f32 - 512.0) / 256.0;
        let sample = match random.below(4) {
            0 => samples[place].round() + off,
            1 => samples[place].round() + other - other.round(),
            _ => samples[place] + off / 16.0,
        };
        changed[place] = (sample * 256.0).round() / 256.0;
    }
    changed
}

/// The samples that take the library longest: of each beginning, for a quarter of its time the worst of all sorts of noise, and
/// then what a change makes worse.
fn worst(single: &mut Single, random: &mut Random) -> Vec<f32> {
    let own = |_| {
        let (start, mut worst, mut time) = (Instant::now(), Vec::new(), 0.0);
        while start.elapsed() < LOOKING / BEGINNINGS / 4 {
            let (_, frames) = sent(single.kind, GRADE, random);
            for (frame, (_, noise)) in frames.iter().zip(NOISES.iter().cycle()).take(20 * NOISES.len()) {
                let samples = noise(single.kind, frame, random);
                if let Some(longer) = single.slower(time, &samples) {
                    (worst, time) = (samples, longer);
                }
            }
        }
        while start.elapsed() < LOOKING / BEGINNINGS {
            let samples = changed(&worst, random);
            if let Some(longer) = single.slower(time, &samples) {
                (worst, time) = (samples, longer);
            }
        }
        (worst, time)
    };
    let all = (0..BEGINNINGS).map(own);
    all.max_by(|a, b| a.1.total_cmp(&b.1)).expect("there are beginnings").0
}

fn worst_samples(random: &mut Random) {
    println!("| kind | noise of a quarter of the limit, ns a frame | worst found, ns | ratio | by hand, ns | near |");
    println!("|---|---|---|---|---|---|");
    for kind in 3..=5 {
        let typical = noisy(kind, TYPICAL, random);
        let mut single = Single::new(kind, typical.clone());
        let worst = worst(&mut single, random);
        let [longest, hand] = [LIBRARY, BY_HAND].map(|read| single.least(2000, &worst, read));
        let usual = median(typical.iter().take(1000).map(|samples| single.least(64, samples, LIBRARY)).collect());
        let near = if BY_HAND(kind, GRADE, &worst, &mut vec![0; lengths(kind, GRADE).1]) { "yes" } else { "no" };
        println!("| {kind} | {usual:.0} | {longest:.0} | {:.1} | {hand:.0} | {near} |", longest / usual);
    }
}

pub fn print() {
    let mut random = Random(2);
    noises(&mut random);
    println!();
    recordings(&mut random);
    println!();
    worst_samples(&mut random);
}
