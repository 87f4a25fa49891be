//! Noisy samples for the library to read, with what it must answer and leave, the same on every run.

use crate::calls::NAN;
use crate::frame::{leader, send, Format, GRADES};
use crate::near::{limit, read_near, Near, KINDS};
use crate::random::Random;
use crate::test_file::{one_bit, places as places_of, TestFile};
use crate::vectors::{dense, edge, with_bits};

/// The places that the program has for message bytes and for samples.
const BYTES: usize = 56;
const SAMPLES: usize = 68;

/// How many message bytes past those that are lent stand in a record.
const PAST: usize = 4;

/// The message byte at a place before the call.
fn before(place: usize) -> u8 {
    0xA5 ^ place as u8
}

/// What stands in the lent distance before the call, in turn: no distance is one of these.
const DISTANCES: [f64; 4] = [-1.0, NAN, -0.0, f64::INFINITY];

struct Reading {
    kind: u8,
    grade: u8,
    samples: Vec<f32>,
    bytes: usize,
    /// The distance before the call.
    distance: f64,
}

/// The number, and the distance and the message bytes that are left.
#[derive(Clone)]
struct Answer {
    number: u8,
    distance: f64,
    bytes: Vec<u8>,
}

impl Reading {
    /// The message bytes that are lent, and more.
    fn lent(&self) -> Vec<u8> {
        (0..self.bytes + PAST).map(before).collect()
    }

    /// With this number, and all as it came.
    fn refused(&self, number: u8) -> Answer {
        Answer { number, distance: self.distance, bytes: self.lent() }
    }

    /// With this message and distance.
    fn found(&self, message: &[u8], distance: f64) -> Answer {
        let mut bytes = self.lent();
        bytes[..message.len()].copy_from_slice(message);
        Answer { number: 0, distance, bytes }
    }

    fn near(&self) -> Result<Near, u8> {
        read_near(self.kind, self.grade, &self.samples, self.bytes)
    }

    /// The answer for what the near reading gives.
    fn answer(&self, near: &Result<Near, u8>) -> Answer {
        match near {
            Ok(near) => self.found(&near.message, near.distance),
            Err(number) => self.refused(*number),
        }
    }

    /// The record of README.md, with this answer.
    fn record(&self, answer: &Answer) -> Vec<u8> {
        assert!(self.bytes + PAST <= BYTES && self.samples.len() <= SAMPLES);
        let mut record =
            vec![self.kind, self.grade, self.bytes as u8, self.samples.len() as u8, answer.number, 0, 0, 0];
        for distance in [self.distance, answer.distance] {
            record.extend(distance.to_bits().to_le_bytes());
        }
        record.extend(self.samples.iter().flat_map(|x| x.to_bits().to_le_bytes()));
        record.extend(self.lent());
        record.extend(&answer.bytes);
        record
    }

    /// Answers that are right but for one thing: the number, the distance, or a byte.
    fn wrong_answers(&self) -> Vec<Answer> {
        let right = self.answer(&self.near());
        let mut wrong = vec![
            Answer { number: right.number ^ 16, ..right.clone() },
            Answer { distance: one_bit(right.distance), ..right.clone() },
        ];
        for place in places_of(self.bytes, self.bytes + PAST) {
            wrong.push(right.clone());
            wrong.last_mut().unwrap().bytes[place] ^= 1;
        }
        wrong
    }
}

/// The readings as they are collected.
struct Readings(Vec<Reading>);

impl Readings {
    fn lend(&mut self, kind: u8, grade: u8, samples: Vec<f32>, bytes: usize) {
        let distance = DISTANCES[self.0.len() % DISTANCES.len()];
        self.0.push(Reading { kind, grade, samples, bytes, distance });
    }

    /// Samples in 256ths.
    fn put(&mut self, format: &Format, samples: &[i64]) {
        self.lend(format.m as u8, format.grade as u8, as_samples(samples), format.message_bytes());
    }

    /// A frame with noise.
    fn noisy(&mut self, format: &Format, frame: &[i64], noise: &[i64]) {
        self.put(format, &with_noise(frame, noise));
    }
}

/// Samples that are given in 256ths.
pub fn as_samples(samples: &[i64]) -> Vec<f32> {
    samples.iter().map(|&t| t as f32 / 256.0).collect()
}

/// A frame with noise, in 256ths; the sign of the noise is turned where a sample would lie past the ends.
pub fn with_noise(frame: &[i64], noise: &[i64]) -> Vec<i64> {
    let sample = |(&x, &e): (&i64, &i64)| if (256 * x + e).abs() <= 32_768 { 256 * x + e } else { 256 * x - e };
    frame.iter().zip(noise).map(sample).collect()
}

/// A number from −size to size.
pub fn signed(size: i64, random: &mut Random) -> i64 {
    random.below(2 * size as u64 + 1) as i64 - size
}

/// One of the two signs.
pub fn sign(random: &mut Random) -> i64 {
    2 * random.below(2) as i64 - 1
}

/// A choice of so many places out of n.
pub fn places(count: usize, n: usize, random: &mut Random) -> Vec<usize> {
    let mut all: Vec<usize> = (0..n).collect();
    (0..count).map(|i| all.swap_remove(random.below((n - i) as u64) as usize)).collect()
}

pub fn root(x: i64) -> i64 {
    (x as u64).isqrt() as i64
}

/// The numbers up to the most, from a random one on.
fn around(most: i64, random: &mut Random) -> impl Iterator<Item = i64> {
    let start = random.below(most as u64 + 1) as i64;
    (start..=most).chain(0..start)
}

/// Four numbers whose squares add up to the total. There are such for every total; the search starts at random.
fn four_squares(total: i64, random: &mut Random) -> [i64; 4] {
    for a in around(root(total), random) {
        for b in around(root(total - a * a), random) {
            let rest = total - a * a - b * b;
            let is_square = |x: i64| root(x).pow(2) == x;
            if let Some(c) = (0..=root(rest)).find(|c| is_square(rest - c * c)) {
                return [a, b, c, root(rest - c * c)].map(|x| x * sign(random));
            }
        }
    }
    unreachable!("every number is a sum of four squares")
}

/// Noise of this size, and of random sign, at these places out of n.
pub fn off(places: &[usize], size: i64, n: usize, random: &mut Random) -> Vec<i64> {
    let mut noise = vec![0; n];
    for &p in places {
        noise[p] = size * sign(random);
    }
    noise
}

/// Noise whose squares add up to the total, at these places out of n, four or more.
pub fn noise_at(places: &[usize], total: i64, n: usize, random: &mut Random) -> Vec<i64> {
    let mut noise = vec![0; n];
    let mut rest = total;
    let (four, others) = places.split_first_chunk::<4>().unwrap();
    for (i, &p) in others.iter().enumerate() {
        // Three times an even share, which the square of a random number has for its mean.
        noise[p] = signed(root(3 * rest / (places.len() - i) as i64), random);
        rest -= noise[p].pow(2);
    }
    for (&p, x) in four.iter().zip(four_squares(rest, random)) {
        noise[p] = x;
    }
    noise
}

/// The same at all places.
pub fn noise(total: i64, n: usize, random: &mut Random) -> Vec<i64> {
    noise_at(&places(n, n, random), total, n, random)
}

/// A frame of the coding set with coordinates up to 124 in size, which need not be a sent one.
fn large(format: &Format, random: &mut Random) -> Vec<i64> {
    let step = 1 << format.levels.len();
    let frame = leader(format, &dense(format, random));
    frame.iter().map(|x| x % step + step * signed(124 / step - 1, random)).collect()
}

/// A frame of the coding set: sent for a message of random bits or on the edge, or with large coordinates.
pub fn coded(format: &Format, random: &mut Random) -> Vec<i64> {
    let message = match random.below(4) {
        0 => return large(format, random),
        1 => edge(format, random),
        _ => dense(format, random),
    };
    send(format.m as u8, format.grade as u8, random.below(2) as u32, &message).unwrap().frame
}

/// A random word that is 1 at 2^(m − r) places, of degree r: the product of r sums of places' bits.
fn flat(r: u32, m: u32, random: &mut Random) -> Vec<bool> {
    loop {
        let sums: Vec<(u64, u32)> = (0..r).map(|_| (random.below(1 << m), random.below(2) as u32)).collect();
        let one = |p: u64| sums.iter().all(|(mask, odd)| (mask & p).count_ones() % 2 == *odd);
        let word: Vec<bool> = (0..1 << m).map(one).collect();
        if word.iter().filter(|&&one| one).count() == 1 << (m - r) {
            return word;
        }
    }
}

/// Frames of the coding set beside this one, at four times the limit, which is the least distance: moved by 1 at a flat of level 0, by 2
/// at one of level 1, or past the last level at one place.
pub fn beside(format: &Format, frame: &[i64], random: &mut Random) -> Vec<Vec<i64>> {
    let m = format.m;
    let degrees = format.levels.iter().copied().chain([m]).enumerate();
    let least = degrees.filter(|&(level, r)| 65_536 << (2 * level as u32 + m - r) == 4 * limit(m as u8));
    let move_at = |(level, r): (usize, u32)| {
        let word = flat(r, m, random);
        // A bit that is raised from 0 or taken from 1 leaves the next level; the other way round the next level changes at the flat too.
        let way = sign(random);
        let moved = |(&x, one): (&i64, bool)| x + one as i64 * way * ((1 - 2 * (x >> level & 1)) << level);
        frame.iter().zip(word).map(moved).collect()
    };
    least.map(move_at).collect()
}

/// Frames of the coding set as they are: all zeros, sent ones, and large ones.
fn plain(readings: &mut Readings, format: &Format, random: &mut Random) {
    let (kind, grade) = (format.m as u8, format.grade as u8);
    let none = vec![0; format.length()];
    for message in [with_bits(format, &[]), dense(format, random), edge(format, random)] {
        for number in [0, 1] {
            readings.noisy(format, &send(kind, grade, number, &message).unwrap().frame, &none);
        }
    }
    for _ in 0..4 {
        readings.noisy(format, &large(format, random), &none);
    }
}

/// Noise well inside the limit.
fn inside(readings: &mut Readings, format: &Format, random: &mut Random) {
    for _ in 0..24 {
        let total = 1 + random.below(limit(format.m as u8) as u64 * 7 / 8) as i64;
        readings.noisy(format, &coded(format, random), &noise(total, format.length(), random));
    }
}

/// Noise so much past the limit, at all places and at four.
fn at_limit(readings: &mut Readings, format: &Format, past: i64, random: &mut Random) {
    let (total, n) = (limit(format.m as u8) + past, format.length());
    for i in 0..12 {
        let count = if i % 3 == 2 { 4 } else { n };
        let noise = noise_at(&places(count, n, random), total, n, random);
        readings.noisy(format, &coded(format, random), &noise);
    }
}

/// Exactly on the limit also by whole numbers: one place off by 1 or 2, two or four off by 1, or as many off by a half.
fn on_limit(readings: &mut Readings, format: &Format, random: &mut Random) {
    at_limit(readings, format, 0, random);
    let n = format.length();
    for size in [128, 256, 512] {
        let count = limit(format.m as u8) / (size * size);
        for _ in 0..if count > 0 { 3 } else { 0 } {
            let noise = off(&places(count as usize, n, random), size, n, random);
            readings.noisy(format, &coded(format, random), &noise);
        }
    }
}

/// Noise far past the limit, and samples that are random throughout.
fn far(readings: &mut Readings, format: &Format, random: &mut Random) {
    let (limit, n) = (limit(format.m as u8), format.length());
    for _ in 0..10 {
        let total = limit + random.below(7 * limit as u64) as i64;
        readings.noisy(format, &coded(format, random), &noise(total, n, random));
    }
    for size in [256 * format.scale(), 32_768] {
        for _ in 0..5 {
            let samples: Vec<i64> = (0..n).map(|_| signed(size, random)).collect();
            readings.put(format, &samples);
        }
    }
}

/// Half way between two frames at the least distance, which is on the limit for both, and a 256th nearer to either.
fn between(readings: &mut Readings, format: &Format, random: &mut Random) {
    for _ in 0..4 {
        let frame = coded(format, random);
        for other in beside(format, &frame, random) {
            let half: Vec<i64> = frame.iter().zip(&other).map(|(x, y)| 128 * (x + y)).collect();
            readings.put(format, &half);
            let places: Vec<usize> = (0..half.len()).filter(|&p| frame[p] != other[p]).collect();
            for end in [&frame, &other] {
                let p = places[random.below(places.len() as u64) as usize];
                let mut nearer = half.clone();
                nearer[p] += (256 * end[p] - half[p]).signum();
                readings.put(format, &nearer);
            }
        }
    }
}

/// One coordinate off: by about a half and about 1, by 1.5, and up to the limit and past it.
fn one_off(readings: &mut Readings, format: &Format, random: &mut Random) {
    let (n, end) = (format.length(), root(limit(format.m as u8)));
    for size in [127, 128, 129, 255, 256, 257, 384, end - 1, end, end + 1] {
        for p in [0, random.below(n as u64) as usize, n - 1] {
            readings.noisy(format, &coded(format, random), &off(&[p], size, n, random));
        }
    }
}

/// Several coordinates off by so much that the nearest number has another bit of this level, with noise at the others below the limit: by
/// more than a half for level 0, by more than 1 for level 1; and by exactly a half, or 1, which both bits are as near to.
fn changed(readings: &mut Readings, format: &Format, level: usize, random: &mut Random) {
    let (n, limit, half) = (format.length(), limit(format.m as u8), 128 << level);
    // As many as are below the limit together.
    let most = (limit - 1) / (half * half);
    for count in 1..=most {
        for i in 0..if most < 4 { 8 } else { 2 } {
            let far = places(count as usize, n, random);
            let largest = root((limit - 1) / count);
            let size = |random: &mut Random| match i % 4 {
                0 => half,
                1 => largest.min(half + 1),
                2 => largest,
                _ => half + random.below((largest - half) as u64 + 1) as i64,
            };
            let sizes: Vec<i64> = far.iter().map(|_| size(random)).collect();
            let rest = limit - sizes.iter().map(|e| e * e).sum::<i64>();
            let others: Vec<usize> = (0..n).filter(|p| !far.contains(p)).collect();
            let total = random.below(rest as u64) as i64;
            let mut noise = noise_at(&others, total, n, random);
            for (p, e) in far.into_iter().zip(sizes) {
                noise[p] = e * sign(random);
            }
            readings.noisy(format, &coded(format, random), &noise);
        }
    }
}

/// Frames with a level that is not a codeword, as they are and with noise; with two levels also with coordinates off by 1, so that level 1
/// has several words to be tried.
fn broken(readings: &mut Readings, format: &Format, random: &mut Random) {
    let (n, limit) = (format.length(), limit(format.m as u8));
    for level in 0..format.levels.len() {
        for i in 0..8 {
            let mut frame = coded(format, random);
            for p in places(1 + i % 2, n, random) {
                frame[p] += sign(random) << level;
            }
            let noise = match i / 2 {
                0 => vec![0; n],
                1 if level == 1 => {
                    off(&places(limit as usize / 65_536 - 1, n, random), 250 + 6 * (i % 2) as i64, n, random)
                }
                i => noise(limit * i as i64 / 4, n, random),
            };
            readings.noisy(format, &frame, &noise);
        }
    }
}

/// Frames with coordinates near −128 and 128, one of them and more past the ends where the limit allows it, with samples at the ends and
/// before them.
fn ends(readings: &mut Readings, format: &Format, random: &mut Random) {
    let (n, limit, step) = (format.length(), limit(format.m as u8), 1 << format.levels.len());
    for i in 0..20 {
        let message = if i < 2 { with_bits(format, &[]) } else { dense(format, random) };
        // The coordinate nearest to the end within it, and the next one past it.
        let pair = |x: i64, end: i64| {
            let inner = (0..step).map(|k| end - k * end.signum()).find(|y| (y - x) % step == 0).unwrap();
            (inner, inner + step * end.signum())
        };
        let pairs: Vec<(i64, i64)> =
            leader(format, &message).into_iter().map(|x| pair(x, 128 * sign(random))).collect();
        let mut frame: Vec<i64> = pairs.iter().map(|pair| pair.0).collect();
        let mut past: Vec<usize> = (0..n).filter(|&p| pairs[p].1.abs() == 129).collect();
        let count = random.below(limit as u64 / 65_536) as usize;
        while past.len() > count {
            past.swap_remove(random.below(past.len() as u64) as usize);
        }
        let others: Vec<usize> = (0..n).filter(|p| !past.contains(p)).collect();
        let room = limit - 65_536 * past.len() as i64;
        let total = if i % 4 == 0 { 0 } else { random.below(room as u64) as i64 };
        let mut noise = noise_at(&others, total, n, random);
        for p in past {
            frame[p] = pairs[p].1;
            noise[p] = 256;
        }
        readings.noisy(format, &frame, &noise);
    }
    for end in [-32_768, 32_768] {
        for t in [end, end - end / 32_768, end - end / 256] {
            readings.put(format, &vec![t; n]);
        }
    }
}

/// Coordinates off by a half, as many as there are below the limit and past it, and all.
fn halves(readings: &mut Readings, format: &Format, random: &mut Random) {
    let (n, most) = (format.length(), limit(format.m as u8) as usize / 16_384);
    for count in [1, most / 2, most - 1, most, most + 1, n] {
        for _ in 0..2 {
            let noise = off(&places(count, n, random), 128, n, random);
            readings.noisy(format, &coded(format, random), &noise);
        }
    }
}

/// Samples that are fit at the edge of it, and unfit ones.
fn edge_samples() -> Vec<f32> {
    let beside = |x: f32, step: i32| f32::from_bits(x.to_bits().wrapping_add_signed(step));
    let fit = [128.0, 1.0 / 256.0, 0.0, 128.0 - 1.0 / 256.0];
    let unfit = [
        f32::NAN,
        f32::INFINITY,
        beside(128.0, 1),
        beside(128.0, -1),
        128.0 + 1.0 / 256.0,
        1.0 / 512.0,
        1.0 / 256.0 + 1.0 / (1 << 30) as f32,
        beside(0.0, 1),
        f32::MIN_POSITIVE,
        128.0 - 1.0 / 512.0,
        129.0,
        32_768.0,
        8_388_608.0,
        (1u64 << 55) as f32,
        f32::MAX,
    ];
    fit.into_iter().chain(unfit).flat_map(|x| [x, -x]).collect()
}

/// Each of these at the first place, in the middle and at the last, alone, and with the rest too far; the frame is of multiples of 4.
fn unfit(readings: &mut Readings, format: &Format, random: &mut Random) {
    let (kind, grade, n, m) = (format.m as u8, format.grade as u8, format.length(), format.message_bytes());
    for x in edge_samples() {
        for p in [0, 1 + random.below(n as u64 - 2) as usize, n - 1] {
            let mut samples: Vec<f32> = (0..n).map(|_| 4.0 * signed(30, random) as f32).collect();
            samples[p] = x;
            readings.lend(kind, grade, samples, m);
        }
        let mut samples = vec![0.5; n];
        samples[random.below(n as u64) as usize] = x;
        readings.lend(kind, grade, samples, m);
    }
    // All unfit, and each in another way.
    readings.lend(kind, grade, vec![f32::NAN; n], m);
    readings.lend(kind, grade, edge_samples().into_iter().cycle().skip(8).take(n).collect(), m);
}

/// Samples of three sorts: all zeros, too far, and unfit.
fn fillings(n: usize) -> [Vec<f32>; 3] {
    [vec![0.0; n], vec![0.5; n], vec![f32::NAN; n]]
}

/// Lengths that differ: one less, one more, none, and those of other kinds, with all that is tested later right and wrong.
fn lengths(readings: &mut Readings, format: &Format) {
    let (kind, grade, n, m) = (format.m as u8, format.grade as u8, format.length(), format.message_bytes());
    let others: Vec<Format> = (3..=6).map(|kind| Format::new(kind, grade).unwrap()).collect();
    let mut all: Vec<(usize, usize)> = others.iter().map(|other| (other.length(), other.message_bytes())).collect();
    for other in [0, n - 1, n + 1] {
        all.extend([(other, m), (other, m - 1), (other, 0)]);
    }
    all.extend(others.iter().map(|other| (other.length(), m)));
    all.extend(others.iter().map(|other| (n, other.message_bytes())));
    all.extend([0, m - 1, m + 1, 2 * m].map(|other| (n, other)));
    for (n, bytes) in all.into_iter().filter(|&lengths| lengths != (n, m)) {
        for samples in fillings(n) {
            readings.lend(kind, grade, samples, bytes);
        }
    }
}

/// Wrong kinds and grades with the lengths of a kind and grade that there are, and with lengths that differ.
fn wrong(readings: &mut Readings) {
    let mut all = Vec::new();
    for kind in [0, 1, 2, 6, 7, 8, 131, 255] {
        all.extend(
            [0, 1, 4, 5].map(|grade| (kind, grade, if kind == 6 { 6 } else { kind % 3 + 3 }, grade.clamp(1, 4))),
        );
    }
    for kind in KINDS {
        all.extend([0, 5, 6, 129, 255].map(|grade| (kind, grade, kind, if grade == 0 { 1 } else { 4 })));
    }
    for (kind, grade, good_kind, good_grade) in all {
        let format = Format::new(good_kind, good_grade).unwrap();
        for samples in fillings(format.length()) {
            readings.lend(kind, grade, samples, format.message_bytes());
        }
        for samples in fillings(format.length() - 1) {
            readings.lend(kind, grade, samples, 1);
        }
        readings.lend(kind, grade, Vec::new(), 0);
    }
}

/// The readings that are put in.
fn once(put: impl FnOnce(&mut Readings)) -> Vec<Reading> {
    let mut readings = Readings(Vec::new());
    put(&mut readings);
    readings.0
}

/// The readings that are put in for each kind and grade.
fn each(mut put: impl FnMut(&mut Readings, &Format)) -> Vec<Reading> {
    let formats = KINDS.flat_map(|kind| GRADES.map(move |grade| Format::new(kind, grade).unwrap()));
    once(|readings| formats.for_each(|format| put(readings, &format)))
}

/// The readings of each sort.
fn sorts() -> [(&'static str, Vec<Reading>); 16] {
    let mut random = Random::new(6);
    let random = &mut random;
    [
        ("no noise", each(|readings, format| plain(readings, format, random))),
        ("inside", each(|readings, format| inside(readings, format, random))),
        ("just inside", each(|readings, format| at_limit(readings, format, -1, random))),
        ("on the limit", each(|readings, format| on_limit(readings, format, random))),
        ("just outside", each(|readings, format| at_limit(readings, format, 1, random))),
        ("far", each(|readings, format| far(readings, format, random))),
        ("between two frames", each(|readings, format| between(readings, format, random))),
        ("one coordinate off", each(|readings, format| one_off(readings, format, random))),
        ("changed bits of level 0", each(|readings, format| changed(readings, format, 0, random))),
        ("changed bits of level 1", each(|readings, format| changed(readings, format, 1, random))),
        ("broken levels", each(|readings, format| broken(readings, format, random))),
        ("ends", each(|readings, format| ends(readings, format, random))),
        ("halves", each(|readings, format| halves(readings, format, random))),
        ("unfit", each(|readings, format| unfit(readings, format, random))),
        ("lengths", each(lengths)),
        ("kinds and grades", once(wrong)),
    ]
}

/// Readings that are near, with noise and without, too far, and refused: with these wrong answers are planted.
fn planted() -> Vec<Reading> {
    let frame = send(4, 1, 1, &[0x20, 0, 0, 0, 0]).unwrap().frame;
    let samples = |noise: f32| frame.iter().map(|&x| x as f32 + noise).collect();
    let reading = |samples, distance| Reading { kind: 4, grade: 1, samples, bytes: 5, distance };
    vec![
        reading(samples(0.25), -1.0),
        reading(samples(0.0), NAN),
        reading(samples(0.5), -0.0),
        reading(samples(f32::INFINITY), f64::INFINITY),
        Reading { bytes: 4, ..reading(samples(0.0), -1.0) },
    ]
}

/// What the program counts: readings of the library and of the exported function.
const CHECKS: [&str; 2] = ["library", "exported"];

/// What stands in the file: how many readings of each sort, how many are answered by each number, and how many have a wrong answer.
pub struct Counts {
    pub sorts: Vec<(&'static str, usize)>,
    pub numbers: [usize; 17],
    pub wrong: usize,
}

/// All readings in the format of README.md, those with wrong answers and one that is cut short last; and their counts.
pub fn noisy_file() -> (TestFile, Counts) {
    let sorts = sorts();
    let of_sort = sorts.iter().map(|(name, readings)| (*name, readings.len())).collect();
    let mut counts = Counts { sorts: of_sort, numbers: [0; 17], wrong: 0 };
    let mut file = TestFile::new(&CHECKS, "reading");
    let mut put = |reading: &Reading, answer: &Answer, passed: [bool; 2]| {
        file.put(&reading.record(answer), &[(0, passed[0]), (1, passed[1])]);
    };
    for reading in sorts.iter().flat_map(|(_, readings)| readings) {
        let answer = reading.answer(&reading.near());
        counts.numbers[answer.number as usize] += 1;
        put(reading, &answer, [true; 2]);
    }
    for reading in planted() {
        let right = reading.answer(&reading.near());
        for answer in reading.wrong_answers() {
            counts.wrong += 1;
            // The library gives a distance with the number 0 alone; to the exported function one is lent.
            let of_the_distance = answer.distance.to_bits() != right.distance.to_bits();
            put(&reading, &answer, [of_the_distance && right.number != 0, false]);
        }
    }
    let first = &sorts[0].1[0];
    file.cut_short(&first.record(&first.answer(&first.near())));
    (file, counts)
}

#[cfg(test)]
mod tests {
    use super::*;
    use crate::frame::read_open;
    use crate::near::{frames_within, gap, in_256ths};
    use crate::test_file::fields_apart;

    /// A reading with its right answer, and the near frame where there is one.
    struct Read {
        reading: Reading,
        right: Answer,
        near: Option<Near>,
    }

    impl Read {
        fn format(&self) -> Format {
            Format::new(self.reading.kind, self.reading.grade).unwrap()
        }

        /// The samples in 256ths, where they are fit.
        fn samples(&self) -> Option<Vec<i64>> {
            self.reading.samples.iter().map(|&x| in_256ths(x)).collect()
        }

        /// The squared distance, in parts of 1 / 65,536.
        fn parts(&self) -> i64 {
            self.near.as_ref().map_or(0, |near| (near.distance * 65_536.0) as i64)
        }

        /// How far each sample is off the near frame, in 256ths; none where there is no near frame.
        fn off(&self) -> Vec<i64> {
            let Some(near) = &self.near else { return Vec::new() };
            self.samples().unwrap().iter().zip(&near.frame).map(|(t, x)| (t - 256 * x).abs()).collect()
        }

        /// The frame of the numbers nearest to the samples, of those where the samples are fit.
        fn rounded(&self) -> Option<Vec<i64>> {
            Some(self.samples()?.iter().map(|t| (t + 128).div_euclid(256)).collect())
        }

        /// The answer by this number where the test is met, else the right one.
        fn number_where(&self, met: bool, number: u8) -> Answer {
            if met {
                self.reading.refused(number)
            } else {
                self.right.clone()
            }
        }

        /// Too far, though it is near, where the test is met.
        fn far_where(&self, met: bool) -> Answer {
            self.number_where(self.right.number == 0 && met, 16)
        }

        /// Refused by 15, though it is not, where a sample meets the test.
        fn unfit_where(&self, met: impl Fn(f32) -> bool) -> Answer {
            let met = self.reading.samples.iter().any(|&x| met(x));
            self.number_where([0, 16].contains(&self.right.number) && met, 15)
        }

        /// The answer to other samples, where it is refused by 15.
        fn taken_as(&self, other: impl Fn(f32) -> f32) -> Answer {
            if self.right.number != 15 {
                return self.right.clone();
            }
            let samples = self.reading.samples.iter().map(|&x| other(x)).collect();
            let reading = Reading { samples, ..self.reading };
            reading.answer(&reading.near())
        }

        /// The first of these frames, where it is too far.
        fn taken(&self, frames: impl Fn(&Format, &[i64]) -> Vec<(Vec<i64>, i64)>) -> Answer {
            if self.right.number == 16 {
                if let Some((frame, parts)) = frames(&self.format(), &self.samples().unwrap()).pop() {
                    let read = read_open(self.reading.kind, self.reading.grade, &frame);
                    return self.reading.found(&read.map_or(Vec::new(), |read| read.0), parts as f64 / 65_536.0);
                }
            }
            self.right.clone()
        }

        /// Another distance, where it is near.
        fn distance(&self, other: f64) -> Answer {
            let near = self.right.number == 0;
            Answer { distance: if near { other } else { self.right.distance }, ..self.right.clone() }
        }
    }

    /// What someone could answer who does it wrong.
    type Wrong = fn(&Read) -> Answer;

    const ALL: [(&str, Wrong); 37] = [
        ("the limit is near", |read| {
            read.taken(|format, samples| frames_within(samples, limit(format.m as u8) + 1, format.levels))
        }),
        ("just below the limit is far", |read| read.far_where(read.parts() == limit(read.reading.kind) - 1)),
        ("the limit of the kind below", |read| read.far_where(read.parts() >= limit(read.reading.kind) / 2)),
        ("level 0 untested", |read| read.taken(|format, samples| frames_within(samples, limit(format.m as u8), &[]))),
        ("level 1 untested", |read| read.taken(|format, samples| frames_within(samples, limit(format.m as u8), &[1]))),
        ("the nearest numbers without a search", |read| {
            read.far_where(
                read.rounded().is_some_and(|frame| read.near.as_ref().is_some_and(|near| near.frame != frame)),
            )
        }),
        ("the rounded frame's refusal", |read| match read.rounded() {
            Some(frame) if [0, 16].contains(&read.right.number) => {
                let refused = read_open(read.reading.kind, read.reading.grade, &frame).err();
                read.number_where(refused.is_some(), refused.unwrap_or(0))
            }
            _ => read.right.clone(),
        }),
        ("level 1 without a search", |read| read.far_where(read.off().iter().any(|&e| e > 256))),
        ("one changed bit at most", |read| read.far_where(read.off().iter().filter(|&&e| e > 256).count() > 1)),
        ("two changed bits at most", |read| read.far_where(read.off().iter().filter(|&&e| e > 256).count() > 2)),
        ("sent frames alone", |read| {
            let (kind, grade) = (read.reading.kind, read.reading.grade);
            let sent = |near: &Near| {
                [0, 1].iter().any(|&number| send(kind, grade, number, &near.message).unwrap().frame == near.frame)
            };
            read.far_where(!read.near.as_ref().is_some_and(sent))
        }),
        ("coordinates up to 128 alone", |read| {
            read.far_where(read.near.as_ref().is_some_and(|near| near.frame.iter().any(|x| x.abs() > 128)))
        }),
        ("the search cut at three places", |read| read.far_where(read.off().iter().filter(|&&e| e > 128).count() > 3)),
        ("15 before 3", |read| read.number_where(read.right.number == 3 && read.samples().is_none(), 15)),
        ("15 before 4", |read| read.number_where(read.right.number == 4 && read.samples().is_none(), 15)),
        ("3 before 4", |read| {
            read.number_where(read.right.number == 4 && read.reading.bytes != read.format().message_bytes(), 3)
        }),
        ("16 before 15", |read| read.number_where(read.right.number == 15 && read.reading.samples.contains(&0.5), 16)),
        ("-0.0 is unfit", |read| read.unfit_where(|x| x.to_bits() == 0x8000_0000)),
        ("128 is unfit", |read| read.unfit_where(|x| x == 128.0)),
        ("-128 is unfit", |read| read.unfit_where(|x| x == -128.0)),
        ("0 is unfit", |read| read.unfit_where(|x| x == 0.0)),
        ("512ths are taken", |read| {
            read.taken_as(|x| if (x * 512.0).fract() == 0.0 { (x * 256.0).floor() / 256.0 } else { x })
        }),
        ("rounded to 256ths", |read| read.taken_as(|x| (x * 256.0).round() / 256.0)),
        ("cut at the ends", |read| read.taken_as(|x| x.clamp(-128.0, 128.0))),
        ("no number is 0", |read| read.taken_as(|x| if x.is_nan() { 0.0 } else { x })),
        ("the first sample alone is tested", |read| {
            read.number_where(read.right.number == 15 && in_256ths(read.reading.samples[0]).is_some(), 16)
        }),
        ("the last sample is not tested", |read| {
            let rest = read.reading.samples.split_last().map_or(&[][..], |(_, rest)| rest);
            read.number_where(read.right.number == 15 && rest.iter().all(|&x| in_256ths(x).is_some()), 16)
        }),
        ("the distance by 256", |read| read.distance(read.parts() as f64 / 256.0)),
        ("the distance not squared", |read| read.distance((read.parts() as f64 / 65_536.0).sqrt())),
        ("the distance without its last coordinate", |read| {
            let off = read.off();
            let rest = off.split_last().map_or(&[][..], |(_, rest)| rest);
            read.distance(rest.iter().map(|e| e * e).sum::<i64>() as f64 / 65_536.0)
        }),
        ("the distance of the rounded frame", |read| {
            let rounded = read.rounded().unwrap_or_default();
            let samples = read.samples().unwrap_or_default();
            read.distance(samples.iter().zip(&rounded).map(|(&t, &x)| gap(t, x)).sum::<i64>() as f64 / 65_536.0)
        }),
        ("no distance stored", |read| read.distance(read.reading.distance)),
        ("no message written", |read| Answer { bytes: read.reading.lent(), ..read.right.clone() }),
        ("the message written though it is too far", |read| match read.right.number {
            16 => Answer { number: 16, ..read.reading.found(&vec![0; read.reading.bytes], read.reading.distance) },
            _ => read.right.clone(),
        }),
        ("the distance stored though it is too far", |read| match read.right.number {
            16 => Answer { distance: 0.0, ..read.right.clone() },
            _ => read.right.clone(),
        }),
        ("the message cleared on a refusal", |read| match read.right.number {
            15 => Answer { number: 15, ..read.reading.found(&vec![0; read.reading.bytes], read.reading.distance) },
            _ => read.right.clone(),
        }),
        ("the distance stored on a refusal", |read| match read.right.number {
            1..=15 => Answer { distance: 0.0, ..read.right.clone() },
            _ => read.right.clone(),
        }),
    ];

    /// All readings with their right answers.
    fn reads(sorts: impl IntoIterator<Item = (&'static str, Vec<Reading>)>) -> Vec<Read> {
        let readings = sorts.into_iter().flat_map(|(_, readings)| readings);
        let read = |reading: Reading| {
            let near = reading.near();
            Read { right: reading.answer(&near), near: near.ok(), reading }
        };
        readings.map(read).collect()
    }

    /// Each wrong answer is told apart at each kind and grade that can have it: kind 3 has one level, and frames past 128 are too far for
    /// it; two changed bits of level 1 are too far at kind 4.
    #[test]
    fn wrong_answers_are_told_apart() {
        let reads = reads(sorts());
        for (name, wrong) in ALL {
            for (kind, grade) in KINDS.flat_map(|kind| GRADES.map(move |grade| (kind, grade))) {
                let least = match name {
                    "level 1 untested" | "level 1 without a search" | "coordinates up to 128 alone" => 4,
                    "the search cut at three places" => 4,
                    "one changed bit at most" | "two changed bits at most" => 5,
                    _ => 3,
                };
                let told = |read: &Read| read.reading.record(&wrong(read)) != read.reading.record(&read.right);
                let of = |read: &&Read| (read.reading.kind, read.reading.grade) == (kind, grade);
                assert_eq!(reads.iter().filter(of).any(told), kind >= least, "kind {kind}, grade {grade}, {name}");
            }
        }
        // Kind 6 is answered 1 also where nothing else is wrong.
        let six = |read: &Read| read.reading.kind == 6 && read.reading.samples == [0.0; 64];
        assert!(reads.iter().any(|read| six(read) && read.reading.bytes == 22 && read.right.number == 1));
    }

    /// One, two and three bits of level 1 have to be changed, and several words of it are below the limit.
    #[test]
    fn bits_of_level_1_are_changed() {
        let all = reads(sorts().into_iter().filter(|(name, _)| *name == "changed bits of level 1"));
        for (kind, grade) in (4..=5).flat_map(|kind| GRADES.map(move |grade| (kind, grade))) {
            let of = |read: &&Read| (read.reading.kind, read.reading.grade, read.right.number) == (kind, grade, 0);
            let reads: Vec<&Read> = all.iter().filter(of).collect();
            let changed = |read: &Read| read.off().iter().filter(|&&e| e > 256).count();
            for count in 1..=3 {
                let enough = reads.iter().filter(|read| changed(read) == count).count() >= 4;
                assert_eq!(enough, kind == 5 || count == 1, "kind {kind}, grade {grade}, {count} bits");
            }
            let alive = |read: &&&Read| frames_within(&read.samples().unwrap(), limit(kind), &[1]).len() > 1;
            assert!(reads.iter().filter(alive).count() >= 8, "kind {kind}, grade {grade}");
        }
    }

    /// A planted record differs from the right one in one thing alone that is answered or left, and no two are the same.
    #[test]
    fn one_thing_is_wrong() {
        for reading in planted() {
            let (n, bytes) = (4 * reading.samples.len(), reading.bytes + PAST);
            let sizes: Vec<usize> = [1, 1, 1, 1, 1, 3, 8, 8, n, bytes].into_iter().chain(vec![1; bytes]).collect();
            let right = reading.record(&reading.answer(&reading.near()));
            let wrong: Vec<Vec<u8>> = reading.wrong_answers().iter().map(|answer| reading.record(answer)).collect();
            for (i, record) in wrong.iter().enumerate() {
                assert_eq!(fields_apart(&right, record, sizes.clone()), 1);
                // What is lent is the same.
                let lent = 24..24 + n + bytes;
                assert_eq!((&right[..4], &right[5..16]), (&record[..4], &record[5..16]));
                assert_eq!(right[lent.clone()], record[lent]);
                assert!(!wrong[..i].contains(record));
            }
        }
    }

    #[test]
    fn every_number_of_a_reading_comes() {
        let (file, Counts { sorts, numbers, .. }) = noisy_file();
        assert!((0..17).all(|number| (numbers[number] > 0) == [0, 1, 2, 3, 4, 15, 16].contains(&number)));
        assert_eq!(sorts.iter().map(|(_, count)| count).sum::<usize>(), numbers.iter().sum());
        assert!(file.bytes == noisy_file().0.bytes);
    }
}
