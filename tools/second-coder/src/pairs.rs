//! Pairs of recordings for the library to choose from, with what it must answer, the same on every run.

use std::collections::HashMap;
use std::ops::Range;

use crate::frame::{bit, send, Format, GRADES};
use crate::near::{limit, KINDS};
use crate::noisy::{as_samples, beside, coded, noise, noise_at, off, places, root, sign, with_noise};
use crate::random::Random;
use crate::recordings::{choose, closer, hear, Heard};
use crate::test_file::TestFile;
use crate::vectors::{dense, tied_edge};

/// The places that the program has for the samples of a recording.
const SAMPLES: usize = 68;

/// Two recordings that are lent.
struct Pair {
    kind: u8,
    grade: u8,
    first: Vec<f32>,
    second: Vec<f32>,
}

/// Which recording is handed back, 1 or 2, and 0 where it is the empty beginning of the first; and the number.
#[derive(Clone, Copy, Debug, PartialEq)]
struct Answer {
    chosen: u8,
    number: u8,
}

impl Answer {
    fn of(chosen: Result<u8, u8>) -> Answer {
        Answer { chosen: chosen.unwrap_or(0), number: chosen.err().unwrap_or(0) }
    }

    /// What the exported function answers.
    fn exported(self) -> i64 {
        match self.number {
            0 => self.chosen as i64,
            number => -(number as i64),
        }
    }
}

fn bits(samples: &[f32]) -> Vec<u32> {
    samples.iter().map(|x| x.to_bits()).collect()
}

/// The numbers that there are here.
const NUMBERS: [u8; 7] = [0, 18, 16, 15, 4, 2, 1];

impl Pair {
    fn answer(&self) -> Answer {
        Answer::of(closer(self.kind, self.grade, &self.first, &self.second))
    }

    /// The bits of the samples that are handed back.
    fn handed_back(&self, answer: Answer) -> Vec<u32> {
        match answer.chosen {
            0 => Vec::new(),
            1 => bits(&self.first),
            _ => bits(&self.second),
        }
    }

    /// Of two answers, whether they are the same to each check of the program: the slice by its bits, the number, and what the exported
    /// function answers.
    fn same(&self, one: Answer, other: Answer) -> [bool; 3] {
        [
            self.handed_back(one) == self.handed_back(other),
            one.number == other.number,
            one.exported() == other.exported(),
        ]
    }

    /// The record of README.md, with this answer.
    fn record(&self, answer: Answer) -> Vec<u8> {
        let lengths = [self.first.len(), self.second.len()];
        assert!(lengths.iter().all(|&length| length <= SAMPLES));
        let [first, second] = lengths.map(|length| length as u8);
        let mut record = vec![self.kind, self.grade, first, second, answer.chosen, answer.number, 0, 0];
        record.extend(self.first.iter().chain(&self.second).flat_map(|x| x.to_bits().to_le_bytes()));
        record
    }

    /// Answers that are right but for one thing: another recording or none, or the next of the numbers.
    fn wrong_answers(&self) -> Vec<Answer> {
        let right = self.answer();
        let place = NUMBERS.iter().position(|&number| number == right.number).unwrap();
        let mut wrong = vec![Answer { number: NUMBERS[(place + 1) % NUMBERS.len()], ..right }];
        wrong.extend((0..3).filter(|&chosen| chosen != right.chosen).map(|chosen| Answer { chosen, ..right }));
        wrong
    }
}

/// What recordings hear, each read once: most come in two pairs, which have both orders.
#[derive(Default)]
struct Known(HashMap<(u8, u8, Vec<u32>), Result<Heard, u8>>);

impl Known {
    fn heard(&mut self, pair: &Pair) -> [Result<Heard, u8>; 2] {
        [&pair.first, &pair.second].map(|samples| {
            let key = (pair.kind, pair.grade, bits(samples));
            self.0.entry(key).or_insert_with(|| hear(pair.kind, pair.grade, samples)).clone()
        })
    }

    fn answer(&mut self, pair: &Pair) -> Answer {
        let [first, second] = self.heard(pair);
        Answer::of(choose(&first, &second))
    }
}

/// The pairs as they are collected.
struct Pairs(Vec<Pair>);

impl Pairs {
    fn lend(&mut self, kind: u8, grade: u8, first: &[f32], second: &[f32]) {
        self.0.push(Pair { kind, grade, first: first.to_vec(), second: second.to_vec() });
    }

    fn put(&mut self, format: &Format, first: &[f32], second: &[f32]) {
        self.lend(format.m as u8, format.grade as u8, first, second);
    }

    /// In both orders.
    fn both(&mut self, format: &Format, one: &[f32], other: &[f32]) {
        self.put(format, one, other);
        self.put(format, other, one);
    }
}

/// A recording of a frame with this noise, in 256ths.
fn recorded(frame: &[i64], noise: &[i64]) -> Vec<f32> {
    as_samples(&with_noise(frame, noise))
}

/// A recording of a frame at this distance: there is noise for every distance, since four squares add up to any number.
fn at(frame: &[i64], total: i64, random: &mut Random) -> Vec<f32> {
    recorded(frame, &noise(total, frame.len(), random))
}

/// A distance well inside the limit.
fn inside(format: &Format, random: &mut Random) -> i64 {
    1 + random.below(limit(format.m as u8) as u64 * 7 / 8) as i64
}

/// The frame that is sent for a message, under a number of either parity.
fn sent(format: &Format, message: &[u8], random: &mut Random) -> Vec<i64> {
    send(format.m as u8, format.grade as u8, random.below(2) as u32, message).unwrap().frame
}

/// The points of the lattice that are added to a block: M at two places, M/2 at all eight, 2M at one.
#[derive(Clone, Copy)]
enum Point {
    Two,
    Half,
    One,
}

const POINTS: [Point; 3] = [Point::Two, Point::Half, Point::One];

/// A frame with such a point added in each of these blocks. The signs are such that no coordinate grows past 128 when none was past M.
fn moved(format: &Format, frame: &[i64], point: Point, blocks: Range<usize>, random: &mut Random) -> Vec<i64> {
    let scale = format.scale();
    let mut moved = frame.to_vec();
    for block in moved.chunks_exact_mut(8).skip(blocks.start).take(blocks.len()) {
        let against = |x: i64, random: &mut Random| if x == 0 { sign(random) } else { -x.signum() };
        match point {
            Point::Two => places(2, 8, random).into_iter().for_each(|p| block[p] += scale * against(block[p], random)),
            Point::One => {
                let p = random.below(8) as usize;
                block[p] += 2 * scale * against(block[p], random);
            }
            Point::Half => {
                let mut signs: Vec<i64> = block.iter().map(|&x| against(x, random)).collect();
                // The sum of the halves is even when that of the signs is a multiple of 4.
                let least = (0..8).min_by_key(|&p| block[p].abs()).unwrap();
                signs[least] *= if signs.iter().sum::<i64>() % 4 == 0 { 1 } else { -1 };
                block.iter_mut().zip(signs).for_each(|(x, sign)| *x += scale / 2 * sign);
            }
        }
    }
    moved
}

/// Another frame of the class of a sent one.
fn alike(format: &Format, frame: &[i64], random: &mut Random) -> Vec<i64> {
    let block = random.below(format.length() as u64 / 8) as usize;
    moved(format, frame, POINTS[random.below(3) as usize], block..block + 1, random)
}

/// Random noise inside the limit, about one frame, and about two of a class.
fn noisy(pairs: &mut Pairs, format: &Format, random: &mut Random) {
    for i in 0..16 {
        let frame = if i % 2 == 0 { coded(format, random) } else { sent(format, &dense(format, random), random) };
        let other = if i % 4 == 1 { alike(format, &frame, random) } else { frame.clone() };
        let totals = [inside(format, random), inside(format, random)];
        pairs.put(format, &at(&frame, totals[0], random), &at(&other, totals[1], random));
    }
}

/// Half way between two frames: on the limit for both where they are at the least distance.
fn half_way(frame: &[i64], other: &[i64]) -> Vec<i64> {
    frame.iter().zip(other).map(|(x, y)| 128 * (x + y)).collect()
}

/// Lengths that differ from that of a format: one less, one more, none, and those of other kinds.
fn other_lengths(format: &Format) -> Vec<usize> {
    let n = format.length();
    let others = (3..=6).map(|m| 1 << m).filter(|&other| other != n);
    [n - 1, n + 1, 0].into_iter().chain(others).collect()
}

/// Recordings of a frame that are refused: too far, unfit, and of another length.
fn refused(format: &Format, frame: &[i64], random: &mut Random) -> [Vec<Vec<f32>>; 3] {
    let (n, limit) = (format.length(), limit(format.m as u8));
    let exact = recorded(frame, &vec![0; n]);
    let mut far = vec![at(frame, limit, random), at(frame, limit + 1, random), vec![0.5; n]];
    far.extend(beside(format, frame, random).iter().map(|other| as_samples(&half_way(frame, other))));
    let mut unfit = Vec::new();
    for p in [0, 1 + random.below(n as u64 - 2) as usize, n - 1] {
        let way = sign(random) as f32;
        for x in [f32::NAN.copysign(way), f32::INFINITY * way, exact[p] + way / 512.0] {
            unfit.push(exact.clone());
            unfit.last_mut().unwrap()[p] = x;
        }
        // Past 128, where 128 is of the class of all zeros.
        unfit.push(vec![0.0; n]);
        unfit.last_mut().unwrap()[p] = (128.0 + 1.0 / 256.0) * way;
    }
    let mut both = vec![0.5; n];
    both[random.below(n as u64) as usize] = f32::NAN;
    unfit.push(both);
    let of_length = |length| exact.iter().copied().cycle().take(length).collect::<Vec<f32>>();
    let mut lengths: Vec<Vec<f32>> = other_lengths(format).into_iter().map(of_length).collect();
    lengths.push(vec![f32::NAN; n - 1]);
    lengths.push([&exact[..], &[f32::NAN]].concat());
    [far, unfit, lengths]
}

/// One that is near with each of these, in both orders.
fn one_refused(pairs: &mut Pairs, format: &Format, random: &mut Random) {
    let frame = coded(format, random);
    for (i, other) in refused(format, &frame, random).into_iter().flatten().enumerate() {
        let total = if i % 3 == 2 { limit(format.m as u8) - 1 } else { inside(format, random) };
        pairs.both(format, &at(&frame, total, random), &other);
    }
}

/// Two of these of each two sorts; the last of a sort, which has two faults, comes as the first recording too.
fn both_refused(pairs: &mut Pairs, format: &Format, random: &mut Random) {
    let sorts = refused(format, &coded(format, random), random);
    let any = |sort: &[Vec<f32>], random: &mut Random| sort[random.below(sort.len() as u64) as usize].clone();
    for one in &sorts {
        for other in &sorts {
            pairs.put(format, &one[one.len() - 1], &any(other, random));
            for _ in 0..4 {
                pairs.put(format, &any(one, random), &any(other, random));
            }
        }
    }
}

/// Zeros of wrong lengths: both of the same, and of two that make up twice the right one.
fn lengths(pairs: &mut Pairs, format: &Format) {
    let n = format.length();
    let zeros = vec![0.0; SAMPLES];
    for length in other_lengths(format) {
        pairs.put(format, &zeros[..length], &zeros[..length]);
    }
    for length in [0, n / 2, n - 1] {
        pairs.both(format, &zeros[..length], &zeros[..2 * n - length]);
    }
}

/// Just inside the limit, on it and just outside; and half way between two frames with a recording of either.
fn about_limit(pairs: &mut Pairs, format: &Format, random: &mut Random) {
    let limit = limit(format.m as u8);
    for one in -1..=1 {
        for other in -1..=1 {
            let frame = coded(format, random);
            pairs.put(format, &at(&frame, limit + one, random), &at(&frame, limit + other, random));
        }
    }
    let frame = coded(format, random);
    for other in beside(format, &frame, random) {
        for end in [&frame, &other] {
            let total = inside(format, random);
            pairs.both(format, &as_samples(&half_way(&frame, &other)), &at(end, total, random));
        }
    }
}

/// Equal distances in both orders: the noise at other places, with other signs, other noise of the same sum of squares, and one place off
/// by twice what four are. Every other pair is about two frames of a class.
fn equal(pairs: &mut Pairs, format: &Format, random: &mut Random) {
    let (n, limit) = (format.length(), limit(format.m as u8));
    for (i, total) in [1 + random.below(4) as i64, inside(format, random), limit - 1].into_iter().enumerate() {
        let one = noise(total, n, random);
        let mut turned: Vec<i64> = one.iter().map(|e| -e).collect();
        let order = places(n, n, random);
        let elsewhere: Vec<i64> = order.iter().map(|&p| one[p]).collect();
        turned.rotate_left(1);
        for (j, other) in [elsewhere, turned, noise(total, n, random)].into_iter().enumerate() {
            let frame = sent(format, &dense(format, random), random);
            let second = if (i + j) % 2 == 0 { frame.clone() } else { alike(format, &frame, random) };
            pairs.both(format, &recorded(&frame, &one), &recorded(&second, &other));
        }
    }
    let size = 1 + random.below(root(limit - 1) as u64 / 2) as i64;
    let frame = coded(format, random);
    let one = off(&places(1, n, random), 2 * size, n, random);
    let four = off(&places(4, n, random), size, n, random);
    pairs.both(format, &recorded(&frame, &one), &recorded(&frame, &four));
}

/// Distances that differ by 1 / 65,536, the least there is, in both orders; the last by one sample, off by a 256th.
fn one_part(pairs: &mut Pairs, format: &Format, random: &mut Random) {
    let (n, limit) = (format.length(), limit(format.m as u8));
    let any = [inside(format, random), inside(format, random)];
    for total in [0, 1, 2, 255, 256, limit / 2 - 1, limit / 2, limit - 2].into_iter().chain(any) {
        let frame = coded(format, random);
        pairs.both(format, &at(&frame, total, random), &at(&frame, total + 1, random));
    }
    for p in [0, 1 + random.below(n as u64 - 2) as usize, n - 1] {
        let frame = coded(format, random);
        let others: Vec<usize> = (0..n).filter(|&q| q != p).collect();
        let one = noise_at(&others, inside(format, random), n, random);
        let mut other = one.clone();
        other[p] = sign(random);
        pairs.both(format, &recorded(&frame, &one), &recorded(&frame, &other));
    }
}

/// One place off by about a half or about 1, where the nearest number becomes another, and by nearly the root of the limit; and one place
/// off against all, which are off by a little less together, and by a little more.
fn one_place(pairs: &mut Pairs, format: &Format, random: &mut Random) {
    let (n, end) = (format.length(), root(limit(format.m as u8) - 1));
    for (one, other) in [(128, 129), (127, 129), (100, 200), (255, 257), (end - 1, end)] {
        if other <= end {
            let frame = coded(format, random);
            let mut place = |size| off(&places(1, n, random), size, n, random);
            pairs.both(format, &recorded(&frame, &place(one)), &recorded(&frame, &place(other)));
        }
    }
    let size = root(end * end / 2);
    for past in [-64, 64] {
        let frame = coded(format, random);
        let one = off(&places(1, n, random), size, n, random);
        pairs.both(format, &recorded(&frame, &one), &at(&frame, size * size + past, random));
    }
}

/// Two frames of one class, of which the first is recorded closer, the second, or neither: those sent under numbers of both parities for
/// a message with ties, and a sent one with a point of the lattice added in the first block, in the last, or in all. Where the limit allows
/// it, also all ones, and ones with 129 at a place, which is recorded as 128.
fn one_class(pairs: &mut Pairs, format: &Format, random: &mut Random) {
    let blocks = format.length() / 8;
    let mut put = |frame: &[i64], other: &[i64], random: &mut Random| {
        let (near, far) = (inside(format, random), inside(format, random));
        let (near, far) = (near.min(far), near.max(far) + 1);
        pairs.both(format, &at(frame, near, random), &at(other, far, random));
        pairs.both(format, &at(frame, far, random), &at(other, near, random));
        pairs.put(format, &at(frame, near, random), &at(other, near, random));
    };
    let message = tied_edge(format, random);
    let [even, odd] = [0, 1].map(|number| send(format.m as u8, format.grade as u8, number, &message).unwrap().frame);
    put(&even, &odd, random);
    for (i, point) in POINTS.into_iter().enumerate() {
        let frame = sent(format, &dense(format, random), random);
        let places = [0..1, blocks - 1..blocks, 0..blocks][(i + format.grade) % 3].clone();
        let other = moved(format, &frame, point, places, random);
        put(&frame, &other, random);
    }
    if limit(format.m as u8) > 65_536 {
        let (n, ones) = (format.length(), vec![1; format.length()]);
        for total in [65_535, 65_536, 65_537] {
            let place = random.below(n as u64) as usize;
            let mut past = ones.clone();
            past[place] = 129;
            let past = recorded(&past, &off(&[place], 256, n, random));
            pairs.both(format, &past, &at(&ones, total, random));
        }
    }
}

/// A message with one or more bits of this byte changed.
fn with_byte_changed(format: &Format, message: &[u8], place: usize, random: &mut Random) -> Vec<u8> {
    let bits = (format.message_bits() - 8 * place).min(8);
    let mut other = message.to_vec();
    other[place] ^= 1 + random.below((1 << bits) - 1) as u8;
    other
}

/// Two messages with the same bytes, two of them exchanged.
fn with_bytes_exchanged(format: &Format, random: &mut Random) -> [Vec<u8>; 2] {
    loop {
        let message = dense(format, random);
        let chosen = places(2, message.len(), random);
        let mut other = message.clone();
        other.swap(chosen[0], chosen[1]);
        let spare = (format.message_bits()..8 * other.len()).any(|k| bit(&other, k));
        if other != message && !spare {
            return [message, other];
        }
    }
}

/// Messages that differ in one byte, each in turn; in one bit, the first, the last and any; by two bytes exchanged; and in all bytes. In
/// turn one is recorded without noise and the other just inside the limit, both without, both at one distance, or one part apart.
fn at_odds(pairs: &mut Pairs, format: &Format, random: &mut Random) {
    let (bits, bytes) = (format.message_bits(), format.message_bytes());
    let mut messages: Vec<[Vec<u8>; 2]> = Vec::new();
    for place in 0..bytes {
        let message = dense(format, random);
        let other = with_byte_changed(format, &message, place, random);
        messages.push([message, other]);
    }
    for k in [0, bits - 1, random.below(bits as u64) as usize, random.below(bits as u64) as usize] {
        let message = dense(format, random);
        let mut other = message.clone();
        other[k / 8] ^= 1 << (k % 8);
        messages.push([message, other]);
    }
    messages.push(with_bytes_exchanged(format, random));
    messages.push(with_bytes_exchanged(format, random));
    let message = dense(format, random);
    let other = (0..bytes).fold(message.clone(), |other, place| with_byte_changed(format, &other, place, random));
    messages.push([message, other]);
    let (furthest, some) = (limit(format.m as u8) - 1, inside(format, random));
    let totals = [(0, furthest), (furthest, 0), (0, 0), (some, some), (some, some + 1), (some + 1, some)];
    for ([one, other], (near, far)) in messages.iter().zip(totals.into_iter().cycle()) {
        let frames = [sent(format, one, random), sent(format, other, random)];
        pairs.both(format, &at(&frames[0], near, random), &at(&frames[1], far, random));
    }
}

/// Two frames at the least distance, as they are; and a 256th off half way between them, to the side of each, so that the two recordings
/// differ by two 256ths.
fn beside_another(pairs: &mut Pairs, format: &Format, random: &mut Random) {
    let none = vec![0; format.length()];
    for _ in 0..2 {
        let frame = coded(format, random);
        for other in beside(format, &frame, random) {
            pairs.both(format, &recorded(&frame, &none), &recorded(&other, &none));
            let half = half_way(&frame, &other);
            let apart: Vec<usize> = (0..half.len()).filter(|&p| frame[p] != other[p]).collect();
            let p = apart[random.below(apart.len() as u64) as usize];
            let [one, two] = [&frame, &other].map(|end| {
                let mut nearer = half.clone();
                nearer[p] += (256 * end[p] - half[p]).signum();
                as_samples(&nearer)
            });
            pairs.both(format, &one, &two);
        }
    }
}

/// The same recording twice: without noise, with noise, just inside the limit, and refused in each way; and none at all.
fn twice(pairs: &mut Pairs, format: &Format, random: &mut Random) {
    let frame = coded(format, random);
    let mut all: Vec<Vec<f32>> = refused(format, &frame, random).map(|sort| sort[0].clone()).to_vec();
    all.push(Vec::new());
    for total in [0, inside(format, random), limit(format.m as u8) - 1] {
        all.push(at(&frame, total, random));
    }
    all.iter().for_each(|samples| pairs.put(format, samples, samples));
}

/// Zeros with a minus sign against zeros without, which are the same number: at all places, at the first, at the last, and with noise at
/// the others, equal and not.
fn minus_zeros(pairs: &mut Pairs, format: &Format, random: &mut Random) {
    let n = format.length();
    let minus = |samples: &[f32], places: &[usize]| {
        let mut samples = samples.to_vec();
        places.iter().for_each(|&p| samples[p] = -0.0);
        samples
    };
    let zeros = vec![0.0; n];
    let all: Vec<usize> = (0..n).collect();
    for places in [&all[..], &[0], &[n - 1]] {
        pairs.both(format, &zeros, &minus(&zeros, places));
    }
    let zeros = vec![0; n];
    let total = inside(format, random);
    for more in [0, 1] {
        let one = recorded(&zeros, &noise_at(&all[2..], total, n, random));
        let other = recorded(&zeros, &noise_at(&all[2..], total + more, n, random));
        pairs.both(format, &minus(&one, &[0]), &minus(&other, &[1]));
    }
}

/// Wrong kinds and grades with all else good, with one recording refused, with both, and with lengths that differ; with recordings of a
/// kind that there is.
fn wrong(pairs: &mut Pairs) {
    let mut all = Vec::new();
    for kind in [0, 1, 2, 6, 7, 131, 255] {
        all.extend([0, 1, 4, 5].map(|grade| (kind, grade, if kind == 6 { 6 } else { kind % 3 + 3 })));
    }
    for kind in KINDS {
        all.extend([0, 5, 6, 129, 255].map(|grade| (kind, grade, kind)));
    }
    for (kind, grade, m) in all {
        let n = 1usize << m;
        let (zeros, far, unfit) = (vec![0.0; n], vec![0.5; n], vec![f32::NAN; n]);
        for (first, second) in [
            (&zeros[..], &zeros[..]),
            (&zeros, &far),
            (&unfit, &zeros),
            (&far, &unfit),
            (&zeros[1..], &zeros),
            (&unfit[1..], &far[1..]),
            (&[], &zeros),
            (&[], &[]),
        ] {
            pairs.lend(kind, grade, first, second);
        }
    }
}

/// The pairs that are put in.
fn once(put: impl FnOnce(&mut Pairs)) -> Vec<Pair> {
    let mut pairs = Pairs(Vec::new());
    put(&mut pairs);
    pairs.0
}

/// The pairs that are put in for each kind and grade.
fn each(mut put: impl FnMut(&mut Pairs, &Format)) -> Vec<Pair> {
    let formats = KINDS.flat_map(|kind| GRADES.map(move |grade| Format::new(kind, grade).unwrap()));
    once(|pairs| formats.for_each(|format| put(pairs, &format)))
}

/// The pairs of each sort.
fn sorts() -> [(&'static str, Vec<Pair>); 14] {
    let mut random = Random::new(9);
    let random = &mut random;
    [
        ("noise inside", each(|pairs, format| noisy(pairs, format, random))),
        ("one refused", each(|pairs, format| one_refused(pairs, format, random))),
        ("both refused", each(|pairs, format| both_refused(pairs, format, random))),
        ("lengths", each(lengths)),
        ("about the limit", each(|pairs, format| about_limit(pairs, format, random))),
        ("equal distances", each(|pairs, format| equal(pairs, format, random))),
        ("one part apart", each(|pairs, format| one_part(pairs, format, random))),
        ("one place off", each(|pairs, format| one_place(pairs, format, random))),
        ("frames of one class", each(|pairs, format| one_class(pairs, format, random))),
        ("at odds", each(|pairs, format| at_odds(pairs, format, random))),
        ("frames beside each other", each(|pairs, format| beside_another(pairs, format, random))),
        ("the same twice", each(|pairs, format| twice(pairs, format, random))),
        ("minus zeros", each(|pairs, format| minus_zeros(pairs, format, random))),
        ("kinds and grades", once(wrong)),
    ]
}

/// Pairs of which either is chosen, none, and of every number, with recordings that differ at one place alone, in a sign alone, in their
/// length alone, or not at all: with these wrong answers are planted.
fn planted() -> Vec<Pair> {
    let frame = send(4, 1, 1, &[0x20, 0, 0, 0, 0]).unwrap().frame;
    let exact: Vec<f32> = frame.iter().map(|&x| x as f32).collect();
    let all = |by: f32| exact.iter().map(|x| x + by).collect::<Vec<f32>>();
    let one = |p: usize| {
        let mut samples = exact.clone();
        samples[p] += 1.0 / 256.0;
        samples
    };
    let zeros = vec![0.0; 16];
    let mut minus = zeros.clone();
    minus[15] = -0.0;
    let longer = [&exact[..], &[0.0]].concat();
    let mut pairs = Pairs(Vec::new());
    for (first, second) in [
        (&all(0.25), &exact),
        (&exact, &all(-0.25)),
        (&exact, &one(0)),
        (&one(7), &exact),
        (&exact, &one(15)),
        (&zeros, &minus),
        (&exact, &exact),
        (&exact, &longer),
        (&exact[1..].to_vec(), &exact),
        (&Vec::new(), &exact),
        (&exact, &Vec::new()),
        (&all(f32::NAN), &exact),
        (&exact, &zeros),
        (&all(0.5), &all(f32::INFINITY)),
        (&all(1.0 / 512.0), &longer),
        (&longer, &all(0.5)),
    ] {
        pairs.lend(4, 1, first, second);
    }
    pairs.lend(4, 0, &exact, &all(0.25));
    pairs.lend(6, 1, &exact, &all(0.25));
    pairs.0
}

/// What the program counts.
const CHECKS: [&str; 3] = ["slice", "number", "exported"];

/// What stands in the file: how many pairs of each sort, how many are answered by each number, of how many none, the first and the second
/// is handed back, and how many have a wrong answer.
pub struct Counts {
    pub sorts: Vec<(&'static str, usize)>,
    pub numbers: [usize; 19],
    pub chosen: [usize; 3],
    pub wrong: usize,
}

/// All pairs in the format of README.md, those with wrong answers and one that is cut short last; and their counts.
pub fn pairs_file() -> (TestFile, Counts) {
    let sorts = sorts();
    let of_sort = sorts.iter().map(|(name, pairs)| (*name, pairs.len())).collect();
    let mut counts = Counts { sorts: of_sort, numbers: [0; 19], chosen: [0; 3], wrong: 0 };
    let mut file = TestFile::new(&CHECKS, "pair");
    let mut put = |pair: &Pair, right: Answer, answer: Answer| {
        let checks: Vec<(usize, bool)> = pair.same(right, answer).into_iter().enumerate().collect();
        file.put(&pair.record(answer), &checks);
    };
    let mut known = Known::default();
    for pair in sorts.iter().flat_map(|(_, pairs)| pairs) {
        let answer = known.answer(pair);
        counts.numbers[answer.number as usize] += 1;
        counts.chosen[answer.chosen as usize] += 1;
        put(pair, answer, answer);
    }
    for pair in planted() {
        for answer in pair.wrong_answers() {
            counts.wrong += 1;
            put(&pair, pair.answer(), answer);
        }
    }
    let first = &sorts[0].1[0];
    file.cut_short(&first.record(first.answer()));
    (file, counts)
}

#[cfg(test)]
mod tests {
    use super::*;
    use crate::frame::read_open;
    use crate::near::{frames_within, gap, in_256ths};
    use crate::refusal;
    use crate::test_file::fields_apart;

    /// A pair with what each recording hears, and the right answer.
    struct Case {
        pair: Pair,
        heard: [Result<Heard, u8>; 2],
        right: Answer,
    }

    impl Case {
        fn recordings(&self) -> [&[f32]; 2] {
            [&self.pair.first, &self.pair.second]
        }

        /// The numbers of the two, 0 where one is near.
        fn numbers(&self) -> [u8; 2] {
            [0, 1].map(|i| self.heard[i].as_ref().err().copied().unwrap_or(0))
        }

        fn one_refused(&self) -> bool {
            self.numbers().iter().filter(|&&number| number == 0).count() == 1
        }

        fn both_refused(&self) -> bool {
            !self.numbers().contains(&0)
        }

        /// Both near to one message.
        fn both_near(&self) -> bool {
            self.numbers() == [0, 0] && self.right.number == 0
        }

        fn at_odds(&self) -> bool {
            self.right.number == 18
        }

        /// Both near to one message, and equally.
        fn equal(&self) -> bool {
            self.both_near() && self.heard[0].as_ref().unwrap().parts == self.heard[1].as_ref().unwrap().parts
        }

        /// This answer where the test is met, else the right one.
        fn answer_where(&self, met: bool, chosen: u8, number: u8) -> Answer {
            if met {
                Answer { chosen, number }
            } else {
                self.right
            }
        }

        /// Another number where there is none chosen, and the test is met.
        fn number_where(&self, met: bool, number: u8) -> Answer {
            self.answer_where(met, 0, number)
        }

        /// The answer when the recordings are heard otherwise.
        fn heard_as(&self, other: impl Fn(usize, &Result<Heard, u8>) -> Result<Heard, u8>) -> Answer {
            Answer::of(choose(&other(0, &self.heard[0]), &other(1, &self.heard[1])))
        }

        /// The answer when a recording that is near has another distance.
        fn distance(&self, other: impl Fn(&Case, usize, &Heard) -> i64) -> Answer {
            self.heard_as(|i, heard| heard.clone().map(|heard| Heard { parts: other(self, i, &heard), ..heard }))
        }

        /// The answer when this part of a message stands for the whole.
        fn message(&self, other: impl Fn(&Heard) -> Vec<u8>) -> Answer {
            self.heard_as(|_, heard| heard.clone().map(|heard| Heard { message: other(&heard), ..heard }))
        }

        /// The answer when other samples are read in place of a recording that is refused by this number.
        fn taken_as(&self, number: u8, other: impl Fn(usize, &[f32]) -> Vec<f32>) -> Answer {
            self.heard_as(|i, heard| match heard {
                Err(refused) if *refused == number => {
                    hear(self.pair.kind, self.pair.grade, &other(i, self.recordings()[i]))
                }
                _ => heard.clone(),
            })
        }

        /// Cut or filled up with zeros to the length of the kind.
        fn resized(&self, samples: &[f32]) -> Vec<f32> {
            let mut samples = samples.to_vec();
            samples.resize(1 << self.pair.kind, 0.0);
            samples
        }

        /// The samples of a recording in 256ths, which are fit.
        fn samples(&self, i: usize) -> Vec<i64> {
            self.recordings()[i].iter().map(|&x| in_256ths(x).unwrap()).collect()
        }

        /// How far each sample is off a frame, in 256ths.
        fn off(&self, i: usize, frame: &[i64]) -> Vec<i64> {
            self.samples(i).iter().zip(frame).map(|(t, x)| (t - 256 * x).abs()).collect()
        }

        /// The squared distance of a recording from a frame.
        fn parts(&self, i: usize, frame: &[i64]) -> i64 {
            squares(&self.off(i, frame))
        }
    }

    /// The sum of squares.
    fn squares(off: &[i64]) -> i64 {
        off.iter().map(|e| e * e).sum()
    }

    /// What someone could answer who does it wrong.
    type Wrong = fn(&Case) -> Answer;

    /// Wrong choices of a recording, and wrong numbers.
    const CHOICES: [(&str, Wrong); 41] = [
        ("the farther", |case| case.answer_where(case.both_near() && !case.equal(), 3 - case.right.chosen, 0)),
        ("the second on equal distance", |case| case.answer_where(case.equal(), 2, 0)),
        ("none on equal distance", |case| case.answer_where(case.equal(), 0, 0)),
        ("at odds on equal distance", |case| case.number_where(case.equal(), 18)),
        ("the first where both are near", |case| case.answer_where(case.both_near(), 1, 0)),
        ("the second where both are near", |case| case.answer_where(case.both_near(), 2, 0)),
        ("the first always", |case| Answer { chosen: 1, ..case.right }),
        ("the first where any is chosen", |case| case.answer_where(case.right.number == 0, 1, 0)),
        ("the second where any is chosen", |case| case.answer_where(case.right.number == 0, 2, 0)),
        ("a refused first handed back", |case| case.answer_where(case.one_refused() && case.numbers()[0] != 0, 1, 0)),
        ("a refused second handed back", |case| case.answer_where(case.one_refused() && case.numbers()[1] != 0, 2, 0)),
        ("a refused first refuses both", |case| case.number_where(case.numbers()[0] != 0, case.numbers()[0])),
        ("a refused second refuses both", |case| {
            case.number_where(case.one_refused() && case.numbers()[1] != 0, case.numbers()[1])
        }),
        ("the other one chosen with the refused one's number", |case| {
            let number = case.numbers().into_iter().max().unwrap();
            Answer { number: if case.one_refused() { number } else { case.right.number }, ..case.right }
        }),
        ("one refused is at odds", |case| case.number_where(case.one_refused(), 18)),
        ("none where one is refused", |case| case.number_where(case.one_refused(), 0)),
        ("16 where one is too far", |case| case.number_where(case.one_refused() && case.numbers().contains(&16), 16)),
        ("18 where one is too far", |case| case.number_where(case.one_refused() && case.numbers().contains(&16), 18)),
        ("18 where both are too far", |case| case.number_where(case.numbers() == [16, 16], 18)),
        ("the first where both are too far", |case| case.answer_where(case.numbers() == [16, 16], 1, 0)),
        ("one too far handed back before one that is refused otherwise", |case| {
            let place = case.numbers().iter().position(|&number| number == 16);
            case.answer_where(case.both_refused() && place.is_some(), place.unwrap_or(0) as u8 + 1, 0)
        }),
        ("16 at odds", |case| case.number_where(case.at_odds(), 16)),
        ("3 at odds", |case| case.number_where(case.at_odds(), 3)),
        ("0 at odds", |case| case.number_where(case.at_odds(), 0)),
        ("the first at odds", |case| case.answer_where(case.at_odds(), 1, 0)),
        ("the second at odds", |case| case.answer_where(case.at_odds(), 2, 0)),
        ("the closer at odds", |case| case.message(|_| Vec::new())),
        ("the closer at odds, with 18", |case| Answer {
            chosen: case.message(|_| Vec::new()).chosen,
            number: case.right.number,
        }),
        ("the whole first at odds, with 18", |case| case.answer_where(case.at_odds(), 1, 18)),
        ("the whole first where both are refused", |case| case.answer_where(case.both_refused(), 1, case.right.number)),
        ("the whole second where both are refused", |case| {
            case.answer_where(case.both_refused(), 2, case.right.number)
        }),
        ("the second's number", |case| case.number_where(case.both_refused(), case.numbers()[1])),
        ("the larger number", |case| case.number_where(case.both_refused(), case.numbers().into_iter().max().unwrap())),
        ("the smaller number", |case| {
            case.number_where(case.both_refused(), case.numbers().into_iter().min().unwrap())
        }),
        ("18 where two numbers differ", |case| {
            case.number_where(case.both_refused() && case.numbers()[0] != case.numbers()[1], 18)
        }),
        ("0 where both are refused", |case| case.number_where(case.both_refused(), 0)),
        ("3 for 4", |case| case.number_where(case.right.number == 4, 3)),
        ("15 for 16", |case| case.number_where(case.right.number == 16, 15)),
        ("the first's reading for both", |case| Answer::of(choose(&case.heard[0], &case.heard[0]))),
        ("the second's reading for both", |case| Answer::of(choose(&case.heard[1], &case.heard[1]))),
        ("the two exchanged", |case| Answer::of(choose(&case.heard[1], &case.heard[0]))),
    ];

    /// Wrong ways to compare messages, with the number of bytes from which on a message can have them.
    const MESSAGES: [(&str, usize, Wrong); 12] = [
        ("the first byte", 0, |case| case.message(|heard| heard.message[..1].to_vec())),
        ("the last byte", 0, |case| case.message(|heard| heard.message[heard.message.len() - 1..].to_vec())),
        ("all but the first", 0, |case| case.message(|heard| heard.message[1..].to_vec())),
        ("all but the last", 0, |case| case.message(|heard| heard.message[..heard.message.len() - 1].to_vec())),
        ("all but the middle", 0, |case| {
            case.message(|heard| {
                let mut message = heard.message.clone();
                message.remove(message.len() / 2);
                message
            })
        }),
        ("four bytes", 5, |case| case.message(|heard| heard.message.iter().copied().take(4).collect())),
        ("eight bytes", 9, |case| case.message(|heard| heard.message.iter().copied().take(8).collect())),
        ("the sum of the bytes", 0, |case| {
            case.message(|heard| vec![heard.message.iter().fold(0, |sum: u8, byte| sum.wrapping_add(*byte))])
        }),
        ("without the lowest bit", 0, |case| {
            case.message(|heard| {
                let mut message = heard.message.clone();
                message[0] &= !1;
                message
            })
        }),
        ("without the highest bit", 0, |case| {
            let bits = Format::new(case.pair.kind, case.pair.grade).unwrap().message_bits();
            case.message(|heard| {
                let mut message = heard.message.clone();
                *message.last_mut().unwrap() &= !(1 << ((bits - 1) % 8));
                message
            })
        }),
        ("frames", 0, |case| case.message(|heard| heard.frame.iter().map(|&x| x as u8).collect())),
        ("sent frames alone are near", 0, |case| {
            case.heard_as(|_, heard| {
                let heard = heard.clone()?;
                let sends = |number| send(case.pair.kind, case.pair.grade, number, &heard.message).unwrap().frame;
                if [0, 1].map(sends).contains(&heard.frame) {
                    Ok(heard)
                } else {
                    Err(16)
                }
            })
        }),
    ];

    /// Wrong distances, with the first kind that can have them: a frame of kind 3 is one block.
    const DISTANCES: [(&str, u8, Wrong); 15] = [
        ("in 256ths", 3, |case| case.distance(|_, _, heard| heard.parts / 256)),
        ("in parts of 1 / 32,768", 3, |case| case.distance(|_, _, heard| heard.parts / 2)),
        ("whole", 3, |case| case.distance(|_, _, heard| heard.parts / 65_536)),
        ("rounded to 11 bits", 3, |case| {
            case.distance(|_, _, heard| {
                let places = (64 - heard.parts.leading_zeros()).saturating_sub(11);
                (heard.parts + (1 << places >> 1)) >> places << places
            })
        }),
        ("not squared", 3, |case| case.distance(|case, i, heard| case.off(i, &heard.frame).iter().sum())),
        ("the largest alone", 3, |case| {
            case.distance(|case, i, heard| case.off(i, &heard.frame).into_iter().max().unwrap())
        }),
        ("how many are off", 3, |case| {
            case.distance(|case, i, heard| case.off(i, &heard.frame).iter().filter(|&&e| e > 0).count() as i64)
        }),
        ("without the first coordinate", 3, |case| {
            case.distance(|case, i, heard| squares(&case.off(i, &heard.frame)[1..]))
        }),
        ("without the last coordinate", 3, |case| {
            case.distance(|case, i, heard| squares(case.off(i, &heard.frame).split_last().unwrap().1))
        }),
        ("the first block alone", 4, |case| case.distance(|case, i, heard| squares(&case.off(i, &heard.frame)[..8]))),
        ("the last block alone", 4, |case| {
            case.distance(|case, i, heard| squares(&case.off(i, &heard.frame)[heard.frame.len() - 8..]))
        }),
        ("from the nearest numbers", 3, |case| {
            case.distance(|case, i, _| {
                let nearest = |&t: &i64| gap(t, (t + 128).div_euclid(256));
                case.samples(i).iter().map(nearest).sum()
            })
        }),
        ("from the first's frame", 3, |case| {
            let first = case.heard[0].as_ref().map(|heard| heard.frame.clone());
            case.distance(|case, i, heard| case.parts(i, first.as_ref().unwrap_or(&heard.frame)))
        }),
        ("from the frame that is sent", 3, |case| {
            case.distance(|case, i, heard| {
                case.parts(i, &send(case.pair.kind, case.pair.grade, 0, &heard.message).unwrap().frame)
            })
        }),
        ("the energy of the samples", 3, |case| case.distance(|case, i, _| squares(&case.samples(i)))),
    ];

    /// Recordings taken that are refused, or refused that are near.
    const TAKEN: [(&str, Wrong); 13] = [
        ("the first's length alone is tested", |case| {
            case.taken_as(4, |i, samples| if i == 1 { case.resized(samples) } else { samples.to_vec() })
        }),
        ("the second's length alone is tested", |case| {
            case.taken_as(4, |i, samples| if i == 0 { case.resized(samples) } else { samples.to_vec() })
        }),
        ("a longer one is cut", |case| {
            case.taken_as(4, |_, samples| samples[..samples.len().min(1 << case.pair.kind)].to_vec())
        }),
        ("two of one length are taken", |case| {
            let [first, second] = case.recordings().map(|samples| samples.len());
            case.taken_as(4, |_, samples| if first == second { case.resized(samples) } else { samples.to_vec() })
        }),
        ("lengths tested together", |case| {
            let [first, second] = case.recordings().map(|samples| samples.len());
            let fit = first + second == 2 << case.pair.kind;
            case.taken_as(4, |_, samples| if fit { case.resized(samples) } else { samples.to_vec() })
        }),
        ("512ths are taken", |case| {
            case.taken_as(15, |_, samples| samples.iter().map(|x| (x * 256.0).floor() / 256.0).collect())
        }),
        ("cut at the ends", |case| {
            case.taken_as(15, |_, samples| samples.iter().map(|x| x.clamp(-128.0, 128.0)).collect())
        }),
        ("the first sample of the first untested", |case| {
            case.taken_as(15, |i, samples| match (i, samples.split_first()) {
                (0, Some((_, rest))) => [&[case.pair.second.first().copied().unwrap_or(0.0)], rest].concat(),
                _ => samples.to_vec(),
            })
        }),
        ("the last sample of the second untested", |case| {
            case.taken_as(15, |i, samples| match (i, samples.split_last()) {
                (1, Some((_, rest))) => [rest, &[case.pair.first.last().copied().unwrap_or(0.0)]].concat(),
                _ => samples.to_vec(),
            })
        }),
        ("the limit is near", |case| {
            case.heard_as(|i, heard| match heard {
                Err(16) => {
                    let levels = Format::new(case.pair.kind, case.pair.grade).unwrap().levels;
                    let mut near = frames_within(&case.samples(i), limit(case.pair.kind) + 1, levels);
                    let (frame, parts) = near.pop().ok_or(16)?;
                    let (message, _) = read_open(case.pair.kind, case.pair.grade, &frame)?;
                    Ok(Heard { frame, message, parts })
                }
                _ => heard.clone(),
            })
        }),
        ("just below the limit is far", |case| {
            case.heard_as(|_, heard| {
                heard
                    .clone()
                    .and_then(|heard| if heard.parts == limit(case.pair.kind) - 1 { Err(16) } else { Ok(heard) })
            })
        }),
        ("-0.0 is unfit", |case| {
            case.heard_as(|i, heard| {
                let minus = case.recordings()[i].iter().any(|x| x.to_bits() == 0x8000_0000);
                heard.clone().and_then(|heard| if minus { Err(15) } else { Ok(heard) })
            })
        }),
        ("-0.0 is off by its bits", |case| {
            case.distance(|case, i, heard| {
                heard.parts + case.recordings()[i].iter().filter(|x| x.to_bits() == 0x8000_0000).count() as i64
            })
        }),
    ];

    /// Whether a sample is unfit.
    fn any_unfit(samples: &[f32]) -> bool {
        samples.iter().any(|&x| in_256ths(x).is_none())
    }

    /// Wrong orders of the tests of one recording.
    const ORDERS: [(&str, Wrong); 2] = [
        ("15 before 4", |case| case.number_where(case.right.number == 4 && any_unfit(&case.pair.first), 15)),
        ("16 before 15", |case| case.number_where(case.right.number == 15 && case.pair.first.contains(&0.5), 16)),
    ];

    /// Wrong answers to wrong kinds and grades.
    const WRONG_FORMATS: [(&str, Wrong); 12] = [
        ("2 before 1", |case| case.number_where(case.right.number == 1 && !GRADES.contains(&case.pair.grade), 2)),
        ("4 before 1", |case| case.number_where(case.pair.kind == 6 && case.pair.first.len() != 64, 4)),
        ("4 before 2", |case| {
            case.number_where(case.right.number == 2 && case.pair.first.len() != 1 << case.pair.kind, 4)
        }),
        ("15 before 1", |case| case.number_where(case.right.number == 1 && any_unfit(&case.pair.first), 15)),
        ("15 before 2", |case| case.number_where(case.right.number == 2 && any_unfit(&case.pair.first), 15)),
        ("16 before 1", |case| case.number_where(case.right.number == 1 && case.pair.first.contains(&0.5), 16)),
        ("16 before 2", |case| case.number_where(case.right.number == 2 && case.pair.first.contains(&0.5), 16)),
        ("kind 6 is read", |case| {
            let zeros = |samples: &[f32]| samples == [0.0; 64];
            case.answer_where(case.pair.kind == 6 && case.right.number == 1 && zeros(&case.pair.first), 1, 0)
        }),
        ("a wrong grade is read as the last", |case| {
            case.heard_as(|i, heard| match heard {
                Err(refusal::GRADE) => hear(case.pair.kind, 4, case.recordings()[i]),
                _ => heard.clone(),
            })
        }),
        ("kind and grade tested for the first alone", |case| {
            case.heard_as(|i, heard| match heard {
                Err(refusal::GRADE) if i == 1 => hear(case.pair.kind, 4, case.recordings()[i]),
                _ => heard.clone(),
            })
        }),
        ("the whole first with 1", |case| case.answer_where(case.right.number == 1, 1, 1)),
        ("the whole first with 2", |case| case.answer_where(case.right.number == 2, 1, 2)),
    ];

    fn cases() -> Vec<Case> {
        let mut known = Known::default();
        let pairs = sorts().into_iter().flat_map(|(_, pairs)| pairs);
        pairs.map(|pair| Case { heard: known.heard(&pair), right: known.answer(&pair), pair }).collect()
    }

    fn formats() -> impl Iterator<Item = (u8, u8)> {
        KINDS.flat_map(|kind| GRADES.map(move |grade| (kind, grade)))
    }

    /// Whether the program tells a wrong way from the right one in some of these cases; where it hands back another recording, by the slice.
    fn told(cases: &[&Case], wrong: Wrong) -> bool {
        let answers: Vec<(&Case, Answer)> = cases.iter().map(|&case| (case, wrong(case))).collect();
        let same = |(case, answer): &(&Case, Answer)| case.pair.same(case.right, *answer);
        let another = answers.iter().any(|(case, answer)| answer.chosen != case.right.chosen);
        assert_eq!(answers.iter().any(|answer| !same(answer)[0]), another);
        answers.iter().any(|answer| same(answer) != [true; 3])
    }

    /// Each wrong way is told apart at each kind and grade that can have it.
    #[test]
    fn wrong_answers_are_told_apart() {
        let cases = cases();
        for (kind, grade) in formats() {
            let of = |case: &&Case| (case.pair.kind, case.pair.grade) == (kind, grade);
            let of: Vec<&Case> = cases.iter().filter(of).collect();
            let bytes = Format::new(kind, grade).unwrap().message_bytes();
            for (name, wrong) in CHOICES.iter().chain(&TAKEN).chain(&ORDERS) {
                assert!(told(&of, *wrong), "kind {kind}, grade {grade}, {name}");
            }
            for (name, least, wrong) in MESSAGES {
                assert_eq!(told(&of, wrong), bytes >= least, "kind {kind}, grade {grade}, {name}");
            }
            for (name, least, wrong) in DISTANCES {
                assert_eq!(told(&of, wrong), kind >= least, "kind {kind}, grade {grade}, {name}");
            }
        }
        let of: Vec<&Case> = cases.iter().filter(|case| [1, 2].contains(&case.right.number)).collect();
        for (name, wrong) in WRONG_FORMATS {
            assert!(told(&of, wrong), "{name}");
        }
    }

    /// At each kind and grade each two of near, 4, 15 and 16 come, and of two that are near each of: the first closer, the second, neither,
    /// and other messages, one part apart, at the ends of what is near, and with each byte of the message alone another.
    #[test]
    fn every_two_come() {
        let cases = cases();
        for (kind, grade) in formats() {
            let of: Vec<&Case> =
                cases.iter().filter(|case| (case.pair.kind, case.pair.grade) == (kind, grade)).collect();
            let comes = |met: &dyn Fn(&Case) -> bool| of.iter().any(|case| met(case));
            for first in [0, 4, 15, 16] {
                for second in [0, 4, 15, 16] {
                    assert!(
                        comes(&|case| case.numbers() == [first, second]),
                        "kind {kind}, grade {grade}, {first}, {second}"
                    );
                }
            }
            // With the same bits or others, and about the same frame or two.
            let frames = |case: &Case| [0, 1].map(|i| case.heard[i].as_ref().unwrap().frame.clone());
            for same in [false, true] {
                let alike = |case: &Case| frames(case)[0] == frames(case)[1];
                for chosen in [1, 2] {
                    assert!(comes(&|case| case.both_near() && alike(case) == same && case.right.chosen == chosen));
                }
                assert!(comes(&|case| case.equal() && alike(case) == same));
                assert!(comes(&|case| case.equal() && (bits(&case.pair.first) == bits(&case.pair.second)) == same));
            }
            let parts = |case: &Case| [0, 1].map(|i| case.heard[i].as_ref().unwrap().parts);
            for apart in [-1, 1] {
                assert!(comes(&|case| case.both_near() && parts(case)[0] - parts(case)[1] == apart));
            }
            for ends in [[0, limit(kind) - 1], [limit(kind) - 1, 0], [0, 0]] {
                assert!(comes(&|case| case.at_odds() && parts(case) == ends));
            }
            assert!(comes(&|case| case.both_near() && parts(case) == [limit(kind) - 2, limit(kind) - 1]));
            assert!(comes(&|case| case.equal() && parts(case)[0] == limit(kind) - 1));
            // Messages that differ in one byte: each.
            for place in 0..Format::new(kind, grade).unwrap().message_bytes() {
                let messages = |case: &Case| [0, 1].map(|i| case.heard[i].as_ref().unwrap().message.clone());
                let one = |case: &Case| {
                    let [one, other] = messages(case);
                    (0..one.len()).all(|p| (one[p] != other[p]) == (p == place))
                };
                assert!(comes(&|case| case.at_odds() && one(case)), "kind {kind}, grade {grade}, byte {place}");
            }
        }
    }

    /// The recordings that are refused are refused by what they are made for.
    #[test]
    fn refused_recordings() {
        let mut random = Random::new(51);
        for (kind, grade) in formats() {
            let format = Format::new(kind, grade).unwrap();
            let frame = coded(&format, &mut random);
            for (sort, number) in refused(&format, &frame, &mut random).iter().zip([16, 15, 4]) {
                assert!(sort.iter().all(|samples| hear(kind, grade, samples) == Err(number)));
            }
        }
    }

    /// Frames with a point added are others of the class, with no coordinate past 128.
    #[test]
    fn moved_frames_are_of_the_class() {
        let mut random = Random::new(52);
        for (kind, grade) in formats() {
            let format = Format::new(kind, grade).unwrap();
            for i in 0..60 {
                let message = if i % 2 == 0 { dense(&format, &mut random) } else { tied_edge(&format, &mut random) };
                let frame = sent(&format, &message, &mut random);
                let blocks =
                    [0..1, format.length() / 8 - 1..format.length() / 8, 0..format.length() / 8][i % 3].clone();
                let moved = moved(&format, &frame, POINTS[i / 3 % 3], blocks, &mut random);
                assert!(moved != frame && moved.iter().all(|x| x.abs() <= 128));
                assert_eq!(read_open(kind, grade, &moved).unwrap().0, message);
            }
        }
    }

    /// An f32 holds every distance below the limits, in parts or whole: to compare such is not wrong.
    #[test]
    fn an_f32_rounds_no_distance() {
        for parts in 0..limit(5) {
            let distance = parts as f32 / 65_536.0;
            assert_eq!((distance * 65_536.0) as i64, parts);
        }
    }

    /// A planted record differs from the right one in one field, what is lent is the same, and no two are the same; and some check fails.
    #[test]
    fn one_thing_is_wrong() {
        let mut failed: Vec<[bool; 3]> = Vec::new();
        for pair in planted() {
            let (right, wrong) = (pair.answer(), pair.wrong_answers());
            let samples = [4 * pair.first.len(), 4 * pair.second.len()];
            for (i, &answer) in wrong.iter().enumerate() {
                let sizes = [1; 8].into_iter().chain(samples);
                let [one, other] = [right, answer].map(|answer| pair.record(answer));
                assert_eq!(fields_apart(&one, &other, sizes), 1);
                assert_eq!((&one[..4], &one[6..]), (&other[..4], &other[6..]));
                assert!(!wrong[..i].contains(&answer));
                assert_ne!(pair.same(right, answer), [true; 3]);
                failed.push(pair.same(right, answer).map(|same| !same));
            }
        }
        // The slice alone, with the exported answer, or this alone; and the number with the exported answer.
        for checks in [[true, false, false], [true, false, true], [false, false, true], [false, true, true]] {
            assert!(failed.contains(&checks));
        }
        // Every number and every choice has a wrong one.
        for number in NUMBERS {
            assert!(planted().iter().any(|pair| pair.answer().number == number));
        }
        assert!((0..3).all(|chosen| planted().iter().any(|pair| pair.answer().chosen == chosen)));
    }

    #[test]
    fn every_number_of_a_pair_comes() {
        let (file, Counts { sorts, numbers, chosen, wrong }) = pairs_file();
        assert!((0..19).all(|number| (numbers[number] > 0) == NUMBERS.contains(&(number as u8))));
        let pairs: usize = numbers.iter().sum();
        assert_eq!(sorts.iter().map(|(_, count)| count).sum::<usize>(), pairs);
        assert_eq!((chosen.iter().sum::<usize>(), chosen[0]), (pairs, pairs - numbers[0]));
        assert!(file.bytes == pairs_file().0.bytes);
        // Whatever is planted, the program counts each right pair by each check.
        let last = file.printed().lines().rev().take(4).map(str::to_string).collect::<Vec<_>>();
        let counted = |line: &str| line.rsplit(' ').next().unwrap().parse::<usize>().unwrap();
        assert!(last[1..].iter().all(|line| (pairs..pairs + wrong).contains(&counted(line))));
        assert_eq!(last.iter().map(|line| counted(line)).sum::<usize>(), 3 * (pairs + wrong) + 1);
    }
}
