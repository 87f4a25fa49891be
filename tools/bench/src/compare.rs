//! Compares every answer of the library with the hand-tuned coder's, and with the second coder's.

use std::fmt::Debug;
use std::ops::RangeInclusive;
use std::sync::atomic::{AtomicU64, Ordering};

use crate::coders::{Coder, Figures, Head, CODERS};
use crate::{dense, lengths, levels, noise};
use bench::hand::FURTHEST;
use bench::random::Random;
use bench::{exported, far, hand};
use frame_coder::Refusal;

/// What to compare: so many frames of these kinds, of all three coders or of library and hand-tuned coder alone.
pub struct Plan {
    pub frames: u64,
    pub seed: u64,
    pub kinds: RangeInclusive<u8>,
    pub all: bool,
}

/// The comparisons made, by answer (0 for success; for a block alone, refused and shaped), the frames sent with free bits and those of
/// fillings that are not sent, with more energy and with as much, the comparisons of near readings, of pairs of recordings by which is
/// chosen, the first, the second or none, and of queues among them and the messages sent in these, the sums of frames that are read,
/// outside the coding set and past the range, the comparisons of records that are written, read and refused by the reader, those of
/// sending both ways, and those that differ.
struct Tally {
    coders: &'static [Coder],
    answers: [u64; 20],
    free: u64,
    unsent: [u64; 2],
    near: u64,
    pairs: [u64; 3],
    queues: u64,
    queued: u64,
    sums: [u64; 3],
    records: [u64; 3],
    blocks: [u64; 2],
    ways: u64,
    different: u64,
}

impl Tally {
    /// Tells of the first few differences.
    fn compare<T: PartialEq + Debug>(&mut self, what: &str, input: &dyn Debug, answers: &[T]) {
        if answers.iter().any(|answer| *answer != answers[0]) {
            self.different += 1;
            if self.different <= 10 {
                println!("{what} {input:?}");
                for (coder, answer) in self.coders.iter().zip(answers) {
                    println!("  {} {answer:?}", coder.name);
                }
            }
        }
    }

    /// Asks every coder, and counts one comparison of what they answer and of what they leave; gives what
    /// the hand-tuned coder leaves.
    fn ask<T: PartialEq + Debug>(
        &mut self,
        what: &str,
        input: &dyn Debug,
        call: impl Fn(&Coder) -> (Result<u64, u8>, T),
    ) -> T {
        let mut answers: Vec<_> = self.coders.iter().map(call).collect();
        self.answers[answers[1].0.err().unwrap_or(0) as usize] += 1;
        self.compare(what, input, &answers);
        answers.swap_remove(1).1
    }

    fn add(&mut self, other: &Tally) {
        self.answers.iter_mut().zip(other.answers).for_each(|(sum, count)| *sum += count);
        self.blocks.iter_mut().zip(other.blocks).for_each(|(sum, count)| *sum += count);
        self.sums.iter_mut().zip(other.sums).for_each(|(sum, count)| *sum += count);
        self.records.iter_mut().zip(other.records).for_each(|(sum, count)| *sum += count);
        self.pairs.iter_mut().zip(other.pairs).for_each(|(sum, count)| *sum += count);
        self.unsent.iter_mut().zip(other.unsent).for_each(|(sum, count)| *sum += count);
        self.free += other.free;
        self.near += other.near;
        self.queues += other.queues;
        self.queued += other.queued;
        self.ways += other.ways;
        self.different += other.different;
    }
}

/// A message that has several frames of least energy, often: read from a frame on a coarse grid.
fn edge(kind: u8, grade: u8, random: &mut Random) -> Vec<u8> {
    let (length, bytes) = lengths(kind, grade);
    let step = 1 << (levels(kind) as i32 + (grade as i32 - 1 - random.below(2) as i32).max(0));
    let level = random.below(1 << levels(kind)) as i32;
    let frame: Vec<i32> = (0..length).map(|_| level + step * (random.below(16) as i32 - 8)).collect();
    let mut message = vec![0; bytes];
    hand::read_open(kind, grade, &frame, &mut message).expect("the frame is of the coding set");
    message
}

fn message(kind: u8, grade: u8, random: &mut Random) -> Vec<u8> {
    match random.below(8) {
        0..=3 => dense(kind, grade, random),
        4..=5 => edge(kind, grade, random),
        _ => {
            let mut message = vec![0; lengths(kind, grade).1];
            let bits = message.len() * 8;
            // One bit or two, spare ones too.
            for _ in 0..1 + random.below(2) {
                let k = random.below(bits as u64) as usize;
                message[k / 8] |= 1 << (k % 8);
            }
            message
        }
    }
}

/// A number: one of the first, of the last, about the middle, or any.
fn number(random: &mut Random) -> u32 {
    match random.below(4) {
        0 => random.below(4) as u32,
        1 => u32::MAX - random.below(4) as u32,
        2 => (1 << 31) - 2 + random.below(4) as u32,
        _ => random.word() as u32,
    }
}

/// A changeover for so many frames from a count on: beside one of them, at the ends of what is opened or past them, or any.
fn changeover(count: u32, frames: u64, random: &mut Random) -> u32 {
    match random.below(8) {
        0..=3 => count.wrapping_add(random.below(frames + 2) as u32),
        4 => count.wrapping_sub(1),
        5 => 0,
        6 => 999_999 + random.below(3) as u32,
        _ => random.word() as u32,
    }
}

fn scale(kind: u8, grade: u8) -> i32 {
    1 << (levels(kind) + grade as u32)
}

/// A frame, damaged: one coordinate moved at one level, or at several; two moved alike, which is a
/// codeword of the last level of kind 6; another frame added, whose carries may break a level; a
/// coordinate moved by the scale, or to anywhere, to the ends of the range and past them; or a
/// lattice point added.
fn damaged(kind: u8, grade: u8, frame: &[i32], random: &mut Random) -> Vec<i32> {
    let mut frame = frame.to_vec();
    let scale = scale(kind, grade);
    let place = random.below(frame.len() as u64) as usize;
    let sign = [-1, 1][random.below(2) as usize];
    match random.below(12) {
        0..=1 => frame[place] += sign << random.below(3),
        2 => frame[place] += sign * (1 + random.below(8) as i32),
        3 => {
            let by = sign << random.below(3);
            frame[place] += by;
            frame[place ^ 1 << random.below(kind as u64)] += by;
        }
        4..=5 => {
            let mut other = vec![0; frame.len()];
            hand::send(kind, grade, 0, &dense(kind, grade, random), &mut other).expect("the message is good");
            frame.iter_mut().zip(other).for_each(|(x, z)| *x += z);
        }
        6 => frame[place] += scale * (random.below(5) as i32 - 2),
        7 => frame[place] = far::anywhere(random),
        8 => frame[place] = far::about_an_end(random),
        9 => frame[place] = [i32::MIN, i32::MAX][random.below(2) as usize],
        _ => {
            let odd = random.below(2) as i32;
            let far = 1 << random.below(10);
            let mut w: [i32; 8] = std::array::from_fn(|_| 2 * (random.below(2 * far) as i32 - far as i32) + odd);
            w[0] += w.iter().sum::<i32>().rem_euclid(4);
            for (x, w) in frame[place / 8 * 8..][..8].iter_mut().zip(w) {
                *x += scale / 2 * w;
            }
        }
    }
    frame
}

/// The largest block energy of an account that a message is sent with: none, small, that of a block of the message's own
/// frame or beside it, or any, also the largest that there is.
fn largest(kind: u8, grade: u8, message: &[u8], length: usize, random: &mut Random) -> u64 {
    let mut frame = vec![0; length];
    let _ = hand::send(kind, grade, 0, message, &mut frame);
    let energy = |block: &[i32]| block.iter().map(|x| (x * x) as u64).sum::<u64>();
    let own = frame.chunks(8).map(energy).max().unwrap_or(0);
    match random.below(8) {
        0 => 0,
        1 => random.below(100),
        2..=4 => (own + random.below(3)).wrapping_sub(1),
        5 => energy(&frame[..length.min(8)]),
        6 => random.word(),
        _ => u64::MAX,
    }
}

/// A sum as it grows, or one from elsewhere.
fn sum(random: &mut Random) -> f64 {
    match random.below(4) {
        0 => f64::from_bits(random.word() & !(1 << 62)),
        _ => random.below(1 << 40) as f64 / 64.0,
    }
}

/// The figures with the sum by its bits, as it may be no number.
fn by_bits((count, sum, largest, changeover): Figures) -> (u32, u64, u64, u32) {
    (count, sum.to_bits(), largest, changeover)
}

/// A call of sending: kind, grade, number, free count and message.
type Sending<'a> = (u8, u8, u32, u8, &'a [u8]);

/// A frame that is sent for the message under the number, with free bits: every coder reads it back, openly and strictly.
fn quiet((kind, grade, number, free, message): Sending, frame: &[i32], tally: &mut Tally) {
    tally.free += 1;
    readings(kind, grade, free, &[number, number ^ 1], frame, message.len(), tally);
    // The readings are the same by all coders; so one is enough to see that the frame passes, and has this energy.
    let mut back = vec![0xA5; message.len()];
    let own = frame.iter().map(|&x| (x * x) as u64).sum();
    let answer = hand::read_strict_free(kind, grade, number, free, frame, &mut back);
    tally.compare("quiet", &(kind, grade, number, free, message, frame), &[(answer, &back[..]), (Ok(own), message)]);
}

/// The frames of all fillings of a message under the number, with their energies: sent is the first of the least. Of the others two
/// are read, which pass under no number: any one, and one of the least where there is such a one.
fn fillings(input: Sending, sent: &[i32], random: &mut Random, tally: &mut Tally) {
    let (kind, grade, number, free, message) = input;
    let one = |filling: u8| {
        let (mut filled, mut frame) = (message.to_vec(), vec![0; sent.len()]);
        *filled.last_mut().expect("no message is empty") |= filling << (last_bits(kind) - free);
        let energy = hand::send(kind, grade, number, &filled, &mut frame).expect("the message is good");
        (energy, frame)
    };
    let all: Vec<(u64, Vec<i32>)> = (0..1 << free).map(one).collect();
    let least = all.iter().map(|one| one.0).min().expect("there is a filling");
    let taken = all.iter().position(|one| one.0 == least).expect("a filling is least");
    tally.compare("smallest filling", &input, &[sent, &all[taken].1]);
    let others: Vec<usize> = (0..all.len()).filter(|&filling| filling != taken).collect();
    let as_quiet: Vec<usize> = others.iter().copied().filter(|&filling| all[filling].0 == least).collect();
    for from in [others, as_quiet].iter().filter(|from| !from.is_empty()) {
        let (energy, frame) = &all[from[random.below(from.len() as u64) as usize]];
        tally.unsent[(*energy == least) as usize] += 1;
        readings(kind, grade, free, &[number, number ^ 1], frame, message.len(), tally);
        for number in [number, number ^ 1] {
            let answer = hand::read_strict_free(kind, grade, number, free, frame, &mut vec![0; message.len()]);
            let expected = Err(hand::refusal::UNSHAPED);
            tally.compare("another filling", &(kind, grade, number, free, frame), &[answer, expected]);
        }
    }
}

/// A message sent under a number, and with an account. With free bits, what is sent is read back.
fn sendings((kind, grade, number, free, message): Sending, length: usize, random: &mut Random, tally: &mut Tally) {
    let input = (kind, grade, number, free, message);
    let (answer, frame) = tally.ask("send", &input, |coder| {
        let mut frame = vec![77; length];
        let answer = (coder.send)(kind, grade, number, free, message, &mut frame);
        (answer, (answer, frame))
    });
    if answer.is_ok() && free > 0 {
        quiet(input, &frame, tally);
        fillings(input, &frame, random, tally);
    }
    let count = [0, 5, 999_998, 999_999, 1_000_000, 1_000_001, u32::MAX][random.below(7) as usize];
    let sum = sum(random);
    let largest = largest(kind, grade, message, length, random);
    let account = (count, sum, largest, changeover(count, 1, random));
    let (answer, frame, _) = tally.ask("send_counted", &(kind, grade, free, message, account), |coder| {
        let (mut frame, mut figures) = (vec![77; length], account);
        let answer = (coder.send_counted)(kind, grade, free, message, &mut frame, &mut figures);
        (answer, (answer, frame, by_bits(figures)))
    });
    if answer.is_ok() && free > 0 {
        let number = if count < account.3 { 0 } else { count };
        quiet((kind, grade, number, free, message), &frame, tally);
    }
}

/// An account opened over other figures.
fn opening(random: &mut Random, tally: &mut Tally) {
    let changeover = match random.below(4) {
        0 => random.below(3) as u32,
        1 => 999_999 + random.below(3) as u32,
        2 => random.below(1_000_001) as u32,
        _ => random.word() as u32,
    };
    tally.ask("open", &changeover, |coder| {
        let mut figures = (7, 0.25, 3, 9);
        ((coder.open)(changeover, &mut figures), by_bits(figures))
    });
}

/// A frame read openly, and strictly under each of these numbers.
fn readings(kind: u8, grade: u8, free: u8, numbers: &[u32], frame: &[i32], bytes: usize, tally: &mut Tally) {
    tally.ask("read_open", &(kind, grade, free, frame, bytes), |coder| {
        let mut message = vec![0xA5; bytes];
        ((coder.read_open)(kind, grade, free, frame, &mut message), message)
    });
    for &number in numbers {
        tally.ask("read_strict", &(kind, grade, number, free, frame, bytes), |coder| {
            let mut message = vec![0xA5; bytes];
            ((coder.read_strict)(kind, grade, number, free, frame, &mut message), message)
        });
    }
}

/// Noisy samples of a frame, or of one that is moved at a place or two by 4, which keeps the levels: none, inside the limit, about it,
/// outside it, mostly at a few places; or each sample half way between two numbers, or at random.
fn noisy(kind: u8, frame: &[i32], random: &mut Random) -> Vec<f32> {
    let (length, limit) = (frame.len(), noise::limit(kind.min(5)));
    let mut frame = frame.to_vec();
    for _ in 0..random.below(3) {
        frame[random.below(length as u64) as usize] += 4 * (random.below(31) as i32 - 15);
    }
    // At 1, 4 or 16 places the limit itself is met too, and at 2 and 8 at kind 4: the size is then a whole number of 256ths.
    let part = [0.0, 0.25, 0.7, 0.97, 1.0, 1.0, 1.03, 4.0][random.below(8) as usize];
    let noise = match random.below(8) {
        0..=2 => noise::spread(length, part * limit, random),
        3..=5 => {
            let places = 1 << random.below(5).min(kind as u64);
            let small = [0.0, 0.0, 0.05, 0.1][random.below(4) as usize];
            noise::at_places(length, places, part * limit, small, random)
        }
        6 => noise::at_places(length, 0, 0.0, [0.25, 0.5, 0.75][random.below(3) as usize], random),
        _ => (0..length).map(|_| random.below(1 << 16) as f64 / 256.0 - 128.0).collect(),
    };
    noise::samples(&frame, &noise).iter().map(|x| x.clamp(-128.0, 128.0)).collect()
}

/// A sample that is unfit, or fit for all that it looks like.
fn strange(random: &mut Random) -> f32 {
    let part = 1.0 / 256.0;
    let size = match random.below(12) {
        0 => f32::NAN,
        1 => f32::INFINITY,
        2 => 0.0,
        3 => 128.0,
        4 => 128.0f32.next_up(),
        5 => 128.0 + part,
        6 => part / 2.0,
        7 => part.next_up(),
        8 => f32::from_bits(1),
        9 => f32::MAX,
        10 => f32::from_bits(random.word() as u32),
        _ => random.below(1 << 17) as f32 / 512.0,
    };
    [-1.0, 1.0][random.below(2) as usize] * size
}

/// Samples read, with a message of so many bytes lent.
fn near_reading(kind: u8, grade: u8, samples: &[f32], bytes: usize, tally: &mut Tally) {
    tally.near += 1;
    tally.ask("read_near", &(kind, grade, samples, bytes), |coder| {
        let (mut message, mut distance) = (vec![0xA5; bytes], -1.5);
        let answer = (coder.read_near)(kind, grade, samples, &mut message, &mut distance);
        (answer, (message, distance.to_bits()))
    });
}

/// Noisy samples of a frame read, and at times with a strange one among them.
fn near_readings(kind: u8, grade: u8, frame: &[i32], bytes: usize, random: &mut Random, tally: &mut Tally) {
    let mut samples = noisy(kind, frame, random);
    near_reading(kind, grade, &samples, bytes, tally);
    if random.below(8) == 0 {
        samples[random.below(frame.len() as u64) as usize] = strange(random);
        near_reading(kind, grade, &samples, bytes, tally);
    }
}

/// Two recordings, of which one is chosen or none.
fn choice(kind: u8, grade: u8, first: &[f32], second: &[f32], tally: &mut Tally) {
    let chosen = tally.ask("closer", &(kind, grade, first, second), |coder| {
        let chosen = (coder.closer)(kind, grade, first, second);
        (chosen.map(u64::from), chosen)
    });
    tally.pairs[chosen.map_or(2, |number| number as usize - 1)] += 1;
}

/// A recording of a frame, with noise that is mostly inside the limit.
fn recording(kind: u8, frame: &[i32], random: &mut Random) -> Vec<f32> {
    let part = [0.0, 0.25, 0.25, 0.7, 0.97, 0.97, 1.0, 1.03][random.below(8) as usize];
    let squared = part * noise::limit(kind.min(5));
    let noise = match random.below(2) {
        0 => noise::spread(frame.len(), squared, random),
        _ => noise::at_places(frame.len(), 1 << random.below(4), squared, 0.0, random),
    };
    noise::samples(frame, &noise)
}

/// A second recording: of the same frame, or with the noise of the first at other places and of other signs, at times and a 256th
/// more; of another frame of the class; of another message; or of any samples about the frame.
fn second_recording(kind: u8, grade: u8, frame: &[i32], first: &[f32], random: &mut Random) -> Vec<f32> {
    let place = random.below(frame.len() as u64) as usize;
    match random.below(8) {
        0..=1 => recording(kind, frame, random),
        2..=3 => {
            let mut noise: Vec<f64> = first.iter().zip(frame).map(|(&t, &x)| t as f64 - x as f64).collect();
            for i in 1..noise.len() {
                noise.swap(i, random.below(i as u64 + 1) as usize);
                noise[i] *= [-1.0, 1.0][random.below(2) as usize];
            }
            noise[place] += [0.0, 0.0, 1.0 / 256.0][random.below(3) as usize];
            noise::samples(frame, &noise)
        }
        4 => {
            // The scale at two places of a block is a point of the lattice.
            let mut other = frame.to_vec();
            for place in [place, place ^ 1 << random.below(3)] {
                other[place] += scale(kind, grade) * if other[place] > 0 { -1 } else { 1 };
            }
            recording(kind, &other, random)
        }
        5..=6 => {
            let mut other = vec![0; frame.len()];
            hand::send(kind, grade, 0, &dense(kind, grade, random), &mut other).expect("the message is good");
            recording(kind, &other, random)
        }
        _ => noisy(kind, frame, random),
    }
}

/// Two recordings of a frame; at times with a strange sample in one or in both, with samples too few or too many, or twice the same.
fn recordings(kind: u8, grade: u8, frame: &[i32], random: &mut Random, tally: &mut Tally) {
    let mut pair = [recording(kind, frame, random), vec![]];
    pair[1] = second_recording(kind, grade, frame, &pair[0], random);
    let which = random.below(2) as usize;
    match random.below(16) {
        0..=1 => pair[which][random.below(frame.len() as u64) as usize] = strange(random),
        2 => pair.iter_mut().for_each(|one| one[random.below(frame.len() as u64) as usize] = strange(random)),
        3 => pair[which].resize(random.below(2 * frame.len() as u64) as usize, 0.0),
        4 => pair.iter_mut().for_each(|one| one.resize(random.below(2 * frame.len() as u64) as usize, 0.0)),
        5 => return choice(kind, grade, &pair[which], &pair[which], tally),
        _ => {}
    }
    choice(kind, grade, &pair[which], &pair[1 - which], tally);
}

/// Random numbers apart, which take none from these.
fn apart(random: &Random) -> Random {
    Random(!random.0)
}

/// A place of a buffer that leaves so many bytes, or one more or less; at the end, past it, at the last of all numbers; or any.
fn place(length: usize, record: usize, random: &mut Random) -> usize {
    match random.below(16) {
        0..=1 => (length + random.below(3) as usize).saturating_sub(record + 1),
        2 => length + random.below(3) as usize,
        3 => usize::MAX - random.below(2 * record as u64) as usize,
        4 => random.word() as usize,
        _ => random.below((length.saturating_sub(record) + 1) as u64) as usize,
    }
}

/// The record at a place of a buffer read, with so many coordinates lent.
fn record_reading(buffer: &[u8], place: usize, length: usize, tally: &mut Tally) -> (Result<u64, u8>, Head) {
    let (answer, head, _) = tally.ask("read_record", &(place, length, buffer), |coder| {
        let (mut frame, mut head) = ((1000..).take(length).collect::<Vec<i32>>(), (77, 77, 77, 77));
        let answer = (coder.read_record)(buffer, place, &mut frame, &mut head);
        (answer, (answer, head, frame))
    });
    tally.records[if answer.is_ok() { 1 } else { 2 }] += 1;
    (answer, head)
}

/// A message written as a record at a place of random bytes, and read back; read again with a byte of it changed, and at times under a
/// number of the other parity, in a buffer that ends in it, at another place, or with too few or too many coordinates.
fn records((kind, grade, number, _, message): Sending, length: usize, random: &mut Random, tally: &mut Tally) {
    let whole = 8 + 4 * length;
    let mut bytes = vec![0; whole + random.below(48) as usize];
    random.fill(&mut bytes);
    let place = place(bytes.len(), whole, random);
    let (answer, next, mut buffer) =
        tally.ask("write_record", &(kind, grade, number, message, bytes.len(), place), |coder| {
            let (mut buffer, mut next) = (bytes.clone(), 77);
            let answer = (coder.write_record)(kind, grade, number, message, &mut buffer, place, &mut next);
            (answer, (answer, next, buffer))
        });
    let read = record_reading(&buffer, place, length, tally);
    if answer.is_err() {
        return;
    }
    tally.records[0] += 1;
    // The answers are the same by all coders; so one is enough to see that the record is read back.
    let mut frame = vec![0; length];
    let energy = hand::send(kind, grade, number, message, &mut frame);
    let own = (energy, (kind, grade, number, next));
    tally.compare("read back", &(kind, grade, number, message, place), &[read, own]);
    match random.below(8) {
        0 => buffer[place + 4] ^= 1,
        1 => buffer.truncate(place + random.below(whole as u64) as usize),
        2 => buffer[place + random.below(8) as usize] = random.below(8) as u8,
        3 => buffer[place + random.below(8) as usize] ^= 1 << random.below(8),
        _ => buffer[place + random.below(whole as u64) as usize] ^= 1 + random.below(255) as u8,
    }
    if random.below(8) == 0 {
        buffer.truncate(place + random.below(9) as usize);
    }
    let (place, length) = match random.below(16) {
        0 => (self::place(buffer.len(), whole, random), length),
        1 => (place, random.below(72) as usize),
        _ => (place, length),
    };
    let _ = record_reading(&buffer, place, length, tally);
}

/// Wrong kinds, grades, free counts and lengths, with something in every buffer.
fn misfits(random: &mut Random, tally: &mut Tally) {
    let (kind, grade) = match random.below(3) {
        0 => (random.below(256) as u8, random.below(256) as u8),
        _ => (2 + random.below(6) as u8, random.below(6) as u8),
    };
    let (length, bytes) = lengths(kind.clamp(3, 6), grade.clamp(1, 4));
    let length = if random.below(2) == 0 { length } else { random.below(72) as usize };
    let bytes = if random.below(2) == 0 { bytes } else { random.below(50) as usize };
    let mut message = vec![0; bytes];
    random.fill(&mut message);
    let number = number(random);
    let free = match random.below(4) {
        0 => random.below(256) as u8,
        1 => random.below(8) as u8,
        _ => 0,
    };
    sendings((kind, grade, number, free, &message), length, random, tally);
    records((kind, grade, number, 0, &message), lengths(kind.clamp(3, 6), 1).0, &mut apart(random), tally);
    let frame: Vec<i32> = (0..length).map(|_| random.below(9) as i32 - 4).collect();
    readings(kind, grade, free, &[number], &frame, bytes, tally);
    let mut samples: Vec<f32> = frame.iter().map(|&x| x as f32).collect();
    if length > 0 && random.below(4) == 0 {
        samples[random.below(length as u64) as usize] = strange(random);
    }
    near_reading(kind, grade, &samples, bytes, tally);
    let mut other = vec![0.0; if random.below(2) == 0 { length } else { random.below(72) as usize }];
    if !other.is_empty() && random.below(4) == 0 {
        let place = random.below(other.len() as u64) as usize;
        other[place] = strange(random);
    }
    let pair = [samples, other];
    let which = random.below(2) as usize;
    choice(kind, grade, &pair[which], &pair[1 - which], tally);
}

/// Eight coordinates, up to the scale in size or up to all that is shaped, which is the range of the readings, in steps of 1, or
/// of a quarter or a half of the scale, where the least members are often several; at times one of them
/// at the ends of the range or past them.
fn coordinates(scale: i32, random: &mut Random) -> Vec<i32> {
    let step = [1, (scale / 4).max(1), scale / 2][random.below(3) as usize];
    let far = [scale, FURTHEST][random.below(2) as usize] / step;
    let mut block: Vec<i32> = (0..8).map(|_| step * (random.below(2 * far as u64 + 1) as i32 - far)).collect();
    let place = random.below(8) as usize;
    match random.below(16) {
        0 => block[place] = [-1, 1][random.below(2) as usize] * (FURTHEST - 1 + random.below(3) as i32),
        1 => block[place] = [i32::MIN, i32::MAX][random.below(2) as usize],
        _ => {}
    }
    block
}

/// A block shaped by itself, and at times one that is refused.
fn shaping(random: &mut Random, tally: &mut Tally) {
    let mut k = random.below(7) as u32;
    let mut x = coordinates(2 << k, random);
    let mut one = vec![77; 8];
    match random.below(16) {
        0 => k = [7, 8, 31, 32, u32::MAX][random.below(5) as usize],
        1 => x.resize(random.below(17) as usize, 0),
        2 => one.resize(random.below(17) as usize, 77),
        _ => {}
    }
    let by_hand = match <&[i32; 8]>::try_from(&x[..]) {
        Ok(x) if k <= 6 && one.len() == 8 && x.iter().all(|x| x.unsigned_abs() <= FURTHEST as u32) => {
            (true, hand::shape(k + 1, x).to_vec())
        }
        _ => (false, one.clone()),
    };
    let answer = exported::least(k, &x, &mut one);
    tally.blocks[by_hand.0 as usize] += 1;
    tally.compare("block_least", &(k, x), &[(answer, one), by_hand]);
}

/// A message sent by whole words of the levels, and by the mask test at every position.
fn both_ways(kind: u8, grade: u8, number: u32, message: &[u8], length: usize, tally: &mut Tally) {
    let words: fn(u8, u8, u32, &[u8], &mut [i32]) -> i64 =
        |kind, grade, number, message, frame| exported::send(kind, grade, number, 0, message, frame);
    let answers = [words, exported::plain_send].map(|send| {
        let mut frame = vec![77; length];
        (send(kind, grade, number, message, &mut frame), frame)
    });
    tally.ways += 1;
    tally.compare("both ways", &(kind, grade, number, message), &answers);
}

/// A kind and a grade of the plan.
fn format(plan: &Plan, random: &mut Random) -> (u8, u8) {
    let kinds = (plan.kinds.end() - plan.kinds.start() + 1) as u64;
    (plan.kinds.start() + random.below(kinds) as u8, 1 + random.below(4) as u8)
}

/// A queue of up to 12 messages, the changeover often at one of them: at times with a spare bit set at one of them, an
/// account that is full on the way or before it, bytes or coordinates too few or too many, or a wrong kind or grade. Every
/// coordinate lent is another number, so that one that is moved shows.
fn queue(plan: &Plan, random: &mut Random, tally: &mut Tally) {
    let (mut kind, mut grade) = format(plan, random);
    let (length, bytes) = lengths(kind, grade);
    let number = random.below(13);
    let mut messages = Vec::new();
    for _ in 0..number {
        let make = [dense, dense, dense, edge][random.below(4) as usize];
        messages.extend(make(kind, grade, random));
    }
    if number > 0 && kind < 5 && random.below(4) == 0 {
        messages[bytes * (1 + random.below(number) as usize) - 1] |= 0x10 << random.below(4);
    }
    let largest = largest(kind, grade, &messages[..bytes.min(messages.len())], length, random);
    let count = match random.below(8) {
        0..=3 => random.below(999_000) as u32,
        4..=6 => 1_000_000 - random.below(number + 2) as u32,
        _ => [1_000_001, u32::MAX][random.below(2) as usize],
    };
    let account = (count, sum(random), largest, changeover(count, number, random));
    let mut coordinates = length * number as usize;
    let mut beside = |x: usize| (x + random.below(7) as usize).saturating_sub(3);
    let (more_bytes, more_coordinates) = (beside(messages.len()), beside(coordinates));
    match random.below(32) {
        0 => messages.resize(more_bytes, 0),
        1 => coordinates = more_coordinates,
        2 => {
            messages.resize(more_bytes, 0);
            coordinates = more_coordinates;
        }
        3 => coordinates = length * random.below(14) as usize,
        4 => kind = random.below(256) as u8,
        5 => grade = random.below(256) as u8,
        _ => {}
    }
    tally.queues += 1;
    let input = (kind, grade, &messages, coordinates, account);
    let (sent, ..) = tally.ask("send_queue", &input, |coder| {
        let (mut frames, mut figures) = ((1000..).take(coordinates).collect::<Vec<i32>>(), account);
        let (sent, number) = (coder.send_queue)(kind, grade, &messages, &mut frames, &mut figures);
        let answer = if number == 0 { Ok(0) } else { Err(number) };
        (answer, (sent, frames, by_bits(figures)))
    });
    tally.queued += sent as u64;
}

/// How many bits of a message are free: none as often as some. The second coder searches for each filling: with it three in four have none.
fn free_count(plan: &Plan, random: &mut Random) -> u8 {
    match random.below(if plan.all { 4 } else { 2 }) {
        0 => 1 + random.below(4) as u8,
        _ => 0,
    }
}

/// The bits of a message's last byte that are not spare.
fn last_bits(kind: u8) -> u8 {
    if kind < 5 {
        4
    } else {
        8
    }
}

/// Clears the free bits of a message, which lie in its last byte; but at times they stay as they are, and it is refused.
fn clear_free(kind: u8, free: u8, message: &mut [u8], random: &mut Random) {
    if random.below(8) > 0 {
        let last = message.last_mut().expect("no message is empty");
        *last &= !((0xFFu32 >> (8 - free) << (last_bits(kind) - free)) as u8);
    }
}

/// A sum of sent frames of one kind, of any grades and numbers, read; and damaged. In range, sums of kinds 3 to 5 are in the coding
/// set, and of those of kind 6 no level below 2 is broken.
fn sums(plan: &Plan, random: &mut Random, tally: &mut Tally) {
    let (kind, grade) = format(plan, random);
    let (length, bytes) = lengths(kind, grade);
    let sum = far::sum(length, random, |random| {
        let (grade, mut sent) = (1 + random.below(4) as u8, vec![0; length]);
        let message = [dense, dense, edge][random.below(3) as usize](kind, grade, random);
        hand::send(kind, grade, number(random), &message, &mut sent).expect("the message is good");
        sent
    });
    let (number, free) = (number(random), free_count(plan, random));
    readings(kind, grade, free, &[number], &sum, bytes, tally);
    readings(kind, grade, free, &[number], &damaged(kind, grade, &sum, random), bytes, tally);
    // The readings are the same by all coders; so one is enough to see that it is an answer for a sum, with this energy.
    let own = sum.iter().map(|&x| x.unsigned_abs() as u64 * x.unsigned_abs() as u64).sum();
    let answer = hand::read_open_free(kind, grade, free, &sum, &mut vec![0; bytes]);
    let (sort, expected) = match answer {
        _ if sum.iter().any(|x| x.abs() > FURTHEST) => (2, Err(hand::refusal::OVER_RANGE)),
        Err(_) if kind == 6 => (1, Err(hand::refusal::BROKEN_LEVEL_2)),
        _ => (0, Ok(own)),
    };
    tally.sums[sort] += 1;
    tally.compare("sum", &(kind, grade, sum), &[answer, expected]);
}

/// One message, its frame under a number, judged by it and by the other rule, another frame of its class far out, both damaged, and
/// noisy samples and two recordings of it, and its record; at times an unfit sample, calls that do not fit, an account opened, a sum of
/// frames, and a queue.
fn frame(plan: &Plan, random: &mut Random, tally: &mut Tally) {
    let (kind, grade) = format(plan, random);
    let (length, bytes) = lengths(kind, grade);
    let (number, free, mut message) = (number(random), free_count(plan, random), message(kind, grade, random));
    clear_free(kind, free, &mut message, random);
    sendings((kind, grade, number, free, &message), length, random, tally);
    let mut frame = vec![0; length];
    if hand::send_free(kind, grade, number, free, &message, &mut frame).is_ok() {
        // With free bits it has been read where it was sent.
        if free == 0 {
            readings(kind, grade, free, &[number, number ^ 1], &frame, bytes, tally);
        }
        let distant = far::in_the_class(&frame, scale(kind, grade), random);
        readings(kind, grade, free, &[number], &distant, bytes, tally);
        for from in [&frame, &frame, &distant] {
            readings(kind, grade, free, &[number], &damaged(kind, grade, from, random), bytes, tally);
        }
        // Kind 6 is refused, and at kind 5 the second coder takes milliseconds.
        if kind < 5 || kind == 5 && !plan.all || random.below(16) == 0 {
            near_readings(kind, grade, &frame, bytes, random, tally);
            recordings(kind, grade, &frame, random, tally);
        }
    }
    records((kind, grade, number, 0, &message), length, &mut apart(random), tally);
    if random.below(8) == 0 {
        misfits(random, tally);
        opening(random, tally);
    }
    if random.below(4) == 0 {
        queue(plan, random, tally);
        sums(plan, random, tally);
    }
    if !plan.all {
        both_ways(kind, grade, number, &message, length, tally);
        shaping(random, tally);
    }
}

/// Frames that a thread takes at a time. Each such part has random numbers of its own, so that the
/// frames are the same with any number of threads.
const PART: u64 = 1000;

/// The parts that are left, one after the other.
fn take_parts(plan: &Plan, next: &AtomicU64, tally: &mut Tally) {
    loop {
        let part = next.fetch_add(1, Ordering::Relaxed);
        let frames = plan.frames.saturating_sub(part * PART).min(PART);
        if frames == 0 {
            return;
        }
        let mut random = Random(Random(plan.seed.wrapping_add(part)).word());
        for _ in 0..frames {
            frame(plan, &mut random, tally);
        }
    }
}

/// Compares, with a thread for each processor; gives the number of differences.
pub fn run(plan: &Plan) -> u64 {
    let tally = || {
        let coders = if plan.all { &CODERS[..] } else { &CODERS[..2] };
        Tally {
            coders,
            answers: [0; 20],
            free: 0,
            unsent: [0; 2],
            near: 0,
            pairs: [0; 3],
            queues: 0,
            queued: 0,
            sums: [0; 3],
            records: [0; 3],
            blocks: [0; 2],
            ways: 0,
            different: 0,
        }
    };
    let next = AtomicU64::new(0);
    let mut sum = tally();
    std::thread::scope(|scope| {
        let take = || {
            let mut own = tally();
            take_parts(plan, &next, &mut own);
            own
        };
        let count = std::thread::available_parallelism().map_or(1, |count| count.get());
        let threads: Vec<_> = (0..count).map(|_| scope.spawn(take)).collect();
        for thread in threads {
            sum.add(&thread.join().expect("a thread ends"));
        }
    });
    for (number, count) in (0..).zip(sum.answers).filter(|(_, count)| *count > 0) {
        match (number, Refusal::try_from(number)) {
            (0, _) => println!("success: {count}"),
            (_, Ok(refusal)) => println!("{refusal}: {count}"),
            (_, Err(unknown)) => println!("{unknown}: {count}"),
        }
    }
    let [louder, as_quiet] = sum.unsent;
    println!("frames sent with free bits: {}", sum.free);
    println!("frames of fillings not sent: {louder} with more energy, {as_quiet} with as much");
    println!("near readings: {}", sum.near);
    let [first, second, none] = sum.pairs;
    println!("pairs of recordings: {}, of which {first} first, {second} second, {none} none", first + second + none);
    println!("queues: {}, with {} messages sent", sum.queues, sum.queued);
    let [read, outside, past] = sum.sums;
    println!("sums of frames: {read} read, {outside} outside the coding set, {past} past the range");
    let [written, read, refused] = sum.records;
    println!("records: {written} written, {read} read, {refused} refused");
    let [refused, shaped] = sum.blocks;
    if !plan.all {
        println!("sent both ways: {}\nblocks shaped: {shaped}\nblocks refused: {refused}", sum.ways);
    }
    let all = sum.answers.iter().chain(&sum.blocks).sum::<u64>() + sum.ways;
    let names: Vec<&str> = sum.coders.iter().map(|coder| coder.name).collect();
    println!("{}: {} frames, {all} comparisons, {} different", names.join(", "), plan.frames, sum.different);
    sum.different
}
