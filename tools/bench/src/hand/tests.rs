//! The hand-tuned coder against the second coder's search.

use super::refusal::{BROKEN_LEVEL_0, BROKEN_LEVEL_1, BROKEN_LEVEL_2};
use super::*;
use crate::far;
use crate::random::Random;
use second_coder::{account, class, frame, free, near, random, recordings, records, vectors};

/// The blocks of x that are sent under even and odd numbers, by the hand-tuned coder.
fn both(x: &[i64; 8], k: u32) -> [[i64; 8]; 2] {
    let x = x.map(|x| x as i32);
    [shape(k, &x), shape_last(k, &x)].map(|z| z.map(i64::from))
}

/// Compares one block, by both rules; gives whether its class has several members of least energy.
fn check(x: &[i64; 8], k: u32) -> bool {
    let all = class::least_members(x, 1 << k);
    assert_eq!(both(x, k), [all[0], all[all.len() - 1]], "scale 2^{k}, block {x:?}");
    all.len() > 1
}

/// Each class once: by the first coordinate below H, the second to seventh below M, the eighth
/// below 2M (the rows of matrix (39)).
fn member(mut number: u64, k: u32) -> [i64; 8] {
    std::array::from_fn(|i| {
        let bits = [k - 1, k, k, k, k, k, k, k + 1][i];
        let x = number & ((1 << bits) - 1);
        number >>= bits;
        x as i64
    })
}

#[test]
fn every_class_at_scale_2() {
    let tied = (0..1 << 8).filter(|&number| check(&member(number, 1), 1)).count();
    println!("scale 2: 256 classes, {tied} with ties");
}

#[test]
fn every_class_at_scale_4() {
    let tied = (0..1 << 16).filter(|&number| check(&member(number, 2), 2)).count();
    println!("scale 4: 65536 classes, {tied} with ties");
}

#[test]
fn every_block_of_residues_at_scale_4() {
    for number in 0..1u64 << 24 {
        let x: [i64; 8] = std::array::from_fn(|i| (number >> (3 * i) & 7) as i64);
        let class = member_of(&x, 2);
        assert_eq!(both(&x, 2), both(&class, 2));
    }
}

/// The member of x's class that `member` counts.
fn member_of(x: &[i64; 8], k: u32) -> [i64; 8] {
    let (half, scale) = (1 << (k - 1), 1 << k);
    let mut s = x.map(|y| y - x[0].div_euclid(half) * half);
    for i in 1..7 {
        s[7] -= s[i].div_euclid(scale) * scale;
        s[i] = s[i].rem_euclid(scale);
    }
    s[7] = s[7].rem_euclid(2 * scale);
    assert!(class::same_class(x, &s, scale));
    s
}

/// Under a minute; run with `--ignored`.
#[test]
#[ignore]
fn every_class_at_scale_8() {
    let tied = (0..1 << 24).filter(|&number| check(&member(number, 3), 3)).count();
    println!("scale 8: 16777216 classes, {tied} with ties");
}

/// Blocks of random coordinates, and of coordinates at and beside multiples of a quarter of M.
fn random_blocks(k: u32, count: usize, seed: u64) {
    let mut random = Random(seed);
    let mut tied = 0;
    for _ in 0..count {
        let grid = random.below(4);
        let x: [i64; 8] = std::array::from_fn(|_| {
            let step = match grid {
                0 => 1,
                1 => (1 << k) / 4,
                2 => (1 << k) / 2,
                _ => [1, (1 << k) / 4, (1 << k) / 2][random.below(3) as usize],
            };
            let beside = if grid == 1 && random.below(8) == 0 { 1 } else { 0 };
            (random.below((2 << k) / step) * step + beside) as i64 & ((2 << k) - 1)
        });
        tied += check(&x, k) as usize;
    }
    println!("scale {}: {count} blocks, {tied} with ties", 1 << k);
}

#[test]
fn random_and_tied_blocks() {
    for k in 2..=7 {
        random_blocks(k, 100_000, k as u64);
    }
}

/// Under a few minutes; run with `--ignored`.
#[test]
#[ignore]
fn millions_of_random_and_tied_blocks() {
    for k in 2..=7 {
        random_blocks(k, 2_000_000, 100 + k as u64);
    }
}

/// Blocks with large coordinates, at every scale, have the sent blocks of the member near 0.
#[test]
fn blocks_far_out() {
    let mut random = Random(4);
    for k in 1..=7 {
        for _ in 0..20_000 {
            let x = std::array::from_fn(|_| match random.below(4) {
                0 => far::about_an_end(&mut random) as i64,
                1 => random.word() as i32 as i64,
                _ => far::anywhere(&mut random) as i64,
            });
            assert_eq!(both(&x, k), both(&member_of(&x, k), k), "scale 2^{k}, block {x:?}");
        }
    }
}

fn wide(frame: &[i32]) -> Vec<i64> {
    frame.iter().map(|&x| x as i64).collect()
}

fn energy(frame: &[i32]) -> u64 {
    frame.iter().map(|&x| (x as i64 * x as i64) as u64).sum()
}

fn in_range(frame: &[i32]) -> bool {
    frame.iter().all(|x| (-16_777_216..=16_777_216).contains(x))
}

/// Compares a reading of a frame, with a message of so many bytes lent.
fn check_reading(
    frame: &[i32],
    bytes: usize,
    hand: impl Fn(&mut [u8]) -> Result<u64, u8>,
    second: Result<(Vec<u8>, u64), u8>,
) {
    let mut message = vec![0xA5; bytes];
    let answer = hand(&mut message);
    match second {
        Ok((expected, energy)) => assert_eq!((answer, message), (Ok(energy), expected), "{frame:?}"),
        Err(number) => assert_eq!((answer, message), (Err(number), vec![0xA5; bytes]), "{frame:?}"),
    }
}

/// Compares the open reading of a frame, and the strict ones under a number and under one of the other rule.
fn check_readings(kind: u8, grade: u8, number: u32, frame: &[i32], bytes: usize) {
    let second = frame::read_open_into(kind, grade, &wide(frame), bytes);
    check_reading(frame, bytes, |message| read_open(kind, grade, frame, message), second);
    for number in [number, number ^ 1] {
        let second = frame::read_strict_into(kind, grade, number, &wide(frame), bytes);
        check_reading(frame, bytes, |message| read_strict(kind, grade, number, frame, message), second);
    }
}

/// A frame, damaged: a lattice point added, a level's codeword kept or broken, a coordinate moved
/// a little, to anywhere in the range, to its ends or past them.
fn damaged(frame: &[i32], scale: i32, random: &mut Random) -> Vec<i32> {
    let mut frame = frame.to_vec();
    let place = random.below(frame.len() as u64) as usize;
    match random.below(6) {
        0 => frame[place] += [1, -1, 2, -2, 4, -4][random.below(6) as usize],
        1 => frame[place] = far::anywhere(random),
        2 => frame[place] = far::about_an_end(random),
        3 => frame[place] = [i32::MIN, i32::MAX, 0][random.below(3) as usize],
        4 => frame[place] += scale * [1, -1, 2, -2, 4][random.below(5) as usize],
        _ => {
            let block = &mut frame[place / 8 * 8..][..8];
            let odd = random.below(2) as i32;
            let far = 1 << random.below(12);
            let mut w: [i32; 8] = std::array::from_fn(|_| 2 * (random.below(2 * far) as i32 - far as i32) + odd);
            w[0] += if w.iter().sum::<i32>().rem_euclid(4) == 0 { 0 } else { 2 };
            for (x, w) in block.iter_mut().zip(w) {
                *x += scale / 2 * w;
            }
        }
    }
    frame
}

/// Sends with an account whose largest block is about the frame's, and whose next frame has this number.
fn check_account(kind: u8, grade: u8, number: u32, message: &[u8], expected: &frame::Sent, random: &mut Random) {
    let block = account::largest_block(&expected.frame);
    let old = [0, block.saturating_sub(1), block, block + 1, random.word(), u64::MAX][random.below(6) as usize];
    // Number 0 is also that of every count below the changeover.
    let (count, changeover) = match number {
        0 => [(0, 0), (0, 1), (7, 8), (6, 1_000_000), (999_999, u32::MAX)][random.below(5) as usize],
        _ => (number, random.below(number as u64 + 1) as u32),
    };
    let mut account = Account { count, sum: 0.25, largest: old, changeover };
    let mut sent = vec![77; expected.frame.len()];
    assert_eq!(send_counted(kind, grade, message, &mut sent, &mut account), Ok(expected.energy));
    let sum = 0.25 + expected.energy as f64 / sent.len() as f64;
    assert_eq!(account, Account { count: count + 1, sum, largest: old.max(block), changeover });
    assert_eq!(wide(&sent), expected.frame);
}

fn check_messages(rounds: usize, seed: u64) {
    let mut own = Random(seed);
    let mut random = random::Random::new(seed);
    for round in 0..rounds {
        let (kind, grade) = (3 + (round % 4) as u8, 1 + (round / 4 % 4) as u8);
        let format = frame::Format::new(kind, grade).unwrap();
        let message = match own.below(3) {
            0 => vectors::dense(&format, &mut random),
            1 => vectors::edge(&format, &mut random),
            _ => vectors::with_bits(&format, &[own.below(format.message_bits() as u64) as usize]),
        };
        for number in [0, 1 + own.below(FULL as u64 - 1) as u32] {
            let expected = frame::send(kind, grade, number, &message).unwrap();
            check_account(kind, grade, number, &message, &expected, &mut own);
        }
        let number = own.word() as u32;
        let mut sent = vec![77; format.length()];
        let expected = frame::send(kind, grade, number, &message).unwrap();
        assert_eq!(send(kind, grade, number, &message, &mut sent), Ok(expected.energy));
        assert_eq!(wide(&sent), expected.frame);
        check_readings(kind, grade, number, &sent, message.len());
        let distant = far::in_the_class(&sent, format.scale() as i32, &mut own);
        check_readings(kind, grade, number, &distant, message.len());
        if in_range(&distant) {
            let mut back = vec![0xA5; message.len()];
            assert_eq!((read_open(kind, grade, &distant, &mut back), back), (Ok(energy(&distant)), message.clone()));
        }
        for mut frame in [sent, distant] {
            for _ in 0..3 {
                if !in_range(&frame) {
                    break;
                }
                frame = damaged(&frame, format.scale() as i32, &mut own);
                check_readings(kind, grade, number, &frame, message.len());
            }
        }
    }
}

#[test]
fn messages() {
    check_messages(24_000, 1);
}

/// A few minutes; run with `--ignored`.
#[test]
#[ignore]
fn a_million_messages() {
    check_messages(1_000_000, 2);
}

/// A coordinate at either end and one past it, at each place, and all of them; and all at the ends of i32.
#[test]
fn ends_of_the_range() {
    for (kind, grade) in (3..=6).flat_map(|kind| (1..=4).map(move |grade| (kind, grade))) {
        let (length, bytes) = (1 << kind, frame::Format::new(kind, grade).unwrap().message_bytes());
        let check = |frame: &[i32], expected| {
            check_readings(kind, grade, 0, frame, bytes);
            assert_eq!(read_open(kind, grade, frame, &mut vec![0; bytes]), expected);
        };
        for end in [-16_777_216i32, 16_777_216] {
            check(&vec![end; length], Ok((length as u64) << 48));
            for (place, past) in (0..length).map(|place| (place, end + end.signum())) {
                let with = |others, x| {
                    let mut frame = vec![others; length];
                    frame[place] = x;
                    frame
                };
                check(&with(0, end), Ok(1 << 48));
                check(&with(0, past), Err(refusal::OVER_RANGE));
                check(&with(end, past), Err(refusal::OVER_RANGE));
                check(&with(end, end - end.signum()), Err(BROKEN_LEVEL_0));
            }
        }
        for x in [i32::MIN, i32::MAX] {
            check(&vec![x; length], Err(refusal::OVER_RANGE));
        }
    }
}

/// Sums of sent frames, of any grades and numbers, and damaged. In range a sum of kinds 3 to 5 is read, and one of kind 6 is read
/// or has level 2 broken.
fn check_sums(rounds: usize, seed: u64) {
    let mut own = Random(seed);
    let mut counts = [0; 3];
    for round in 0..rounds {
        let (kind, grade, number) = (3 + (round % 4) as u8, 1 + (round / 4 % 4) as u8, own.word() as u32);
        let (length, bytes) = (1 << kind, frame::Format::new(kind, grade).unwrap().message_bytes());
        let sum = far::sum(length, &mut own, |own| {
            let grade = 1 + own.below(4) as u8;
            let format = frame::Format::new(kind, grade).unwrap();
            let mut random = random::Random::new(own.word());
            let message = [vectors::dense, vectors::edge][own.below(2) as usize](&format, &mut random);
            let mut sent = vec![0; length];
            send(kind, grade, own.word() as u32, &message, &mut sent).unwrap();
            sent
        });
        check_readings(kind, grade, number, &sum, bytes);
        let answer = read_open(kind, grade, &sum, &mut vec![0; bytes]);
        match answer {
            Ok(own) => assert!(in_range(&sum) && own == energy(&sum)),
            Err(refusal::OVER_RANGE) => assert!(!in_range(&sum)),
            Err(number) => assert_eq!((kind, number), (6, BROKEN_LEVEL_2)),
        }
        counts[answer.map_or_else(|number| 1 + (number == BROKEN_LEVEL_2) as usize, |_| 0)] += 1;
        let frame = damaged(&sum, 1 << (2 + own.below(6)), &mut own);
        check_readings(kind, grade, number, &frame, bytes);
    }
    assert!(counts.iter().all(|count| *count > rounds / 100), "{counts:?}");
}

#[test]
fn sums_of_frames() {
    check_sums(8_000, 9);
}

/// About a minute; run with `--ignored`.
#[test]
#[ignore]
fn many_sums_of_frames() {
    check_sums(400_000, 10);
}

/// Compares the readings with a free count of a frame, openly and strictly under a number and one of the other rule.
fn check_free_readings(kind: u8, grade: u8, number: u32, bits: u8, frame: &[i32], bytes: usize) {
    let second = free::read_open(kind, grade, bits, &wide(frame), bytes);
    check_reading(frame, bytes, |message| read_open_free(kind, grade, bits, frame, message), second);
    for number in [number, number ^ 1] {
        let second = free::read_strict(kind, grade, number, bits, &wide(frame), bytes);
        check_reading(frame, bytes, |message| read_strict_free(kind, grade, number, bits, frame, message), second);
    }
}

/// Sends with free bits, alone and with an account, and reads the frames of all fillings, and damaged ones.
fn check_free(rounds: usize, seed: u64) {
    let mut own = Random(seed);
    let mut random = random::Random::new(seed);
    let mut tied = 0;
    for round in 0..rounds {
        let (kind, grade, bits) = (3 + (round % 4) as u8, 1 + (round / 4 % 4) as u8, (round / 16 % 5) as u8);
        let format = frame::Format::new(kind, grade).unwrap();
        let message = match own.below(3) {
            0 => vectors::dense(&format, &mut random),
            1 => vectors::edge(&format, &mut random),
            _ => vectors::with_bits(&format, &[own.below(format.message_bits() as u64) as usize]),
        };
        // Where a free bit is left as it is, the message may be refused.
        let message = if own.below(8) == 0 { message } else { free::cleared(&format, bits, &message) };
        let account =
            Account { count: own.below(9) as u32, sum: 0.25, largest: own.below(200), changeover: own.below(9) as u32 };
        let (mut sent, mut counted, mut grown) = (vec![77; format.length()], vec![77; format.length()], account);
        let number = account.number();
        let answer = send_free(kind, grade, number, bits, &message, &mut sent);
        assert_eq!(send_counted_free(kind, grade, bits, &message, &mut counted, &mut grown), answer);
        let second = account::Account {
            count: account.count,
            sum: 0.25,
            largest: account.largest,
            changeover: account.changeover,
        };
        match free::send_counted(kind, grade, bits, &message, format.length(), second) {
            Ok((second, after)) => {
                assert_eq!(answer, Ok(second.energy));
                assert_eq!((&wide(&sent), &counted), (&second.frame, &sent), "{kind} {grade} {bits} {message:?}");
                let figures = Account {
                    count: after.count,
                    sum: after.sum,
                    largest: after.largest,
                    changeover: after.changeover,
                };
                assert_eq!(grown, figures);
                let fillings = free::Fillings::new(&format, frame::Tie::of(number), bits, &message);
                tied += (fillings.least().len() > 1) as usize;
                for filling in &fillings.0 {
                    let frame: Vec<i32> = filling.frame.iter().map(|&x| x as i32).collect();
                    check_free_readings(kind, grade, number, bits, &frame, message.len());
                }
                let scale = format.scale() as i32;
                for frame in [damaged(&sent, scale, &mut own), far::in_the_class(&sent, scale, &mut own)] {
                    check_free_readings(kind, grade, number, bits, &frame, message.len());
                }
            }
            Err(number) => {
                assert_eq!((answer, grown), (Err(number), account));
                assert!(sent.iter().chain(&counted).all(|x| *x == 77));
            }
        }
    }
    println!("{rounds} messages, {tied} with several fillings of least energy");
    assert!(tied > rounds / 10);
}

/// 12 00 with two bits free, whose fillings are 12 00, 12 04, 12 08 and 12 0C: the second and the third have the least energy, and the
/// frame of the second alone is sent, and passes.
#[test]
fn free_bits_by_hand() {
    for number in [0, 1, 7, u32::MAX - 1] {
        let mut sent = [77; 8];
        assert_eq!(send_free(3, 1, number, 2, &[0x12, 0x00], &mut sent), Ok(4));
        assert_eq!(sent, [0, -1, 0, 1, 0, 1, 0, -1]);
        for (last, energy) in [(0x00, 12), (0x04, 4), (0x08, 4), (0x0C, 12)] {
            let (mut frame, mut message) = ([77; 8], [0xA5; 2]);
            assert_eq!(send(3, 1, number, &[0x12, last], &mut frame), Ok(energy));
            let judged = if last == 0x04 { (Ok(4), [0x12, 0x00]) } else { (Err(refusal::UNSHAPED), [0xA5; 2]) };
            assert_eq!((read_strict_free(3, 1, number, 2, &frame, &mut message), message), judged);
            assert_eq!(read_open_free(3, 1, 2, &frame, &mut message), Ok(energy));
            assert_eq!(message, [0x12, 0x00]);
        }
    }
}

/// Every message of kind 3, grade 1 with each free count, by both rules: the frames of all its fillings.
#[test]
fn every_message_of_kind_3_grade_1_with_free_bits() {
    let format = frame::Format::new(3, 1).unwrap();
    let mut tied = 0;
    for bits in 0..=4 {
        for message in (0..1u16 << (12 - bits)).map(u16::to_le_bytes) {
            for number in [0, 1] {
                let mut sent = [77; 8];
                let answer = send_free(3, 1, number, bits, &message, &mut sent);
                let second = free::send_into(3, 1, number, bits, &message, 8).unwrap();
                assert_eq!((answer, wide(&sent)), (Ok(second.energy), second.frame));
                let fillings = free::Fillings::new(&format, frame::Tie::of(number), bits, &message);
                tied += (fillings.least().len() > 1) as usize;
                for filling in &fillings.0 {
                    let frame: Vec<i32> = filling.frame.iter().map(|&x| x as i32).collect();
                    check_free_readings(3, 1, number, bits, &frame, 2);
                }
            }
        }
    }
    println!("kind 3, grade 1: {tied} times several fillings of least energy");
}

#[test]
fn free_bits() {
    check_free(4_000, 6);
}

/// A few minutes; run with `--ignored`.
#[test]
#[ignore]
fn many_free_bits() {
    check_free(200_000, 7);
}

#[test]
fn lengths_and_free_counts() {
    let mut random = Random(8);
    for _ in 0..20_000 {
        let (kind, grade, bits) =
            (2 + random.below(6) as u8, random.below(6) as u8, [0, 1, 4, 5, 6, 255][random.below(6) as usize]);
        let (length, bytes) = (1 << random.below(7), random.below(48) as usize);
        let mut message = vec![0; bytes];
        random.fill(&mut message);
        let number = random.word() as u32;
        let mut sent = vec![77; length];
        let answer = send_free(kind, grade, number, bits, &message, &mut sent);
        match free::send_into(kind, grade, number, bits, &message, length) {
            Ok(second) => assert_eq!((answer, wide(&sent)), (Ok(second.energy), second.frame)),
            Err(number) => assert_eq!((answer, sent), (Err(number), vec![77; length])),
        }
        let frame: Vec<i32> = (0..length).map(|_| random.below(2) as i32 * 33_554_434 - 16_777_217).collect();
        check_free_readings(kind, grade, number, bits, &frame, bytes);
        check_free_readings(kind, grade, number, bits, &vec![0; length], bytes);
    }
}

#[test]
fn lengths_and_spare_bits() {
    let mut random = Random(5);
    for kind in 0..=8 {
        for grade in 0..=6 {
            for bytes in 0..=47 {
                for length in [0, 7, 8, 9, 15, 16, 17, 31, 32, 33, 63, 64, 65] {
                    let mut message = vec![0; bytes];
                    random.fill(&mut message);
                    let mut sent = vec![77; length];
                    let number = random.word() as u32;
                    let answer = send(kind, grade, number, &message, &mut sent);
                    match frame::send_into(kind, grade, number, &message, length) {
                        Ok(expected) => assert_eq!((answer, wide(&sent)), (Ok(expected.energy), expected.frame)),
                        Err(number) => assert_eq!((answer, sent), (Err(number), vec![77; length])),
                    }
                    let frame: Vec<i32> = (0..length).map(|_| random.below(2) as i32 * 2 - 2).collect();
                    check_readings(kind, grade, number, &frame, bytes);
                }
            }
        }
    }
}

#[test]
fn opening() {
    for changeover in [0, 1, 999_999, FULL] {
        assert_eq!(open(changeover), (Account { count: 0, sum: 0.0, largest: 0, changeover }, 0));
    }
    for changeover in [FULL + 1, 1 << 31, u32::MAX] {
        assert_eq!(open(changeover), (Account { count: 0, sum: 0.0, largest: 0, changeover: 0 }, refusal::CHANGEOVER));
    }
}

#[test]
fn accounts() {
    let mut account = open(0).0;
    let mut frame = [0; 16];
    assert_eq!(send_counted(4, 1, &[0x20, 0, 0, 0, 0], &mut frame, &mut account), Ok(64));
    assert_eq!(account, Account { count: 1, sum: 4.0, largest: 32, changeover: 0 });
    // Only the second block, which is less: (0, 4, 0, ..).
    assert_eq!(send_counted(4, 1, &[0, 0, 0, 0x10, 0], &mut frame, &mut account), Ok(16));
    assert_eq!(account, Account { count: 2, sum: 5.0, largest: 32, changeover: 0 });
    let full = Account { count: FULL, sum: 1.5, largest: 3, changeover: 7 };
    account = full;
    let before = frame;
    assert_eq!(send_counted(4, 1, &[0, 0, 0, 0, 0x10], &mut frame, &mut account), Err(refusal::SPARE_BITS));
    assert_eq!(send_counted(4, 1, &[0x20, 0, 0, 0, 0], &mut frame, &mut account), Err(refusal::ACCOUNT_FULL));
    assert_eq!((frame, account), (before, full));
    assert_eq!(send_counted(4, 1, &[0; 5], &mut [0; 99], &mut account), Err(refusal::FRAME_LENGTH));
    // The longest frames, and 64 ones.
    let mut frame = [77; 64];
    assert_eq!(send_counted(6, 4, &[0; 46], &mut frame, &mut account), Err(refusal::ACCOUNT_FULL));
    assert_eq!((frame, account), ([77; 64], full));
    account = open(FULL).0;
    let mut message = [0; 46];
    message[0] = 1;
    assert_eq!(send_counted(6, 4, &message, &mut frame, &mut account), Ok(64));
    assert_eq!((frame, account), ([1; 64], Account { count: 1, sum: 1.0, largest: 8, changeover: FULL }));
}

#[test]
fn queues() {
    // Two good messages, one with a spare bit set, a good one; the second is sent otherwise where its number is odd.
    let messages = [0x00, 0x08, 0x01, 0x00, 0x00, 0x10, 0x01, 0x00];
    let check = |(kind, grade), bytes, length, (count, changeover): (u32, u32), expected: (usize, u8)| {
        let mut account = Account { count, sum: 0.25, largest: 3, changeover };
        let mut sent = vec![77; length];
        assert_eq!(send_queue(kind, grade, &messages[..bytes], &mut sent, &mut account), expected);
        let (sum, largest) = [(0.25, 3), (2.25, 16), (3.25, 16)][expected.0];
        assert_eq!(account, Account { count: count + expected.0 as u32, sum, largest, changeover });
        let [first, second] = [0, 1].map(|place| {
            let number = count.wrapping_add(place);
            if number >= changeover && odd(number) {
                1
            } else {
                -1
            }
        });
        let frames = [[4 * first, 0, 0, 0, 0, 0, 0, 0], [second; 8]].concat();
        let mut left = vec![77; length];
        left[..8 * expected.0].copy_from_slice(&frames[..8 * expected.0]);
        assert_eq!(sent, left);
    };
    for account in [(0, 0), (0, 1), (0, 2), (5, 5), (5, 6), (5, 7), (6, 7), (6, 8), (5, u32::MAX)] {
        check((3, 1), 4, 16, account, (2, 0));
        check((3, 1), 8, 32, account, (2, refusal::SPARE_BITS));
    }
    check((3, 1), 8, 32, (FULL - 2, 0), (2, refusal::SPARE_BITS));
    check((3, 1), 8, 32, (FULL - 1, 0), (1, refusal::ACCOUNT_FULL));
    check((3, 1), 8, 32, (FULL - 1, FULL), (1, refusal::ACCOUNT_FULL));
    check((3, 1), 4, 16, (u32::MAX, 0), (0, refusal::ACCOUNT_FULL));
    let full = (FULL, 9);
    check((3, 1), 0, 0, full, (0, 0));
    check((3, 1), 3, 9, full, (0, refusal::MESSAGE_LENGTH));
    for length in [0, 8, 15, 17, 24] {
        check((3, 1), 4, length, full, (0, refusal::FRAME_LENGTH));
    }
    check((3, 5), 3, 9, full, (0, refusal::GRADE));
    check((7, 5), 0, 0, (0, 0), (0, refusal::KIND));
}

/// The vectors that the second coder wrote, by the format of its README, without the wrong ones at the end.
#[test]
fn written_vectors() {
    let path = concat!(env!("CARGO_MANIFEST_DIR"), "/../../crates/test_vectors/data/vectors.bin");
    let file = std::fs::read(path).expect("the second coder's vectors are there");
    let (mut rest, mut count) = (&file[..file.len() - vectors::wrong_bytes()], 0);
    while let [kind, grade, bytes, n0, n1, n2, n3, other, after @ ..] = rest {
        let number = u32::from_le_bytes([*n0, *n1, *n2, *n3]);
        let (message, after) = after.split_at(*bytes as usize);
        let (coordinates, after) = after[1..].split_at(4 * after[0] as usize);
        let (energies, after) = after.split_at(24);
        let expected: Vec<i32> =
            coordinates.chunks_exact(4).map(|x| i32::from_le_bytes(x.try_into().unwrap())).collect();
        let mut energies = energies.chunks_exact(8).map(|x| Ok(u64::from_le_bytes(x.try_into().unwrap())));
        let energy = energies.next().unwrap();
        let (mut sent, mut back) = (vec![77; expected.len()], vec![0xA5; message.len()]);
        assert_eq!((send(*kind, *grade, number, message, &mut sent), &sent), (energy, &expected));
        assert_eq!((read_strict(*kind, *grade, number, &sent, &mut back), &back[..]), (energy, message));
        // Under the number beside it, whose rule is the other.
        let judged = if *other == 0 { energy } else { Err(*other) };
        assert_eq!(read_strict(*kind, *grade, number ^ 1, &sent, &mut back), judged);
        // The frame with a point added: M at the first two places, and half of M at each place of the last block.
        let levels = frame::Format::new(*kind, *grade).unwrap().levels.len();
        let scale = 1 << (levels as u8 + grade);
        let (mut first, mut last) = (sent.clone(), sent);
        first.iter_mut().take(2).for_each(|x| *x += scale);
        last.iter_mut().rev().take(8).for_each(|x| *x += scale / 2);
        for (frame, energy) in [first, last].iter().zip(energies) {
            back.fill(0xA5);
            assert_eq!(read_strict(*kind, *grade, number, frame, &mut back), Err(refusal::UNSHAPED));
            assert_eq!((read_open(*kind, *grade, frame, &mut back), &back[..]), (energy, message));
        }
        // The first coordinate moved out of the coding set, at each level.
        for (level, refusal) in [BROKEN_LEVEL_0, BROKEN_LEVEL_1, BROKEN_LEVEL_2].into_iter().take(levels).enumerate() {
            let mut frame = expected.clone();
            frame[0] += 1 << level;
            back.fill(0xA5);
            assert_eq!(read_open(*kind, *grade, &frame, &mut back), Err(refusal));
            assert_eq!(read_strict(*kind, *grade, number, &frame, &mut back), Err(refusal));
            assert!(back.iter().all(|byte| *byte == 0xA5));
        }
        (rest, count) = (after, count + 1);
    }
    assert!(rest.is_empty() && count >= 9600);
}

/// Compares a near reading, with a message of so many bytes lent.
fn check_near(kind: u8, grade: u8, samples: &[f32], bytes: usize) -> Result<f64, u8> {
    let mut message = vec![0xA5; bytes];
    let answer = read_near(kind, grade, samples, &mut message);
    match near::read_near(kind, grade, samples, bytes) {
        Ok(near) => assert_eq!((answer, message), (Ok(near.distance), near.message), "{kind} {samples:?}"),
        Err(number) => assert_eq!((answer, message), (Err(number), vec![0xA5; bytes]), "{kind} {samples:?}"),
    }
    answer
}

/// Noise at a few places, in 256ths: whole numbers of eighths, or of 256ths.
fn few(length: usize, random: &mut Random) -> Vec<i32> {
    let (mut noise, most, step) = (vec![0; length], 64 << random.below(4), [1, 32][random.below(2) as usize]);
    for _ in 0..1 + random.below(6) {
        noise[random.below(length as u64) as usize] = (random.below(2 * most + 1) as i32 - most as i32) / step * step;
    }
    noise
}

/// Gives how many were near, and how many were not, at each kind.
fn check_noisy(rounds: usize, seed: u64) -> [[usize; 2]; 3] {
    let mut own = Random(seed);
    let mut random = random::Random::new(seed);
    let mut counts = [[0; 2]; 3];
    for round in 0..rounds {
        // The second coder takes longest at kind 5.
        let (kind, grade) = ([3, 4, 3, 4, 3, 4, 3, 5][round % 8], 1 + (round / 8 % 4) as u8);
        let format = frame::Format::new(kind, grade).unwrap();
        let (message, number) = (vectors::dense(&format, &mut random), own.word() as u32);
        let mut sent = vec![0; format.length()];
        send(kind, grade, number, &message, &mut sent).unwrap();
        let noise = match own.below(2) {
            0 => few(sent.len(), &mut own),
            _ => {
                let most = 1 + own.below(200);
                sent.iter().map(|_| own.below(2 * most + 1) as i32 - most as i32).collect()
            }
        };
        let samples: Vec<f32> = sent.iter().zip(&noise).map(|(x, off)| (256 * x + off) as f32 / 256.0).collect();
        let answer = check_near(kind, grade, &samples, message.len());
        let squared = noise.iter().map(|off| off * off).sum::<i32>();
        if squared < 65_536 << (kind - 3) {
            assert_eq!(answer, Ok(squared as f64 / 65_536.0));
        }
        counts[kind as usize - 3][answer.is_err() as usize] += 1;
    }
    counts
}

#[test]
fn noisy_samples() {
    let counts = check_noisy(3_000, 1);
    assert!(counts.iter().flatten().all(|count| *count > 50), "{counts:?}");
}

/// A few minutes; run with `--ignored`.
#[test]
#[ignore]
fn many_noisy_samples() {
    println!("near and far, by kind: {:?}", check_noisy(200_000, 2));
}

/// Every frame that is near to samples at kind 3, from all whole numbers about them: there is none or one.
#[test]
fn every_frame_about_samples() {
    let mut random = Random(3);
    for _ in 0..300 {
        let samples: [i32; 8] = std::array::from_fn(|_| random.below(1024) as i32 - 512);
        let mut near = Vec::new();
        for number in 0..1 << 16 {
            let frame: [i32; 8] = std::array::from_fn(|p| (samples[p] >> 8) + (number >> (2 * p) & 3) - 1);
            let distance = frame.iter().zip(samples).map(|(x, t)| (256 * x - t).pow(2)).sum::<i32>();
            let mut message = [0xA5; 2];
            if distance < 65_536 && read_open(3, 1, &frame, &mut message).is_ok() {
                near.push((Ok(distance as f64 / 65_536.0), message));
            }
        }
        let mut message = [0xA5; 2];
        let answer = read_near(3, 1, &samples.map(|t| t as f32 / 256.0), &mut message);
        match near[..] {
            [] => assert_eq!((answer, message), (Err(refusal::TOO_FAR), [0xA5; 2])),
            [near] => assert_eq!((answer, message), near),
            _ => panic!("{samples:?} has {near:?}"),
        }
    }
}

#[test]
fn unfit_samples() {
    let part = 1.0 / 256.0;
    let fit = [0.0, part, 128.0 - part, 128.0];
    let unfit =
        [f32::NAN, f32::INFINITY, 128.0f32.next_up(), 128.0 + part, part / 2.0, part.next_up(), f32::MAX, 1e-45];
    for kind in 3..=5 {
        let bytes = frame::Format::new(kind, 1).unwrap().message_bytes();
        for place in [0, 5, (1 << kind) - 1] {
            for sign in [-1.0, 1.0] {
                let mut samples = vec![0.0; 1 << kind];
                for sample in fit {
                    samples[place] = sign * sample;
                    assert_ne!(check_near(kind, 1, &samples, bytes), Err(refusal::UNFIT_SAMPLE));
                }
                for sample in unfit {
                    samples[place] = sign * sample;
                    assert_eq!(check_near(kind, 1, &samples, bytes), Err(refusal::UNFIT_SAMPLE));
                }
            }
        }
    }
}

#[test]
fn near_refusals_in_order() {
    for kind in 0..=8 {
        for grade in 0..=6 {
            for bytes in 0..=24 {
                for length in [0, 7, 8, 9, 15, 16, 17, 31, 32, 33, 63, 64, 65] {
                    for sample in [0.0, 0.5, f32::NAN] {
                        let _ = check_near(kind, grade, &vec![sample; length], bytes);
                    }
                }
            }
        }
    }
}

/// Compares the choice between two recordings, in both orders.
fn check_closer(kind: u8, grade: u8, first: &[f32], second: &[f32]) -> Result<u8, u8> {
    for (first, second) in [(second, first), (first, second)] {
        let expected = recordings::closer(kind, grade, first, second);
        assert_eq!(closer(kind, grade, first, second), expected, "{kind} {grade} {first:?} {second:?}");
    }
    closer(kind, grade, first, second)
}

/// The samples of the frame that is sent for a message, with noise in 256ths.
fn recorded(kind: u8, grade: u8, number: u32, message: &[u8], noise: &[i32]) -> Vec<f32> {
    let mut sent = vec![0; noise.len()];
    send(kind, grade, number, message, &mut sent).unwrap();
    sent.iter().zip(noise).map(|(x, off)| (256 * x + off) as f32 / 256.0).collect()
}

/// Recordings of one frame with noise, or with the same noise at other places, or of two messages; gives for each kind how often the
/// first was chosen, the second, or none by each number.
fn check_recordings(rounds: usize, seed: u64) -> [[usize; 19]; 3] {
    let mut own = Random(seed);
    let mut random = random::Random::new(seed);
    let mut counts = [[0; 19]; 3];
    for round in 0..rounds {
        // The second coder takes longest at kind 5.
        let (kind, grade) = ([3, 4, 3, 4, 3, 4, 3, 5][round % 8], 1 + (round / 8 % 4) as u8);
        let format = frame::Format::new(kind, grade).unwrap();
        let [message, other] = [0; 2].map(|_| vectors::dense(&format, &mut random));
        let [noise, more] = [0; 2].map(|_| few(format.length(), &mut own));
        let turned: Vec<i32> = noise.iter().rev().map(|off| -off).collect();
        let (message_2, noise_2) = [(&message, &turned), (&other, &more), (&message, &more)][own.below(3) as usize];
        let first = recorded(kind, grade, own.word() as u32, &message, &noise);
        let second = recorded(kind, grade, own.word() as u32, message_2, noise_2);
        let answer = check_closer(kind, grade, &first, &second);
        counts[kind as usize - 3][answer.unwrap_or_else(|number| number) as usize] += 1;
        if own.below(8) == 0 {
            let mut unfit = first.clone();
            unfit[own.below(first.len() as u64) as usize] += 1.0 / 512.0;
            assert_ne!(check_closer(kind, grade, &unfit, &second), Ok(1));
            assert_eq!(check_closer(kind, grade, &unfit, &first[1..]), Err(refusal::UNFIT_SAMPLE));
        }
    }
    counts
}

/// 1 and 2 chosen, and none by 16 and 18.
#[test]
fn two_recordings() {
    let counts = check_recordings(1_600, 1);
    assert!(counts.iter().all(|counts| [1, 2, 16, 18].iter().all(|answer| counts[*answer] > 5)), "{counts:?}");
}

/// A few minutes; run with `--ignored`.
#[test]
#[ignore]
fn many_recordings() {
    println!("by kind and answer: {:?}", check_recordings(40_000, 2));
}

#[test]
fn recordings_refused_in_order() {
    let lengths = [0, 7, 8, 9, 16, 17, 32, 64];
    for (kind, grade) in (0..=8).flat_map(|kind| (0..=6).map(move |grade| (kind, grade))) {
        for (one, other) in lengths.iter().flat_map(|one| lengths.map(|other| (*one, other))) {
            for samples in [[0.0, 0.0], [0.0, 0.5], [0.5, f32::NAN]] {
                let _ = check_closer(kind, grade, &vec![samples[0]; one], &vec![samples[1]; other]);
            }
        }
    }
}

/// Writes and compares: the answer, the place after the record, and every byte. Gives the buffer where it is written.
fn check_written(kind: u8, grade: u8, number: u32, message: &[u8], buffer: &[u8], place: usize) -> Result<Vec<u8>, u8> {
    let mut written = buffer.to_vec();
    let answer = write_record(kind, grade, number, message, &mut written, place);
    let expected = records::write(kind, grade, number, message, buffer, place as u64);
    assert_eq!(answer, expected.as_ref().map(|(_, after)| *after as usize).map_err(|number| *number));
    assert_eq!(written, expected.map_or(buffer.to_vec(), |(bytes, _)| bytes));
    answer.map(|_| written)
}

/// Reads and compares: the answer, and every coordinate.
fn check_record(buffer: &[u8], place: usize, length: usize) -> Result<Record, u8> {
    let mut frame = vec![77; length];
    let answer = read_record(buffer, place, &mut frame);
    match records::read(buffer, place as u64, length) {
        Ok(read) => {
            let records::Recorded { kind, grade, number, energy, .. } = read;
            assert_eq!(answer, Ok(Record { kind, grade, number, energy, next: read.after as usize }));
            assert_eq!(wide(&frame), read.frame);
        }
        Err(number) => {
            assert_eq!(answer, Err(number));
            assert_eq!(frame, vec![77; length]);
        }
    }
    answer
}

/// Records at places of random bytes, in them and past them, read back, changed at a byte and read again; counts what the second
/// readings answer.
fn check_records(rounds: usize, seed: u64) -> [usize; 20] {
    let (mut random, mut messages, mut answers) = (Random(seed), random::Random::new(seed), [0; 20]);
    for _ in 0..rounds {
        for (kind, grade) in (3..=6).flat_map(|kind| (1..=4).map(move |grade| (kind, grade))) {
            let number = random.word() as u32;
            let format = frame::Format::new(kind, grade).unwrap();
            let message = match random.below(2) {
                0 => vectors::dense(&format, &mut messages),
                _ => vectors::tied_edge(&format, &mut messages),
            };
            let (length, whole) = (format.length(), 8 + 4 * format.length());
            let mut buffer = vec![0; whole + random.below(9) as usize];
            random.fill(&mut buffer);
            let most = buffer.len() - whole;
            for place in [most + 1, buffer.len(), buffer.len() + 1, usize::MAX, usize::MAX - 7, usize::MAX - whole + 1]
            {
                assert_eq!(check_written(kind, grade, number, &message, &buffer, place), Err(refusal::RECORD_END));
            }
            let place = random.below(most as u64 + 1) as usize;
            let mut record = check_written(kind, grade, number, &message, &buffer, place).unwrap();
            let read = check_record(&record, place, length).unwrap();
            assert_eq!((read.kind, read.grade, read.number, read.next), (kind, grade, number, place + whole));
            match random.below(4) {
                0 => record[place + 4] ^= 1,
                1 => record[place + random.below(8) as usize] ^= 1 << random.below(8),
                2 => record.truncate(place + random.below(whole as u64) as usize),
                _ => record[place + random.below(whole as u64) as usize] ^= 1 + random.below(255) as u8,
            }
            let answer = check_record(&record, place, length);
            answers[answer.err().unwrap_or(0) as usize] += 1;
            let _ = check_record(&record, random.below(2 * whole as u64) as usize, length);
        }
    }
    answers
}

#[test]
fn records_changed() {
    let answers = check_records(200, 28);
    let numbers = [0, 1, 2, 4, 6, 7, 8, 9, 10, 13, 19];
    assert!((0..20).all(|number| (answers[number] > 0) == numbers.contains(&number)), "{answers:?}");
}

/// Some minutes; run with `--ignored`.
#[test]
#[ignore]
fn many_records_changed() {
    println!("by answer: {:?}", check_records(100_000, 29));
}

/// Each refusal with all that is tested later wrong too; a record cut short at each byte; and the bytes of two by hand.
#[test]
fn records_refused_in_order() {
    for (kind, grade) in (2..=7).flat_map(|kind| (0..=5).map(move |grade| (kind, grade))) {
        for bytes in [0, 1, 2, 5, 8, 11, 22, 46] {
            for byte in [0x00, 0x08, 0x10, 0xFF] {
                for (length, place) in [(0, 0), (39, 0), (264, 0), (300, 36), (300, 37), (300, 301)] {
                    let _ = check_written(kind, grade, 1, &vec![byte; bytes], &vec![0xA5; length], place);
                }
            }
        }
        let mut record = [vec![0x4C, 0x46, kind, grade], vec![0; 260]].concat();
        record[11] = 0x02;
        for length in [0, 7, 8, 9, 16, 32, 64, 65] {
            for end in 0..=264 {
                let _ = check_record(&record[..end], 0, length);
            }
            record[1] = 0x43;
            assert_eq!(check_record(&record, 0, length), Err(refusal::MARK));
            record[1] = 0x46;
        }
    }
    let even = [0x4C, 0x46, 0x03, 0x01, 0xFE, 0xFF, 0xFF, 0xFF, 0xFC, 0xFF, 0xFF, 0xFF];
    let odd = [0x4C, 0x46, 0x03, 0x01, 0x01, 0x00, 0x00, 0x00, 0x04, 0x00, 0x00, 0x00];
    for (number, begin) in [(u32::MAX - 1, even), (1, odd)] {
        let record = [&begin[..], &[0; 28]].concat();
        assert_eq!(check_written(3, 1, number, &[0x00, 0x08], &[9; 40], 0), Ok(record.clone()));
        assert_eq!(check_record(&record, 0, 8), Ok(Record { kind: 3, grade: 1, number, energy: 16, next: 40 }));
    }
}
