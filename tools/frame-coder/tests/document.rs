//! The cases of document 01 and of the requests of document 02, through the static library.

use frame_coder::{
    by_number, closer, message_bits, message_length, read_near, read_near_to_vec, read_open, read_open_free,
    read_open_free_to_vec, read_open_to_vec, read_strict, read_strict_free, read_strict_free_to_vec,
    read_strict_to_vec, send, send_free, send_free_to_vec, send_to_vec, Account, Grade, Kind, Refusal, Stopped,
    MAX_COORDINATE, MAX_FRAME_LENGTH, MAX_FREE, MAX_MESSAGE_LENGTH,
};

/// Even and odd numbers, the last of all among them.
const EVEN: [u32; 5] = [0, 2, 1_000_000, 1 << 31, u32::MAX - 1];
const ODD: [u32; 5] = [1, 3, 999_999, (1 << 31) - 1, u32::MAX];

/// Document 01's frames are those of number 0, and so of every even one.
#[test]
fn exam_frames() {
    let table: [(Kind, &[u8], &[i32], u64); 10] = [
        (Kind::Three, &[0x00, 0x00], &[0; 8], 0),
        (Kind::Three, &[0x01, 0x00], &[-1; 8], 8),
        (Kind::Three, &[0x02, 0x00], &[0, 1, 0, 1, 0, 1, 0, 1], 4),
        (Kind::Three, &[0x10, 0x00], &[0, 2, 0, 0, 0, 0, 0, 0], 4),
        (Kind::Three, &[0x00, 0x04], &[0, 0, 0, 0, 0, 0, 0, 2], 4),
        (Kind::Three, &[0x10, 0x04], &[0, -2, 0, 0, 0, 0, 0, -2], 8),
        (Kind::Three, &[0x00, 0x08], &[-4, 0, 0, 0, 0, 0, 0, 0], 16),
        (Kind::Three, &[0xF0, 0x07], &[-2, 0, 0, 0, 0, 0, 0, 0], 4),
        (Kind::Four, &[0x01, 0, 0, 0, 0], &[1; 16], 16),
        (Kind::Four, &[0x20, 0, 0, 0, 0], &[-2; 16], 64),
    ];
    for (kind, message, frame, energy) in table {
        for number in EVEN {
            let mut sent = vec![99; frame.len()];
            assert_eq!(send(kind, Grade::One, number, message, &mut sent), Ok(energy));
            assert_eq!(sent, frame);
            assert_eq!(send_to_vec(kind, Grade::One, number, message), Ok((sent, energy)));
            let mut back = vec![99; message.len()];
            assert_eq!(read_strict(kind, Grade::One, number, frame, &mut back), Ok(energy));
            assert_eq!(back, message);
            assert_eq!(read_strict_to_vec(kind, Grade::One, number, frame), Ok((message.to_vec(), energy)));
        }
        let mut back = vec![99; message.len()];
        assert_eq!(read_open(kind, Grade::One, frame, &mut back), Ok(energy));
        assert_eq!(back, message);
        assert_eq!(read_open_to_vec(kind, Grade::One, frame), Ok((message.to_vec(), energy)));
    }
}

/// Frames under odd numbers, worked by hand, and the same under even ones: each is read strictly under its own numbers alone, where
/// they differ.
#[test]
fn numbered_frames() {
    type Case = (Kind, &'static [u8], &'static [i32], &'static [i32]);
    let table: [Case; 9] = [
        (Kind::Three, &[0x00, 0x08], &[-4, 0, 0, 0, 0, 0, 0, 0], &[4, 0, 0, 0, 0, 0, 0, 0]),
        (Kind::Three, &[0x02, 0x08], &[0, -3, 0, 1, 0, 1, 0, 1], &[0, 1, 0, 1, 0, 1, 0, -3]),
        (Kind::Three, &[0x01, 0x00], &[-1; 8], &[1; 8]),
        (Kind::Three, &[0x10, 0x04], &[0, -2, 0, 0, 0, 0, 0, -2], &[0, 2, 0, 0, 0, 0, 0, 2]),
        (Kind::Three, &[0xF0, 0x07], &[-2, 0, 0, 0, 0, 0, 0, 0], &[-2, 0, 0, 0, 0, 0, 0, 0]),
        (Kind::Three, &[0x02, 0x00], &[0, 1, 0, 1, 0, 1, 0, 1], &[0, 1, 0, 1, 0, 1, 0, 1]),
        (Kind::Three, &[0x00, 0x00], &[0; 8], &[0; 8]),
        (Kind::Four, &[0x20, 0, 0, 0, 0], &[-2; 16], &[2; 16]),
        (Kind::Four, &[0x01, 0, 0, 0, 0], &[1; 16], &[1; 16]),
    ];
    for (kind, message, even, odd) in table {
        let energy = even.iter().map(|x| (x * x) as u64).sum::<u64>();
        for (numbers, own, other) in [(EVEN, even, odd), (ODD, odd, even)] {
            for number in numbers {
                assert_eq!(send_to_vec(kind, Grade::One, number, message), Ok((own.to_vec(), energy)));
                let read = Ok((message.to_vec(), energy));
                assert_eq!(read_strict_to_vec(kind, Grade::One, number, own), read);
                let judged = if own == other { read } else { Err(Refusal::Unshaped) };
                assert_eq!(read_strict_to_vec(kind, Grade::One, number, other), judged);
            }
            assert_eq!(read_open_to_vec(kind, Grade::One, own), Ok((message.to_vec(), energy)));
        }
    }
}

/// Over all messages the frames of an even and those of an odd number add up to zero in every coordinate; those of the even ones alone
/// do not.
#[test]
fn frames_add_up_to_zero() {
    for grade in [Grade::One, Grade::Two] {
        let bits = message_bits(Kind::Three, grade);
        let mut sums = [[0i64; 8]; 2];
        for message in 0..1u32 << bits {
            let message = &message.to_le_bytes()[..message_length(Kind::Three, grade)];
            for (number, sum) in (8..).zip(&mut sums) {
                let mut frame = [0; 8];
                send(Kind::Three, grade, number, message, &mut frame).unwrap();
                sum.iter_mut().zip(frame).for_each(|(sum, x)| *sum += i64::from(x));
            }
        }
        let [even, odd] = sums;
        assert_eq!(odd, even.map(|sum| -sum));
        assert!(even.iter().any(|sum| *sum < 0));
    }
}

#[test]
fn further_cases() {
    let mut message = [99; 5];
    assert_eq!(read_strict(Kind::Four, Grade::One, 0, &[2; 16], &mut message), Err(Refusal::Unshaped));
    assert_eq!(message, [99; 5]);
    assert_eq!(read_open(Kind::Four, Grade::One, &[2; 16], &mut message), Ok(64));
    assert_eq!(message, [0x20, 0, 0, 0, 0]);
    let mut frame = [1, 0, 0, 0, 0, 0, 0, 0];
    assert_eq!(read_open(Kind::Three, Grade::One, &frame, &mut [0; 2]), Err(Refusal::BrokenLevel0));
    assert_eq!(send(Kind::Three, Grade::One, 0, &[0x00, 0x10], &mut frame), Err(Refusal::SpareBits));
    assert_eq!(frame, [1, 0, 0, 0, 0, 0, 0, 0]);
}

/// Every coordinate at both ends of the range and one past them, alone, and with all others at the end. A multiple of 256 at each
/// place is a point of the lattice, so that the message is all 0.
#[test]
fn ends_of_the_range() {
    assert_eq!(MAX_COORDINATE, 16_777_216);
    for (&kind, &grade) in Kind::ALL.iter().flat_map(|kind| Grade::ALL.iter().map(move |grade| (kind, grade))) {
        let (length, bytes) = (kind.frame_length(), message_length(kind, grade));
        let check = |frame: &[i32], free: u8, expected: Result<u64, Refusal>| {
            let mut message = vec![0xA5; bytes];
            assert_eq!(read_open_free(kind, grade, free, frame, &mut message), expected);
            assert_eq!(message, vec![if expected.is_ok() { 0 } else { 0xA5 }; bytes]);
            let mut message = vec![0xA5; bytes];
            for number in [0, 1] {
                let refusal = expected.err().unwrap_or(Refusal::Unshaped);
                assert_eq!(read_strict_free(kind, grade, number, free, frame, &mut message), Err(refusal));
            }
            assert_eq!(message, vec![0xA5; bytes]);
        };
        for end in [-16_777_216, 16_777_216i32] {
            check(&vec![end; length], 0, Ok((length as u64) << 48));
            for place in 0..length {
                let free = place as u8 % (MAX_FREE + 1);
                let with = |others: i32, x: i32| {
                    let mut frame = vec![others; length];
                    frame[place] = x;
                    frame
                };
                check(&with(0, end), free, Ok(1 << 48));
                for others in [0, 1, end] {
                    check(&with(others, end + end.signum()), free, Err(Refusal::OverRange));
                }
                check(&with(end, end - end.signum()), free, Err(Refusal::BrokenLevel0));
            }
        }
        for x in [i32::MIN, i32::MAX] {
            check(&vec![x; length], 0, Err(Refusal::OverRange));
        }
    }
    // Past the range of document 01 a coordinate is read like any other.
    for x in [1_048_577, -1_048_577] {
        let read = read_open_to_vec(Kind::Three, Grade::One, &[x; 8]);
        assert_eq!(read, Ok((vec![0x01, 0x00], 8 * 1_048_577 * 1_048_577)));
        let alone = [x, 0, 0, 0, 0, 0, 0, 0];
        assert_eq!(read_open_to_vec(Kind::Three, Grade::One, &alone), Err(Refusal::BrokenLevel0));
        assert_eq!(read_strict_to_vec(Kind::Three, Grade::One, 0, &alone), Err(Refusal::BrokenLevel0));
    }
}

fn added(x: &[i32], y: &[i32]) -> Vec<i32> {
    x.iter().zip(y).map(|(x, y)| x + y).collect()
}

/// Two frames of kind 6 added, each 2 where three bits of the place are set: the sum is 4 where both are 2, and there the bits of
/// weight 4 depend on as many bits of the place as the two have together. Six of them are too many for level 2.
#[test]
fn sums_by_hand() {
    let (kind, grade) = (Kind::Six, Grade::One);
    let with = |bits: &[usize]| {
        let mut message = vec![0; message_length(kind, grade)];
        bits.iter().for_each(|bit| message[bit / 8] |= 1 << (bit % 8));
        message
    };
    let [first, second, apart] = [(29, 0b000111), (30, 0b001011), (48, 0b111000)].map(|(bit, mask)| {
        let frame: Vec<i32> = (0..64).map(|p| if p & mask == mask { 2 } else { 0 }).collect();
        assert_eq!(send_to_vec(kind, grade, 0, &with(&[bit])), Ok((frame.clone(), 32)));
        frame
    });
    let mut message = [0xA5; 22];
    let sum = added(&first, &apart);
    assert_eq!(read_open(kind, grade, &sum, &mut message), Err(Refusal::BrokenLevel2));
    assert_eq!(read_strict(kind, grade, 0, &sum, &mut message), Err(Refusal::BrokenLevel2));
    assert_eq!(message, [0xA5; 22]);
    // The mask 0b001111 is the first of four bits, and has message bit 91.
    let (sum, read) = (added(&first, &second), Ok((with(&[29, 30, 91]), 96)));
    assert_eq!(read_open_to_vec(kind, grade, &sum), read);
    assert_eq!(read_strict_to_vec(kind, grade, 1, &sum), read);

    // The largest coordinate that is sent, 131,072 times.
    let (mut message, mut frame) = (vec![0; 46], vec![0; 64]);
    message[143 / 8] = 1 << (143 % 8);
    frame[0] = -128;
    assert_eq!(send_to_vec(kind, Grade::Four, 0, &message), Ok((frame.clone(), 16_384)));
    let sum: Vec<i32> = frame.iter().map(|x| 131_072 * x).collect();
    assert_eq!(read_open_to_vec(kind, Grade::Four, &sum), Ok((vec![0; 46], 1 << 48)));
    assert_eq!(read_open_to_vec(kind, Grade::Four, &added(&sum, &frame)), Err(Refusal::OverRange));
}

/// Whether two frames differ by a point of the lattice: in each block by half the scale times numbers of one parity, whose sum 4
/// divides.
fn same_class(kind: Kind, grade: Grade, x: &[i32], y: &[i32]) -> bool {
    let half = 1 << ([1, 2, 2, 3][kind as usize - 3] + grade.number() - 1);
    x.chunks_exact(8).zip(y.chunks_exact(8)).all(|(x, y)| {
        let off: Vec<i32> = x.iter().zip(y).map(|(x, y)| x - y).collect();
        let twice: Vec<i32> = off.iter().map(|off| off / half).collect();
        let one_parity = twice.iter().all(|w| (w ^ twice[0]) & 1 == 0);
        off.iter().all(|off| off % half == 0) && one_parity && twice.iter().sum::<i32>() % 4 == 0
    })
}

/// Sent frames of any grades and numbers added, 2, 10, 100 and 131,072 of them: at kinds 3 to 5 the sum is read, and at kind 6 it is
/// read or outside the coding set.
#[test]
fn sums() {
    let mut state = 1u64;
    let mut random = || {
        state = state.wrapping_mul(6_364_136_223_846_793_005).wrapping_add(1_442_695_040_888_963_407);
        (state >> 32) as u32
    };
    for &kind in Kind::ALL {
        let mut sent = || {
            let grade = Grade::ALL[random() as usize % 4];
            let mut message = vec![0; message_length(kind, grade)];
            for k in 0..message_bits(kind, grade) {
                message[k / 8] |= (random() as u8 & 1) << (k % 8);
            }
            send_to_vec(kind, grade, random(), &message).unwrap().0
        };
        let mut outside = 0;
        for turn in 0..200 {
            let mut sum = sent();
            match turn % 4 {
                0 => sum = added(&sum, &sent()),
                1 => (0..9).for_each(|_| sum = added(&sum, &sent())),
                2 => (0..99).for_each(|_| sum = added(&sum, &sent())),
                _ => sum = added(&sum.iter().map(|x| 131_071 * x).collect::<Vec<_>>(), &sent()),
            }
            let own = sum.iter().map(|&x| i64::from(x) * i64::from(x)).sum::<i64>() as u64;
            for &grade in Grade::ALL {
                match read_open_to_vec(kind, grade, &sum) {
                    Ok((message, energy)) => {
                        assert_eq!(energy, own);
                        for number in [0, 1] {
                            let (frame, energy) = send_to_vec(kind, grade, number, &message).unwrap();
                            assert!(same_class(kind, grade, &sum, &frame));
                            let judged =
                                if frame == sum { Ok((message.clone(), energy)) } else { Err(Refusal::Unshaped) };
                            assert_eq!(read_strict_to_vec(kind, grade, number, &sum), judged);
                        }
                    }
                    refused => {
                        assert_eq!((kind, refused), (Kind::Six, Err(Refusal::BrokenLevel2)));
                        assert_eq!(read_strict_to_vec(kind, grade, 0, &sum), Err(Refusal::BrokenLevel2));
                        outside += 1;
                    }
                }
            }
        }
        assert!(if kind == Kind::Six { 0 < outside && outside < 800 } else { outside == 0 });
    }
}

/// Cases of kind 6 that are worked by hand.
#[test]
fn sixty_four_coordinates() {
    let begun = |first: &[i32]| {
        let mut frame = [0; 64];
        frame[..first.len()].copy_from_slice(first);
        frame
    };
    let mut last = [0; 64];
    last[62..].fill(4);
    let table = [
        (Grade::One, 0, [1; 64], 64),
        (Grade::One, 7, [2; 64], 256),
        (Grade::One, 49, [-4; 64], 1024),
        (Grade::One, 111, last, 32),
        (Grade::One, 112, begun(&[0, 8]), 64),
        (Grade::Four, 143, begun(&[-128]), 16_384),
    ];
    for (grade, bit, frame, energy) in table {
        let mut message = vec![0; message_length(Kind::Six, grade)];
        message[bit / 8] = 1 << (bit % 8);
        assert_eq!(send_to_vec(Kind::Six, grade, 0, &message), Ok((frame.to_vec(), energy)));
        assert_eq!(read_open_to_vec(Kind::Six, grade, &frame), Ok((message.clone(), energy)));
        assert_eq!(read_strict_to_vec(Kind::Six, grade, 0, &frame), Ok((message, energy)));
    }
    use Refusal::{BrokenLevel0, BrokenLevel1, BrokenLevel2};
    let broken = [(1, BrokenLevel0), (2, BrokenLevel1), (4, BrokenLevel2), (6, BrokenLevel1), (7, BrokenLevel0)];
    for &grade in Grade::ALL {
        for (first, refusal) in broken {
            assert_eq!(read_open_to_vec(Kind::Six, grade, &begun(&[first])), Err(refusal));
            for number in [0, 1] {
                assert_eq!(read_strict_to_vec(Kind::Six, grade, number, &begun(&[first])), Err(refusal));
            }
        }
        assert_eq!(read_open_to_vec(Kind::Six, grade, &[MAX_COORDINATE; 64]).map(|read| read.1), Ok(1 << 54));
        assert_eq!(read_open_to_vec(Kind::Six, grade, &begun(&[4, MAX_COORDINATE + 1])), Err(Refusal::OverRange));
    }
    let (message, energy) = read_open_to_vec(Kind::Six, Grade::One, &[4; 64]).unwrap();
    assert_eq!((message[6], energy), (2, 1024));
    assert_eq!(read_strict_to_vec(Kind::Six, Grade::One, 0, &[4; 64]), Err(Refusal::Unshaped));
    assert_eq!(send_to_vec(Kind::Six, Grade::One, 1, &message), Ok((vec![4; 64], 1024)));
    assert_eq!(read_strict_to_vec(Kind::Six, Grade::One, 1, &[4; 64]), Ok((message, 1024)));
}

/// 12 00 at kind 3, grade 1, worked by hand: with two bits free the energies of its fillings are 12, 4, 4 and 12, and the frame of
/// filling 1 is sent, the same under every number.
#[test]
fn free_bits_by_hand() {
    let (kind, grade, message) = (Kind::Three, Grade::One, [0x12, 0x00]);
    let (one, two) = (vec![0, -1, 0, 1, 0, 1, 0, -1], vec![0, -1, 0, 1, 0, 1, 0, 1]);
    for number in [EVEN, ODD].concat() {
        assert_eq!(send_free_to_vec(kind, grade, number, 2, &message), Ok((one.clone(), 4)));
        assert_eq!(send_to_vec(kind, grade, number, &[0x12, 0x04]), Ok((one.clone(), 4)));
        assert_eq!(send_to_vec(kind, grade, number, &[0x12, 0x08]), Ok((two.clone(), 4)));
        for (last, energy) in [(0x00, 12), (0x04, 4), (0x08, 4), (0x0C, 12)] {
            let (frame, own) = send_to_vec(kind, grade, number, &[0x12, last]).unwrap();
            assert_eq!(own, energy);
            let read = Ok((message.to_vec(), energy));
            assert_eq!(read_open_free_to_vec(kind, grade, 2, &frame), read);
            let judged = if frame == one { read } else { Err(Refusal::Unshaped) };
            assert_eq!(read_strict_free_to_vec(kind, grade, number, 2, &frame), judged);
        }
    }
}

/// A message with every bit by its place, with so many free at the end, and its fillings.
fn filled(kind: Kind, grade: Grade, seed: usize, free: u8) -> (Vec<u8>, Vec<Vec<u8>>) {
    let bits = message_bits(kind, grade);
    let with = |filling: usize| {
        let mut message = vec![0; message_length(kind, grade)];
        for k in 0..bits {
            let fixed = bits - free as usize;
            let bit = if k < fixed { (seed * (k + 3) / 5) % 3 == 1 } else { filling >> (k - fixed) & 1 == 1 };
            message[k / 8] |= u8::from(bit) << (k % 8);
        }
        message
    };
    (with(0), (0..1 << free).map(with).collect())
}

/// The frame of the first of the least fillings is sent, and is read strictly; that of no other is, under a number of either parity;
/// free bits are read as 0.
#[test]
fn free_bits() {
    let mut tied = 0;
    for (&kind, &grade) in Kind::ALL.iter().flat_map(|kind| Grade::ALL.iter().map(move |grade| (kind, grade))) {
        for (seed, free) in (0..20).flat_map(|seed| (0..=MAX_FREE).map(move |free| (seed, free))) {
            let (message, fillings) = filled(kind, grade, seed, free);
            let number = [EVEN, ODD].concat()[seed % 10];
            let frames: Vec<(Vec<i32>, u64)> =
                fillings.iter().map(|filling| send_to_vec(kind, grade, number, filling).unwrap()).collect();
            // The first of several that are least.
            let (taken, (sent, energy)) = frames.iter().enumerate().min_by_key(|(_, (_, energy))| *energy).unwrap();
            assert_eq!(send_free_to_vec(kind, grade, number, free, &message), Ok((sent.clone(), *energy)));
            for (filling, (frame, own)) in frames.iter().enumerate() {
                let read = Ok((message.clone(), *own));
                assert_eq!(read_open_free_to_vec(kind, grade, free, frame), read);
                if filling == taken {
                    assert_eq!(read_strict_free_to_vec(kind, grade, number, free, frame), read);
                    continue;
                }
                tied += u32::from(own == energy);
                for number in [number, number ^ 1] {
                    let judged = read_strict_free_to_vec(kind, grade, number, free, frame);
                    assert_eq!(judged, Err(Refusal::Unshaped));
                }
            }
            // With an account it grows by the frame as by any other.
            let mut account = Account::from_parts(number, 0.25, 3, 0);
            match account.send_free_to_vec(kind, grade, free, &message) {
                Ok((frame, own)) => {
                    assert_eq!((&frame, &own), (sent, energy));
                    let blocks = frame.chunks_exact(8).map(|block| block.iter().map(|x| (x * x) as u64).sum::<u64>());
                    let sum = 0.25 + own as f64 / kind.frame_length() as f64;
                    assert_eq!(account, Account::from_parts(number + 1, sum, blocks.max().unwrap().max(3), 0));
                }
                Err(refusal) => {
                    assert_eq!((refusal, number >= Account::MAX_COUNT), (Refusal::AccountFull, true));
                    assert_eq!(account, Account::from_parts(number, 0.25, 3, 0));
                }
            }
        }
    }
    println!("{tied} fillings as quiet as the one that is sent");
    assert!(tied > 0);
}

#[test]
fn free_counts_and_free_bits_refused() {
    let mut frame = [77; 9];
    for free in 5..=255 {
        assert_eq!(by_number::send_free(2, 0, 1, free, &[0; 9], &mut frame), Err(Refusal::Kind));
        assert_eq!(by_number::send_free(3, 5, 1, free, &[0; 9], &mut frame), Err(Refusal::Grade));
        assert_eq!(by_number::send_free(3, 1, 1, free, &[255; 9], &mut frame), Err(Refusal::FreeCount));
        assert_eq!(by_number::read_open_free(7, 1, free, &[7; 9], &mut [0; 9]), Err(Refusal::Kind));
        assert_eq!(by_number::read_open_free(3, 0, free, &[7; 9], &mut [0; 9]), Err(Refusal::Grade));
        assert_eq!(by_number::read_open_free(3, 1, free, &[7; 9], &mut [0; 9]), Err(Refusal::FreeCount));
        assert_eq!(by_number::read_strict_free(3, 1, 0, free, &[i32::MAX; 8], &mut [0; 2]), Err(Refusal::FreeCount));
        let mut account = Account::from_parts(Account::MAX_COUNT, 0.25, 3, 0);
        assert_eq!(account.send_free(Kind::Three, Grade::One, free, &[255; 2], &mut frame), Err(Refusal::FreeCount));
        assert_eq!(account, Account::from_parts(Account::MAX_COUNT, 0.25, 3, 0));
    }
    assert_eq!(frame, [77; 9]);
    for (&kind, &grade) in Kind::ALL.iter().flat_map(|kind| Grade::ALL.iter().map(move |grade| (kind, grade))) {
        let (bits, bytes) = (message_bits(kind, grade), message_length(kind, grade));
        for free in 0..=MAX_FREE {
            let mut frame = vec![77; kind.frame_length()];
            let mut back = vec![0xA5; bytes];
            assert_eq!(send_free(kind, grade, 0, free, &vec![255; bytes + 1], &mut frame), Err(Refusal::MessageLength));
            let short = &mut frame[1..];
            assert_eq!(send_free(kind, grade, 0, free, &vec![255; bytes], short), Err(Refusal::FrameLength));
            assert_eq!(read_strict_free(kind, grade, 0, free, short, &mut back), Err(Refusal::FrameLength));
            for k in bits - free as usize - 1..8 * bytes {
                let mut message = vec![0; bytes];
                message[k / 8] = 1 << (k % 8);
                let sent = send_free(kind, grade, 1, free, &message, &mut frame);
                if k == bits - free as usize - 1 {
                    assert_eq!(read_strict_free_to_vec(kind, grade, 1, free, &frame), Ok((message, sent.unwrap())));
                    frame.fill(77);
                } else {
                    assert_eq!((sent, frame.iter().all(|x| *x == 77)), (Err(Refusal::SpareBits), true));
                }
            }
            assert!(back.iter().all(|byte| *byte == 0xA5));
        }
    }
}

#[test]
fn refusals_in_order() {
    let mut frame = [7; 9];
    assert_eq!(by_number::send(2, 0, 1, &[0; 9], &mut frame), Err(Refusal::Kind));
    assert_eq!(by_number::send(3, 5, 1, &[0; 9], &mut frame), Err(Refusal::Grade));
    assert_eq!(by_number::send(3, 1, 1, &[255; 9], &mut frame), Err(Refusal::MessageLength));
    assert_eq!(by_number::send(3, 1, 1, &[255; 2], &mut frame), Err(Refusal::FrameLength));
    assert_eq!(frame, [7; 9]);
    assert_eq!(by_number::read_open(4, 1, &frame, &mut [0; 9]), Err(Refusal::FrameLength));
    assert_eq!(by_number::read_open(4, 1, &[7; 16], &mut [0; 9]), Err(Refusal::MessageLength));
    let mut broken = [0; 16];
    broken[0] = 2;
    assert_eq!(by_number::read_open(4, 1, &broken, &mut [0; 5]), Err(Refusal::BrokenLevel1));
    assert_eq!(by_number::read_strict(4, 1, 1, &broken, &mut [0; 5]), Err(Refusal::BrokenLevel1));
}

#[test]
fn kinds_and_grades() {
    for kind in 0..=255 {
        for grade in 0..=255 {
            let known = Kind::try_from(kind).and_then(|kind| Ok((kind, Grade::try_from(grade)?)));
            let refusal = known.err().unwrap_or(Refusal::FrameLength);
            assert_eq!(by_number::read_open(kind, grade, &[], &mut []), Err(refusal));
            if let Ok((k, g)) = known {
                assert_eq!((k.number(), g.number()), (kind, grade));
            }
        }
    }
    let lengths = Kind::ALL.iter().flat_map(|&kind| Grade::ALL.iter().map(move |&grade| (kind, grade)));
    assert_eq!(lengths.clone().count(), 16);
    for (kind, grade) in lengths {
        let (bits, bytes) = (message_bits(kind, grade), message_length(kind, grade));
        assert!(kind.frame_length() <= MAX_FRAME_LENGTH && bytes <= MAX_MESSAGE_LENGTH);
        for length in 0..=MAX_MESSAGE_LENGTH + 1 {
            let sent = send_to_vec(kind, grade, 0, &vec![0; length]);
            assert_eq!(sent.err(), (length != bytes).then_some(Refusal::MessageLength));
        }
        for k in 0..8 * bytes {
            let mut message = vec![0; bytes];
            message[k / 8] = 1 << (k % 8);
            for number in [EVEN[k % 5], ODD[k % 5]] {
                match send_to_vec(kind, grade, number, &message) {
                    Ok((frame, energy)) if k < bits => {
                        assert_eq!(frame.iter().map(|x| i64::from(*x).pow(2)).sum::<i64>() as u64, energy);
                        assert_eq!(read_strict_to_vec(kind, grade, number, &frame), Ok((message.clone(), energy)));
                    }
                    sent => assert_eq!((sent, k < bits), (Err(Refusal::SpareBits), false)),
                }
            }
        }
    }
}

/// The kinds that have a near reading, and the grades; with the limit in parts of 1/65,536.
fn near_formats() -> impl Iterator<Item = (Kind, Grade, i32)> {
    let limited = Kind::ALL.iter().filter_map(|&kind| Some((kind, (kind.near_limit()? * 65_536.0) as i32)));
    limited.flat_map(|(kind, limit)| Grade::ALL.iter().map(move |&grade| (kind, grade, limit)))
}

/// The samples of a frame with noise, which is given in 256ths for the places from one on.
fn noisy(frame: &[i32], place: usize, noise: &[i32]) -> Vec<f32> {
    let mut whole: Vec<i32> = frame.iter().map(|x| 256 * x).collect();
    for (i, off) in noise.iter().enumerate() {
        whole[(place + i) % frame.len()] += off;
    }
    whole.iter().map(|&x| x as f32 / 256.0).collect()
}

/// Frames of every message of one bit, under an even and an odd number, with noise in every way below the limit: at one place, at every
/// place alike, at some. The distance is that of the noise, to the last part.
#[test]
fn noise_is_taken_off() {
    for (kind, grade, limit) in near_formats() {
        let (length, bytes) = (kind.frame_length(), message_length(kind, grade));
        let most = (1..).take_while(|x| x * x < limit).last().unwrap();
        let alike = (1..).take_while(|x| length as i32 * x * x < limit).last().unwrap();
        assert_eq!(
            (most, alike),
            (
                match kind {
                    Kind::Three => 255,
                    Kind::Four => 362,
                    _ => 511,
                },
                90
            )
        );
        let signs: Vec<i32> = (0..length as i32).map(|i| if i * i % 3 == 0 { alike } else { -alike }).collect();
        let noises = [vec![], vec![1], vec![most], vec![-most], vec![128, -64, 32, -16, 8], vec![alike; length], signs];
        for k in 0..message_bits(kind, grade) {
            let mut message = vec![0; bytes];
            message[k / 8] = 1 << (k % 8);
            for number in [0, 1] {
                let (frame, _) = send_to_vec(kind, grade, number, &message).unwrap();
                for noise in &noises {
                    let distance = f64::from(noise.iter().map(|x| x * x).sum::<i32>()) / 65_536.0;
                    let samples = noisy(&frame, k, noise);
                    assert_eq!(read_near_to_vec(kind, grade, &samples), Ok((message.clone(), distance)));
                    let mut back = vec![0xA5; bytes];
                    assert_eq!(by_number::read_near(kind.number(), grade.number(), &samples, &mut back), Ok(distance));
                    assert_eq!(back, message);
                }
            }
        }
    }
}

/// On the limit itself, half way between two frames, and past it: too far, and the message is as it was.
#[test]
fn too_far() {
    for (kind, grade, limit) in near_formats() {
        let frame = vec![0; kind.frame_length()];
        let squares = |noise: &[i32]| noise.iter().map(|x| x * x).sum::<i32>();
        // From all 0 to 2 at one place, to 2 at two, or to 4 at one or 2 at four.
        let half_way: &[&[i32]] = match kind {
            Kind::Three => &[&[256], &[128, 128, 128, 128]],
            Kind::Four => &[&[256, 256], &[-256, 256]],
            _ => &[&[512], &[256; 4]],
        };
        for noise in half_way {
            assert_eq!(squares(noise), limit);
            let mut message = vec![0xA5; message_length(kind, grade)];
            for place in 0..frame.len() {
                let samples = noisy(&frame, place, noise);
                assert_eq!(read_near(kind, grade, &samples, &mut message), Err(Refusal::TooFar));
            }
            assert!(message.iter().all(|byte| *byte == 0xA5));
            let mut less = noise.to_vec();
            less[0] -= less[0].signum();
            let (message, distance) = read_near_to_vec(kind, grade, &noisy(&frame, 3, &less)).unwrap();
            assert_eq!((message.iter().all(|byte| *byte == 0), distance), (true, f64::from(squares(&less)) / 65_536.0));
        }
        let samples = vec![0.5; kind.frame_length()];
        assert_eq!(read_near_to_vec(kind, grade, &samples), Err(Refusal::TooFar));
    }
}

/// Frames of the coding set that are sent under no number are near too, up to the ends of the samples and past them.
#[test]
fn near_to_unsent_frames() {
    for (kind, grade, _) in near_formats() {
        for x in [-128, -60, 4, 128] {
            let frame = vec![x; kind.frame_length()];
            let (message, _) = read_open_to_vec(kind, grade, &frame).unwrap();
            let samples = noisy(&frame, 5, &[-64 * x.signum(), 0, -x.signum()]);
            assert_eq!(read_near_to_vec(kind, grade, &samples), Ok((message, 4097.0 / 65_536.0)));
        }
        // Odd numbers of one residue modulo 4 at every other place, one of them a whole number past the last sample.
        let mut frame = [0, 125].repeat(kind.frame_length() / 2);
        frame[3] = 129;
        let mut samples: Vec<f32> = frame.iter().map(|&x| x as f32).collect();
        samples[3] = 128.0;
        let (message, _) = read_open_to_vec(kind, grade, &frame).unwrap();
        let expected = if kind == Kind::Three { Err(Refusal::TooFar) } else { Ok((message, 1.0)) };
        assert_eq!(read_near_to_vec(kind, grade, &samples), expected);
    }
}

#[test]
fn unfit_samples() {
    let part = 1.0 / 256.0;
    let sizes =
        [f32::NAN, f32::INFINITY, f32::MAX, 128.0f32.next_up(), 128.0 + part, part / 2.0, part.next_up(), 1e-45];
    for (kind, grade, _) in near_formats() {
        let mut message = vec![0xA5; message_length(kind, grade)];
        for place in [0, 5, kind.frame_length() - 1] {
            for size in sizes {
                for sample in [size, -size] {
                    let mut samples = vec![0.0; kind.frame_length()];
                    samples[place] = sample;
                    assert_eq!(read_near(kind, grade, &samples, &mut message), Err(Refusal::UnfitSample));
                }
            }
            for sample in [128.0, -128.0, part, -0.0] {
                let mut samples = vec![-0.0; kind.frame_length()];
                samples[place] = sample;
                assert!(read_near_to_vec(kind, grade, &samples).is_ok());
            }
        }
        assert!(message.iter().all(|byte| *byte == 0xA5));
    }
}

/// The tests of a near reading, each with all that is tested later wrong too: the samples are no numbers.
#[test]
fn near_refusals_in_order() {
    for kind in (0..=255).filter(|kind| !(3..=5).contains(kind)) {
        for (grade, length, bytes) in [(0, 1, 1), (1, 8, 2), (1, 64, 22), (255, 0, 0)] {
            let mut message = vec![0xA5; bytes];
            let refused = by_number::read_near(kind, grade, &vec![f32::NAN; length], &mut message);
            assert_eq!((refused, message), (Err(Refusal::Kind), vec![0xA5; bytes]));
        }
    }
    for (kind, grade, _) in near_formats() {
        for wrong in [0, 5, 255] {
            assert_eq!(by_number::read_near(kind.number(), wrong, &[f32::NAN], &mut [0]), Err(Refusal::Grade));
        }
        let (length, bytes) = (kind.frame_length(), message_length(kind, grade));
        for other in [0, 1, length - 1, length + 1, 2 * length] {
            let samples = vec![f32::NAN; other];
            assert_eq!(read_near(kind, grade, &samples, &mut vec![0; bytes + 1]), Err(Refusal::FrameLength));
        }
        for other in [0, 1, bytes - 1, bytes + 1] {
            let refused = read_near(kind, grade, &vec![f32::NAN; length], &mut vec![0; other]);
            assert_eq!(refused, Err(if other == bytes { Refusal::UnfitSample } else { Refusal::MessageLength }));
        }
        let mut samples = vec![0.5; length];
        samples[length - 1] = f32::NAN;
        assert_eq!(read_near_to_vec(kind, grade, &samples), Err(Refusal::UnfitSample));
    }
    for &grade in Grade::ALL {
        assert_eq!(read_near_to_vec(Kind::Six, grade, &[0.0; 64]), Err(Refusal::Kind));
    }
}

/// What a choice of two recordings gives: 1 or 2 where it is the slice itself, also by number, or the refusal.
fn choice(kind: Kind, grade: Grade, first: &[f32], second: &[f32]) -> Result<u8, Refusal> {
    let chosen = closer(kind, grade, first, second);
    let by_number = by_number::closer(kind.number(), grade.number(), first, second);
    let number = |chosen: &[f32]| if std::ptr::eq(chosen, first) { 1 } else { 2 };
    assert_eq!(chosen.map(number), by_number.map(number));
    assert!(chosen.map_or(true, |chosen| std::ptr::eq(chosen, first) || std::ptr::eq(chosen, second)));
    chosen.map(number)
}

/// The choices in both orders.
fn choices(kind: Kind, grade: Grade, one: &[f32], other: &[f32]) -> [Result<u8, Refusal>; 2] {
    [choice(kind, grade, one, other), choice(kind, grade, other, one)]
}

const FIRST: Result<u8, Refusal> = Ok(1);
const SECOND: Result<u8, Refusal> = Ok(2);

/// Frames of every message of one bit, recorded with less noise and with more, also by one part of 1/65,536 just below the limit; with
/// as much at other places; with noise on the limit; and beside the frame of the other rule, and one far out in the class.
#[test]
fn closer_recording() {
    for (kind, grade, limit) in near_formats() {
        let (length, bytes) = (kind.frame_length(), message_length(kind, grade));
        // The limit less one part, as a sum of squares.
        let most: &[i32] = match kind {
            Kind::Three => &[255, 22, 5, 1],
            Kind::Four => &[362, 5, 1, 1],
            _ => &[511, 31, 7, 3, 1, 1, 1],
        };
        let less = &most[..most.len() - 1];
        assert_eq!(most.iter().map(|x| x * x).sum::<i32>(), limit - 1);
        let on_limit: &[i32] = match kind {
            Kind::Three => &[-256],
            Kind::Four => &[256, -256],
            _ => &[256, 256, -256, 256],
        };
        let turned: Vec<i32> = most.iter().rev().map(|x| -x).collect();
        // Twice the scale at one place is a point of the lattice.
        let lattice = 2 << ([1, 2, 2][kind as usize - 3] + grade.number());
        for k in 0..message_bits(kind, grade) {
            let mut message = vec![0; bytes];
            message[k / 8] = 1 << (k % 8);
            let [even, odd] = [0, 1].map(|number| send_to_vec(kind, grade, number, &message).unwrap().0);
            let [exact, near, nearest] = [&[][..], most, less].map(|noise| noisy(&even, k, noise));
            assert_eq!(choices(kind, grade, &exact, &near), [FIRST, SECOND]);
            assert_eq!(choices(kind, grade, &nearest, &near), [FIRST, SECOND]);
            assert_eq!(choices(kind, grade, &near, &noisy(&even, k + 3, &turned)), [FIRST, FIRST]);
            assert_eq!(choices(kind, grade, &near, &noisy(&odd, k + 1, &turned)), [FIRST, FIRST]);
            assert_eq!(choices(kind, grade, &near, &noisy(&odd, k + 1, less)), [SECOND, FIRST]);
            let far = noisy(&even, k, on_limit);
            assert_eq!(choices(kind, grade, &far, &near), [SECOND, FIRST]);
            assert_eq!(choices(kind, grade, &far, &noisy(&odd, k, on_limit)), [Err(Refusal::TooFar); 2]);
            let mut distant = even.clone();
            distant[k % length] += if even[k % length] > 0 { -lattice } else { lattice };
            assert_eq!(read_open_to_vec(kind, grade, &distant).unwrap().0, message);
            assert_eq!(choices(kind, grade, &near, &noisy(&distant, k + 1, less)), [SECOND, FIRST]);
            // All 0 is the frame of another message.
            let zeros = vec![0.0; length];
            assert_eq!(choices(kind, grade, &near, &zeros), [Err(Refusal::AtOdds); 2]);
            assert_eq!(choices(kind, grade, &far, &zeros), [SECOND, FIRST]);
        }
    }
}

/// One slice as both recordings, and slices that share samples.
#[test]
fn shared_recordings() {
    for (kind, grade, _) in near_formats() {
        let length = kind.frame_length();
        let mut samples = vec![2.0; length + 1];
        let equal = closer(kind, grade, &samples[1..], &samples[..length]).unwrap();
        assert!(std::ptr::eq(equal, &samples[1..]));
        samples[length] = 2.25;
        let (first, second) = (&samples[..length], &samples[1..]);
        assert!(std::ptr::eq(closer(kind, grade, first, second).unwrap(), first));
        assert!(std::ptr::eq(closer(kind, grade, second, first).unwrap(), first));
        assert!(std::ptr::eq(closer(kind, grade, second, second).unwrap(), second));
        assert!(std::ptr::eq(closer(kind, grade, &samples, first).unwrap(), first));
        assert_eq!(closer(kind, grade, &samples, &samples), Err(Refusal::FrameLength));
        let far = vec![0.5; length];
        assert_eq!(closer(kind, grade, &far, &far), Err(Refusal::TooFar));
    }
}

/// One recording refused by each number, with all that is tested later wrong too: the other is taken; and of two the number of the
/// first is given. A wrong kind or grade refuses both.
#[test]
fn refused_recordings() {
    for (kind, grade, _) in near_formats() {
        let length = kind.frame_length();
        let good = vec![0.0; length];
        let mut unfit = vec![0.5; length];
        unfit[length - 2] = f32::NAN;
        let refused = [
            (vec![0.5; length], Refusal::TooFar),
            (unfit, Refusal::UnfitSample),
            (vec![f32::NAN; length - 1], Refusal::FrameLength),
            (vec![f32::NAN; length + 1], Refusal::FrameLength),
            (vec![], Refusal::FrameLength),
        ];
        for (one, refusal) in &refused {
            assert_eq!(choices(kind, grade, &good, one), [FIRST, SECOND]);
            for (other, second) in &refused {
                assert_eq!(choices(kind, grade, one, other), [Err(*refusal), Err(*second)]);
            }
            for wrong in [0, 5, 255] {
                assert_eq!(by_number::closer(kind.number(), wrong, &good, one), Err(Refusal::Grade));
                assert_eq!(by_number::closer(kind.number(), wrong, one, &good), Err(Refusal::Grade));
            }
            for wrong in (0..=255).filter(|kind| !(3..=5).contains(kind)) {
                for grade in [0, 1, 255] {
                    assert_eq!(by_number::closer(wrong, grade, &good, one), Err(Refusal::Kind));
                }
            }
        }
    }
    for &grade in Grade::ALL {
        assert_eq!(closer(Kind::Six, grade, &[0.0; 64], &[0.0; 64]), Err(Refusal::Kind));
        assert_eq!(closer(Kind::Six, grade, &[], &[]), Err(Refusal::Kind));
    }
}

/// Recordings with noise of all sizes, of one frame or of two: chosen as the near readings of both say.
#[test]
fn closer_by_near_readings() {
    let mut state = 9u64;
    let mut random = |bound: u32| {
        state = state.wrapping_mul(6_364_136_223_846_793_005).wrapping_add(1_442_695_040_888_963_407);
        (state >> 32) as u32 % bound
    };
    let mut counts = [0; 4];
    for (kind, grade, _) in near_formats() {
        for _ in 0..500 {
            let mut message = vec![0; message_length(kind, grade)];
            message[0] = random(256) as u8;
            let changed = u8::from(random(4) == 0);
            let mut record = |message: &[u8]| {
                let (frame, _) = send_to_vec(kind, grade, random(2), message).unwrap();
                let most = [30, 80, 130, 150, 200][random(5) as usize];
                let noise: Vec<i32> = frame.iter().map(|_| random(2 * most + 1) as i32 - most as i32).collect();
                noisy(&frame, 0, &noise)
            };
            let first = record(&message);
            message[0] ^= changed;
            let second = record(&message);
            let expected = match [&first, &second].map(|samples| read_near_to_vec(kind, grade, samples)) {
                [Ok(first), Ok(second)] if first.0 != second.0 => Err(Refusal::AtOdds),
                [Ok(first), Ok(second)] => Ok(if first.1 <= second.1 { 1 } else { 2 }),
                [Ok(_), Err(_)] => Ok(1),
                [Err(_), Ok(_)] => Ok(2),
                [Err(refusal), Err(_)] => Err(refusal),
            };
            assert_eq!(choice(kind, grade, &first, &second), expected);
            counts[match expected {
                Ok(number) => number as usize - 1,
                Err(refusal) => 2 + usize::from(refusal == Refusal::AtOdds),
            }] += 1;
        }
    }
    assert!(counts.iter().all(|count| *count > 300), "{counts:?}");
}

#[test]
fn opening() {
    for changeover in [0, 1, 999_999, 1_000_000] {
        let account = Account::open(changeover).unwrap();
        assert_eq!((account.count(), account.sum().to_bits(), account.largest()), (0, 0, 0));
        assert_eq!((account.changeover(), account.number()), (changeover, 0));
    }
    for changeover in [1_000_001, 1 << 31, u32::MAX] {
        assert_eq!(Account::open(changeover), Err(Refusal::Changeover));
    }
}

#[test]
fn account() {
    let mut account = Account::open(0).unwrap();
    let mut frame = [0; 8];
    let mut send = |account: &mut Account, message: [u8; 2]| {
        let answer = account.send(Kind::Three, Grade::One, &message, &mut frame);
        (answer, frame)
    };
    let sent = [0, 1, 0, 1, 0, 1, 0, 1];
    assert_eq!(send(&mut account, [0x02, 0x00]), (Ok(4), sent));
    assert_eq!(account, Account::from_parts(1, 0.5, 4, 0));
    assert_eq!(send(&mut account, [0x00, 0x10]), (Err(Refusal::SpareBits), sent));
    assert_eq!(account, Account::from_parts(1, 0.5, 4, 0));
    for (count, changeover) in [(Account::MAX_COUNT, 0), (u32::MAX, u32::MAX)] {
        let full = Account::from_parts(count, -1.5, 3, changeover);
        account = full;
        assert!(account.is_full());
        assert_eq!(send(&mut account, [0x00, 0x18]), (Err(Refusal::SpareBits), sent));
        assert_eq!(send(&mut account, [0x00, 0x08]), (Err(Refusal::AccountFull), sent));
        assert_eq!(account, full);
    }
    account = Account::from_parts(999_999, 0.25, 3, 7);
    assert!(!account.is_full());
    assert_eq!(send(&mut account, [0x00, 0x00]), (Ok(0), [0; 8]));
    assert_eq!(account, Account::from_parts(1_000_000, 0.25, 3, 7));
    assert!(account.is_full());
    let mut account = Account::open(1_000_000).unwrap();
    assert_eq!(account.send_to_vec(Kind::Three, Grade::One, &[0x00, 0x04]), Ok((vec![0, 0, 0, 0, 0, 0, 0, 2], 4)));
    assert_eq!((account.count(), account.sum(), account.largest()), (1, 0.5, 4));
}

/// The message 00 08 over and over: below the changeover as −4 0 .., from it on so at even counts, and at odd ones as 4 0 ..; the figures
/// are the same with every changeover.
#[test]
fn across_the_changeover() {
    let (kind, grade, message) = (Kind::Three, Grade::One, [0x00, 0x08]);
    for changeover in 0..8 {
        let mut account = Account::open(changeover).unwrap();
        for count in 0..7 {
            let number = account.number();
            assert_eq!(number, if count < changeover { 0 } else { count });
            assert_eq!(number, account.number_at(count));
            // A refused message takes no number.
            assert_eq!(account.send(kind, grade, &[0x00, 0x10], &mut [0; 8]), Err(Refusal::SpareBits));
            let (frame, energy) = account.send_to_vec(kind, grade, &message).unwrap();
            let first = if number.is_multiple_of(2) { -4 } else { 4 };
            assert_eq!((&frame[..], energy), (&[first, 0, 0, 0, 0, 0, 0, 0][..], 16));
            assert_eq!(read_strict_to_vec(kind, grade, number, &frame), Ok((message.to_vec(), 16)));
            assert_eq!(read_strict_to_vec(kind, grade, number + 1, &frame), Err(Refusal::Unshaped));
            assert_eq!(account, Account::from_parts(count + 1, 2.0 * f64::from(count + 1), 16, changeover));
        }
    }
    // Accounts from elsewhere, with a changeover that opening would refuse too.
    for (count, changeover, first) in
        [(999_999, 999_999, 4), (999_999, 1_000_000, -4), (5, u32::MAX, -4), (5, 5, 4), (6, 5, -4)]
    {
        let mut account = Account::from_parts(count, 0.0, 0, changeover);
        assert_eq!(account.send_to_vec(kind, grade, &message).unwrap().0[0], first);
        assert_eq!(account, Account::from_parts(count + 1, 2.0, 16, changeover));
    }
}

/// Frames whose blocks differ, worked by hand: at kind 4 bits 20 and 28 begin the numbers of the two blocks, and each makes
/// (0, 4, 0, ..), of energy 16; with the last but one of a block it makes (0, −4, 0, .., −4), of 32. At kind 6 it is 64 and 128.
#[test]
fn largest_block() {
    let sent = |kind: Kind, bits: &[usize], old: u64| {
        let mut account = Account::from_parts(7, 1.5, old, 0);
        let mut message = vec![0; message_length(kind, Grade::One)];
        bits.iter().for_each(|bit| message[bit / 8] |= 1 << (bit % 8));
        let (_, energy) = account.send_to_vec(kind, Grade::One, &message).unwrap();
        assert_eq!((account.count(), account.sum()), (8, 1.5 + energy as f64 / kind.frame_length() as f64));
        (energy, account.largest())
    };
    for bits in [[20, 26, 28], [20, 28, 34]] {
        for (old, new) in [(0, 32), (31, 32), (32, 32), (33, 33), (1 << 32, 1 << 32), (u64::MAX, u64::MAX)] {
            assert_eq!(sent(Kind::Four, &bits, old), (48, new));
        }
    }
    for block in 0..8 {
        let bits: Vec<usize> = (0..8).map(|j| 112 + 8 * j).chain([118 + 8 * block]).collect();
        assert_eq!(sent(Kind::Six, &bits, 0), (576, 128));
        assert_eq!(sent(Kind::Six, &bits[block..=block], 63), (64, 64));
    }
}

/// Every message of one bit as one queue, and the same one by one, across the changeover and on either side of it; each frame is judged
/// by its number.
#[test]
fn queue_is_one_by_one() {
    for (&kind, &grade) in Kind::ALL.iter().flat_map(|kind| Grade::ALL.iter().map(move |grade| (kind, grade))) {
        let (length, bytes, number) = (kind.frame_length(), message_length(kind, grade), message_bits(kind, grade));
        let mut messages = vec![0; number * bytes];
        for (k, message) in messages.chunks_exact_mut(bytes).enumerate() {
            message[k / 8] = 1 << (k % 8);
        }
        let all = number as u32;
        for changeover in [0, 1, 2, all / 2, all / 2 + 1, all - 1, all, Account::MAX_COUNT] {
            let begun = Account::open(changeover).unwrap();
            let (mut one, mut account) = (vec![99; number * length], begun);
            for (message, frame) in messages.chunks_exact(bytes).zip(one.chunks_exact_mut(length)) {
                let judged = account.number();
                let energy = account.send(kind, grade, message, frame).unwrap();
                assert_eq!(send_to_vec(kind, grade, judged, message), Ok((frame.to_vec(), energy)));
                assert_eq!(read_strict_to_vec(kind, grade, judged, frame), Ok((message.to_vec(), energy)));
            }
            assert_eq!((account.count(), account.changeover()), (all, changeover));

            let (mut frames, mut queue) = (vec![99; number * length], begun);
            assert_eq!(queue.send_queue(kind, grade, &messages, &mut frames), Ok(number));
            assert_eq!((&frames, queue), (&one, account));
            queue = begun;
            assert_eq!(queue.send_queue_to_vec(kind, grade, &messages), (one, Ok(number)));
            assert_eq!(queue, account);
        }
    }
}

/// Four messages of kind 3, grade 1, with the powers 2, 0.5, 1 and 0.5; each place refused for its spare bits, and for an account that
/// is full there. All are below the changeover.
#[test]
fn queue_stops() {
    let (kind, grade) = (Kind::Three, Grade::One);
    let parts = |count, sum, largest| Account::from_parts(count, sum, largest, Account::MAX_COUNT);
    let good = [0x00, 0x08, 0x02, 0x00, 0x01, 0x00, 0x10, 0x00];
    let whole = [[-4, 0, 0, 0, 0, 0, 0, 0], [0, 1, 0, 1, 0, 1, 0, 1], [-1; 8], [0, 2, 0, 0, 0, 0, 0, 0]].concat();
    let sums = [0.0, 2.0, 2.5, 3.5, 4.0];
    let check = |messages: &[u8], count: u32, stopped: Stopped| {
        let Stopped { sent, .. } = stopped;
        let before = parts(count, 0.25, 3);
        let after = parts(count + sent as u32, 0.25 + sums[sent], if sent == 0 { 3 } else { 16 });
        let (mut frames, mut account) = (vec![99; 32], before);
        assert_eq!(account.send_queue(kind, grade, messages, &mut frames), Err(stopped));
        assert_eq!((&frames[..8 * sent], &frames[8 * sent..]), (&whole[..8 * sent], &[99; 32][8 * sent..]));
        assert_eq!(account, after);
        account = before;
        assert_eq!(account.send_queue_to_vec(kind, grade, messages), (whole[..8 * sent].to_vec(), Err(stopped)));
        assert_eq!(account, after);
    };
    for sent in 0..4 {
        let full = Account::MAX_COUNT - sent as u32;
        check(&good, full, Stopped { sent, refusal: Refusal::AccountFull });
        for bit in 4..8 {
            let mut bad = good;
            bad[2 * sent + 1] |= 1 << bit;
            check(&bad, 7, Stopped { sent, refusal: Refusal::SpareBits });
            // A spare bit comes before the account at one message, and is not looked at behind the place where it is full.
            check(&bad, full, Stopped { sent, refusal: Refusal::SpareBits });
            if sent > 0 {
                check(&bad, full + 1, Stopped { sent: sent - 1, refusal: Refusal::AccountFull });
            }
        }
    }
    let mut account = parts(Account::MAX_COUNT - 4, 0.25, 3);
    assert_eq!(account.send_queue_to_vec(kind, grade, &good), (whole, Ok(4)));
    assert_eq!(account, parts(Account::MAX_COUNT, 4.25, 16));
}

/// The tests of a whole queue, each with all that is tested later wrong too.
#[test]
fn queue_refusals_in_order() {
    let full = Account::from_parts(Account::MAX_COUNT, -0.0, 3, 2);
    let check = |kind, grade, bytes: usize, coordinates: usize, expected: Result<usize, Refusal>| {
        let (mut frames, mut account) = (vec![99; coordinates], full);
        let queued = by_number::send_queue(kind, grade, &vec![255; bytes], &mut frames, &mut account);
        assert_eq!(queued, expected.map_err(|refusal| Stopped { sent: 0, refusal }));
        assert_eq!(frames, vec![99; coordinates]);
        assert_eq!((account, account.sum().to_bits()), (full, full.sum().to_bits()));
    };
    for (kind, grade) in [(0, 0), (2, 1), (7, 9), (255, 255)] {
        check(kind, grade, 1, 1, Err(Refusal::Kind));
        check(kind, grade, 0, 0, Err(Refusal::Kind));
    }
    for (kind, grade) in [(3, 0), (4, 5), (5, 255), (6, 0)] {
        check(kind, grade, 1, 1, Err(Refusal::Grade));
        check(kind, grade, 0, 0, Err(Refusal::Grade));
    }
    for (&k, &g) in Kind::ALL.iter().flat_map(|kind| Grade::ALL.iter().map(move |grade| (kind, grade))) {
        let (kind, grade, n, m) = (k.number(), g.number(), k.frame_length(), message_length(k, g));
        check(kind, grade, 1, 0, Err(Refusal::MessageLength));
        check(kind, grade, 3 * m - 1, 3 * n, Err(Refusal::MessageLength));
        check(kind, grade, 3 * m + 1, 3 * n + 1, Err(Refusal::MessageLength));
        for coordinates in [0, 1, n, 2 * n - 1, 2 * n + 1, 3 * n] {
            check(kind, grade, 2 * m, coordinates, Err(Refusal::FrameLength));
        }
        check(kind, grade, 0, n, Err(Refusal::FrameLength));
        let last = if message_bits(k, g) == 8 * m { Refusal::AccountFull } else { Refusal::SpareBits };
        check(kind, grade, 2 * m, 2 * n, Err(last));
        check(kind, grade, 0, 0, Ok(0));
    }
}

/// More messages than an account takes, from its opening: the 4096 messages of kind 3, grade 1, over and over, each twice in turn and so
/// under an even and an odd number. 61 rounds are sent from the changeover on, and add up to zero in every coordinate.
#[test]
fn queue_of_a_million() {
    const FULL: usize = Account::MAX_COUNT as usize;
    const CHANGEOVER: usize = FULL - 61 * 2 * 4096;
    let messages: Vec<u8> = (0..=FULL).flat_map(|i| ((i / 2 % 4096) as u16).to_le_bytes()).collect();
    let (mut frames, mut account) = (vec![99; 8 * (FULL + 1)], Account::open(CHANGEOVER as u32).unwrap());
    let queued = account.send_queue(Kind::Three, Grade::One, &messages, &mut frames);
    assert_eq!(queued, Err(Stopped { sent: FULL, refusal: Refusal::AccountFull }));
    let (sent, kept) = frames.split_at(8 * FULL);
    assert_eq!(kept, [99; 8]);
    let energies = sent.chunks_exact(8).map(|frame| frame.iter().map(|x| (x * x) as u64).sum::<u64>());
    let (energy, largest) = energies.fold((0, 0), |(sum, most), energy| (sum + energy, energy.max(most)));
    // A whole number of eighths, and so exact.
    assert_eq!(account, Account::from_parts(Account::MAX_COUNT, energy as f64 / 8.0, largest, CHANGEOVER as u32));

    let total = |frames: &[i32]| {
        let sum = |p: usize| frames.iter().skip(p).step_by(8).sum::<i32>();
        [0, 1, 2, 3, 4, 5, 6, 7].map(sum)
    };
    let (old, new) = sent.split_at(8 * CHANGEOVER);
    assert_eq!(total(new), [0; 8]);
    assert!(total(old)[0] < 0);
}

#[test]
fn refusals() {
    for number in 0..=255 {
        match Refusal::try_from(number) {
            Ok(refusal) => assert_eq!((refusal.number(), u8::from(refusal)), (number, number)),
            Err(unknown) => assert_eq!(unknown.0, number),
        }
    }
    let numbers: Vec<u8> = Refusal::ALL.iter().map(|refusal| refusal.number()).collect();
    assert_eq!(numbers, [1, 2, 3, 4, 5, 6, 7, 8, 9, 10, 11, 13, 14, 15, 16, 17, 18, 19]);
    let unshaped = "refused 9: the frame is not the one that is sent for its message under the number";
    assert_eq!(Refusal::Unshaped.to_string(), unshaped);
    let over_range = "refused 6: a coordinate is outside -16777216 to 16777216";
    assert_eq!(Refusal::OverRange.to_string(), over_range);
    assert_eq!(Refusal::BrokenLevel2.to_string(), "refused 13: level 2 of the frame is not a codeword");
    assert_eq!(Refusal::Changeover.to_string(), "refused 14: the changeover is above 1000000");
    let unfit = "refused 15: a sample is not a whole number of 256ths from -128 to 128";
    assert_eq!(Refusal::UnfitSample.to_string(), unfit);
    assert_eq!(Refusal::TooFar.to_string(), "refused 16: no frame of the coding set is near to the samples");
    assert_eq!(Refusal::FreeCount.to_string(), "refused 17: more than 4 bits are to be free");
    assert_eq!(Refusal::AtOdds.to_string(), "refused 18: the two recordings are near to different messages");
    assert_eq!(Refusal::Mark.to_string(), "refused 10: there is no mark 4C 46 at the place");
    assert_eq!(Refusal::RecordEnd.to_string(), "refused 19: the buffer ends before the record does");
}
