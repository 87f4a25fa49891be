//! Free bits: the last bits of a message, 0 to 4 of them, left to the sender. Of the fillings whose frames have the least energy of all
//! fillings it sends the smallest, the free bits read as a number, lowest bit first. The frame of each filling is found by searching its
//! own class, and all of least energy are kept; which of them is sent is decided on the messages that they make, bit by bit.

use crate::account::{grown, Account};
use crate::frame::{self, bit, leader, read_open_into, shaped, Format, Sent, Tie};
use crate::refusal;

/// The message with the free bits holding the filling, lowest bit first.
pub fn filled(format: &Format, free: u8, message: &[u8], filling: usize) -> Vec<u8> {
    let from = format.message_bits() - free as usize;
    let mut filled = message.to_vec();
    for t in 0..free as usize {
        let place = from + t;
        filled[place / 8] &= !(1 << (place % 8));
        filled[place / 8] |= ((filling >> t & 1) as u8) << (place % 8);
    }
    filled
}

/// The message with its free bits 0.
pub fn cleared(format: &Format, free: u8, message: &[u8]) -> Vec<u8> {
    filled(format, free, message, 0)
}

/// The frames of a message's fillings under one number, that of filling 0 first; and the messages that the fillings make.
pub struct Fillings(pub Vec<Sent>, Vec<Vec<u8>>);

impl Fillings {
    pub fn new(format: &Format, tie: Tie, free: u8, message: &[u8]) -> Fillings {
        let messages: Vec<Vec<u8>> = (0..1 << free).map(|filling| filled(format, free, message, filling)).collect();
        Fillings(messages.iter().map(|message| shaped(format, tie, &leader(format, message))).collect(), messages)
    }

    /// The least energy of all.
    pub fn energy(&self) -> u64 {
        self.0.iter().map(|sent| sent.energy).min().expect("there is a filling")
    }

    /// The fillings whose frames have it.
    pub fn least(&self) -> Vec<usize> {
        let energy = self.energy();
        (0..self.0.len()).filter(|&filling| self.0[filling].energy == energy).collect()
    }

    /// The filling that is sent. The last bit of the message is the highest of the number: from it on, bit by bit, those of the least stay
    /// whose message has a 0 there, and all where none has.
    pub fn taken(&self) -> usize {
        let mut left = self.least();
        for place in (0..8 * self.1[0].len()).rev() {
            let zero = |filling: &usize| !bit(&self.1[*filling], place);
            if left.iter().any(zero) {
                left.retain(zero);
            }
        }
        assert_eq!(left.len(), 1, "no two fillings make one message");
        left[0]
    }

    /// The frame that is sent.
    pub fn sent(&self) -> &Sent {
        &self.0[self.taken()]
    }
}

/// Sending by one rule for ties with so many bits free, and with the number of coordinates that the caller lends.
pub fn send_by(kind: u8, grade: u8, tie: Tie, free: u8, message: &[u8], coordinates: usize) -> Result<Sent, u8> {
    let format = frame::test(kind, grade, free, message, coordinates)?;
    let mut fillings = Fillings::new(&format, tie, free, message);
    let taken = fillings.taken();
    Ok(fillings.0.swap_remove(taken))
}

/// Sending under a number.
pub fn send_into(kind: u8, grade: u8, number: u32, free: u8, message: &[u8], coordinates: usize) -> Result<Sent, u8> {
    send_by(kind, grade, Tie::of(number), free, message, coordinates)
}

/// Sending with an account: the frame, and the account grown by it.
pub fn send_counted(
    kind: u8,
    grade: u8,
    free: u8,
    message: &[u8],
    coordinates: usize,
    account: Account,
) -> Result<(Sent, Account), u8> {
    let sent = send_by(kind, grade, account.tie(), free, message, coordinates)?;
    let account = grown(account, &sent.frame)?;
    Ok((sent, account))
}

/// Reading openly with so many bits free, which are given as 0.
pub fn read_open(kind: u8, grade: u8, free: u8, frame: &[i64], bytes: usize) -> Result<(Vec<u8>, u64), u8> {
    let format = Format::new(kind, grade)?;
    frame::test_free(free)?;
    let (message, energy) = read_open_into(kind, grade, frame, bytes)?;
    Ok((cleared(&format, free, &message), energy))
}

/// Reading strictly under a number: the frame must be the one that is sent under it for its message.
pub fn read_strict(
    kind: u8,
    grade: u8,
    number: u32,
    free: u8,
    frame: &[i64],
    bytes: usize,
) -> Result<(Vec<u8>, u64), u8> {
    let (message, energy) = read_open(kind, grade, free, frame, bytes)?;
    if send_into(kind, grade, number, free, &message, frame.len())?.frame != frame {
        return Err(refusal::UNSHAPED);
    }
    Ok((message, energy))
}

/// The free bits of a message as a number, lowest bit first.
pub fn filling_of(format: &Format, free: u8, message: &[u8]) -> usize {
    let from = format.message_bits() - free as usize;
    (0..free as usize).map(|t| (bit(message, from + t) as usize) << t).sum()
}

#[cfg(test)]
mod tests {
    use super::*;
    use crate::account::{send_counted as send_counted_alone, FULL};
    use crate::class::energy;
    use crate::frame::{read_strict_into, send, FURTHEST, GRADES, KINDS};
    use crate::random::Random;
    use crate::vectors::{dense, edge, moved_by_point, with_bits};

    const NUMBERS: [u32; 6] = [0, 1, 2, 999_999, u32::MAX - 1, u32::MAX];

    fn formats() -> impl Iterator<Item = (u8, u8, Format)> {
        let all = KINDS.flat_map(|kind| GRADES.map(move |grade| (kind, grade)));
        all.map(|(kind, grade)| (kind, grade, Format::new(kind, grade).unwrap()))
    }

    /// 12 00 at kind 3, grade 1 with two bits free, the upper two of s8: 0 3 0 1 0 1 0 1 and 2 times the filling at the last place. Of the
    /// two least fillings the first is sent.
    #[test]
    fn by_hand() {
        let message = [0x12, 0x00];
        let one = [0, -1, 0, 1, 0, 1, 0, -1];
        let two = [0, -1, 0, 1, 0, 1, 0, 1];
        for number in NUMBERS {
            let fillings = Fillings::new(&Format::new(3, 1).unwrap(), Tie::of(number), 2, &message);
            let energies: Vec<u64> = fillings.0.iter().map(|sent| sent.energy).collect();
            assert_eq!(energies, [12, 4, 4, 12]);
            assert_eq!(fillings.least(), [1, 2]);
            assert_eq!(fillings.taken(), 1);
            assert_eq!((&fillings.0[1].frame[..], &fillings.0[2].frame[..]), (&one[..], &two[..]));
            assert_eq!((&fillings.sent().frame[..], fillings.sent().energy), (&one[..], 4));
            let sent = send_into(3, 1, number, 2, &message, 8).unwrap();
            assert_eq!((&sent.frame[..], sent.energy), (&one[..], 4));
            for (filling, sent) in fillings.0.iter().enumerate() {
                let own = sent.energy;
                assert_eq!(read_open(3, 1, 2, &sent.frame, 2), Ok((message.to_vec(), own)));
                let judged = if filling == 1 { Ok((message.to_vec(), 4)) } else { Err(refusal::UNSHAPED) };
                assert_eq!(read_strict(3, 1, number, 2, &sent.frame, 2), judged);
            }
            // With one bit free, or none, each frame has a message of its own.
            for (free, frame, last) in [(1, one, 0x04), (1, two, 0x00), (0, one, 0x04), (0, two, 0x08)] {
                assert_eq!(read_strict(3, 1, number, free, &frame, 2), Ok((vec![0x12, last], 4)));
            }
        }
    }

    #[test]
    fn fillings_are_the_last_bits_lowest_first() {
        let format = Format::new(3, 1).unwrap();
        assert_eq!(filled(&format, 4, &[0x12, 0x00], 0b1011), [0x12, 0x0B]);
        assert_eq!(filled(&format, 2, &[0x12, 0x00], 0b01), [0x12, 0x04]);
        assert_eq!(filled(&format, 2, &[0xFF, 0x0F], 0b10), [0xFF, 0x0B]);
        assert_eq!(filled(&format, 0, &[0xFF, 0x0F], 0), [0xFF, 0x0F]);
        assert_eq!(filled(&Format::new(5, 1).unwrap(), 3, &[0; 8], 0b110), [0, 0, 0, 0, 0, 0, 0, 0xC0]);
        for (_, _, format) in formats() {
            for free in 0..=4 {
                for filling in 0..1 << free {
                    let message = filled(&format, free, &with_bits(&format, &[0]), filling);
                    assert_eq!(filling_of(&format, free, &message), filling);
                    assert_eq!(cleared(&format, free, &message), with_bits(&format, &[0]));
                }
            }
        }
    }

    /// Messages with their free bits 0, dense and on the edge.
    fn messages(format: &Format, free: u8, count: usize, random: &mut Random) -> Vec<Vec<u8>> {
        let one = |i| if i % 2 == 0 { dense(format, random) } else { edge(format, random) };
        let all: Vec<Vec<u8>> = (0..count).map(one).collect();
        all.iter().map(|message| cleared(format, free, message)).collect()
    }

    #[test]
    fn without_free_bits_it_is_the_rule_that_stood() {
        let mut random = Random::new(20);
        for (kind, grade, format) in formats() {
            for message in messages(&format, 0, 6, &mut random) {
                for number in NUMBERS {
                    let sent = send(kind, grade, number, &message).unwrap();
                    let one = send_into(kind, grade, number, 0, &message, format.length()).unwrap();
                    assert_eq!((&one.frame, one.energy), (&sent.frame, sent.energy));
                    let moved = moved_by_point(&format, &sent.frame, &mut random);
                    for frame in [&sent.frame, &moved] {
                        let bytes = message.len();
                        let judged = read_strict(kind, grade, number, 0, frame, bytes);
                        assert_eq!(judged, read_strict_into(kind, grade, number, frame, bytes));
                    }
                }
                let account = Account { count: 7, sum: 0.25, largest: 5, changeover: 3 };
                let one = send_counted(kind, grade, 0, &message, format.length(), account).unwrap().1;
                let other = send_counted_alone(kind, grade, &message, format.length(), account).unwrap().1;
                assert_eq!((one.count, one.sum, one.largest), (other.count, other.sum, other.largest));
            }
        }
    }

    /// The filling that is sent is the smallest of the least, the same under every number, and stands in the free bits of the sent frame's message.
    #[test]
    fn the_smallest_of_the_least_under_every_number() {
        let mut random = Random::new(24);
        for (kind, grade, format) in formats() {
            let n = format.length();
            for free in 0..=4u8 {
                let mut several = 0;
                for message in messages(&format, free, 40, &mut random) {
                    let all = NUMBERS.map(|number| Fillings::new(&format, Tie::of(number), free, &message));
                    let least = all[0].least();
                    several += (least.len() > 1) as usize;
                    assert_eq!(Some(&all[0].taken()), least.iter().min());
                    for (number, fillings) in NUMBERS.into_iter().zip(&all) {
                        assert_eq!((fillings.least(), fillings.taken()), (least.clone(), all[0].taken()));
                        let sent = send_into(kind, grade, number, free, &message, n).unwrap();
                        assert_eq!((&sent.frame, sent.energy), (&fillings.sent().frame, fillings.energy()));
                        let (read, _) = frame::read_strict(kind, grade, number, &sent.frame).unwrap();
                        assert_eq!(filling_of(&format, free, &read), fillings.taken());
                        assert_eq!(cleared(&format, free, &read), message);
                    }
                }
                assert_eq!(several > 0, free > 0, "kind {kind}, grade {grade}, {free} free");
            }
        }
    }

    /// Never more energy than with fewer free bits, or with none; what is sent reads back; the frame of a filling that is not sent, and any
    /// other frame of a class, is read openly alone.
    #[test]
    fn quieter_and_read_back() {
        let mut random = Random::new(21);
        for (kind, grade, format) in formats() {
            let m = format.message_bytes();
            for message in messages(&format, 4, 6, &mut random) {
                let number = random.draw() as u32;
                let mut before = u64::MAX;
                for free in 0..=4 {
                    let fillings = Fillings::new(&format, Tie::of(number), free, &message);
                    assert!(fillings.energy() <= before);
                    before = fillings.energy();
                    for (filling, sent) in fillings.0.iter().enumerate() {
                        assert_eq!(sent.energy, energy(&sent.frame));
                        assert_eq!(read_open(kind, grade, free, &sent.frame, m), Ok((message.clone(), sent.energy)));
                        let judged = read_strict(kind, grade, number, free, &sent.frame, m);
                        let read = Ok((message.clone(), sent.energy));
                        assert_eq!(judged, if filling == fillings.taken() { read } else { Err(refusal::UNSHAPED) });
                        let moved = moved_by_point(&format, &sent.frame, &mut random);
                        assert_eq!(read_open(kind, grade, free, &moved, m).unwrap().0, message);
                        assert_eq!(read_strict(kind, grade, number, free, &moved, m), Err(refusal::UNSHAPED));
                    }
                }
            }
        }
    }

    /// The squared distance of two frames.
    fn apart(one: &[i64], other: &[i64]) -> u64 {
        let difference: Vec<i64> = one.iter().zip(other).map(|(x, y)| x - y).collect();
        energy(&difference)
    }

    /// The frames that are sent for every message of kind 3, grade 1 with each free count, under both rules: those of two messages that
    /// differ in a bit which is fixed for both are 4 apart or more, and at each pair of counts some are at 4.
    #[test]
    fn every_message_of_kind_3_grade_1_keeps_its_distance() {
        let all: Vec<Vec<(u32, Vec<Vec<i64>>)>> = (0..=4u8)
            .map(|free| {
                let messages = 0..1u32 << (12 - free);
                let sent = |bits: u32| {
                    let both = [0, 1].map(|number| send_into(3, 1, number, free, &bits.to_le_bytes()[..2], 8).unwrap());
                    let mut frames: Vec<Vec<i64>> = both.into_iter().map(|sent| sent.frame).collect();
                    frames.dedup();
                    (bits, frames)
                };
                messages.map(sent).collect()
            })
            .collect();
        for (f, g) in [(1, 1), (2, 2), (3, 3), (4, 4), (0, 4), (1, 3), (2, 4), (3, 4)] {
            let fixed = (1 << (12 - f.max(g))) - 1;
            let mut nearest = u64::MAX;
            // One in seven of the one against all of the other.
            for (one, frames) in all[f].iter().step_by(7) {
                for (other, others) in all[g].iter().filter(|(other, _)| one & fixed != other & fixed) {
                    assert_ne!(one, other);
                    for frame in frames {
                        nearest = others.iter().fold(nearest, |nearest, other| nearest.min(apart(frame, other)));
                    }
                }
            }
            assert_eq!(nearest, 4, "{f} and {g}");
        }
    }

    /// At every kind and grade, messages that differ in one fixed bit, with two free counts and two numbers: the frames of all least fillings.
    #[test]
    fn fixed_bits_keep_their_distance() {
        let mut random = Random::new(22);
        for (kind, _, format) in formats() {
            for round in 0..30 {
                let counts = [random.below(5) as u8, random.below(5) as u8];
                let most = *counts.iter().max().unwrap();
                let fixed = format.message_bits() - most as usize;
                let message = messages(&format, most, 2, &mut random).swap_remove(round % 2);
                let place = if round < 10 { fixed - 1 - round % 5 } else { random.below(fixed as u64) as usize };
                let mut other = message.clone();
                other[place / 8] ^= 1 << (place % 8);
                let numbers = [random.draw() as u32, random.draw() as u32];
                let fillings = |i: usize, message: &[u8]| {
                    let (tie, free) = (Tie::of(numbers[i]), counts[i]);
                    assert_eq!(cleared(&format, free, message), message);
                    Fillings::new(&format, tie, free, message)
                };
                let (one, two) = (fillings(0, &message), fillings(1, &other));
                for filling in one.least() {
                    for other in two.least() {
                        assert!(apart(&one.0[filling].frame, &two.0[other].frame) >= 4 << (kind - 3));
                    }
                }
            }
        }
    }

    #[test]
    fn order_of_refusals() {
        for free in [5, 6, 16, 128, 255] {
            let sent = |kind, grade, bytes: usize, n| send_into(kind, grade, 0, free, &vec![255; bytes], n).err();
            assert_eq!(sent(2, 0, 9, 9), Some(refusal::KIND));
            assert_eq!(sent(3, 0, 9, 9), Some(refusal::GRADE));
            assert_eq!(sent(3, 1, 9, 9), Some(refusal::FREE_COUNT));
            assert_eq!(sent(3, 1, 2, 8), Some(refusal::FREE_COUNT));
            let far = [FURTHEST + 1; 9];
            assert_eq!(read_open(7, 9, free, &far, 9), Err(refusal::KIND));
            assert_eq!(read_open(4, 5, free, &far, 9), Err(refusal::GRADE));
            assert_eq!(read_open(4, 1, free, &far, 9), Err(refusal::FREE_COUNT));
            assert_eq!(read_strict(4, 1, 0, free, &far, 9), Err(refusal::FREE_COUNT));
            assert_eq!(read_strict(3, 1, 0, free, &[0; 8], 2), Err(refusal::FREE_COUNT));
        }
        let full = Account { count: FULL, ..Account::begun(0) };
        for (kind, grade, format) in formats() {
            let (n, m) = (format.length(), format.message_bytes());
            for free in 0..=4u8 {
                let sent = |message: &[u8], n| send_into(kind, grade, 0, free, message, n).err();
                assert_eq!(sent(&vec![255; m + 1], n + 1), Some(refusal::MESSAGE_LENGTH));
                assert_eq!(sent(&vec![255; m], n + 1), Some(refusal::FRAME_LENGTH));
                let last = format.message_bits() - 1;
                for t in 0..free as usize {
                    assert_eq!(sent(&with_bits(&format, &[last - t]), n), Some(refusal::SPARE_BITS));
                    let counted = send_counted(kind, grade, free, &with_bits(&format, &[last - t]), n, full);
                    assert_eq!(counted.err(), Some(refusal::SPARE_BITS));
                }
                let fixed = with_bits(&format, &[last - free as usize]);
                assert_eq!(sent(&fixed, n), None);
                let counted = send_counted(kind, grade, free, &fixed, n, full);
                assert_eq!(counted.err(), Some(refusal::ACCOUNT_FULL));
            }
        }
    }

    /// In an account a frame sent with free bits counts like any other; and every least filling would grow it alike.
    #[test]
    fn accounts() {
        let account = Account { count: 3, sum: 0.25, largest: 3, changeover: 0 };
        let (sent, grown_by_it) = send_counted(3, 1, 2, &[0x12, 0x00], 8, account).unwrap();
        assert_eq!((&sent.frame[..], sent.energy), (&[0, -1, 0, 1, 0, 1, 0, -1][..], 4));
        let figures = |account: Account| (account.count, account.sum, account.largest, account.changeover);
        assert_eq!(figures(grown_by_it), (4, 0.75, 4, 0));
        let mut random = Random::new(25);
        for (kind, grade, format) in formats() {
            for free in 1..=4 {
                for message in messages(&format, free, 10, &mut random) {
                    let count = random.below(FULL as u64) as u32;
                    let account = Account { count, changeover: random.below(FULL as u64) as u32, ..account };
                    let (sent, after) = send_counted(kind, grade, free, &message, format.length(), account).unwrap();
                    let fillings = Fillings::new(&format, account.tie(), free, &message);
                    assert_eq!(sent.frame, fillings.sent().frame);
                    for filling in fillings.least() {
                        assert_eq!(figures(grown(account, &fillings.0[filling].frame).unwrap()), figures(after));
                    }
                }
            }
        }
    }
}
