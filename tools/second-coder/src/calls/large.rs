//! Calls of both readings with large frames: at the ends of the range and past them, of every size, sums of sent frames.

use super::{Calls, ENDS};
use crate::far::{added, member_with, moved_far, outer_member, times, turned};
use crate::frame::{send, Format, FURTHEST, GRADES};
use crate::random::Random;
use crate::vectors::{dense, with_bits};

/// Passes a number over at every second grade: so frames of each sign come under numbers of both parities.
fn pass(calls: &mut Calls, grade: u8) {
    if grade.is_multiple_of(2) {
        calls.any();
    }
}

/// The ends of the range and one past each, at each place of a block, the rest 0, and the rest any frame of the coding set. The grade and
/// the block go through all that there are.
pub fn ends(calls: &mut Calls, kind: u8, random: &mut Random) {
    for (i, place) in (0..4).flat_map(|i| (0..8).map(move |place| (i, place))) {
        let grade = 1 + ((i + place / 2) % 4) as u8;
        let format = Format::new(kind, grade).unwrap();
        let (x, place) = (ENDS[i], (8 * (i + place) + place) % format.length());
        let mut frame = vec![0; format.length()];
        frame[place] = x;
        let mut frames = [frame, member_with(&format, place, x, random)];
        // Each comes under numbers of both parities.
        frames.rotate_left(place % 2);
        frames.iter().for_each(|frame| calls.read_any(kind, grade, frame));
    }
}

/// Frames that one coordinate alone takes past the range: the first, one of the middle block, the last; and at any place an end of an i32.
pub fn past(calls: &mut Calls, kind: u8, grade: u8, random: &mut Random) {
    let format = Format::new(kind, grade).unwrap();
    pass(calls, grade);
    let n = format.length();
    let middle = n / 16 * 8 + 1 + random.below(6) as usize;
    for place in [0, middle, n - 1] {
        for x in [FURTHEST + 1, -FURTHEST - 1] {
            calls.read_any(kind, grade, &member_with(&format, place, x, random));
        }
    }
    for x in [i32::MAX, i32::MIN] {
        let place = random.below(n as u64) as usize;
        calls.read_any(kind, grade, &member_with(&format, place, x as i64, random));
    }
}

/// The sizes of coordinates, as powers of 2. At the last they go as far as the range does.
const SIZES: [u32; 9] = [8, 12, 16, 19, 20, 21, 22, 23, 24];

/// Sent frames with a point of the lattice added that makes all coordinates about that size, positive or negative; and 1,048,577 throughout.
pub fn sizes(calls: &mut Calls, kind: u8, grade: u8, random: &mut Random) {
    let format = Format::new(kind, grade).unwrap();
    pass(calls, grade);
    for (power, sign) in SIZES.into_iter().flat_map(|power| [(power, 1), (power, -1)]) {
        let number = calls.any();
        let sent = send(kind, grade, number, &dense(&format, random)).unwrap().frame;
        // From three quarters of it to five.
        let about = |random: &mut Random| (3 << power >> 2) + random.below(1 << power >> 1) as i64;
        let size = |random: &mut Random| if power == 24 { FURTHEST } else { about(random) };
        let frame = moved_far(&format, &sent, sign, random, size);
        calls.read(kind, grade, number, &frame, format.message_bytes());
    }
    for x in [1_048_577, -1_048_577] {
        calls.read_any(kind, grade, &vec![x; format.length()]);
    }
}

/// Sent frames with a power of 2 added at one place, and throughout: cut to so many bits they would be the sent frames.
pub fn powers(calls: &mut Calls, kind: u8, grade: u8, random: &mut Random) {
    let format = Format::new(kind, grade).unwrap();
    pass(calls, grade);
    for power in [8, 16, 20, 24] {
        let number = calls.any();
        let mut frame = send(kind, grade, number, &dense(&format, random)).unwrap().frame;
        let place = random.below(format.length() as u64) as usize;
        let all: Vec<i64> = frame.iter().map(|&x| turned(x, 1 << power)).collect();
        frame[place] = all[place];
        calls.read(kind, grade, number, &frame, format.message_bytes());
        calls.read(kind, grade, number, &all, format.message_bytes());
    }
}

/// How often each of nine frames comes in a sum of 131,072, which the range always takes: no coordinate of a sent frame is more than 128.
const OFTEN: [i64; 9] = [7, 130, 1000, 9001, 11_111, 21_212, 31_313, 30_000, 27_298];

/// Sums of sent frames, few and many; and one frame as often as the range takes it, and once more.
pub fn sums(calls: &mut Calls, kind: u8, grade: u8, random: &mut Random) {
    let format = Format::new(kind, grade).unwrap();
    let mut sent = |calls: &mut Calls| send(kind, grade, calls.any(), &dense(&format, random)).unwrap().frame;
    for counts in [&[1; 2][..], &[1; 2], &[1; 3], &[1; 9], &[1; 100], &[1; 1000], &OFTEN] {
        let none = vec![0; format.length()];
        let sum = counts.iter().fold(none, |sum, &count| added(&sum, &times(count, &sent(calls))));
        calls.read_any(kind, grade, &sum);
    }
    let frame = sent(calls);
    let most = FURTHEST / frame.iter().map(|x| x.abs()).max().unwrap();
    calls.read_any(kind, grade, &times(most, &frame));
    calls.read_any(kind, grade, &times(most + 1, &frame));
}

/// The sums of frames of kind 6 that are worked by hand in frame.rs, the first also with the other sign.
pub fn sums_by_hand(calls: &mut Calls) {
    let sent = |grade, bit, number| {
        let message = with_bits(&Format::new(6, grade).unwrap(), &[bit]);
        send(6, grade, number, &message).unwrap().frame
    };
    for (grade, other) in GRADES.flat_map(|grade| [(grade, 48), (grade, 30)]) {
        let sum = added(&sent(grade, 29, 0), &sent(grade, other, 1));
        calls.read_any(6, grade, &sum);
        calls.read_any(6, grade, &times(-1, &sum));
    }
    for (number, count) in [(0, 131_072), (0, 131_073), (1, 131_072), (1, 131_073)] {
        calls.read_any(6, 4, &times(count, &sent(4, 143, number)));
    }
}

/// Large frames of the coding set with one coordinate moved, which is positive or negative.
pub fn broken(calls: &mut Calls, kind: u8, grade: u8, random: &mut Random) {
    let format = Format::new(kind, grade).unwrap();
    pass(calls, grade);
    for (by, sign) in [1, -1, 2, -2, 4, -4].into_iter().flat_map(|by| [(by, 1), (by, -1)]) {
        let place = random.below(format.length() as u64) as usize;
        let size = FURTHEST - 4 - random.below(FURTHEST as u64 / 16 * 15 - 8) as i64;
        let mut frame = member_with(&format, place, sign * size, random);
        frame[place] += by;
        calls.read_any(kind, grade, &frame);
    }
}

/// Frames with more energy than 46 bits hold, and at kind 6 more than 53.
pub fn energies(calls: &mut Calls, kind: u8, grade: u8, random: &mut Random) {
    let format = Format::new(kind, grade).unwrap();
    pass(calls, grade);
    for _ in 0..2 {
        calls.read_any(kind, grade, &outer_member(&format, random));
    }
}

#[cfg(test)]
mod tests {
    use super::*;
    use crate::calls::tests::{calls, of_each_sort};
    use crate::calls::{Call, READ_OPEN, READ_STRICT};
    use crate::far::tests::{outside, past, WRONG_RANGES};
    use crate::frame::{message_of, KINDS};
    use crate::refusal;

    /// The calls of a sort.
    fn of_sort(name: &str) -> &'static [Call] {
        &of_each_sort().iter().find(|(sort, _)| *sort == name).unwrap().1
    }

    /// The frames of a sort: a call, the numbers that the open and the strict reading answer, and the energy that the open one does.
    fn answers(name: &str) -> Vec<(&'static Call, (u8, u8), u64)> {
        let both = |pair: &'static [Call]| {
            let [open, strict] = pair else { unreachable!() };
            assert_eq!((open.function, strict.function), (READ_OPEN, READ_STRICT));
            assert_eq!(open.lent.frame, strict.lent.frame);
            let (number, energy, _) = open.answer();
            (open, (number, strict.answer().0), energy)
        };
        of_sort(name).chunks_exact(2).map(both).collect()
    }

    #[test]
    fn large_frames_are_answered() {
        for (call, numbers, energy) in answers("the ends at each place") {
            assert_eq!(call.lent.frame.iter().filter(|x| x.abs() >= FURTHEST).count(), 1);
            assert_eq!(numbers, if past(&call.lent.frame) { (6, 6) } else { (0, 9) });
            assert!(past(&call.lent.frame) || energy >= 1 << 48);
        }
        assert!(answers("past the range at one place").iter().all(|(_, numbers, _)| *numbers == (6, 6)));
        for name in ["sizes", "powers of 2", "large energies"] {
            assert!(answers(name).iter().all(|(_, numbers, _)| *numbers == (0, 9)));
        }
        for (call, _, energy) in answers("large energies") {
            assert!(energy > 1 << if call.kind == 6 { 53 } else { 46 });
        }
        for (i, (call, numbers, _)) in answers("large with broken levels").iter().enumerate() {
            let expected = match (i / 4 % 3, call.kind) {
                (0, _) => (7, 7),
                (1, 4..) => (8, 8),
                (2, 6) => (13, 13),
                _ => (0, 9),
            };
            assert_eq!(*numbers, expected);
        }
    }

    /// At each kind, the ends of the range and one past each are read strictly under numbers of both parities, the rest being 0 or not;
    /// and so are the frames of each sort, at one grade or another.
    #[test]
    fn numbers_of_both_parities_come() {
        let strict: Vec<&Call> = calls().into_iter().filter(|call| call.function == READ_STRICT).collect();
        for (kind, parity) in KINDS.flat_map(|kind| [(kind, 0), (kind, 1)]) {
            for (x, alone) in ENDS.into_iter().flat_map(|x| [(x, true), (x, false)]) {
                let own =
                    |call: &&&Call| call.kind == kind && call.number % 2 == parity && call.lent.frame.contains(&x);
                let is_alone = |call: &&Call| call.lent.frame.iter().filter(|y| **y != 0).count() == 1;
                assert!(strict.iter().filter(own).any(|call| is_alone(call) == alone), "kind {kind}, {x}");
            }
        }
        let each = ["past the range at one place", "sizes", "powers of 2", "sums", "large with broken levels"];
        for name in each.into_iter().chain(["large energies"]) {
            let (of_kind, of_grade) = (of_sort(name).len() / 4, of_sort(name).len() / 16);
            for calls in of_sort(name).chunks_exact(of_kind) {
                for i in (1..of_grade).step_by(2) {
                    let odd = [0, 1, 2, 3].map(|grade| calls[of_grade * grade + i].number % 2 == 1);
                    assert!(odd.contains(&true) && odd.contains(&false), "{name}, {i}");
                }
            }
        }
    }

    /// Kind 6 has sums that are read and sums that are not at each grade.
    #[test]
    fn sums_are_answered() {
        assert_eq!(OFTEN.iter().sum::<i64>(), 131_072);
        for sums in answers("sums").chunks_exact(9) {
            let kind = sums[0].0.kind;
            let open: Vec<u8> = sums.iter().map(|(_, numbers, _)| numbers.0).collect();
            assert_eq!(sums[8].1, (6, 6));
            assert!(open[..8].iter().all(|number| *number == 0 || kind == 6 && *number == 13));
            assert!(kind < 6 || open.contains(&0) && open.contains(&13));
        }
        let numbers: Vec<(u8, u8)> = answers("sums by hand").iter().map(|(_, numbers, _)| *numbers).collect();
        assert_eq!(numbers[..16], [(13, 13), (13, 13), (0, 0), (0, 0)].repeat(4));
        assert_eq!(numbers[16..], [(0, 9), (6, 6), (0, 9), (6, 6)]);
    }

    /// A way to read, in steps that someone could do wrong.
    #[derive(Clone, Copy)]
    struct Way {
        /// Whether 6 refuses the frame.
        past: fn(&[i64]) -> bool,
        /// Whether 6 is tested after the levels.
        late: bool,
        /// What a coordinate is taken for, in the message and in the strict test.
        taken: fn(i64) -> i64,
        energy: fn(&[i64]) -> u64,
        /// The number that is given for the one that was found of a frame.
        given: fn(u8, &[i64]) -> u8,
    }

    const RIGHT: Way = Way { past, late: false, taken: |x| x, energy, given: |number, _| number };

    impl Way {
        /// The message of a call's frame, its lengths being right.
        fn message(&self, call: &Call) -> Result<Vec<u8>, u8> {
            let Call { function, kind, grade, number, ref lent } = *call;
            let past = (self.past)(&lent.frame);
            if past && !self.late {
                return Err(refusal::OVER_RANGE);
            }
            let taken: Vec<i64> = lent.frame.iter().map(|&x| (self.taken)(x)).collect();
            let message = message_of(&Format::new(kind, grade)?, &taken)?;
            if past {
                return Err(refusal::OVER_RANGE);
            }
            if function == READ_STRICT && send(kind, grade, number, &message)?.frame != taken {
                return Err(refusal::UNSHAPED);
            }
            Ok(message)
        }

        /// The number and the energy that are answered, and the message that is left.
        fn read(&self, call: &Call) -> (u8, u64, Vec<u8>) {
            let frame = &call.lent.frame;
            match self.message(call) {
                Ok(message) => ((self.given)(0, frame), (self.energy)(frame), message),
                Err(number) => ((self.given)(number, frame), 0, call.lent.message.clone()),
            }
        }
    }

    /// The energy modulo 2^64: a frame past the range that is not refused may have more.
    fn energy(frame: &[i64]) -> u64 {
        frame.iter().map(|&x| (x * x) as u64).fold(0, u64::wrapping_add)
    }

    /// Whether a coordinate is past the ends that document 01 has.
    fn large(frame: &[i64]) -> bool {
        outside(frame, -1_048_576, 1_048_576)
    }

    /// The lowest bits of a coordinate.
    fn low(x: i64, bits: u32) -> i64 {
        x.rem_euclid(1 << bits)
    }

    /// The lowest bits of a coordinate, the last of them its sign.
    fn signed(x: i64, bits: u32) -> i64 {
        let half = 1 << (bits - 1);
        low(x + half, bits) - half
    }

    fn clamped(x: i64) -> i64 {
        x.clamp(-1_048_576, 1_048_576)
    }

    /// The energy of the coordinates that are taken for those of a frame.
    fn energy_of(frame: &[i64], taken: fn(i64) -> i64) -> u64 {
        energy(&frame.iter().map(|&x| taken(x)).collect::<Vec<_>>())
    }

    const fn taken(taken: fn(i64) -> i64, energy: fn(&[i64]) -> u64) -> Way {
        Way { taken, energy, ..RIGHT }
    }

    const fn summed(energy: fn(&[i64]) -> u64) -> Way {
        Way { energy, ..RIGHT }
    }

    const fn given(given: fn(u8, &[i64]) -> u8) -> Way {
        Way { given, ..RIGHT }
    }

    const BOTH: &[u8] = &[READ_OPEN, READ_STRICT];
    const OPENLY: &[u8] = &[READ_OPEN];
    const STRICTLY: &[u8] = &[READ_STRICT];

    /// Wrong ways to read, each with the readings that differ by it and the first kind that can have it. Numbers cut to 8 bits or more
    /// have the same message. What passes strictly has a small energy. Level 1 is there from kind 4 on, level 2 at kind 6.
    const WAYS: [(&str, &[u8], u8, Way); 28] = [
        ("the range after the levels", BOTH, 3, Way { late: true, ..RIGHT }),
        ("20 bits", BOTH, 3, taken(|x| low(x, 20), |frame| energy_of(frame, |x| low(x, 20)))),
        ("20 bits, and the whole energy", STRICTLY, 3, taken(|x| low(x, 20), energy)),
        ("20 bits with a sign", BOTH, 3, taken(|x| signed(x, 20), |frame| energy_of(frame, |x| signed(x, 20)))),
        ("20 bits with a sign, and the whole energy", STRICTLY, 3, taken(|x| signed(x, 20), energy)),
        ("24 bits", BOTH, 3, taken(|x| low(x, 24), |frame| energy_of(frame, |x| low(x, 24)))),
        ("24 bits, and the whole energy", STRICTLY, 3, taken(|x| low(x, 24), energy)),
        ("24 bits with a sign", BOTH, 3, taken(|x| signed(x, 24), |frame| energy_of(frame, |x| signed(x, 24)))),
        ("24 bits with a sign, and the whole energy", STRICTLY, 3, taken(|x| signed(x, 24), energy)),
        ("16 bits with a sign, and the whole energy", STRICTLY, 3, taken(|x| signed(x, 16), energy)),
        ("8 bits with a sign, and the whole energy", STRICTLY, 3, taken(|x| signed(x, 8), energy)),
        ("1,048,576 for more", BOTH, 3, taken(clamped, |frame| energy_of(frame, clamped))),
        ("1,048,576 for more, and the whole energy", BOTH, 3, taken(clamped, energy)),
        ("no sign", BOTH, 3, taken(i64::abs, energy)),
        ("46 bits of the energy", OPENLY, 3, summed(|frame| energy(frame) % (1 << 46))),
        ("2^46 for more energy", OPENLY, 3, summed(|frame| energy(frame).min(1 << 46))),
        // At kind 5 the largest is 2^53.
        ("53 bits of the energy", OPENLY, 5, summed(|frame| energy(frame) % (1 << 53))),
        ("the energy in an f32", OPENLY, 3, summed(|frame| energy(frame) as f32 as u64)),
        ("summed in an f32", OPENLY, 3, summed(|frame| frame.iter().map(|&x| (x * x) as f32).sum::<f32>() as u64)),
        // Up to 2^53 it is exact.
        ("summed in an f64", OPENLY, 6, summed(|frame| frame.iter().map(|&x| (x * x) as f64).sum::<f64>() as u64)),
        ("summed in a u32", OPENLY, 3, summed(|frame| energy(frame) as u32 as u64)),
        ("squares in a u32", OPENLY, 3, summed(|frame| frame.iter().map(|&x| (x * x) as u32 as u64).sum())),
        ("48 bits of a square", OPENLY, 3, summed(|frame| frame.iter().map(|&x| (x * x) as u64 % (1 << 48)).sum())),
        ("8 as 13", BOTH, 4, given(|number, frame| if number == 8 && large(frame) { 13 } else { number })),
        ("13 as 8", BOTH, 6, given(|number, frame| if number == 13 && large(frame) { 8 } else { number })),
        ("13 as 7", BOTH, 6, given(|number, frame| if number == 13 && large(frame) { 7 } else { number })),
        ("13 untested", BOTH, 6, given(|number, frame| if number == 13 && large(frame) { 0 } else { number })),
        ("any of the class", STRICTLY, 3, given(|number, frame| if number == 9 && large(frame) { 0 } else { number })),
    ];

    /// Wrong ways to read, and wrong ranges, are told apart at each kind and grade, by the one reading and by the other.
    #[test]
    fn wrong_ways_to_read_are_told_apart() {
        let ranges = WRONG_RANGES.map(|(name, first, past)| (name, BOTH, first, Way { past, ..RIGHT }));
        let calls = calls();
        for (kind, grade) in KINDS.flat_map(|kind| GRADES.map(move |grade| (kind, grade))) {
            for function in [READ_OPEN, READ_STRICT] {
                let own = calls.iter().filter(|call| (call.function, call.kind, call.grade) == (function, kind, grade));
                // Those of right lengths.
                let read = own.map(|call| (call, call.answer())).filter(|(_, answer)| ![3, 4].contains(&answer.0));
                let read: Vec<_> = read.map(|(call, answer)| (call, (answer.0, answer.1, answer.2.message))).collect();
                let told = |way: &Way| read.iter().any(|(call, answer)| way.read(call) != *answer);
                assert!(!told(&RIGHT));
                for (name, readings, first, way) in ranges.iter().chain(&WAYS) {
                    let expected = kind >= *first && readings.contains(&function);
                    assert_eq!(told(way), expected, "kind {kind}, grade {grade}, function {function}, {name}");
                }
            }
        }
    }
}
