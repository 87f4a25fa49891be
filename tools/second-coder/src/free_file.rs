//! Calls with free bits, with what they must answer and leave, the same on every run.

use std::cmp::Reverse;
use std::collections::{BTreeMap, BTreeSet};

use crate::account::{largest_block, Account, FULL};
use crate::calls::{write_account, ONE_FIGURE};
use crate::class::energy;
use crate::far::added;
use crate::frame::{leader, shaped, test, Format, Tie, FURTHEST, GRADES, KINDS, MOST_FREE};
use crate::free::{cleared, filled, read_open, read_strict, send_counted, send_into, Fillings};
use crate::random::Random;
use crate::refusal;
use crate::test_file::TestFile;
use crate::vectors::{dense, edge, moved_by_point, with_bits};

/// The places that a record has for message bytes, and the most frames and coordinates that it can have.
const BYTES: usize = 48;
const FRAMES: usize = 16;
const COORDINATES: usize = 64;

/// What stands in message bytes that are not lent.
const MARK_BYTE: u8 = 0xA5;

/// A frame, what the two readings answer of it, and the energy that one which accepts it answers.
#[derive(Clone)]
struct Judged {
    open: u8,
    strict: u8,
    energy: u64,
    frame: Vec<i64>,
}

/// A call of sending, alone and with an account, and readings of frames.
#[derive(Clone)]
struct Record {
    kind: u8,
    grade: u8,
    free: u8,
    /// The coordinates lent.
    n: usize,
    /// That of the account's next frame.
    number: u32,
    account: Account,
    message: Vec<u8>,
    /// What sending answers: the number and the energy.
    sent: (u8, u64),
    /// What sending with the account answers, and the account afterwards.
    counted: (u8, u64, Account),
    /// Where the message is sent the first is the one that is sent, and the only one that passes strictly.
    frames: Vec<Judged>,
}

/// The account's figures by their bits.
fn bits_of(account: Account) -> (u32, u64, u64, u32) {
    (account.count, account.sum.to_bits(), account.largest, account.changeover)
}

/// The frame that is sent, and behind it those of the other fillings among these.
fn sent_first(fillings: &Fillings, chosen: impl IntoIterator<Item = usize>) -> Vec<Vec<i64>> {
    let taken = fillings.taken();
    let others = chosen.into_iter().filter(|&filling| filling != taken);
    [taken].into_iter().chain(others).map(|filling| fillings.0[filling].frame.clone()).collect()
}

impl Record {
    /// With the frames of all fillings where the message is sent, and none where it is refused.
    fn new(kind: u8, grade: u8, free: u8, account: Account, message: &[u8], n: usize) -> Record {
        let frames = test(kind, grade, free, message, n)
            .map_or(vec![], |format| sent_first(&Fillings::new(&format, account.tie(), free, message), 0..1 << free));
        Record::with(kind, grade, free, account, message, n, frames)
    }

    /// With these frames.
    fn with(
        kind: u8,
        grade: u8,
        free: u8,
        account: Account,
        message: &[u8],
        n: usize,
        frames: Vec<Vec<i64>>,
    ) -> Record {
        let (number, m) = (account.number(), message.len());
        let sent = match send_into(kind, grade, number, free, message, n) {
            Ok(sent) => (0, sent.energy),
            Err(number) => (number, 0),
        };
        let counted = match send_counted(kind, grade, free, message, n, account) {
            Ok((sent, grown)) => (0, sent.energy, grown),
            Err(number) => (number, 0, account),
        };
        let judged = |frame: Vec<i64>| Judged {
            open: read_open(kind, grade, free, &frame, m).err().unwrap_or(0),
            strict: read_strict(kind, grade, number, free, &frame, m).err().unwrap_or(0),
            energy: energy(&frame),
            frame,
        };
        let frames: Vec<Judged> = frames.into_iter().map(judged).collect();
        let passed = frames.iter().map(|judged| judged.strict == 0);
        assert!(passed.eq((0..frames.len()).map(|i| i == 0 && sent.0 == 0)), "the first is sent, and no other");
        let message = message.to_vec();
        Record { kind, grade, free, n, number, account, message, sent, counted, frames }
    }

    /// The record of README.md.
    fn bytes(&self) -> Vec<u8> {
        assert!(self.message.len() <= BYTES && self.n <= COORDINATES && self.frames.len() <= FRAMES);
        let (m, n, p) = (self.message.len() as u8, self.n as u8, self.frames.len() as u8);
        let mut record = vec![self.kind, self.grade, self.free, m, n, self.sent.0, p, self.counted.0];
        record.extend(self.number.to_le_bytes());
        write_account(self.account, &mut record);
        record.extend([0; 4]);
        record.extend(&self.message);
        record.resize(40 + BYTES, MARK_BYTE);
        record.extend(self.sent.1.to_le_bytes());
        record.extend(self.counted.1.to_le_bytes());
        write_account(self.counted.2, &mut record);
        for judged in &self.frames {
            assert_eq!(judged.frame.len(), self.n);
            record.extend([judged.open, judged.strict]);
            record.extend(judged.energy.to_le_bytes());
            record.extend(judged.frame.iter().flat_map(|x| (*x as i32).to_le_bytes()));
        }
        record
    }

    /// The checks that the program makes, in its order, and whether the record passes each.
    fn checks(&self) -> Vec<(usize, bool)> {
        let Record { kind, grade, free, n, number, account, ref message, sent, counted, ref frames } = *self;
        let mut checks = Vec::new();
        for judged in frames {
            let right = |answer: u8, read: Result<(Vec<u8>, u64), u8>| match read {
                Ok((bytes, energy)) => (answer, bytes, energy) == (0, message.clone(), judged.energy),
                Err(number) => answer == number,
            };
            let open = right(judged.open, read_open(kind, grade, free, &judged.frame, message.len()));
            let strict = right(judged.strict, read_strict(kind, grade, number, free, &judged.frame, message.len()));
            checks.extend([(READ_OPEN, open), (READ_STRICT, strict), (EXPORTED_OPEN, open), (EXPORTED_STRICT, strict)]);
        }
        let is_first = |frame: Vec<i64>| frames.first().is_some_and(|judged| judged.frame == frame);
        let one = match send_into(kind, grade, number, free, message, n) {
            Ok(left) => sent == (0, left.energy) && is_first(left.frame),
            Err(number) => sent == (number, 0),
        };
        let after = |expected: Account| bits_of(counted.2) == bits_of(expected);
        let with_account = match send_counted(kind, grade, free, message, n, account) {
            Ok((left, grown)) => (counted.0, counted.1) == (0, left.energy) && after(grown) && is_first(left.frame),
            Err(number) => (counted.0, counted.1) == (number, 0) && after(account),
        };
        checks.extend([(SENT, one), (COUNTED, with_account), (EXPORTED_SENT, one), (EXPORTED_COUNTED, with_account)]);
        checks.push((RECORDS, true));
        checks
    }

    /// The fillings of a message that is sent, under the record's number.
    fn fillings(&self) -> Fillings {
        Fillings::new(&Format::new(self.kind, self.grade).unwrap(), Tie::of(self.number), self.free, &self.message)
    }

    /// Records that are right but for one thing: a number, an energy, a figure of the account, a coordinate, or a bit of the message.
    fn wrong(&self) -> Vec<Record> {
        let mut wrong = Vec::new();
        let mut change = |change: &dyn Fn(&mut Record)| {
            let mut record = self.clone();
            change(&mut record);
            wrong.push(record);
        };
        change(&|record| record.sent.0 ^= 1);
        change(&|record| record.sent.1 += 1);
        change(&|record| record.counted.0 ^= 1);
        change(&|record| record.counted.1 += 1);
        for figure in ONE_FIGURE {
            change(&|record| figure(&mut record.counted.2));
        }
        // What is refused as if it were sent.
        if self.sent.0 != 0 {
            change(&|record| record.sent.0 = 0);
        }
        if self.counted.0 != 0 {
            change(&|record| record.counted.0 = 0);
        }
        for (i, judged) in self.frames.iter().enumerate().take(5) {
            change(&|record| record.frames[i].open ^= 1);
            let accepted = judged.open == 0;
            if accepted {
                change(&|record| record.frames[i].energy += 1);
            }
            change(&|record| record.frames[i].strict ^= 1);
            if accepted {
                change(&|record| record.frames[i].strict ^= refusal::UNSHAPED);
                for place in [0, self.n / 2, self.n - 1] {
                    change(&|record| record.frames[i].frame[place] += 1);
                }
            }
        }
        if let (0, Ok(format)) = (self.sent.0, Format::new(self.kind, self.grade)) {
            // The first bit, the last that is fixed, and the last, which is free or the same; then a spare bit, where there is one.
            let last = format.message_bits() - 1;
            let mut places = vec![0, last - self.free as usize, last, 8 * self.message.len() - 1];
            places.dedup();
            for place in places {
                change(&|record| record.message[place / 8] ^= 1 << (place % 8));
            }
        }
        wrong
    }
}

/// What the program counts.
const CHECKS: [&str; 9] = [
    "records",
    "sent",
    "sent with an account",
    "exported sending",
    "exported sending with an account",
    "read openly",
    "read strictly",
    "exported open reading",
    "exported strict reading",
];
const RECORDS: usize = 0;
const SENT: usize = 1;
const COUNTED: usize = 2;
const EXPORTED_SENT: usize = 3;
const EXPORTED_COUNTED: usize = 4;
const READ_OPEN: usize = 5;
const READ_STRICT: usize = 6;
const EXPORTED_OPEN: usize = 7;
const EXPORTED_STRICT: usize = 8;

/// Numbers of each parity: the first, some between, those of full accounts, the last.
const EVEN: [u32; 8] = [0, 2, 12_344, 0, 999_998, 1_000_000, 1 << 31, u32::MAX - 1];
const ODD: [u32; 8] = [1, 3, 12_345, 1, 999_999, 1_000_001, (1 << 31) + 1, u32::MAX];

/// The records as they are collected.
#[derive(Default)]
struct Calls {
    all: Vec<Record>,
    /// How many numbers and accounts were given.
    numbers: usize,
    accounts: usize,
}

impl Calls {
    /// The next number of a parity.
    fn number(&mut self, odd: bool) -> u32 {
        self.numbers += 1;
        [EVEN, ODD][odd as usize][self.numbers / 2 % 8]
    }

    /// The next number of a parity for which an account has room.
    fn number_with_room(&mut self, odd: bool) -> u32 {
        let mut number = self.number(odd);
        while number >= FULL {
            number = self.number(odd);
        }
        number
    }

    /// The next number, even and odd by turns.
    fn any(&mut self) -> u32 {
        let odd = self.numbers % 2 == 1;
        self.number(odd)
    }

    /// An account whose next frame has this number, and whose largest block is about this one.
    fn account(&mut self, number: u32, block: u64) -> Account {
        self.accounts += 1;
        let i = self.accounts;
        let (count, changeover) = match number {
            0 => [(0, 0), (0, 1), (7, 8), (6, FULL), (999_999, u32::MAX)][i % 5],
            _ => (number, [0, number - 1, number][i % 3]),
        };
        let sum = [0.0, 0.25, -3.25, 0.1, 1e9, -0.0, 1e300][i % 7];
        let largest = [0, block.saturating_sub(1), block, block + 1, 3, u64::MAX][i % 6];
        Account { count, sum, largest, changeover }
    }

    /// A message that is sent under a number, with the sent frame and those of these fillings.
    fn sent(
        &mut self,
        kind: u8,
        grade: u8,
        free: u8,
        number: u32,
        message: &[u8],
        chosen: impl IntoIterator<Item = usize>,
    ) {
        let format = Format::new(kind, grade).unwrap();
        let frames = sent_first(&Fillings::new(&format, Tie::of(number), free, message), chosen);
        let account = self.account(number, largest_block(&frames[0]));
        self.all.push(Record::with(kind, grade, free, account, message, format.length(), frames));
    }

    /// A call that is refused, with a frame for the readings to refuse.
    fn refused(&mut self, kind: u8, grade: u8, free: u8, message: &[u8], frame: &[i64]) {
        let number = self.any();
        let account = self.account(number, 5);
        let record = Record::with(kind, grade, free, account, message, frame.len(), vec![frame.to_vec()]);
        assert!(record.sent.0 != 0 && record.frames[0].open != 0);
        self.all.push(record);
    }

    /// A message that is refused for its bits, with no frame.
    fn refused_bits(&mut self, kind: u8, grade: u8, free: u8, message: &[u8]) {
        let number = self.any();
        let account = self.account(number, 5);
        let record = Record::new(kind, grade, free, account, message, 1 << kind);
        assert_eq!(record.sent.0, refusal::SPARE_BITS);
        self.all.push(record);
    }
}

/// 12 00 at kind 3, grade 1, worked by hand in free.rs, and beside it.
fn by_hand(calls: &mut Calls) {
    for free in 0..=MOST_FREE {
        for number in [0, 1, 2, 999_999, u32::MAX - 1, u32::MAX] {
            calls.sent(3, 1, free, number, &[0x12, 0x00], 0..1 << free);
        }
    }
}

/// No bit, the first, the last that is fixed, the one before it, and any.
fn bits(calls: &mut Calls, kind: u8, grade: u8, free: u8, random: &mut Random) {
    let format = Format::new(kind, grade).unwrap();
    let fixed = format.message_bits() - free as usize;
    let any = random.below(fixed as u64) as usize;
    for places in [&[][..], &[0], &[fixed - 1], &[fixed - 2], &[any]] {
        let number = calls.any();
        calls.sent(kind, grade, free, number, &with_bits(&format, places), 0..1 << free);
    }
}

/// How many messages are looked at for each filling, by kind.
const FOR_EACH: [usize; 4] = [100, 60, 40, 40];

/// For each filling a message of which it is the only least one, where one is found: fillings that move the last coordinate away from
/// both of the nearest points are never least. From two free bits on one more, where a filling before the only least one is quieter than
/// filling 0 and has a bit that the least one has not. Each message under a number with the frames of all fillings, or with four bits free of
/// half of them, and under one of the other parity with the sent frame and that of filling 0.
fn each_filling(calls: &mut Calls, kind: u8, grade: u8, free: u8, random: &mut Random) {
    let format = Format::new(kind, grade).unwrap();
    let mut left: Vec<usize> = (0..1 << free).collect();
    let mut steps = free > 1;
    for _ in 0..FOR_EACH[kind as usize - 3] << free {
        if left.is_empty() && !steps {
            break;
        }
        let message = cleared(&format, free, &dense(&format, random));
        let fillings = Fillings::new(&format, Tie::First, free, &message);
        if let [only] = fillings.least()[..] {
            let quieter = |filling: usize| fillings.0[filling].energy < fillings.0[0].energy;
            let by_steps = (0..only).any(|filling| filling & !only != 0 && quieter(filling));
            if left.contains(&only) || (steps && by_steps) {
                left.retain(|filling| *filling != only);
                steps &= !by_steps;
                let half = 1 << free.min(3);
                let from = half * random.below(1 << (free / 4)) as usize;
                let odd = random.one_in(2);
                for (odd, chosen) in [(odd, from..from + half), (!odd, 0..1)] {
                    let number = calls.number(odd);
                    calls.sent(kind, grade, free, number, &message, chosen);
                }
            }
        }
    }
}

/// Where the bits of the blocks begin.
fn first_block(format: &Format) -> usize {
    format.message_bits() - format.length() * format.grade
}

/// A message whose last block lies on quarters of M, but for its last coordinate, and every other time for its level words: the bits of
/// less than a quarter are 0.
fn quartered(format: &Format, random: &mut Random) -> Vec<u8> {
    let (b, mut message) = (format.grade, dense(format, random));
    let mut clear = |from: usize, to: usize| (from..to).for_each(|place| message[place / 8] &= !(1 << (place % 8)));
    if random.one_in(2) {
        clear(0, first_block(format));
    }
    let mut next = format.message_bits() - 8 * b;
    for width in [b - 1, b, b, b, b, b, b] {
        clear(next, next + b.saturating_sub(2));
        next += width;
    }
    message
}

/// How many messages are looked at for ties, by the free count from 1 on.
const LOOKED_AT: [usize; 4] = [300, 600, 2000, 6000];

/// What a message with several least fillings can show.
#[derive(Clone, Copy, PartialEq, Eq, PartialOrd, Ord)]
enum Shown {
    /// The one filling is sent, and the other is least too.
    Before(usize, usize),
    /// Of the frames of the least fillings by the rule of odd numbers, or of even ones, the sent one is not the first in reading order.
    NotFirst(bool),
    /// Nor the last.
    NotLast(bool),
}

/// What the last block shows of these least fillings: the others are the same for all. Given are the blocks of all fillings.
fn shown(format: &Format, blocks: &[Vec<i64>], least: &[usize]) -> Vec<Shown> {
    let mut all: Vec<Shown> = least[1..].iter().map(|&other| Shown::Before(least[0], other)).collect();
    for odd in [false, true] {
        let frame = |filling: &usize| shaped(format, Tie::of(odd as u32), &blocks[*filling]).frame;
        let frames: Vec<Vec<i64>> = least.iter().map(frame).collect();
        all.extend(frames.iter().any(|frame| *frame < frames[0]).then_some(Shown::NotFirst(odd)));
        all.extend(frames.iter().any(|frame| *frame > frames[0]).then_some(Shown::NotLast(odd)));
    }
    all
}

/// Messages with several least fillings, each under an even and an odd number, with the frames of the least: as few as are found to show all
/// that was found. So each two fillings come of which the one is sent where the other is least too, and whoever goes through the fillings in
/// another order sends another frame of some record, if any message that was looked at has one.
fn ties(calls: &mut Calls, kind: u8, grade: u8, free: u8, random: &mut Random) {
    let format = Format::new(kind, grade).unwrap();
    // In the last block the filling is added.
    let last = |message: &[u8]| leader(&format, message)[format.length() - 8..].to_vec();
    let alone = |filling| last(&filled(&format, free, &with_bits(&format, &[]), filling));
    let fillings: Vec<Vec<i64>> = (0..1 << free).map(alone).collect();
    let mut found: BTreeMap<Vec<Shown>, Vec<u8>> = BTreeMap::new();
    for round in 0..LOOKED_AT[free as usize - 1] {
        let message = match round % 3 {
            0 => edge(&format, random),
            1 => dense(&format, random),
            _ => quartered(&format, random),
        };
        let message = cleared(&format, free, &message);
        let block = last(&message);
        let blocks: Vec<Vec<i64>> = fillings.iter().map(|filling| added(&block, filling)).collect();
        let energies: Vec<u64> = blocks.iter().map(|block| shaped(&format, Tie::First, block).energy).collect();
        let energy = *energies.iter().min().unwrap();
        let least: Vec<usize> = (0..1 << free).filter(|&filling| energies[filling] == energy).collect();
        if least.len() > 1 {
            found.entry(shown(&format, &blocks, &least)).or_insert(message);
        }
    }
    let mut left: BTreeSet<Shown> = found.keys().flatten().copied().collect();
    while !left.is_empty() {
        let new = |all: &[Shown]| all.iter().filter(|one| left.contains(one)).count();
        let (all, message) = found.iter().max_by_key(|(all, _)| (new(all), Reverse(all.len()))).unwrap();
        let least = Fillings::new(&format, Tie::First, free, message).least();
        for odd in [false, true] {
            let number = calls.number_with_room(odd);
            calls.sent(kind, grade, free, number, message, least.clone());
        }
        left.retain(|one| !all.contains(one));
    }
}

/// A message whose least fillings have ties in their classes, under an even and an odd number; and the frame that is sent, with others
/// behind it: those of the other least fillings, those of all least fillings under a number of the other parity, other members of the classes,
/// frames at the ends of the range and past them, and frames with a broken level.
fn others(calls: &mut Calls, kind: u8, grade: u8, free: u8, random: &mut Random) {
    let format = Format::new(kind, grade).unwrap();
    let (n, levels, scale) = (format.length(), format.levels.len(), format.scale());
    let both = |message: &[u8]| {
        [Tie::First, Tie::Last].map(|tie| {
            let fillings = Fillings::new(&format, tie, free, message);
            sent_first(&fillings, fillings.least())
        })
    };
    let message = (0..1000).map(|_| cleared(&format, free, &edge(&format, random))).find(|message| {
        let [even, odd] = both(message);
        even.len() <= 3 && !odd.iter().any(|frame| even.contains(frame))
    });
    let message = message.expect("there is such a message");
    for odd in [false, true] {
        let number = calls.number(odd);
        calls.sent(kind, grade, free, number, &message, 0..1 << free);
        let [even, other] = both(&message);
        let (own, other) = if odd { (other, even) } else { (even, other) };
        let (sent, last) = (own[0].clone(), own[own.len() - 1].clone());
        let place = random.below(n as u64) as usize;
        let with = |place: usize, by: i64| {
            let mut frame = sent.clone();
            frame[place] += by;
            frame
        };
        let mut frames = [own, other].concat();
        frames.extend([moved_by_point(&format, &sent, random), moved_by_point(&format, &last, random)]);
        // Twice M at one place is a point too: as far as the range goes.
        let far = (FURTHEST - 128) / (2 * scale) * (2 * scale);
        frames.push(with(place, if odd { far } else { -far }));
        frames.push(with(place, if odd { FURTHEST + 1 } else { -FURTHEST - 1 } - sent[place]));
        frames.push(with(place, if odd { i32::MIN } else { i32::MAX } as i64 - sent[place]));
        frames.extend((0..levels).map(|level| with(n - 1 - place, 1 << level)));
        let account = calls.account(number, largest_block(&sent));
        calls.all.push(Record::with(kind, grade, free, account, &message, n, frames));
    }
}

/// Free counts above 4 with nothing else wrong, and with what is tested later.
fn counts(calls: &mut Calls, kind: u8, grade: u8, random: &mut Random) {
    let format = Format::new(kind, grade).unwrap();
    let (m, n) = (format.message_bytes(), format.length());
    let good = dense(&format, random);
    for free in [5, 6, 8, 127, 128, 255] {
        calls.refused(kind, grade, free, &with_bits(&format, &[]), &vec![0; n]);
        calls.refused(kind, grade, free, &good, &send_into(kind, grade, 0, 0, &good, n).unwrap().frame);
    }
    let mut broken = vec![0; n];
    broken[n - 1] = 1;
    for free in [5, 255] {
        for m in [m - 1, m, m + 1] {
            for n in [0, n - 1, n, (n + 1).min(COORDINATES)] {
                calls.refused(kind, grade, free, &vec![0xFF; m], &vec![FURTHEST + 1; n]);
            }
        }
        calls.refused(kind, grade, free, &with_bits(&format, &[format.message_bits() - 1]), &broken);
    }
}

/// Lengths that differ, with everything wrong that is tested later, and some with nothing else.
fn lengths(calls: &mut Calls, kind: u8, grade: u8, free: u8) {
    let format = Format::new(kind, grade).unwrap();
    let (m, n) = (format.message_bytes(), format.length());
    let more = if n < COORDINATES { n + 1 } else { n / 2 };
    let all = [(m - 1, n - 1), (m + 1, more), (m, n - 1), (m, more), (m - 1, n), (m + 1, n), (0, n), (m, 0)];
    for (i, (m, n)) in all.into_iter().enumerate() {
        calls.refused(kind, grade, free, &vec![0xFF; m], &vec![FURTHEST + 1; n]);
        if i % 5 == free as usize {
            calls.refused(kind, grade, free, &vec![0; m], &vec![0; n]);
        }
    }
}

/// Each free bit set alone, and with random bits before it; and each spare bit.
fn set_bits(calls: &mut Calls, kind: u8, grade: u8, free: u8, random: &mut Random) {
    let format = Format::new(kind, grade).unwrap();
    for bit in format.message_bits() - free as usize..8 * format.message_bytes() {
        for mut message in [with_bits(&format, &[]), cleared(&format, free, &dense(&format, random))] {
            message[bit / 8] |= 1 << (bit % 8);
            calls.refused_bits(kind, grade, free, &message);
        }
    }
}

/// Wrong kinds and grades, with every free count, good ones and others.
fn wrong(calls: &mut Calls) {
    for free in [0, 1, 4, 5, 255] {
        for kind in [0, 2, 7, 131, 255] {
            for grade in [0, 1, 5] {
                calls.refused(kind, grade, free, &[0xFF; 7], &[FURTHEST + 1; 15]);
                calls.refused(kind, grade, free, &[0; 22], &[0; 64]);
            }
        }
        for kind in KINDS {
            for grade in [0, 5, 129, 255] {
                calls.refused(kind, grade, free, &[0xFF; 7], &[FURTHEST + 1; 15]);
                calls.refused(
                    kind,
                    grade,
                    free,
                    &vec![0; Format::new(kind, 1).unwrap().message_bytes()],
                    &vec![0; 1 << kind],
                );
            }
        }
    }
}

/// All zeros, with frames of its class at the ends of the range, since twice M divides them, and with frames past these.
fn ends(calls: &mut Calls, kind: u8, grade: u8, free: u8, random: &mut Random) {
    let format = Format::new(kind, grade).unwrap();
    let n = format.length();
    let number = calls.any();
    let account = calls.account(number, 0);
    let with = |place: usize, x: i64| {
        let mut frame = vec![0; n];
        frame[place] = x;
        frame
    };
    let mut any = || random.below(n as u64) as usize;
    let sign = if number.is_multiple_of(2) { 1 } else { -1 };
    let frames = vec![
        vec![0; n],
        with(any(), FURTHEST),
        with(any(), -FURTHEST),
        vec![sign * FURTHEST; n],
        with(0, -sign * (FURTHEST + 1)),
        with(n - 1, sign * (FURTHEST + 1)),
    ];
    calls.all.push(Record::with(kind, grade, free, account, &with_bits(&format, &[]), n, frames));
}

/// For each kind and grade.
fn each(calls: &mut Calls, mut put: impl FnMut(&mut Calls, u8, u8)) {
    KINDS.for_each(|kind| GRADES.for_each(|grade| put(calls, kind, grade)));
}

/// For each kind, grade and free count from this one on.
fn each_from(first: u8, calls: &mut Calls, mut put: impl FnMut(&mut Calls, u8, u8, u8)) {
    each(calls, |calls, kind, grade| (first..=MOST_FREE).for_each(|free| put(calls, kind, grade, free)));
}

/// The records, and of each sort its name and how many there are.
fn sorts() -> (Vec<Record>, Vec<(&'static str, usize)>) {
    let (mut calls, mut sorts, mut random) = (Calls::default(), Vec::new(), Random::new(17));
    let random = &mut random;
    let mut sort = |name: &'static str, put: &mut dyn FnMut(&mut Calls)| {
        let before = calls.all.len();
        put(&mut calls);
        sorts.push((name, calls.all.len() - before));
    };
    sort("by hand", &mut by_hand);
    sort("bits", &mut |calls| each_from(0, calls, |calls, k, b, f| bits(calls, k, b, f, random)));
    sort("each filling", &mut |calls| each_from(1, calls, |calls, k, b, f| each_filling(calls, k, b, f, random)));
    sort("ties between fillings", &mut |calls| each_from(1, calls, |calls, k, b, f| ties(calls, k, b, f, random)));
    sort("others", &mut |calls| each_from(0, calls, |calls, k, b, f| others(calls, k, b, f, random)));
    sort("free counts", &mut |calls| each(calls, |calls, k, b| counts(calls, k, b, random)));
    sort("lengths", &mut |calls| each_from(0, calls, lengths));
    sort("bits that are set", &mut |calls| each_from(0, calls, |calls, k, b, f| set_bits(calls, k, b, f, random)));
    sort("kinds and grades", &mut wrong);
    sort("the ends of the range", &mut |calls| each_from(0, calls, |calls, k, b, f| ends(calls, k, b, f, random)));
    (calls.all, sorts)
}

/// Records that are right, and each with one thing changed in what is expected, or in a byte of the message.
fn planted() -> Vec<(Record, Vec<Record>)> {
    let account = Account { count: 4, sum: 0.25, largest: 7, changeover: 2 };
    let full = Account { count: 1_000_001, sum: -0.0, largest: 7, changeover: 0 };
    // 12 00 has two least fillings with two bits free, 1 and 2, and with one bit free one, which is 1.
    let kind_3 = |free, account, message: &[u8]| Record::new(3, 1, free, account, message, 8);
    let format = Format::new(6, 1).unwrap();
    let mut long = (0..).map(|seed| cleared(&format, 4, &dense(&format, &mut Random::new(seed))));
    let fillings = |message: &[u8]| Fillings::new(&format, account.tie(), 4, message);
    // The only least filling is 3.
    let long = long.find(|message| fillings(message).least() == [3]).unwrap();
    let right = [
        kind_3(1, account, &[0x12, 0x00]),
        kind_3(2, account, &[0x12, 0x00]),
        kind_3(1, full, &[0x12, 0x00]),
        Record::new(4, 1, 0, account, &[0x20, 0, 0, 0, 0], 16),
        Record::with(6, 1, 4, account, &long, 64, sent_first(&fillings(&long), 0..5)),
        // A free bit is 1; five bits are free; a byte is too few.
        kind_3(2, account, &[0x12, 0x08]),
        Record::with(3, 1, 5, account, &[0x12, 0x00], 8, vec![vec![0; 8]]),
        Record::with(5, 2, 3, account, &[0; 11], 32, vec![vec![0; 32]]),
    ];
    right.into_iter().map(|record| (record.clone(), record.wrong())).collect()
}

/// Records with several least fillings, of each kind with each free count, under an even and an odd number: each with the sent frame and that of
/// another least filling exchanged, once without what the readings answer of them, which stays at its place, and once with it.
fn exchanged() -> Vec<(Record, [Record; 2])> {
    let mut all = Vec::new();
    for (kind, free) in KINDS.flat_map(|kind| (1..=MOST_FREE).map(move |free| (kind, free))) {
        let grade = 1 + (kind + free) % 4;
        let format = Format::new(kind, grade).unwrap();
        for count in [4, 5] {
            let account = Account { count, sum: 0.25, largest: 7, changeover: 2 };
            let edges = (0..).map(|seed| cleared(&format, free, &edge(&format, &mut Random::new(seed))));
            let mut all_least = edges.map(|message| {
                let fillings = Fillings::new(&format, account.tie(), free, &message);
                (message, sent_first(&fillings, fillings.least()))
            });
            let (message, least) = all_least.find(|(_, least)| (2..4).contains(&least.len())).unwrap();
            let right = Record::with(kind, grade, free, account, &message, format.length(), least);
            let last = right.frames.len() - 1;
            let (mut frames, mut answers) = (right.clone(), right.clone());
            answers.frames.swap(0, last);
            for (i, other) in [(0, last), (last, 0)] {
                frames.frames[i].frame = right.frames[other].frame.clone();
            }
            all.push((right, [frames, answers]));
        }
    }
    all
}

/// The records of a kind and grade that are sent: how many there are for each free count, how many of them have several least fillings, and
/// the most that one has.
pub struct Count {
    pub kind: u8,
    pub grade: u8,
    pub records: [usize; 5],
    pub tied: [usize; 5],
    pub most: [usize; 5],
}

/// What stands in the file: how many records there are of each sort, how many are answered by each number, how many frames there are and how
/// many of these pass strictly, the table of ties, and how many records are wrong.
pub struct Counts {
    pub sorts: Vec<(&'static str, usize)>,
    pub sent: [usize; 18],
    pub counted: [usize; 18],
    pub open: [usize; 18],
    pub strict: [usize; 18],
    pub ties: Vec<Count>,
    pub wrong: usize,
}

/// All records in the format of README.md, wrong ones and one that is cut short last; and their counts.
pub fn free_file() -> (TestFile, Counts) {
    let mut file = TestFile::new(&CHECKS, "record");
    let (all, sorts) = sorts();
    let numbers = [0; 18];
    let (mut sent, mut counted, mut open, mut strict) = (numbers, numbers, numbers, numbers);
    let mut ties: Vec<Count> = Vec::new();
    for kind in KINDS {
        ties.extend(GRADES.map(|grade| Count { kind, grade, records: [0; 5], tied: [0; 5], most: [0; 5] }));
    }
    for record in &all {
        let checks = record.checks();
        assert!(checks.iter().all(|(_, passed)| *passed));
        file.put(&record.bytes(), &checks);
        sent[record.sent.0 as usize] += 1;
        counted[record.counted.0 as usize] += 1;
        for judged in &record.frames {
            open[judged.open as usize] += 1;
            strict[judged.strict as usize] += 1;
        }
        if record.sent.0 == 0 {
            let least = record.fillings().least().len();
            let own = ties.iter_mut().find(|count| (count.kind, count.grade) == (record.kind, record.grade)).unwrap();
            let free = record.free as usize;
            own.records[free] += 1;
            own.tied[free] += (least > 1) as usize;
            own.most[free] = own.most[free].max(least);
        }
    }
    let mut wrong: Vec<Record> = planted().into_iter().flat_map(|(_, wrong)| wrong).collect();
    wrong.extend(exchanged().into_iter().flat_map(|(_, wrong)| wrong));
    for record in &wrong {
        file.put(&record.bytes(), &record.checks());
    }
    // A record of one frame without its last byte: nothing of it is judged but that it is not whole.
    let last = Record::new(3, 1, 0, Account::begun(0), &[0x12, 0x00], 8).bytes();
    file.put(&last[..last.len() - 1], &[(RECORDS, false)]);
    (file, Counts { sorts, sent, counted, open, strict, ties, wrong: wrong.len() })
}

#[cfg(test)]
mod tests {
    use super::*;
    use crate::far::tests::{past, WRONG_RANGES};
    use crate::free::filling_of;
    use crate::test_file::fields_apart;

    /// The records, made once for all tests.
    fn all() -> &'static [Record] {
        static ALL: std::sync::OnceLock<Vec<Record>> = std::sync::OnceLock::new();
        ALL.get_or_init(|| sorts().0)
    }

    /// The records that are sent at each kind and grade with each free count from 1 on.
    fn each_sent(mut put: impl FnMut(u8, u8, u8, &[&Record])) {
        let all = all();
        for (kind, grade) in KINDS.flat_map(|kind| GRADES.map(move |grade| (kind, grade))) {
            for free in 1..=MOST_FREE {
                let own = |record: &&Record| (record.kind, record.grade, record.free) == (kind, grade, free);
                let sent: Vec<&Record> = all.iter().filter(own).filter(|record| record.sent.0 == 0).collect();
                put(kind, grade, free, &sent);
            }
        }
    }

    #[test]
    fn the_file_is_small_and_every_number_comes() {
        let (file, counts) = free_file();
        assert!(file.bytes.len() < 2_500_000);
        let came = |numbers: [usize; 18]| (0..18).filter(|&number| numbers[number] > 0).collect::<Vec<_>>();
        assert_eq!(came(counts.sent), [0, 1, 2, 3, 4, 5, 17]);
        assert_eq!(came(counts.counted), [0, 1, 2, 3, 4, 5, 11, 17]);
        assert_eq!(came(counts.open), [0, 1, 2, 3, 4, 6, 7, 8, 13, 17]);
        assert_eq!(came(counts.strict), [0, 1, 2, 3, 4, 6, 7, 8, 9, 13, 17]);
        assert!(counts.ties.iter().all(|count| count.tied[1..].iter().all(|&tied| tied > 3)));
        // What is sent passes strictly, and nothing else.
        assert_eq!(counts.strict[0], counts.sent[0]);
    }

    /// The sent filling of a message with each other that is least too.
    fn twos(fillings: &Fillings) -> Vec<(usize, usize)> {
        let taken = fillings.taken();
        fillings.least().into_iter().filter(|&filling| filling != taken).map(|other| (taken, other)).collect()
    }

    /// Those of the records whose numbers have this parity, where the frame of the other is read strictly.
    fn twos_read(sent: &[&Record], parity: u32) -> BTreeSet<(usize, usize)> {
        let own = |record: &&Record| {
            let fillings = record.fillings();
            let mut all = twos(&fillings);
            all.retain(|(_, other)| {
                let is_other = |judged: &&Judged| judged.frame == fillings.0[*other].frame;
                let read = record.frames.iter().find(is_other).map(|judged| (judged.open, judged.strict));
                assert!(read.is_none_or(|read| read == (0, refusal::UNSHAPED)));
                read.is_some()
            });
            all
        };
        sent.iter().filter(|record| record.number % 2 == parity).flat_map(own).collect()
    }

    /// The same ones under numbers of both parities. With two bits free 3 is never sent before another, nor 2.
    #[test]
    fn several_least_fillings_come() {
        each_sent(|kind, grade, free, sent| {
            let [even, odd] = [0, 1].map(|parity| twos_read(sent, parity));
            assert_eq!(even, odd);
            let all: Vec<(usize, usize)> = even.into_iter().collect();
            match free {
                1 => assert_eq!(all, [(0, 1)]),
                2 => assert_eq!(all, [(0, 1), (0, 2), (0, 3), (1, 2), (1, 3)]),
                _ => assert!(all.len() > 10, "kind {kind}, grade {grade}, {free} free: {all:?}"),
            }
        });
    }

    /// The checks that a record fails.
    fn failed(record: &Record) -> Vec<usize> {
        record.checks().into_iter().filter(|(_, passed)| !passed).map(|(check, _)| check).collect()
    }

    /// A planted record differs from the right one in one thing alone, and no two are the same; of each the program finds a difference.
    #[test]
    fn one_thing_is_wrong() {
        for (right, wrong) in planted() {
            let account = [4, 8, 8, 4];
            let sizes = || {
                let head = [1; 8].into_iter().chain([4]).chain(account).chain([4]).chain([1; BYTES]).chain([8, 8]);
                let frame = || [1, 1, 8].into_iter().chain(vec![4; right.n]);
                head.chain(account).chain(right.frames.iter().flat_map(move |_| frame()))
            };
            assert!(failed(&right).is_empty());
            let all: Vec<Vec<u8>> = wrong.iter().map(Record::bytes).collect();
            for (i, record) in wrong.iter().enumerate() {
                assert_eq!(fields_apart(&right.bytes(), &all[i], sizes()), 1);
                assert!(!all[..i].contains(&all[i]));
                assert!(!failed(record).is_empty());
            }
        }
    }

    /// Of two frames that are exchanged both have the strict answer of the other, or all answers are right; the sendings differ both times.
    #[test]
    fn the_frames_of_two_least_fillings_are_exchanged() {
        for (right, [frames, answers]) in exchanged() {
            assert!(failed(&right).is_empty());
            let sendings = [SENT, COUNTED, EXPORTED_SENT, EXPORTED_COUNTED];
            let strict = [READ_STRICT, EXPORTED_STRICT];
            assert_eq!(failed(&frames), [&strict[..], &strict, &sendings].concat());
            assert_eq!(failed(&answers), sendings);
        }
    }

    /// Of a message with so many bits free, a frame and an energy.
    type Sender = fn(&Format, Tie, u8, &[u8]) -> (Vec<i64>, u64);

    /// The frames of a message with these places filled in every way.
    fn at_places(format: &Format, tie: Tie, places: &[usize], message: &[u8]) -> Vec<(Vec<i64>, u64)> {
        let one = |filling: usize| {
            let mut filled = message.to_vec();
            for (t, place) in places.iter().enumerate() {
                filled[place / 8] &= !(1 << (place % 8));
                filled[place / 8] |= ((filling >> t & 1) as u8) << (place % 8);
            }
            let sent = shaped(format, tie, &leader(format, &filled));
            (sent.frame, sent.energy)
        };
        (0..1 << places.len()).map(one).collect()
    }

    /// The places of so many bits up to this one, without it.
    fn up_to(end: usize, count: u8) -> Vec<usize> {
        (end - count as usize..end).collect()
    }

    fn fillings(format: &Format, tie: Tie, free: u8, message: &[u8]) -> Vec<(Vec<i64>, u64)> {
        at_places(format, tie, &up_to(format.message_bits(), free), message)
    }

    fn quietest(all: Vec<(Vec<i64>, u64)>) -> (Vec<i64>, u64) {
        all.into_iter().min_by_key(|(_, energy)| *energy).unwrap()
    }

    /// The filling with those bits set, one after the other, that make the frame quieter.
    fn bit_by_bit(all: Vec<(Vec<i64>, u64)>, bits: impl Iterator<Item = usize>) -> (Vec<i64>, u64) {
        let quieter = |filling: usize, bit: usize| all[filling | 1 << bit].1 < all[filling].1;
        let filling = bits.fold(0, |filling, bit| filling | (quieter(filling, bit) as usize) << bit);
        all[filling].clone()
    }

    const SENDERS: [(&str, Sender); 16] = [
        ("the first filling", |format, tie, free, message| fillings(format, tie, free, message).swap_remove(0)),
        ("the last filling", |format, tie, free, message| fillings(format, tie, free, message).pop().unwrap()),
        ("the least but the first", |format, tie, free, message| {
            quietest(fillings(format, tie, free, message).split_off(1))
        }),
        ("the most energy", |format, tie, free, message| {
            fillings(format, tie, free, message).into_iter().max_by_key(|(_, energy)| *energy).unwrap()
        }),
        ("the energy of the first", |format, tie, free, message| {
            let all = fillings(format, tie, free, message);
            (quietest(all.clone()).0, all[0].1)
        }),
        ("the bits from the front", |format, tie, free, message| {
            quietest(at_places(format, tie, &up_to(free as usize, free), message))
        }),
        ("one bit off", |format, tie, free, message| {
            quietest(at_places(format, tie, &up_to(format.message_bits() - 1, free), message))
        }),
        ("the first block", |format, tie, free, message| {
            let end = first_block(format) + 8 * format.grade;
            quietest(at_places(format, tie, &up_to(end, free), message))
        }),
        ("one bit too few", |format, tie, free, message| quietest(fillings(format, tie, free - 1, message))),
        ("one bit too many", |format, tie, free, message| quietest(fillings(format, tie, free + 1, message))),
        ("the other parity", |format, tie, free, message| {
            let other = match tie {
                Tie::First => Tie::Last,
                Tie::Last => Tie::First,
            };
            quietest(fillings(format, other, free, message))
        }),
        ("no frame of the last block", |format, tie, free, message| {
            let (mut frame, energy) = quietest(fillings(format, tie, free, message));
            let n = frame.len();
            frame[n - 8..].copy_from_slice(&leader(format, message)[n - 8..]);
            (frame, energy)
        }),
        ("quieter than the first", |format, tie, free, message| {
            let all = fillings(format, tie, free, message);
            all.iter().find(|(_, energy)| *energy < all[0].1).unwrap_or(&all[0]).clone()
        }),
        ("no noisier than the last", |format, tie, free, message| {
            let all = fillings(format, tie, free, message);
            all.iter().find(|(_, energy)| *energy <= all[all.len() - 1].1).unwrap().clone()
        }),
        ("bit by bit, the lowest first", |format, tie, free, message| {
            bit_by_bit(fillings(format, tie, free, message), 0..free as usize)
        }),
        ("bit by bit, the highest first", |format, tie, free, message| {
            bit_by_bit(fillings(format, tie, free, message), (0..free as usize).rev())
        }),
    ];

    /// Wrong senders are told apart at each kind and grade with each free count. A frame of kind 3 is one block; and the last four are right
    /// with one bit free.
    #[test]
    fn wrong_senders_are_told_apart() {
        each_sent(|kind, grade, free, sent| {
            let format = Format::new(kind, grade).unwrap();
            for (i, (name, sender)) in SENDERS.into_iter().enumerate() {
                let told = sent.iter().any(|record| {
                    let left = sender(&format, Tie::of(record.number), free, &record.message);
                    left != (record.frames[0].frame.clone(), record.sent.1)
                });
                let same = (name == "the first block" && kind == 3) || (i >= SENDERS.len() - 4 && free == 1);
                assert_eq!(told, !same, "kind {kind}, grade {grade}, {free} free, {name}");
            }
            // Fillings that are the only least ones: with one bit free both.
            let mut alone: Vec<usize> = Vec::new();
            for record in sent.iter().filter(|record| record.fillings().least().len() == 1) {
                let (message, _) = crate::frame::read_open(kind, grade, &record.frames[0].frame).unwrap();
                alone.push(filling_of(&format, free, &message));
            }
            alone.sort();
            alone.dedup();
            assert!(alone.len() >= [2, 3][(free > 1) as usize], "kind {kind}, grade {grade}, {free} free");
        });
    }

    /// Of the fillings of a message with so many bits free, under a number, one of the least.
    type Choice = fn(u8, u32, &Fillings) -> usize;

    /// Whether a choice can be another than the right one at a kind and grade with a free count, under a number of a parity.
    type Differs = fn(u8, u8, u8, u32) -> bool;

    /// The first of the least by a key.
    fn by<K: Ord>(fillings: &Fillings, key: impl FnMut(&usize) -> K) -> usize {
        fillings.least().into_iter().min_by_key(key).unwrap()
    }

    /// That of the least at a place, or the last.
    fn at(fillings: &Fillings, place: usize) -> usize {
        let least = fillings.least();
        least[place.min(least.len() - 1)]
    }

    fn last(fillings: &Fillings) -> usize {
        at(fillings, 15)
    }

    /// The place of a filling in Gray's order, in which each differs from the one before it in one bit.
    fn in_grays_order(filling: usize) -> usize {
        (0..4).fold(0, |place, shift| place ^ filling >> shift)
    }

    /// Wrong choices. Gray's order and the fewest ones turn some two fillings round: of messages that were looked at such two are the least of
    /// some for Gray's order where the free bits are not those of the last number alone, and for the fewest ones where three are free and more,
    /// but not at kind 3, grade 1.
    const CHOICES: [(&str, Differs, Choice); 15] = [
        ("the largest", |_, _, _, _| true, |_, _, all| last(all)),
        (
            "highest bit first",
            |_, _, free, _| free > 1,
            |free, _, all| by(all, |filling| filling.reverse_bits() >> (usize::BITS - free as u32)),
        ),
        (
            "in Gray's order",
            |_, grade, free, _| free > grade + 1,
            |_, _, all| by(all, |filling| in_grays_order(*filling)),
        ),
        ("odd ones first", |_, _, _, _| true, |_, _, all| by(all, |filling| (1 - filling % 2, *filling))),
        ("0 after all others", |_, _, _, _| true, |_, _, all| by(all, |filling| (*filling == 0, *filling))),
        ("with a sign", |_, _, _, _| true, |free, _, all| by(all, |filling| filling ^ 1 << (free - 1))),
        (
            "the fewest ones",
            |kind, grade, free, _| free > 2 && (kind, grade) != (3, 1),
            |_, _, all| by(all, |filling| (filling.count_ones(), *filling)),
        ),
        ("0 or the last", |_, _, free, _| free > 1, |_, _, all| if all.least()[0] == 0 { 0 } else { last(all) }),
        ("the second", |_, _, _, _| true, |_, _, all| at(all, 1)),
        (
            "the last by odd numbers",
            |_, _, _, parity| parity == 1,
            |_, number, all| by(all, |filling| if number % 2 == 1 { 16 - filling } else { *filling }),
        ),
        (
            "the last by even numbers",
            |_, _, _, parity| parity == 0,
            |_, number, all| by(all, |filling| if number % 2 == 0 { 16 - filling } else { *filling }),
        ),
        ("the second by odd numbers", |_, _, _, parity| parity == 1, |_, number, all| at(all, number as usize % 2)),
        ("the first frame", |_, _, _, _| true, |_, _, all| by(all, |filling| &all.0[*filling].frame)),
        ("the last frame", |_, _, _, _| true, |_, _, all| by(all, |filling| Reverse(&all.0[*filling].frame))),
        (
            "the first frame, by odd numbers the last",
            |_, _, _, _| true,
            |_, number, all| match number % 2 {
                0 => by(all, |filling| &all.0[*filling].frame),
                _ => by(all, |filling| Reverse(&all.0[*filling].frame)),
            },
        ),
    ];

    /// Wrong choices of one of the least fillings are told apart at each kind and grade with each free count, under numbers of each parity, without
    /// an account and with one: what is sent is another frame, and a strict reading that passes it refuses the right one.
    #[test]
    fn wrong_choices_are_told_apart() {
        each_sent(|kind, grade, free, sent| {
            let with_room: Vec<&Record> = sent.iter().copied().filter(|record| record.counted.0 == 0).collect();
            for (name, differs, choice) in CHOICES {
                for parity in [0, 1] {
                    let told = with_room.iter().filter(|record| record.number % 2 == parity).any(|record| {
                        let fillings = record.fillings();
                        fillings.0[choice(free, record.number, &fillings)].frame != record.frames[0].frame
                    });
                    let expected = differs(kind, grade, free, parity);
                    assert_eq!(told, expected, "kind {kind}, grade {grade}, {free} free, {name}, parity {parity}");
                }
            }
        });
    }

    /// At kind 3, grade 1 all messages: the sent filling and each other that is least too are those of a record, so another order of the
    /// fillings that sends another frame of any message does so of a record; and a choice that is told apart by no record never differs.
    #[test]
    fn every_message_of_kind_3_grade_1_is_told_apart() {
        let format = Format::new(3, 1).unwrap();
        each_sent(|kind, grade, free, sent| {
            if (kind, grade) != (3, 1) {
                return;
            }
            let read = twos_read(sent, 0);
            for parity in [0, 1] {
                let mut different = [false; CHOICES.len()];
                for bits in 0..1u32 << (12 - free) {
                    let fillings = Fillings::new(&format, Tie::of(parity), free, &bits.to_le_bytes()[..2]);
                    assert!(twos(&fillings).iter().all(|two| read.contains(two)));
                    for (different, (_, _, choice)) in different.iter_mut().zip(CHOICES) {
                        *different |= choice(free, parity, &fillings) != fillings.taken();
                    }
                }
                assert_eq!(different, CHOICES.map(|(_, differs, _)| differs(kind, grade, free, parity)));
            }
        });
    }

    /// Wrong readings are told apart at each kind and grade with each free count, the strict ones under numbers of both parities.
    #[test]
    fn wrong_readings_are_told_apart() {
        each_sent(|kind, grade, free, sent| {
            let format = Format::new(kind, grade).unwrap();
            let told = |passes: &dyn Fn(&Record, &Fillings, &[i64]) -> bool| {
                [0, 1].into_iter().all(|parity| {
                    sent.iter().filter(|record| record.number % 2 == parity).any(|record| {
                        let fillings = record.fillings();
                        let read = record.frames.iter().filter(|judged| judged.open == 0);
                        { read }.any(|judged| passes(record, &fillings, &judged.frame) != (judged.strict == 0))
                    })
                })
            };
            let any_of = |fillings: &Fillings, all: &[usize], frame: &[i64]| {
                all.iter().any(|filling| fillings.0[*filling].frame == frame)
            };
            let other = |record: &Record, number: u32, free: u8| {
                Fillings::new(&format, Tie::of(number), free, &record.message).sent().frame.clone()
            };
            assert!(told(&|_, all, frame| all.0.iter().any(|sent| sent.frame == frame)), "every filling");
            assert!(told(&|_, all, frame| any_of(all, &all.least(), frame)), "every least filling");
            assert!(told(&|_, all, frame| all.0[last(all)].frame == frame), "the last least filling");
            assert!(told(&|_, all, frame| all.0[0].frame == frame), "filling 0 alone");
            assert!(told(&|_, all, frame| any_of(all, &[0, all.taken()], frame)), "filling 0 too");
            assert!(told(&|_, all, frame| energy(frame) == all.energy()), "any frame of least energy");
            assert!(told(&|record, _, frame| other(record, record.number ^ 1, free) == frame), "the other parity");
            let both = |record: &Record| [0, 1].map(|number| other(record, number, free));
            assert!(told(&|record, _, frame| both(record).iter().any(|sent| sent == frame)), "either parity");
            assert!(told(&|record, _, frame| other(record, record.number, free - 1) == frame), "one bit too few");
            // The bytes of the open reading: with the free bits left, with one too many cleared, and one too few.
            let other = |cleared_bits: u8| {
                sent.iter().any(|record| {
                    let read = record.frames.iter().filter(|judged| judged.open == 0);
                    { read }.any(|judged| {
                        let (message, _) = crate::frame::read_open(kind, grade, &judged.frame).unwrap();
                        cleared(&format, cleared_bits, &message) != record.message
                    })
                })
            };
            assert!(other(0) && other(free + 1) && other(free - 1) && !other(free));
        });
    }

    /// Wrong ranges are told apart at each kind and grade with each free count.
    #[test]
    fn wrong_ranges_are_told_apart() {
        for (kind, grade) in KINDS.flat_map(|kind| GRADES.map(move |grade| (kind, grade))) {
            for free in 0..=MOST_FREE {
                let own = |record: &&Record| (record.kind, record.grade, record.free) == (kind, grade, free);
                let frames = all().iter().filter(own).flat_map(|record| &record.frames);
                // Of right lengths.
                let read: Vec<&Judged> = frames.filter(|judged| ![3, 4].contains(&judged.open)).collect();
                let is_6 = |judged: &Judged| [judged.open, judged.strict].map(|number| number == refusal::OVER_RANGE);
                assert!(read.iter().all(|judged| is_6(judged) == [past(&judged.frame); 2]));
                for (name, first, wrong) in WRONG_RANGES {
                    let told = read.iter().any(|judged| is_6(judged) != [wrong(&judged.frame); 2]);
                    assert_eq!(told, kind >= first, "kind {kind}, grade {grade}, {free} free, {name}");
                }
            }
        }
    }

    /// Tests of sending and of reading in a wrong order, or with a free bit passed by.
    #[test]
    fn wrong_orders_are_told_apart() {
        let all = all();
        // Whether a test refuses the call, with so many bits at the end of the message that must be 0.
        let holds = |record: &Record, number: u8, zeros: u8, frame: &[i64]| {
            let format = Format::new(record.kind, record.grade);
            match (number, format) {
                (refusal::KIND, format) => format.err() == Some(refusal::KIND),
                (refusal::GRADE, _) => !GRADES.contains(&record.grade),
                (refusal::FREE_COUNT, _) => record.free > MOST_FREE,
                (refusal::MESSAGE_LENGTH, Ok(format)) => record.message.len() != format.message_bytes(),
                (refusal::FRAME_LENGTH, Ok(format)) => record.n != format.length(),
                (refusal::SPARE_BITS, Ok(format)) => {
                    let from = format.message_bits() - zeros.min(MOST_FREE + 1) as usize;
                    (from..8 * record.message.len()).any(|k| crate::frame::bit(&record.message, k))
                }
                (refusal::OVER_RANGE, _) => past(frame),
                _ => false,
            }
        };
        let sending = |order: &[u8], more: i8| {
            let answer = |record: &Record| {
                let zeros = record.free.saturating_add_signed(more);
                order.iter().copied().find(|&number| holds(record, number, zeros, &[])).unwrap_or(0)
            };
            all.iter().any(|record| answer(record) != record.sent.0)
        };
        assert!(!sending(&[1, 2, 17, 3, 4, 5], 0));
        for order in [[1, 2, 3, 17, 4, 5], [1, 2, 3, 4, 17, 5], [1, 2, 3, 4, 5, 17], [1, 17, 2, 3, 4, 5]] {
            assert!(sending(&order, 0));
        }
        assert!(sending(&[17, 1, 2, 3, 4, 5], 0) && sending(&[1, 2, 3, 4, 5], 0));
        assert!(sending(&[1, 2, 17, 3, 4, 5], -1) && sending(&[1, 2, 17, 3, 4, 5], 1));
        let reading = |order: &[u8]| {
            all.iter().any(|record| {
                let early = |judged: &Judged| {
                    let answer = order.iter().copied().find(|&number| holds(record, number, 0, &judged.frame));
                    answer.unwrap_or(0) != if order.contains(&judged.open) { judged.open } else { 0 }
                };
                record.frames.iter().any(early)
            })
        };
        assert!(!reading(&[1, 2, 17, 4, 3, 6]));
        for order in
            [[1, 2, 4, 17, 3, 6], [1, 2, 4, 3, 17, 6], [1, 2, 4, 3, 6, 17], [1, 17, 2, 4, 3, 6], [17, 1, 2, 4, 3, 6]]
        {
            assert!(reading(&order));
        }
    }
}
