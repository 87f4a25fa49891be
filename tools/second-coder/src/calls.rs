//! Calls of the library, with what they must answer and leave, the same on every run.

mod large;

use crate::account::{largest_block, open, send_counted, Account, FULL};
use crate::frame::{read_open_into, read_strict_into, send, send_into, Format, FURTHEST, GRADES, KINDS};
use crate::random::Random;
use crate::test_file::{one_bit, places, TestFile};
use crate::vectors::{dense, edge, halves, moved_by_point, tied, tied_edge, tied_throughout, with_bits};

/// The functions, by the byte that stands for them in the file.
pub const SEND: u8 = 0;
pub const READ_OPEN: u8 = 1;
pub const READ_STRICT: u8 = 2;
pub const SEND_COUNTED: u8 = 3;
pub const OPEN: u8 = 4;

/// What stands in lent bytes and coordinates that are to be written, and past those that are lent.
const MARK_BYTE: u8 = 0xA5;
const MARK_COORDINATE: i64 = 77_777;

/// The places that a record has for message bytes and for coordinates.
const BYTES: usize = 48;
const COORDINATES: usize = 68;

/// The NaN that a sum is written as: its bits say nothing more.
pub const NAN: f64 = f64::from_bits(0x7FF8_0000_0000_0000);

/// What a call is lent, and what it leaves.
#[derive(Clone)]
struct Lent {
    message: Vec<u8>,
    frame: Vec<i64>,
    account: Account,
}

#[derive(Clone)]
struct Call {
    function: u8,
    kind: u8,
    grade: u8,
    /// The frame's number, or the changeover that an account is opened with.
    number: u32,
    lent: Lent,
}

/// The refusal number and the energy, and what is left.
type Answer = (u8, u64, Lent);

impl Call {
    fn answer(&self) -> Answer {
        let Call { function, kind, grade, number, ref lent } = *self;
        let (message, frame) = (&lent.message, &lent.frame);
        let mut left = lent.clone();
        let result = match function {
            SEND => send_into(kind, grade, number, message, frame.len()).map(|sent| {
                left.frame = sent.frame;
                sent.energy
            }),
            SEND_COUNTED => send_counted(kind, grade, message, frame.len(), lent.account).map(|(sent, account)| {
                left.frame = sent.frame;
                left.account = account;
                sent.energy
            }),
            OPEN => {
                let (refused, account) = open(number);
                left.account = account;
                if refused == 0 {
                    Ok(0)
                } else {
                    Err(refused)
                }
            }
            _ => {
                let read = match function {
                    READ_OPEN => read_open_into(kind, grade, frame, message.len()),
                    _ => read_strict_into(kind, grade, number, frame, message.len()),
                };
                read.map(|(message, energy)| {
                    left.message = message;
                    energy
                })
            }
        };
        match result {
            Ok(energy) => (0, energy, left),
            Err(number) => (number, 0, left),
        }
    }

    /// The record of README.md, with this answer.
    fn record(&self, (number, energy, left): &Answer) -> Vec<u8> {
        let sizes = [self.lent.message.len() as u8, self.lent.frame.len() as u8];
        let mut record = vec![self.function, self.kind, self.grade, sizes[0], sizes[1], *number, 0, 0];
        record.extend(self.number.to_le_bytes());
        self.lent.write(&mut record);
        record.extend(energy.to_le_bytes());
        left.write(&mut record);
        record
    }

    /// Answers that are right but for one thing: the number, the energy, a figure of the account, a byte or a coordinate.
    fn wrong_answers(&self) -> Vec<Answer> {
        let mut right = self.answer();
        right.2 = right.2.whole();
        let mut wrong = Vec::new();
        let mut change = |change: &dyn Fn(&mut Answer)| {
            let mut answer = right.clone();
            change(&mut answer);
            wrong.push(answer);
        };
        change(&|answer| answer.0 ^= 1);
        change(&|answer| answer.1 += 1);
        for figure in ONE_FIGURE {
            change(&|answer| figure(&mut answer.2.account));
        }
        for place in places(self.lent.message.len(), BYTES) {
            change(&|answer| answer.2.message[place] ^= 1);
        }
        for place in places(self.lent.frame.len(), COORDINATES) {
            change(&|answer| answer.2.frame[place] += 1);
        }
        wrong
    }
}

/// Changes of one figure of an account: the count, the sum by one bit, the largest block, and the changeover.
pub const ONE_FIGURE: [fn(&mut Account); 4] = [
    |account| account.count += 1,
    |account| account.sum = one_bit(account.sum),
    |account| account.largest += 1,
    |account| account.changeover += 1,
];

/// The figures of an account, in 24 bytes.
pub fn write_account(account: Account, record: &mut Vec<u8>) {
    record.extend(account.count.to_le_bytes());
    let sum = if account.sum.is_nan() { NAN } else { account.sum };
    record.extend(sum.to_bits().to_le_bytes());
    record.extend(account.largest.to_le_bytes());
    record.extend(account.changeover.to_le_bytes());
}

impl Lent {
    /// With the marks past what is lent.
    fn whole(&self) -> Lent {
        let mut whole = self.clone();
        whole.message.resize(BYTES, MARK_BYTE);
        whole.frame.resize(COORDINATES, MARK_COORDINATE);
        whole
    }

    fn write(&self, record: &mut Vec<u8>) {
        let Lent { message, frame, account } = self.whole();
        write_account(account, record);
        record.extend(message);
        record.extend(frame.iter().flat_map(|x| (*x as i32).to_le_bytes()));
    }
}

/// The calls as they are collected.
struct Calls {
    all: Vec<Call>,
    /// How many numbers `any` has given.
    next: usize,
}

/// Numbers of both parities: the first, about 2^31, and the last.
const NUMBERS: [u32; 6] = [0, 1, 1 << 31, (1 << 31) + 1, u32::MAX - 1, u32::MAX];

/// The ends of the range, and one past each.
const ENDS: [i64; 4] = [FURTHEST, FURTHEST + 1, -FURTHEST, -FURTHEST - 1];

/// An account that a call does not change. Its next frame has an odd number.
pub const NONE: Account = Account { count: 17, sum: -2.5, largest: 3, changeover: 5 };

/// Accounts at their beginning: by the old rule throughout, and by the new one.
pub const OLD: Account = Account::begun(FULL);
pub const NEW: Account = Account::begun(0);

impl Calls {
    fn new() -> Calls {
        Calls { all: Vec::new(), next: 0 }
    }

    /// One number after the other, where it does not matter which.
    fn any(&mut self) -> u32 {
        self.next += 1;
        NUMBERS[self.next % NUMBERS.len()]
    }

    fn put(&mut self, function: u8, kind: u8, grade: u8, number: u32, lent: Lent) {
        self.all.push(Call { function, kind, grade, number, lent });
    }

    fn send(&mut self, kind: u8, grade: u8, number: u32, message: &[u8], n: usize) {
        let lent = Lent { message: message.to_vec(), frame: vec![MARK_COORDINATE; n], account: NONE };
        self.put(SEND, kind, grade, number, lent);
    }

    /// The open reading.
    fn read_open(&mut self, kind: u8, grade: u8, frame: &[i64], m: usize) {
        let lent = Lent { message: vec![MARK_BYTE; m], frame: frame.to_vec(), account: NONE };
        self.put(READ_OPEN, kind, grade, 0, lent);
    }

    /// The strict reading under a number.
    fn read_strict(&mut self, kind: u8, grade: u8, number: u32, frame: &[i64], m: usize) {
        let lent = Lent { message: vec![MARK_BYTE; m], frame: frame.to_vec(), account: NONE };
        self.put(READ_STRICT, kind, grade, number, lent);
    }

    /// Both readings.
    fn read(&mut self, kind: u8, grade: u8, number: u32, frame: &[i64], m: usize) {
        self.read_open(kind, grade, frame, m);
        self.read_strict(kind, grade, number, frame, m);
    }

    /// Both readings of a frame, under the next number.
    fn read_any(&mut self, kind: u8, grade: u8, frame: &[i64]) {
        let number = self.any();
        self.read(kind, grade, number, frame, Format::new(kind, grade).unwrap().message_bytes());
    }

    /// Sending under a number, and both readings of what is sent.
    fn send_and_read(&mut self, kind: u8, grade: u8, number: u32, message: &[u8]) {
        let sent = send(kind, grade, number, message).unwrap();
        self.send(kind, grade, number, message, sent.frame.len());
        self.read(kind, grade, number, &sent.frame, message.len());
    }

    /// Sending with an account; gives the account afterwards.
    fn count(&mut self, kind: u8, grade: u8, message: &[u8], n: usize, account: Account) -> Account {
        let lent = Lent { message: message.to_vec(), frame: vec![MARK_COORDINATE; n], account };
        self.put(SEND_COUNTED, kind, grade, 0, lent);
        self.all[self.all.len() - 1].answer().2.account
    }
}

/// Accounts opened with changeovers that there are and that there are not, into figures that are to be written.
fn opening(calls: &mut Calls) {
    for changeover in [0, 1, 2, 999_999, FULL, FULL + 1, FULL + 2, 1 << 31, u32::MAX - 1, u32::MAX] {
        for account in [NONE, Account { count: FULL, sum: NAN, largest: u64::MAX, changeover: u32::MAX }] {
            let lent = Lent { message: Vec::new(), frame: Vec::new(), account };
            calls.put(OPEN, 0, 0, changeover, lent);
        }
    }
}

/// The exam frames and the further cases of document 01, by number 0, and those that have ties by odd numbers too; and 1,048,576, the ends
/// of the range, one past each, and the ends of an i32, alone and throughout.
fn document(calls: &mut Calls) {
    let messages: [[u8; 2]; 8] = [[0, 0], [1, 0], [2, 0], [0x10, 0], [0, 4], [0x10, 4], [0, 8], [0xF0, 7]];
    for message in messages {
        calls.send_and_read(3, 1, 0, &message);
    }
    for message in [[1, 0, 0, 0, 0], [0x20, 0, 0, 0, 0]] {
        calls.send_and_read(4, 1, 0, &message);
    }
    for number in [1, u32::MAX] {
        for message in [[1, 0], [0x10, 4], [0, 8], [2, 8], [2, 0]] {
            calls.send_and_read(3, 1, number, &message);
        }
        calls.send_and_read(4, 1, number, &[0x20, 0, 0, 0, 0]);
    }
    for number in [0, 1] {
        calls.read(4, 1, number, &[2; 16], 5);
        calls.read(4, 1, number, &[-2; 16], 5);
    }
    calls.read(3, 1, 0, &[1, 0, 0, 0, 0, 0, 0, 0], 2);
    calls.send(3, 1, 0, &[0x00, 0x10], 8);
    // The ends that document 01 has are coordinates like any other.
    let inside = [1_048_576, 1_048_577, -1_048_576, -1_048_577];
    for x in inside.into_iter().chain(ENDS).chain([i32::MAX as i64, i32::MIN as i64]) {
        calls.read_any(3, 1, &[x, 0, 0, 0, 0, 0, 0, 0]);
        calls.read_any(3, 1, &[x; 8]);
    }
}

/// The cases of kind 6 that are worked by hand in frame.rs.
fn sixty_four(calls: &mut Calls) {
    for (grade, bit) in [(1, 0), (1, 7), (1, 49), (1, 111), (1, 112), (1, 143), (4, 143)] {
        let message = with_bits(&Format::new(6, grade).unwrap(), &[bit]);
        for number in [0, 1] {
            calls.send_and_read(6, grade, number, &message);
        }
    }
    for (grade, bytes) in [(1, 22), (4, 46)] {
        for first in [1, 2, 3, 4, 5, 6, 7, -1, -2, -4] {
            let mut frame = [0; 64];
            frame[0] = first;
            calls.read(6, grade, 0, &frame, bytes);
            frame[63] = first;
            calls.read(6, grade, 1, &frame, bytes);
        }
        for number in [0, 1] {
            calls.read(6, grade, number, &[4; 64], bytes);
        }
    }
}

/// Messages sent and read back under numbers of both parities, and read with points of the lattice added.
fn good(calls: &mut Calls, kind: u8, grade: u8, random: &mut Random) {
    let format = Format::new(kind, grade).unwrap();
    for message in [with_bits(&format, &[]), dense(&format, random), edge(&format, random)] {
        for _ in 0..2 {
            let number = calls.any();
            calls.send_and_read(kind, grade, number, &message);
        }
        for _ in 0..3 {
            let number = calls.any();
            let frame = send(kind, grade, number, &message).unwrap().frame;
            calls.read(kind, grade, number, &moved_by_point(&format, &frame, random), message.len());
        }
    }
}

/// Messages with ties, sent under numbers of both parities; the first and the last of their frames of least energy, and others of these,
/// read strictly under both.
fn ties(calls: &mut Calls, kind: u8, grade: u8, random: &mut Random) {
    let format = Format::new(kind, grade).unwrap();
    let (m, n) = (format.message_bytes(), format.length());
    let read = |calls: &mut Calls, frame: &[i64]| {
        calls.read_open(kind, grade, frame, m);
        for _ in 0..2 {
            let number = calls.any();
            calls.read_strict(kind, grade, number, frame, m);
        }
    };
    let whole = tied_throughout(&format);
    for number in NUMBERS {
        calls.send(kind, grade, number, &whole, n);
    }
    let [first, last] = [0, 1].map(|number| send(kind, grade, number, &whole).unwrap().frame);
    read(calls, &first);
    read(calls, &last);
    let mut others = vec![tied_edge(&format, random)];
    if kind > 3 {
        // The first block of the one frame with the rest of the other is sent under no number.
        read(calls, &[&first[..8], &last[8..]].concat());
        read(calls, &[&last[..8], &first[8..]].concat());
        others.extend([tied(&format, 0..1), tied(&format, n / 8 - 1..n / 8)]);
    }
    for message in others {
        for _ in 0..2 {
            let number = calls.any();
            calls.send(kind, grade, number, &message, n);
            read(calls, &send(kind, grade, number, &message).unwrap().frame);
        }
    }
    // M at one place of the last block is one of 16, the first and the last of which have it at the block's first place.
    let sixteen = with_bits(&format, &[format.message_bits() - 1]);
    for _ in 0..2 {
        let number = calls.any();
        calls.send_and_read(kind, grade, number, &sixteen);
    }
    for x in [-format.scale(), format.scale()] {
        let mut frame = vec![0; n];
        frame[n - 7] = x;
        read(calls, &frame);
    }
}

/// A message with ties sent with accounts whose changeover lies before the count, at it and after it, and far off.
fn changeovers(calls: &mut Calls, kind: u8, grade: u8) {
    let format = Format::new(kind, grade).unwrap();
    let message = tied_throughout(&format);
    let mut count = |count, changeover| {
        calls.count(kind, grade, &message, format.length(), Account { count, changeover, ..NONE });
    };
    for before in [6, 7] {
        for changeover in [0, before - 1, before, before + 1, FULL, FULL + 1, u32::MAX] {
            count(before, changeover);
        }
    }
    for changeover in [0, FULL - 1, FULL] {
        count(FULL - 1, changeover);
    }
    count(0, 0);
    count(FULL, 0);
    count(u32::MAX, u32::MAX);
}

/// Frames at the ends of the open reading and past them.
fn ends(calls: &mut Calls, kind: u8, grade: u8, random: &mut Random) {
    let format = Format::new(kind, grade).unwrap();
    let (m, n) = (format.message_bytes(), format.length());
    for end in [FURTHEST, -FURTHEST] {
        let mut frame = vec![0; n];
        let place = random.below(n as u64) as usize;
        frame[place] = end;
        let mut read = |frame: &[i64]| {
            let number = calls.any();
            calls.read(kind, grade, number, frame, m);
        };
        read(&frame);
        frame[place] += end.signum();
        read(&frame);
        // With every level broken beside it.
        frame[place ^ 1] = 7;
        read(&frame);
        read(&vec![end; n]);
    }
}

/// Frames with levels broken: one coordinate moved, or two.
fn broken(calls: &mut Calls, kind: u8, grade: u8, random: &mut Random) {
    let format = Format::new(kind, grade).unwrap();
    let one = [1, -1, 2, -2, 3, 4, -4, 6, 1026].map(|by| (by, 0));
    let two = [(1, 1), (2, 2), (4, 4), (2, 1), (4, 1), (4, 2)];
    for (by, beside) in one.into_iter().chain(two) {
        let number = calls.any();
        let mut frame = send(kind, grade, number, &dense(&format, random)).unwrap().frame;
        let place = random.below(format.length() as u64) as usize;
        frame[place] += by;
        frame[place ^ 1] += beside;
        calls.read(kind, grade, number, &frame, format.message_bytes());
    }
}

/// Each spare bit set, alone and with the rest of the message dense.
fn spare(calls: &mut Calls, kind: u8, grade: u8, random: &mut Random) {
    let format = Format::new(kind, grade).unwrap();
    for bit in format.message_bits()..8 * format.message_bytes() {
        for mut message in [with_bits(&format, &[]), dense(&format, random)] {
            message[bit / 8] |= 1 << (bit % 8);
            let number = calls.any();
            calls.send(kind, grade, number, &message, format.length());
            calls.count(kind, grade, &message, format.length(), NONE);
        }
    }
}

/// Lengths that differ by one, with everything that is tested later wrong too.
fn lengths(calls: &mut Calls, kind: u8, grade: u8) {
    let format = Format::new(kind, grade).unwrap();
    let (m, n) = (format.message_bytes(), format.length());
    for (m, n) in [(m - 1, n - 1), (m + 1, n + 1), (m, n - 1), (m, n + 1), (m - 1, n), (m + 1, n), (0, n), (m, 0)] {
        let number = calls.any();
        calls.send(kind, grade, number, &vec![0xFF; m], n);
        calls.read(kind, grade, number, &vec![FURTHEST + 1; n], m);
        calls.count(kind, grade, &vec![0xFF; m], n, Account { count: FULL, sum: 0.1, largest: 5, changeover: number });
    }
}

/// Wrong kinds and grades, with everything that is tested later wrong too, and with nothing else wrong.
fn wrong(calls: &mut Calls) {
    let kinds = [0, 1, 2, 7, 8, 131, 134, 255].map(|kind| (kind, 0));
    let grades = [0, 5, 6, 129, 255];
    let grades = grades.map(|grade| (4, grade)).into_iter().chain(grades.map(|grade| (6, grade)));
    for (kind, grade) in kinds.into_iter().chain(kinds.map(|(kind, _)| (kind, 1))).chain(grades) {
        let number = calls.any();
        calls.send(kind, grade, number, &[0xFF; 7], 15);
        calls.read(kind, grade, number, &[FURTHEST + 1; 15], 7);
        let account = Account { count: u32::MAX, sum: 0.1, largest: u64::MAX, changeover: number };
        calls.count(kind, grade, &[0xFF; 7], 15, account);
        // The lengths of a kind and grade that there are.
        let (m, n) = if kind < 6 { (5, 16) } else { (22, 64) };
        calls.send(kind, grade, number, &vec![0; m], n);
        calls.read(kind, grade, number, &vec![0; n], m);
        calls.count(kind, grade, &vec![0; m], n, NONE);
    }
}

/// Figures for the largest block of an account from elsewhere, before a frame that has this one: none, small, beside the frame's,
/// and past what 32 bits, an i64 and an exact f64 hold.
pub fn figures(block: u64) -> [u64; 9] {
    [0, 1, block - 1, block, block + 1, 1 << 32, (1 << 53) + 1, 1 << 63, u64::MAX]
}

/// Changeovers of an account from elsewhere, beside its count and far off, also past those that it may be opened with.
pub fn changes(count: u32) -> [u32; 7] {
    [0, count.saturating_sub(1), count, count.saturating_add(1), FULL, FULL + 1, u32::MAX]
}

/// Accounts from elsewhere: each count with each sum, accepted and refused.
fn elsewhere(calls: &mut Calls, random: &mut Random) {
    let counts = [0, 1, 12_345, FULL - 2, FULL - 1, FULL, FULL + 1, u32::MAX - 1, u32::MAX];
    let sums = [0.0, -0.0, 0.1, -3.25, 1e300, 9_007_199_254_740_992.0, f64::MIN_POSITIVE, f64::from_bits(1)];
    let ends = [f64::MAX, f64::INFINITY, f64::NEG_INFINITY, NAN];
    for (i, count) in counts.into_iter().enumerate() {
        for (j, sum) in sums.into_iter().chain(ends).enumerate() {
            let (kind, grade) = (3 + ((i + j) % 4) as u8, 1 + (i % 4) as u8);
            let format = Format::new(kind, grade).unwrap();
            let message = if j % 2 == 0 { dense(&format, random) } else { tied_edge(&format, random) };
            let block = largest_block(&send(kind, grade, 0, &message).unwrap().frame);
            let account = Account {
                count,
                sum,
                largest: figures(block)[(i + j) % 9],
                changeover: changes(count)[(i + 2 * j) % 7],
            };
            calls.count(kind, grade, &message, format.length(), account);
            // Refused by 1 to 5, also where the account is full.
            let mut spare = with_bits(&format, &[]);
            *spare.last_mut().unwrap() |= 0x80;
            match (i + j) % 5 {
                0 => calls.count(7, grade, &spare, format.length(), account),
                1 => calls.count(kind, 5, &spare, format.length(), account),
                2 => calls.count(kind, grade, &spare[1..], format.length(), account),
                3 => calls.count(kind, grade, &spare, format.length() - 1, account),
                _ => calls.count(4, 3, &[0, 0, 0, 0, 0, 0, 0, 0, 0x10], 16, account),
            };
        }
    }
}

/// An account grown from the beginning, with refused calls between. Each kind and grade has an even and an odd number, before the
/// changeover and after it.
fn grown(calls: &mut Calls, random: &mut Random) {
    let mut account = Account::begun(32);
    for round in 0..64 {
        let (kind, grade) = (3 + (round / 2 % 4) as u8, 1 + (round / 8 % 4) as u8);
        let format = Format::new(kind, grade).unwrap();
        account = calls.count(kind, grade, &tied_edge(&format, random), format.length(), account);
        if round % 5 == 0 {
            account = calls.count(kind, 0, &dense(&format, random), format.length(), account);
        }
    }
}

/// Accounts from elsewhere at each kind and grade: each figure for the largest block, accepted and refused.
fn largest(calls: &mut Calls, kind: u8, grade: u8, random: &mut Random) {
    let format = Format::new(kind, grade).unwrap();
    let message = dense(&format, random);
    let block = largest_block(&send(kind, grade, 0, &message).unwrap().frame);
    for (i, largest) in figures(block).into_iter().enumerate() {
        let (count, sum) = ([1, 999, FULL - 1][i % 3], [0.5, -7.0, 1e9][i / 3]);
        let account = Account { count, sum, largest, changeover: changes(count)[i % 7] };
        calls.count(kind, grade, &message, format.length(), account);
        match i % 3 {
            0 => calls.count(kind, grade, &message, format.length(), Account { count: FULL, ..account }),
            1 => calls.count(kind, grade, &message, format.length() + 1, account),
            _ => calls.count(kind, 0, &message, format.length(), account),
        };
    }
}

/// Each block in turn as the largest of its frame, in an account from the beginning: all blocks of energy q, where q is
/// (M/2)²; one of 2q among them; that one alone; all of q once more; a frame that is refused.
fn blocks(calls: &mut Calls, kind: u8, grade: u8) {
    let format = Format::new(kind, grade).unwrap();
    let count = format.length() / 8;
    let level: Vec<usize> = (0..count).map(|j| halves(&format, j).0).collect();
    for j in 0..count {
        let mut account = Account::begun(j as u32);
        let (second, eighth) = halves(&format, j);
        for bits in [level.clone(), [&level[..], &[eighth]].concat(), vec![second, eighth], level.clone()] {
            account = calls.count(kind, grade, &with_bits(&format, &bits), format.length(), account);
        }
        calls.count(kind, grade, &with_bits(&format, &level)[1..], format.length(), account);
    }
}

/// The same for each kind at grades 1 and 4.
fn each_block(calls: &mut Calls) {
    for kind in KINDS {
        for grade in [1, 4] {
            blocks(calls, kind, grade);
        }
    }
}

/// The calls that are put in.
fn once(put: impl FnOnce(&mut Calls)) -> Vec<Call> {
    let mut calls = Calls::new();
    put(&mut calls);
    calls.all
}

/// The calls that are put in for each kind and grade.
fn each(mut put: impl FnMut(&mut Calls, u8, u8)) -> Vec<Call> {
    once(|calls| KINDS.for_each(|kind| GRADES.for_each(|grade| put(calls, kind, grade))))
}

/// The calls of each sort.
fn sorts() -> Vec<(&'static str, Vec<Call>)> {
    let mut random = Random::new(4);
    let random = &mut random;
    vec![
        ("opening", once(opening)),
        ("document 01", once(document)),
        ("kind 6 by hand", once(sixty_four)),
        ("good", each(|calls, kind, grade| good(calls, kind, grade, random))),
        ("ties", each(|calls, kind, grade| ties(calls, kind, grade, random))),
        ("changeovers", each(changeovers)),
        ("ends", each(|calls, kind, grade| ends(calls, kind, grade, random))),
        ("broken levels", each(|calls, kind, grade| broken(calls, kind, grade, random))),
        ("spare bits", each(|calls, kind, grade| spare(calls, kind, grade, random))),
        ("lengths", each(lengths)),
        ("kinds and grades", once(wrong)),
        ("accounts from elsewhere", once(|calls| elsewhere(calls, random))),
        ("an account grown", once(|calls| grown(calls, random))),
        ("figures for the largest block", each(|calls, kind, grade| largest(calls, kind, grade, random))),
        ("each block the largest", once(each_block)),
        ("the ends at each place", once(|calls| KINDS.for_each(|kind| large::ends(calls, kind, random)))),
        ("past the range at one place", each(|calls, kind, grade| large::past(calls, kind, grade, random))),
        ("sizes", each(|calls, kind, grade| large::sizes(calls, kind, grade, random))),
        ("powers of 2", each(|calls, kind, grade| large::powers(calls, kind, grade, random))),
        ("sums", each(|calls, kind, grade| large::sums(calls, kind, grade, random))),
        ("sums by hand", once(large::sums_by_hand)),
        ("large with broken levels", each(|calls, kind, grade| large::broken(calls, kind, grade, random))),
        ("large energies", each(|calls, kind, grade| large::energies(calls, kind, grade, random))),
    ]
}

/// A call of each function that is accepted, and one that is refused, and the reading of the largest energy: with these wrong answers are
/// planted.
fn planted() -> Vec<Call> {
    once(|calls| {
        calls.send(4, 1, 1, &[0x20, 0, 0, 0, 0], 16);
        calls.send(3, 1, 0, &[0x00, 0x10], 8);
        let [five, six] = [5, 6].map(|kind| tied_throughout(&Format::new(kind, 1).unwrap()));
        let frame = send(5, 1, 0, &five).unwrap().frame;
        calls.read_open(5, 1, &frame, five.len());
        calls.read_open(5, 1, &frame[1..], five.len());
        let frame = send(6, 1, 1, &six).unwrap().frame;
        calls.read_strict(6, 1, 1, &frame, six.len());
        calls.read_strict(6, 1, 2, &frame, six.len());
        // The largest energy: as an f64 one more is the same.
        calls.read_open(6, 1, &[FURTHEST; 64], six.len());
        calls.count(5, 1, &five, 32, NONE);
        calls.count(5, 1, &five, 32, Account { count: FULL, sum: -0.0, ..NONE });
        for changeover in [FULL, FULL + 1] {
            calls.put(OPEN, 0, 0, changeover, Lent { message: Vec::new(), frame: Vec::new(), account: NONE });
        }
    })
}

/// What the program counts: the calls of each function, and once more each of an exported function.
const CHECKS: [&str; 6] =
    ["sending", "open reading", "strict reading", "sending with an account", "opening of an account", "exported"];
const EXPORTED: usize = 5;

/// What stands in the file of calls: how many there are of each sort and of each function, how many are answered by each number, and how
/// many have a wrong answer.
pub struct Counts {
    pub sorts: Vec<(&'static str, usize)>,
    pub functions: [usize; 5],
    pub numbers: [usize; 15],
    pub wrong: usize,
}

/// All calls in the format of README.md, those with wrong answers and one that is cut short last; and their counts.
pub fn call_file() -> (TestFile, Counts) {
    let sorts = sorts();
    let of_sort = sorts.iter().map(|(name, calls)| (*name, calls.len())).collect();
    let mut counts = Counts { sorts: of_sort, functions: [0; 5], numbers: [0; 15], wrong: 0 };
    let mut file = TestFile::new(&CHECKS, "call");
    let mut put = |call: &Call, answer: &Answer, right: bool| {
        file.put(&call.record(answer), &[call.function as usize, EXPORTED].map(|check| (check, right)));
    };
    for call in sorts.iter().flat_map(|(_, calls)| calls) {
        let answer = call.answer();
        counts.functions[call.function as usize] += 1;
        counts.numbers[answer.0 as usize] += 1;
        put(call, &answer, true);
    }
    for call in planted() {
        for answer in call.wrong_answers() {
            counts.wrong += 1;
            put(&call, &answer, false);
        }
    }
    let first = &sorts[0].1[0];
    file.cut_short(&first.record(&first.answer()));
    (file, counts)
}

#[cfg(test)]
mod tests {
    use super::*;
    use crate::account::tests::WRONG_RULES;
    use crate::class::energy;
    use crate::frame::send_by;
    use crate::test_file::fields_apart;

    /// The calls of each sort, made once for all tests.
    pub fn of_each_sort() -> &'static [(&'static str, Vec<Call>)] {
        static ALL: std::sync::OnceLock<Vec<(&str, Vec<Call>)>> = std::sync::OnceLock::new();
        ALL.get_or_init(sorts)
    }

    /// The calls of every sort.
    pub fn calls() -> Vec<&'static Call> {
        of_each_sort().iter().flat_map(|(_, calls)| calls).collect()
    }

    #[test]
    fn records_have_one_size_and_every_number_comes() {
        let (file, Counts { functions, numbers, wrong, .. }) = call_file();
        assert_eq!(file.bytes.len(), (functions.iter().sum::<usize>() + wrong + 1) * 708 - 1);
        // 10 and 12 are refusals of a sheet.
        assert!((0..15).all(|number| (numbers[number] > 0) != [10, 12].contains(&number)));
    }

    /// A planted record differs from the right one in one thing alone that is answered or left, and no two are the same.
    #[test]
    fn one_thing_is_wrong() {
        let sizes = || {
            let account = [4, 8, 8, 4];
            let lent = || account.into_iter().chain([1; BYTES]).chain([4; COORDINATES]);
            [1, 1, 1, 1, 1, 1, 2, 4].into_iter().chain(lent()).chain([8]).chain(lent())
        };
        for call in planted() {
            let right = call.record(&call.answer());
            let wrong: Vec<Vec<u8>> = call.wrong_answers().iter().map(|answer| call.record(answer)).collect();
            for (i, record) in wrong.iter().enumerate() {
                assert_eq!(fields_apart(&right, record, sizes()), 1);
                // What is lent is the same.
                assert_eq!((&right[..5], &right[6..356]), (&record[..5], &record[6..356]));
                assert!(!wrong[..i].contains(record));
            }
        }
    }

    /// For five calls each: number, energy of the frame and largest block of the account, energies by q.
    #[test]
    fn each_block_in_turn() {
        for (kind, grade, q) in [(3, 1, 4), (4, 1, 16), (4, 4, 1024), (5, 1, 16), (6, 1, 64), (6, 4, 4096)] {
            let mut calls = Calls::new();
            blocks(&mut calls, kind, grade);
            let count = 1 << (kind - 3);
            assert_eq!(calls.all.len(), 5 * count as usize);
            for (i, call) in calls.all.iter().enumerate() {
                let (number, sent, left) = call.answer();
                let expected = [(0, count, 1), (0, count + 1, 2), (0, 2, 2), (0, count, 2), (3, 0, 2)][i % 5];
                assert_eq!((number, sent, left.account.largest), (expected.0, expected.1 * q, expected.2 * q));
                let of_the_block = [q, 2 * q, 2 * q, q, 8 * energy(&[MARK_COORDINATE])][i % 5];
                assert_eq!(energy(&left.frame[i / 5 * 8..][..8]), of_the_block);
            }
        }
    }

    /// A frame that someone could send who does it wrong: from the first and the last among the least, by the number.
    type Chosen = fn(u32, &[Vec<i64>; 2]) -> Vec<i64>;

    /// The first block of one frame, and the rest of the other.
    fn first_block(one: &[i64], other: &[i64]) -> Vec<i64> {
        [&one[..8], &other[8..]].concat()
    }

    const CHOSEN: [(&str, Chosen); 9] = [
        ("the first throughout", |_, [first, _]| first.clone()),
        ("the last throughout", |_, [_, last]| last.clone()),
        ("parity exchanged", |number, both| both[1 - number as usize % 2].clone()),
        ("by the highest bit", |number, both| both[(number >> 31) as usize].clone()),
        ("by a float", |number, both| both[number as f32 as u64 as usize % 2].clone()),
        ("by a signed remainder", |number, both| both[(number as i32 % 2 == 1) as usize].clone()),
        ("the first negated", |number, [first, _]| {
            let sign = if number % 2 == 0 { 1 } else { -1 };
            first.iter().map(|x| sign * x).collect()
        }),
        ("the rule in the first block alone", |number, both| first_block(&both[number as usize % 2], &both[0])),
        ("the rule past the first block alone", |number, both| first_block(&both[0], &both[number as usize % 2])),
    ];

    /// Wrong frames are told apart by what is sent, at each kind and grade; a frame of kind 3 is one block.
    #[test]
    fn wrong_frames_are_told_apart() {
        let calls = calls();
        for (kind, grade) in KINDS.flat_map(|kind| GRADES.map(move |grade| (kind, grade))) {
            let sent: Vec<_> = calls
                .iter()
                .filter(|call| call.function == SEND && (call.kind, call.grade) == (kind, grade))
                .filter_map(|call| match call.answer() {
                    (0, _, left) => Some((call, left.frame)),
                    _ => None,
                })
                .collect();
            for (name, chosen) in CHOSEN {
                let told = sent.iter().any(|(call, frame)| {
                    let both = [0, 1].map(|number| send(kind, grade, number, &call.lent.message).unwrap().frame);
                    chosen(call.number, &both) != *frame
                });
                assert_eq!(told, !(kind == 3 && name == CHOSEN[7].0), "kind {kind}, grade {grade}, {name}");
            }
        }
    }

    /// Strict readings that someone could give who does it wrong, from what the right one and the open reading answer and the number.
    #[test]
    fn wrong_strict_readings_are_told_apart() {
        let calls = calls();
        for (kind, grade) in KINDS.flat_map(|kind| GRADES.map(move |grade| (kind, grade))) {
            let told = |wrong: &dyn Fn(&Call, u64) -> bool| {
                calls.iter().any(|call| {
                    let read = call.function == READ_STRICT && (call.kind, call.grade) == (kind, grade);
                    let least = |message: &[u8]| send(kind, grade, 0, message).unwrap().energy;
                    let passed = call.answer().0 == 0;
                    read && match read_open_into(kind, grade, &call.lent.frame, call.lent.message.len()) {
                        Ok((message, _)) => wrong(call, least(&message)) != passed,
                        Err(_) => false,
                    }
                })
            };
            let under = |call: &Call, number: u32| {
                read_strict_into(kind, grade, number, &call.lent.frame, call.lent.message.len()).is_ok()
            };
            assert!(told(&|call, least| energy(&call.lent.frame) == least), "any of least energy");
            assert!(told(&|call, _| under(call, 0)), "the first alone");
            assert!(told(&|call, _| under(call, 1)), "the last alone");
            assert!(told(&|call, _| under(call, 0) || under(call, 1)), "the first and the last");
            assert!(told(&|call, _| under(call, call.number ^ 1)), "parity exchanged");
            assert!(told(&|call, _| under(call, call.number >> 31)), "by the highest bit");
        }
    }

    /// Wrong rules for the next frame of an account are told apart, at each kind and grade.
    #[test]
    fn wrong_rules_are_told_apart() {
        let calls = calls();
        for (kind, grade) in KINDS.flat_map(|kind| GRADES.map(move |grade| (kind, grade))) {
            for (name, rule) in WRONG_RULES {
                let told = calls.iter().any(|call| {
                    let counted = call.function == SEND_COUNTED && (call.kind, call.grade) == (kind, grade);
                    counted && matches!(call.answer(), (0, _, left) if {
                        let wrong = send_by(kind, grade, rule(&call.lent.account), &call.lent.message, left.frame.len());
                        wrong.unwrap().frame != left.frame
                    })
                });
                assert!(told, "kind {kind}, grade {grade}, {name}");
            }
        }
    }

    /// What someone could hand out on opening who does it wrong, from the changeover and the account that was there.
    type Opened = fn(u32, Account) -> (u8, Account);

    const OPENED: [(&str, Opened); 8] = [
        ("every changeover is taken", |changeover, _| (0, Account::begun(changeover))),
        ("refused from 1,000,000 on", |changeover, _| match changeover {
            FULL.. => (14, Account::begun(0)),
            _ => (0, Account::begun(changeover)),
        }),
        ("14 hands the changeover out", |changeover, _| (open(changeover).0, Account::begun(changeover))),
        ("14 hands 1,000,000 out", |changeover, _| (open(changeover).0, Account::begun(changeover.min(FULL)))),
        ("14 leaves what was there", |changeover, before| match open(changeover) {
            (0, account) => (0, account),
            (number, _) => (number, before),
        }),
        ("14 leaves the changeover that was there", |changeover, before| match open(changeover) {
            (0, account) => (0, account),
            (number, account) => (number, Account { changeover: before.changeover, ..account }),
        }),
        ("the changeover is left out", |changeover, _| (open(changeover).0, Account::begun(0))),
        ("the figures that were there stay", |changeover, before| {
            let (number, account) = open(changeover);
            (number, Account { changeover: account.changeover, ..before })
        }),
    ];

    #[test]
    fn wrong_openings_are_told_apart() {
        let calls = calls();
        for (name, opened) in OPENED {
            let told = calls.iter().filter(|call| call.function == OPEN).any(|call| {
                let (number, _, left) = call.answer();
                let (wrong, account) = opened(call.number, call.lent.account);
                let written = |account| {
                    let mut bytes = Vec::new();
                    write_account(account, &mut bytes);
                    bytes
                };
                (wrong, written(account)) != (number, written(left.account))
            });
            assert!(told, "{name}");
        }
    }

    /// The largest block of an account, from the one before and the frame that was sent.
    type Figure = fn(u64, &[i64]) -> u64;

    /// Wrong ones that someone could leave.
    const WRONG: [(&str, Figure); 8] = [
        ("the smaller", |old, frame| old.min(largest_block(frame))),
        ("the first block", |old, frame| old.max(energy(&frame[..8]))),
        ("the last block", |old, frame| old.max(energy(&frame[frame.len() - 8..]))),
        ("the frame", |old, frame| old.max(energy(frame))),
        ("the largest coordinate", |old, frame| old.max(frame.iter().map(|x| (x * x) as u64).max().unwrap())),
        ("the sum", |old, frame| old.wrapping_add(largest_block(frame))),
        ("the old one forgotten", |_, frame| largest_block(frame)),
        ("the old one kept", |old, _| old),
    ];

    #[test]
    fn wrong_figures_are_told_apart() {
        let calls = calls();
        let counted = calls.iter().filter(|call| call.function == SEND_COUNTED);
        let counted: Vec<_> = counted.map(|call| (call, call.answer())).collect();
        for kind in KINDS {
            for (name, figure) in WRONG {
                // A frame of kind 3 is one block.
                let one = kind == 3 && ["the first block", "the last block", "the frame"].contains(&name);
                let told = counted.iter().any(|(call, (number, _, left))| {
                    let wrong = || figure(call.lent.account.largest, &left.frame);
                    call.kind == kind && *number == 0 && wrong() != left.account.largest
                });
                assert!(told != one, "kind {kind}, {name}");
            }
            // A refusal that raises the figure, by a full account or by a length.
            for refused in [4, 11] {
                let told = counted.iter().any(|(call, (number, ..))| {
                    let raised = |frame: &[i64]| call.lent.account.largest < largest_block(frame);
                    let sent = || send(kind, call.grade, 0, &call.lent.message);
                    call.kind == kind && *number == refused && sent().is_ok_and(|sent| raised(&sent.frame))
                });
                assert!(told, "kind {kind}, refused {refused}");
            }
        }
    }
}
