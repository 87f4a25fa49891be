//! Records for the library to write and to read, with what it must answer and leave, the same on every run.

use crate::far::{any_member, member_with, moved_far};
use crate::frame::{leader, send, Format, FURTHEST, GRADES, KINDS};
use crate::noisy::sign;
use crate::random::Random;
use crate::records::{figures, length, read, record, write, MARK};
use crate::test_file::TestFile;
use crate::vectors::{dense, edge, moved_by_point, tied_edge, tied_throughout, with_bits};

/// The room that the program has: bytes of a message, bytes of a buffer, and coordinates.
const MESSAGE: usize = 50;
const BUFFER: usize = 1200;
const COORDINATES: usize = 68;

/// What is called, with all that is lent.
#[derive(Clone)]
enum Call {
    Write { kind: u8, grade: u8, number: u32, message: Vec<u8>, buffer: Vec<u8>, place: u64 },
    Read { buffer: Vec<u8>, place: u64, lent: Vec<i64> },
    Length { kind: u8 },
}

/// What a call answers and leaves. A figure that it does not give is 0, and a row that it does not have is empty.
#[derive(Clone, Debug, Default, PartialEq)]
struct Answer {
    refusal: u8,
    kind: u8,
    grade: u8,
    number: u32,
    /// The place after the record; and for the length of a record, this.
    after: u64,
    energy: u64,
    buffer: Vec<u8>,
    frame: Vec<i64>,
}

impl Answer {
    /// As the exported function has it: figures are stored on success only.
    fn exported(&self) -> Answer {
        if self.refusal == 0 {
            return self.clone();
        }
        let (buffer, frame) = (self.buffer.clone(), self.frame.clone());
        Answer { refusal: self.refusal, buffer, frame, ..Answer::default() }
    }
}

/// The checks of the program, in the order of its last lines.
const CHECKS: [&str; 5] = ["writer", "exported writer", "reader", "exported reader", "length"];

/// The numbers that the writer answers, and those that the reader does.
const WRITER: [u8; 6] = [0, 19, 5, 3, 2, 1];
const READER: [u8; 11] = [0, 9, 13, 8, 7, 6, 19, 4, 2, 1, 10];

impl Call {
    fn answer(&self) -> Answer {
        let none = Answer::default();
        match self {
            Call::Write { kind, grade, number, message, buffer, place } => {
                match write(*kind, *grade, *number, message, buffer, *place) {
                    Ok((buffer, after)) => Answer { after, buffer, ..none },
                    Err(refusal) => Answer { refusal, buffer: buffer.clone(), ..none },
                }
            }
            Call::Read { buffer, place, lent } => match read(buffer, *place, lent.len()) {
                Ok(read) => Answer {
                    kind: read.kind,
                    grade: read.grade,
                    number: read.number,
                    after: read.after,
                    energy: read.energy,
                    frame: read.frame,
                    ..none
                },
                Err(refusal) => Answer { refusal, frame: lent.clone(), ..none },
            },
            Call::Length { kind } => Answer { after: length(*kind), ..none },
        }
    }

    /// The place of the sort in the format.
    fn sort(&self) -> usize {
        match self {
            Call::Write { .. } => 0,
            Call::Read { .. } => 1,
            Call::Length { .. } => 2,
        }
    }

    /// The case of README.md, with this answer.
    fn case(&self, answer: &Answer) -> Vec<u8> {
        let (kind, grade, number, place, message, buffer, lent): (_, _, _, _, &[u8], &[u8], &[i64]) = match self {
            Call::Write { kind, grade, number, message, buffer, place } => {
                (*kind, *grade, *number, *place, message, buffer, &[])
            }
            Call::Read { buffer, place, lent } => (answer.kind, answer.grade, answer.number, *place, &[], buffer, lent),
            Call::Length { kind } => (*kind, 0, 0, 0, &[], &[], &[]),
        };
        assert!(message.len() <= MESSAGE && buffer.len() <= BUFFER && lent.len() <= COORDINATES);
        let lengths = [message.len() as u8, lent.len() as u8];
        let mut case = vec![self.sort() as u8, kind, grade, lengths[0], lengths[1], answer.refusal];
        case.extend((buffer.len() as u16).to_le_bytes());
        case.extend(number.to_le_bytes());
        case.extend([place, answer.after, answer.energy].into_iter().flat_map(u64::to_le_bytes));
        case.extend(message.iter().chain(buffer).chain(&answer.buffer));
        let coordinates = lent.iter().chain(&answer.frame);
        case.extend(coordinates.flat_map(|&x| i32::try_from(x).expect("a coordinate is an i32").to_le_bytes()));
        case
    }

    /// The checks that the program makes of the case with this answer, in its order, and whether it passes each.
    fn checks(&self, right: &Answer, answer: &Answer) -> Vec<(usize, bool)> {
        let both = [right == answer, right.exported() == answer.exported()];
        match self {
            Call::Length { .. } => vec![(4, both[0])],
            _ => (0..2).map(|i| (2 * self.sort() + i, both[i])).collect(),
        }
    }

    /// Answers that are right but for one thing: the number, a figure, a byte of the buffer or a coordinate.
    fn wrong_answers(&self) -> Vec<Answer> {
        let right = self.answer();
        let mut wrong = Vec::new();
        let mut change = |change: &dyn Fn(&mut Answer)| {
            let mut answer = right.clone();
            change(&mut answer);
            wrong.push(answer);
        };
        let next = |numbers: &[u8]| {
            let place = numbers.iter().position(|&number| number == right.refusal).unwrap();
            numbers[(place + 1) % numbers.len()]
        };
        change(&|answer| answer.after += 1);
        if let Call::Write { buffer, place, .. } = self {
            change(&|answer| answer.refusal = next(&WRITER));
            change(&|answer| answer.after += 1 << 32);
            // Of the bytes before the record, of the record, and behind it: the first, the middle and the last. Without a record, of all.
            let (from, to) = if right.refusal == 0 { (*place as usize, right.after as usize) } else { (0, 0) };
            let parts = [0..from, from..to, to..buffer.len()].into_iter().filter(|part| !part.is_empty());
            for byte in parts.flat_map(|part| [part.start, (part.start + part.end) / 2, part.end - 1]) {
                change(&|answer| answer.buffer[byte] ^= 1);
            }
        }
        if let Call::Read { lent, .. } = self {
            change(&|answer| answer.refusal = next(&READER));
            change(&|answer| answer.after += 1 << 32);
            change(&|answer| answer.kind += 1);
            change(&|answer| answer.grade += 1);
            for more in [1, 1 << 24] {
                change(&|answer| answer.number = answer.number.wrapping_add(more));
            }
            for more in [1, 1 << 32] {
                change(&|answer| answer.energy += more);
            }
            for p in [0, lent.len() / 2, lent.len() - 1] {
                change(&|answer| answer.frame[p] += 1);
            }
        }
        wrong
    }
}

/// Bytes of a buffer that are not of the record: mostly any but 0, now and then marks one behind the other.
fn others(count: usize, random: &mut Random) -> Vec<u8> {
    let first = random.below(2) as usize;
    if random.one_in(4) {
        return (0..count).map(|i| MARK[(first + i) % 2]).collect();
    }
    (0..count).map(|_| 1 + random.below(255) as u8).collect()
}

/// Coordinates that are lent: larger than those of any sent frame, so that one which is written shows.
fn lent(count: usize, random: &mut Random) -> Vec<i64> {
    (0..count).map(|_| sign(random) * (1000 + random.below(2_000_000_000) as i64)).collect()
}

/// The calls as they are collected.
struct Calls(Vec<Call>);

impl Calls {
    /// A writing: gives the buffer that it leaves.
    fn write(&mut self, (kind, grade): (u8, u8), number: u32, message: &[u8], buffer: &[u8], place: u64) -> Vec<u8> {
        let (message, buffer) = (message.to_vec(), buffer.to_vec());
        self.0.push(Call::Write { kind, grade, number, message, buffer, place });
        self.0[self.0.len() - 1].answer().buffer
    }

    /// A reading with so many coordinates lent.
    fn read(&mut self, buffer: &[u8], place: u64, coordinates: usize, random: &mut Random) {
        self.0.push(Call::Read { buffer: buffer.to_vec(), place, lent: lent(coordinates, random) });
    }

    /// A reading of bytes with others about them: a few before them, and behind them a few where there may be some.
    fn read_among(&mut self, bytes: &[u8], ended: bool, coordinates: usize, random: &mut Random) {
        let before = others(random.below(6) as usize, random);
        let behind = if ended { Vec::new() } else { others(random.below(6) as usize, random) };
        self.read(&[&before, bytes, &behind].concat(), before.len() as u64, coordinates, random);
    }

    /// A reading of the record that a frame has, with others about it.
    fn frame(&mut self, format: &Format, number: u32, frame: &[i64], random: &mut Random) {
        let (kind, grade) = names(format);
        self.read_among(&record(kind, grade, number, frame), false, frame.len(), random);
    }
}

/// Its kind and grade.
fn names(format: &Format) -> (u8, u8) {
    (format.m as u8, format.grade as u8)
}

/// A good record of a message with ties, and its number, which is even or odd.
fn tied_record(format: &Format, odd: bool, random: &mut Random) -> (u32, Vec<u8>) {
    let ((kind, grade), number) = (names(format), random.draw() as u32 & !1 | odd as u32);
    let sent = send(kind, grade, number, &tied_edge(format, random)).unwrap();
    (number, record(kind, grade, number, &sent.frame))
}

/// Numbers of records, each even one with an odd one: the ends, about 2^31, those whose bytes differ, and 4C 46 03 01, which begins like
/// a record.
const NUMBERS: [[u32; 2]; 6] = [
    [0, 1],
    [1 << 31, (1 << 31) + 1],
    [u32::MAX - 1, u32::MAX],
    [0x0102_0304, 0x0403_0201],
    [0x0000_0100, 0x0001_0001],
    [0x0103_464C, 0x464C_4643],
];

/// Messages under an even and an odd number, at the beginning of the buffer, inside, and up to its end; each read where it was written. Of
/// zeros under 4C 46 03 01 the record is also read from its number on: a record of kind 3 where it has zeros for its number and its frame.
fn numbers(calls: &mut Calls, format: &Format, random: &mut Random) {
    let (names, n) = (names(format), format.length());
    let any = |random: &mut Random| [random.draw() as u32 & !1, random.draw() as u32 | 1];
    let drawn = [any(random), any(random), any(random)];
    for (i, pair) in NUMBERS.into_iter().chain(drawn).enumerate() {
        let message = match i {
            0 | 3 => tied_throughout(format),
            1 | 2 | 4 | 6 => tied_edge(format, random),
            5 => with_bits(format, &[]),
            7 => edge(format, random),
            _ => dense(format, random),
        };
        for (j, number) in pair.into_iter().enumerate() {
            let more = 2 + random.below(20);
            let place = [0, 1 + random.below(more - 1), more][(i + j) % 3];
            let buffer = others(length(names.0) as usize + more as usize, random);
            let left = calls.write(names, number, &message, &buffer, place);
            calls.read(&left, place, n, random);
            if number == 0x0103_464C {
                calls.read(&left, place + 4, 8, random);
            }
        }
    }
}

/// Bytes that a buffer has more than a record.
const MORE: u64 = 9;

/// Places for a record of so many bytes in such a buffer: from the beginning to the last that fits, one byte too far, at the end and past
/// it; those whose lowest 16 or 32 bits are 0, or such a place; and the last that there are, which with the length of the record, or with
/// that of its head, go past 2^64 to 0 and a little more.
fn all_places(bytes: u64) -> Vec<u64> {
    let buffer = bytes + MORE;
    let mut all = vec![0, 1, MORE / 2, MORE, MORE + 1, buffer - 1, buffer, buffer + 1, buffer + bytes];
    all.extend([1 << 16, 1 << 32, (1 << 32) + MORE, 1 << 63, u64::MAX - 7, u64::MAX]);
    all.extend([1, 2, 5, 10].map(|less| u64::MAX - bytes + less));
    all
}

/// Writing at each of these places, and reading at each from a buffer with a record at its beginning, and from one with a record at its
/// end; and buffers that have as many bytes as the record, one less, one, or none.
fn places(calls: &mut Calls, format: &Format, random: &mut Random) {
    let (names, n, bytes) = (names(format), format.length(), length(format.m as u8));
    let message = tied_edge(format, random);
    let buffer = others((bytes + MORE) as usize, random);
    for (i, place) in all_places(bytes).into_iter().enumerate() {
        calls.write(names, random.draw() as u32, &message, &buffer, place);
        let (_, record) = tied_record(format, i % 2 == 0, random);
        let more = others(MORE as usize, random);
        calls.read(&[&record[..], &more].concat(), place, n, random);
        if (MORE..bytes + MORE + 2).contains(&place) {
            calls.read(&[&more[..], &record].concat(), place, n, random);
        }
    }
    let (_, record) = tied_record(format, true, random);
    for (buffer, record) in [(bytes, &record[..]), (bytes - 1, &record[..record.len() - 1]), (1, &MARK[..1]), (0, &[])]
    {
        for place in [0, 1, u64::MAX - bytes + 1] {
            calls.write(names, random.draw() as u32, &message, &others(buffer as usize, random), place);
            calls.read(record, place, n, random);
        }
    }
}

/// Records of these kinds one behind the other, each written into the buffer that the one before it leaves, and one more that no longer fits;
/// then each read, and what stands behind the last. Half of the buffers end with it.
fn row(calls: &mut Calls, kinds: &[u8], random: &mut Random) {
    let bytes: u64 = kinds.iter().map(|&kind| length(kind)).sum();
    let more = if random.one_in(2) { 0 } else { 1 + random.below(5) };
    let mut buffer = others((bytes + more) as usize, random);
    let mut places = vec![(0, 8)];
    for &kind in kinds {
        let format = Format::new(kind, 1 + random.below(4) as u8).unwrap();
        let (place, number, message) = (places[places.len() - 1].0, random.draw() as u32, tied_edge(&format, random));
        buffer = calls.write(names(&format), number, &message, &buffer, place);
        places.last_mut().unwrap().1 = format.length();
        places.push((place + length(kind), 8));
    }
    calls.write((3, 1), random.draw() as u32, &[0x00, 0x08], &buffer, bytes);
    for (place, n) in places {
        calls.read(&buffer, place, n, random);
    }
}

/// Rows of two and of three records, of each two kinds, and one of five; and a record written over a longer one, and one over part of another.
fn rows(calls: &mut Calls, random: &mut Random) {
    for one in KINDS {
        for other in KINDS {
            let kinds = [one, other, one];
            row(calls, &kinds[..2 + (one as usize + other as usize) % 2], random);
        }
    }
    row(calls, &[6, 6, 6, 6, 5], random);
    for (kind, place) in [(4, 0), (5, 0), (6, 0), (4, 32), (5, 40), (6, 224)] {
        let format = Format::new(kind, 2).unwrap();
        let (_, old) = tied_record(&format, true, random);
        let left = calls.write((3, 1), random.draw() as u32, &[0x00, 0x08], &old, place);
        calls.read(&left, place, 8, random);
        calls.read(&left, 0, format.length(), random);
    }
}

/// Writings that are refused, each by one test with nothing else wrong, and with everything wrong that is tested later.
fn refused_writings(calls: &mut Calls, format: &Format, random: &mut Random) {
    let ((kind, grade), bits, m) = (names(format), format.message_bits(), format.message_bytes());
    let bytes = length(kind) as usize;
    let (good, ones) = (dense(format, random), [255; MESSAGE]);
    let (fitting, short) = (others(bytes + 5, random), others(39, random));
    let number = random.draw() as u32;
    for kind in [0, 2, 7, 131, 255] {
        calls.write((kind, grade), number, &good, &fitting, 5);
        calls.write((kind, 0), number, &ones, &short, 40);
    }
    for grade in [0, 5, 129, 255] {
        calls.write((kind, grade), number, &good, &fitting, 5);
        calls.write((kind, grade), number, &ones, &short, u64::MAX);
    }
    let lengths = KINDS.flat_map(|kind| [1, 4].map(|grade| Format::new(kind, grade).unwrap().message_bytes()));
    for wrong in [m - 1, m + 1, 0, MESSAGE].into_iter().chain(lengths).filter(|&wrong| wrong != m) {
        let mut other = good.clone();
        other.resize(wrong, 0);
        calls.write((kind, grade), number, &other, &fitting, 5);
        calls.write((kind, grade), number, &ones[..wrong], &short, 1);
    }
    for spare in bits..8 * m {
        let mut other = with_bits(format, &[spare]);
        calls.write((kind, grade), number, &other, &fitting, 0);
        other.iter_mut().zip(&good).for_each(|(byte, good)| *byte |= good);
        calls.write((kind, grade), number, &other, &fitting, 6);
        calls.write((kind, grade), number, &ones[..m], &short, u64::MAX - 39);
    }
    calls.write((kind, grade), number, &good, &fitting, 6);
}

/// Writing with every kind byte, with every grade byte, and both of one value.
fn all_bytes_written(calls: &mut Calls, random: &mut Random) {
    let buffer = others(45, random);
    for byte in 0..=255 {
        calls.write((byte, 1), random.draw() as u32, &[0x00, 0x08], &buffer, 3);
        calls.write((3, byte), random.draw() as u32, &[0x00, 0x08], &buffer, 3);
        calls.write((byte, byte), random.draw() as u32, &[0x00, 0x08], &buffer[..39], 3);
    }
}

/// Reading with every kind byte and every grade byte, the record whole, and ended with that byte.
fn all_bytes_read(calls: &mut Calls, random: &mut Random) {
    for (place, number) in [(2, 0), (3, 1)] {
        let good = record(3, 1, number, &send(3, 1, number, &[0x00, 0x08]).unwrap().frame);
        for byte in 0..=255 {
            let mut other = good.clone();
            other[place] = byte;
            calls.read_among(&other, false, 8, random);
            calls.read_among(&other[..place + 1], true, 8, random);
        }
    }
}

/// Records of each kind cut at every byte, at two grades, under an even and an odd number.
fn cut(calls: &mut Calls, random: &mut Random) {
    for kind in KINDS {
        for odd in [false, true] {
            let format = Format::new(kind, 1 + (kind + 2 * odd as u8) % 4).unwrap();
            let (_, record) = tied_record(&format, odd, random);
            for end in 0..record.len() {
                calls.read_among(&record[..end], true, format.length(), random);
            }
        }
    }
}

/// A good record with each byte changed: one more, one bit, and any other. In the coordinates of kinds 5 and 6, but for the first and the
/// last, these come in turn: the lowest byte is changed at each grade, and the upper three at one.
fn changed(calls: &mut Calls, format: &Format, random: &mut Random) {
    let n = format.length();
    let (_, good) = tied_record(format, format.grade % 2 == 1, random);
    for place in 0..good.len() {
        let byte = good[place];
        let changes = [byte.wrapping_add(1), byte ^ 1 << random.below(8), byte ^ (1 + random.below(255) as u8)];
        let all = n <= 16 || place < 12 || place >= good.len() - 4;
        let one = place % 4 == 0 || (place / 4 + place) % 4 == format.grade % 4;
        let turn = (place / 4 + format.grade) % 3;
        let taken = if all { 0..3 } else { turn..turn + one as usize };
        for &change in &changes[taken] {
            let mut other = good.clone();
            other[place] = change;
            calls.read_among(&other, false, n, random);
        }
    }
}

/// Wrong marks over good records and with everything wrong that is tested later, the record cut or whole: that of a sheet, turned round,
/// with one byte another.
fn marks(calls: &mut Calls, format: &Format, random: &mut Random) {
    let n = format.length();
    let (number, good) = tied_record(format, true, random);
    for mark in
        [[0x4C, 0x43], [0x46, 0x4C], [0x00, 0x46], [0x4C, 0x47], [0x4C, 0x00], [0x4D, 0x46], [0, 0], [0x6C, 0x66]]
    {
        calls.read_among(&[&mark[..], &good[2..]].concat(), false, n, random);
        calls.read_among(&[&mark[..], &[7, 0]].concat(), true, n + 1, random);
    }
    let frames = broken(&figures(&good).1, random.below(n as u64) as usize);
    for (mark, frame) in [[0x4C, 0x43], [0x46, 0x4C], [0x00, 0x46], [0x4C, 0x47]].iter().zip(frames) {
        let (kind, grade) = names(format);
        calls.read_among(&[mark, &record(kind, grade, number, &frame)[2..]].concat(), false, n, random);
    }
}

/// A frame with so much added at a place.
fn with_more(frame: &[i64], place: usize, more: i64) -> Vec<i64> {
    let mut other = frame.to_vec();
    other[place] += more;
    other
}

/// A frame with these bits of a coordinate changed: those of weight 1, 2 and 4 are of one level each, which is then no codeword.
fn with_bits_changed(frame: &[i64], place: usize, bits: i64) -> Vec<i64> {
    with_more(frame, place, (frame[place] ^ bits) - frame[place])
}

/// The frame of a record with all levels broken, all but the first, the last, and none; and far from the one that is sent.
fn broken(frame: &[i64], place: usize) -> [Vec<i64>; 4] {
    let more = if frame[place] > 0 { -(1 << 20) } else { 1 << 20 };
    [7, 6, 4, 0].map(|bits| with_more(&with_bits_changed(frame, place, bits), place, more))
}

/// Frames under numbers of the parity under which they are sent, and of the other; frames that are not sent: the even one begun and the
/// odd one from the middle block on, and the other way round, others of the class, the leader, with the sign turned; and each level broken.
fn not_sent(calls: &mut Calls, format: &Format, random: &mut Random) {
    let ((kind, grade), n) = (names(format), format.length());
    for (i, message) in [tied_throughout(format), tied_edge(format, random), dense(format, random)].iter().enumerate() {
        let [even, odd] = [0, 1].map(|number| send(kind, grade, number, message).unwrap().frame);
        let any = random.draw() as u32 & !1;
        let half = n - 8 * (n / 16).max(1);
        for (number, own) in [(any, &even), (any | 1, &odd)] {
            calls.frame(format, number, &even, random);
            calls.frame(format, number, &odd, random);
            calls.frame(format, number, &moved_by_point(format, own, random), random);
            calls.frame(format, number, &leader(format, message), random);
            calls.frame(format, number, &own.iter().map(|x| -x).collect::<Vec<_>>(), random);
            if i == 0 {
                calls.frame(format, number, &[&even[..half], &odd[half..]].concat(), random);
                calls.frame(format, number, &[&odd[..half], &even[half..]].concat(), random);
            }
        }
        for (j, more) in [1, -1, 2, 4, 6, 7].into_iter().enumerate() {
            let place = [0, random.below(n as u64) as usize, n - 1][(i + j) % 3];
            calls.frame(format, any, &with_more(&even, place, more), random);
        }
    }
}

/// Frames as far as the range goes, and past it: at the first place, in the middle and at the last, the rest 0, and the rest any frame of
/// the coding set; throughout; and a sent frame with points of the lattice added that bring it to either end.
fn range(calls: &mut Calls, format: &Format, random: &mut Random) {
    let ((kind, grade), n) = (names(format), format.length());
    let ends = [FURTHEST, -FURTHEST, FURTHEST + 1, -FURTHEST - 1, i32::MAX as i64, i32::MIN as i64];
    for place in [0, n / 2 - 1 + random.below(2) as usize, n - 1] {
        for x in ends {
            let number = random.draw() as u32;
            calls.frame(format, number, &with_more(&vec![0; n], place, x), random);
            calls.frame(format, number, &member_with(format, place, x, random), random);
        }
    }
    ends.into_iter().for_each(|x| calls.frame(format, random.draw() as u32, &vec![x; n], random));
    let number = random.draw() as u32;
    let sent = send(kind, grade, number, &tied_edge(format, random)).unwrap().frame;
    for size in [1 << 8, 1 << 16, 1 << 20, FURTHEST] {
        for sign in [1, -1] {
            let far = moved_far(format, &sent, sign, random, |_| size);
            calls.frame(format, number, &far, random);
        }
    }
    // 2^24 is a multiple of twice M, at one place a point of the lattice; it goes past the range with a coordinate of its sign.
    let place = (0..n).find(|&p| sent[p] != 0).unwrap_or(0);
    for more in [1 << 24, -1 << 24] {
        calls.frame(format, number, &with_more(&sent, place, more), random);
    }
    calls.frame(format, number, &any_member(format, random), random);
}

/// Frames lent of a wrong length, the record good, past the range with all levels broken, whole and cut; and with a wrong grade.
fn lengths_lent(calls: &mut Calls, format: &Format, random: &mut Random) {
    let ((kind, grade), n) = (names(format), format.length());
    let (number, good) = tied_record(format, false, random);
    let far = record(kind, grade, number, &with_more(&vec![0; n], n - 1, FURTHEST + 7));
    let others = KINDS.map(|kind| 1 << kind).filter(|&other| other != n);
    for (i, wrong) in [n - 1, n + 1, 0].into_iter().chain(others).enumerate() {
        calls.read_among(&good, false, wrong, random);
        calls.read_among(&far, false, wrong, random);
        calls.read_among(&far[..[4, 8, good.len() - 1][i % 3]], true, wrong, random);
        calls.read_among(&[&good[..3], &[0], &good[4..]].concat(), false, wrong, random);
    }
}

/// Readings that are refused, each by one test, with everything wrong that is tested later, and with the record ended there.
fn order(calls: &mut Calls, format: &Format, random: &mut Random) {
    let ((kind, grade), n) = (names(format), format.length());
    let (number, good) = tied_record(format, true, random);
    let sent = figures(&good).1;
    // Past the range before the last place, and no codeword at any level.
    let place = random.below(n as u64 - 1) as usize;
    let far = with_more(&with_bits_changed(&sent, place, 7), place, 2 * FURTHEST);
    let bytes = record(kind, grade, number, &far);
    let headed = |head: [u8; 4]| [&head[..], &bytes[4..]].concat();
    let [first, second] = MARK;
    for lent in [n, n + 1, 0] {
        // Of the mark there is one byte, or none.
        calls.read_among(&[first], true, lent, random);
        calls.read_among(&[], true, lent, random);
        // The kind byte is missing, or the grade byte.
        calls.read_among(&MARK, true, lent, random);
        calls.read_among(&[first, second, kind], true, lent, random);
        // One of them is wrong: with nothing behind it, with part of the record, with all of it; and with nothing else wrong.
        let some = if lent == 0 { 4 } else { 1 };
        for wrong in [7, 0, 2, 255].into_iter().take(some) {
            let bytes = headed([first, second, wrong, 0]);
            for end in [3, 4, 20, bytes.len()] {
                calls.read_among(&bytes[..end], true, lent, random);
            }
            calls.read_among(&[&good[..2], &[wrong], &good[3..]].concat(), true, lent, random);
        }
        for wrong in [5, 0, 129, 255].into_iter().take(some) {
            let bytes = headed([first, second, kind, wrong]);
            for end in [4, 20, bytes.len()] {
                calls.read_among(&bytes[..end], true, lent, random);
            }
            calls.read_among(&[&good[..3], &[wrong], &good[4..]].concat(), true, lent, random);
        }
        // The record ends too soon, or is whole and wrong.
        for end in [4, 7, 8, 12, bytes.len() - 1, bytes.len()] {
            calls.read_among(&bytes[..end], true, lent, random);
        }
    }
    broken(&sent, place).iter().for_each(|frame| calls.frame(format, number, frame, random));
}

/// The length of a record of every kind.
fn all_lengths(calls: &mut Calls) {
    calls.0.extend((0..=255).map(|kind| Call::Length { kind }));
}

/// The calls that are put in.
fn once(put: impl FnOnce(&mut Calls)) -> Vec<Call> {
    let mut calls = Calls(Vec::new());
    put(&mut calls);
    calls.0
}

/// The calls that are put in for each kind and grade.
fn each(mut put: impl FnMut(&mut Calls, &Format)) -> Vec<Call> {
    let formats = KINDS.flat_map(|kind| GRADES.map(move |grade| Format::new(kind, grade).unwrap()));
    once(|calls| formats.for_each(|format| put(calls, &format)))
}

/// The calls of each sort.
fn sorts() -> [(&'static str, Vec<Call>); 14] {
    let mut random = Random::new(11);
    let random = &mut random;
    [
        ("numbers", each(|calls, format| numbers(calls, format, random))),
        ("places", each(|calls, format| places(calls, format, random))),
        ("rows", once(|calls| rows(calls, random))),
        ("refused writings", each(|calls, format| refused_writings(calls, format, random))),
        ("bytes written", once(|calls| all_bytes_written(calls, random))),
        ("bytes read", once(|calls| all_bytes_read(calls, random))),
        ("cut", once(|calls| cut(calls, random))),
        ("changed", each(|calls, format| changed(calls, format, random))),
        ("marks", each(|calls, format| marks(calls, format, random))),
        ("not sent", each(|calls, format| not_sent(calls, format, random))),
        ("range", each(|calls, format| range(calls, format, random))),
        ("lengths lent", each(|calls, format| lengths_lent(calls, format, random))),
        ("order", each(|calls, format| order(calls, format, random))),
        ("lengths", once(all_lengths)),
    ]
}

/// Calls with which wrong answers are planted: writings that are accepted, inside a buffer and in one that has no other byte, and refused
/// by each number; readings likewise; and lengths of a record, where there is such a kind and where there is none.
fn planted() -> Vec<Call> {
    let mut random = Random::new(12);
    let random = &mut random;
    let mut calls = Calls(Vec::new());
    let format = Format::new(4, 1).unwrap();
    let (message, buffer) = (tied_throughout(&format), (1..=80).collect::<Vec<u8>>());
    let left = calls.write((4, 1), 0x8102_0305, &message, &buffer, 5);
    calls.write((4, 1), u32::MAX - 1, &message, &buffer[..72], 0);
    calls.write((4, 1), 1, &message, &buffer, 9);
    calls.write((4, 1), 1, &[0, 0, 0, 0, 0x80], &buffer, 5);
    calls.write((4, 1), 1, &message[1..], &buffer, 5);
    calls.write((4, 0), 1, &message, &buffer, 5);
    calls.write((7, 1), 1, &message, &buffer, 5);
    calls.read(&left, 5, 16, random);
    let six = Format::new(6, 4).unwrap();
    calls.read(&tied_record(&six, true, random).1, 0, 64, random);
    calls.read(&left, 4, 16, random);
    calls.read(&left, 5, 17, random);
    calls.read(&left[..76], 5, 16, random);
    let head = |kind, grade| [&left[..7], &[kind, grade], &left[9..]].concat();
    calls.read(&head(7, 1), 5, 16, random);
    calls.read(&head(4, 5), 5, 16, random);
    let zeros = vec![0; 64];
    for more in [FURTHEST + 1, 1, 2, 4, FURTHEST] {
        calls.read(&record(6, 4, 7, &with_more(&zeros, 63, more)), 0, 64, random);
    }
    calls.0.extend([3, 6, 7].map(|kind| Call::Length { kind }));
    calls.0
}

/// What stands in the file: how many cases of each sort of content, how many writings, readings and lengths, how many writings and how many
/// readings are answered by each number, and how many cases have a wrong answer.
pub struct Counts {
    pub sorts: Vec<(&'static str, usize)>,
    pub calls: [usize; 3],
    pub writer: [usize; 20],
    pub reader: [usize; 20],
    pub wrong: usize,
}

/// All cases in the format of README.md, those with wrong answers and one that is cut short last; and their counts.
pub fn records_file() -> (TestFile, Counts) {
    let sorts = sorts();
    let of_sort = sorts.iter().map(|(name, calls)| (*name, calls.len())).collect();
    let mut counts = Counts { sorts: of_sort, calls: [0; 3], writer: [0; 20], reader: [0; 20], wrong: 0 };
    let mut file = TestFile::new(&CHECKS, "case");
    for call in sorts.iter().flat_map(|(_, calls)| calls) {
        let answer = call.answer();
        counts.calls[call.sort()] += 1;
        match call {
            Call::Write { .. } => counts.writer[answer.refusal as usize] += 1,
            Call::Read { .. } => counts.reader[answer.refusal as usize] += 1,
            Call::Length { .. } => (),
        }
        file.put(&call.case(&answer), &call.checks(&answer, &answer));
    }
    for call in planted() {
        let right = call.answer();
        for answer in call.wrong_answers() {
            counts.wrong += 1;
            file.put(&call.case(&answer), &call.checks(&right, &answer));
        }
    }
    let last = &planted()[7];
    file.cut_short(&last.case(&last.answer()));
    (file, counts)
}

#[cfg(test)]
mod tests {
    use super::*;
    use crate::code;
    use crate::far::tests::{past, WRONG_RANGES};
    use crate::frame::{bit, message_of, read_open, read_strict};
    use crate::records::from_place;
    use crate::refusal;
    use crate::test_file::fields_apart;

    /// A call with its right answer.
    struct Case {
        call: Call,
        right: Answer,
    }

    /// The calls that are right, made once for all tests.
    fn all() -> &'static [Case] {
        static ALL: std::sync::OnceLock<Vec<Case>> = std::sync::OnceLock::new();
        let case = |call: Call| Case { right: call.answer(), call };
        ALL.get_or_init(|| sorts().into_iter().flat_map(|(_, calls)| calls).map(case).collect())
    }

    fn formats() -> impl Iterator<Item = (u8, u8)> {
        KINDS.flat_map(|kind| GRADES.map(move |grade| (kind, grade)))
    }

    impl Case {
        /// The buffer and the place that are lent.
        fn lent(&self) -> (&[u8], u64) {
            match &self.call {
                Call::Write { buffer, place, .. } | Call::Read { buffer, place, .. } => (buffer, *place),
                Call::Length { .. } => (&[], 0),
            }
        }

        /// The bytes from the place on.
        fn rest(&self) -> &[u8] {
            from_place(self.lent().0, self.lent().1)
        }

        /// The kind and the grade of what is written, or of the record that is read where it has them.
        fn format(&self) -> Option<(u8, u8)> {
            match &self.call {
                Call::Write { kind, grade, .. } => Some((*kind, *grade)),
                Call::Read { .. } => Some((*self.rest().get(2)?, *self.rest().get(3)?)),
                Call::Length { .. } => None,
            }
        }

        fn is_writing(&self) -> bool {
            self.call.sort() == 0
        }

        fn is_reading(&self) -> bool {
            self.call.sort() == 1
        }

        /// The right answer, changed where a record is written: with the place of it.
        fn written(&self, change: impl Fn(&mut Answer, std::ops::Range<usize>)) -> Answer {
            let mut answer = self.right.clone();
            if self.is_writing() && answer.refusal == 0 {
                let own = self.lent().1 as usize..answer.after as usize;
                change(&mut answer, own);
            }
            answer
        }

        /// With the bytes of the record that is written changed.
        fn rewritten(&self, change: impl Fn(&mut [u8])) -> Answer {
            self.written(|answer, own| change(&mut answer.buffer[own]))
        }

        /// With each coordinate written as another.
        fn coordinates(&self, other: impl Fn(i64) -> i64) -> Answer {
            self.rewritten(|own| {
                let (number, frame) = figures(own);
                let frame: Vec<i64> = frame.into_iter().map(&other).collect();
                own.copy_from_slice(&record(own[2], own[3], number, &frame));
            })
        }

        /// With the frame of another number under the number.
        fn frame_of(&self, other: impl Fn(u32) -> u32) -> Answer {
            let Call::Write { kind, grade, number, message, .. } = &self.call else {
                return self.right.clone();
            };
            self.rewritten(|own| {
                let sent = send(*kind, *grade, other(*number), message).unwrap();
                own.copy_from_slice(&record(*kind, *grade, *number, &sent.frame));
            })
        }

        /// Writing that is refused by the record's end, taken where this holds of the length of the record.
        fn end_taken(&self, fits: impl Fn(u64) -> bool) -> Answer {
            let mut answer = self.right.clone();
            if let (Call::Write { kind, .. }, refusal::RECORD_END) = (&self.call, answer.refusal) {
                if fits(length(*kind)) {
                    answer = Answer { refusal: 0, after: self.lent().1.wrapping_add(length(*kind)), ..answer };
                }
            }
            answer
        }

        /// Another number of refusal where this holds.
        fn number_where(&self, met: bool, number: u8) -> Answer {
            let mut answer = self.right.clone();
            answer.refusal = if met { number } else { answer.refusal };
            answer
        }

        /// The whole record that is read, where nothing before the range is wrong.
        fn whole(&self) -> Option<&[u8]> {
            let refused = [10, 1, 2, 4, 19].contains(&self.right.refusal);
            (self.is_reading() && !refused).then(|| &self.rest()[..length(self.rest()[2]) as usize])
        }

        /// Reading with these figures for those of the record, and the frame judged so: the energy, or a number.
        fn judged(&self, figures: impl Fn(&[u8]) -> (u32, Vec<i64>), judge: Judge) -> Answer {
            let (Some(own), Call::Read { place, lent, .. }) = (self.whole(), &self.call) else {
                return self.right.clone();
            };
            let ((number, frame), none) = (figures(own), Answer::default());
            match judge(own[2], own[3], number, &frame) {
                Ok(energy) => {
                    let after = place + own.len() as u64;
                    Answer { kind: own[2], grade: own[3], number, after, energy, frame, ..none }
                }
                Err(refusal) => Answer { refusal, frame: lent.clone(), ..none },
            }
        }

        /// Reading strictly with these figures.
        fn with_figures(&self, figures: impl Fn(&[u8]) -> (u32, Vec<i64>)) -> Answer {
            self.judged(figures, strict)
        }

        /// Reading strictly with each coordinate taken for another, from its four bytes.
        fn with_coordinates(&self, other: impl Fn(&[u8]) -> i64) -> Answer {
            self.with_figures(|own| (figures(own).0, own[8..].chunks_exact(4).map(&other).collect()))
        }

        /// Reading of another buffer, at another place, or with another length lent.
        fn read_as(&self, other: impl Fn(&mut Vec<u8>, &mut u64, &mut Vec<i64>)) -> Answer {
            let mut call = self.call.clone();
            if let Call::Read { buffer, place, lent } = &mut call {
                other(buffer, place, lent);
                return call.answer();
            }
            self.right.clone()
        }

        /// Reading with the mark set right where this holds of what stands in its place.
        fn mark_taken(&self, taken: impl Fn([u8; 2]) -> bool) -> Answer {
            self.read_as(|buffer, place, _| {
                let at = *place as usize;
                if let Some(mark) = at.checked_add(2).and_then(|end| buffer.get_mut(at..end)) {
                    if taken([mark[0], mark[1]]) {
                        mark.copy_from_slice(&MARK);
                    }
                }
            })
        }

        /// The right answer of a reading, changed where it is refused, or where it is not.
        fn figures_where(&self, refused: bool, change: impl Fn(&mut Answer)) -> Answer {
            let mut answer = self.right.clone();
            if self.is_reading() && (answer.refusal != 0) == refused {
                change(&mut answer);
            }
            answer
        }
    }

    /// The energy of a frame under a number, or the number it is refused by.
    type Judge = fn(u8, u8, u32, &[i64]) -> Result<u64, u8>;

    fn strict(kind: u8, grade: u8, number: u32, frame: &[i64]) -> Result<u64, u8> {
        read_strict(kind, grade, number, frame).map(|(_, energy)| energy)
    }

    /// What someone could answer who does it wrong.
    type Wrong = fn(&Case) -> Answer;

    /// A number from bytes, the highest first.
    fn turned(bytes: &[u8]) -> u32 {
        bytes.iter().fold(0, |x, &byte| x << 8 | byte as u32)
    }

    /// A number from bytes, the lowest first.
    fn straight(bytes: &[u8]) -> u32 {
        bytes.iter().rev().fold(0, |x, &byte| x << 8 | byte as u32)
    }

    /// Wrong ways to write, each of which is told apart at each kind and grade.
    const WRITERS: [(&str, Wrong); 33] = [
        ("the number highest byte first", |case| case.rewritten(|own| own[4..8].reverse())),
        ("coordinates highest byte first", |case| {
            case.rewritten(|own| own[8..].chunks_exact_mut(4).for_each(<[u8]>::reverse))
        }),
        ("the record from behind", |case| case.rewritten(<[u8]>::reverse)),
        ("the coordinates from behind", |case| {
            case.rewritten(|own| {
                let (number, mut frame) = figures(own);
                frame.reverse();
                own.copy_from_slice(&record(own[2], own[3], number, &frame));
            })
        }),
        ("the sign lost", |case| case.coordinates(i64::abs)),
        ("one's complement", |case| case.coordinates(|x| if x < 0 { x - 1 } else { x })),
        ("a sign and a size", |case| case.coordinates(|x| if x < 0 { -x - (1 << 31) } else { x })),
        ("two bytes of a coordinate", |case| case.coordinates(|x| x.rem_euclid(1 << 16))),
        ("one byte of a coordinate", |case| case.coordinates(|x| x.rem_euclid(1 << 8))),
        ("the mark of a sheet", |case| case.rewritten(|own| own[1] = 0x43)),
        ("the mark turned round", |case| case.rewritten(|own| own[..2].reverse())),
        ("three bytes of the number", |case| case.rewritten(|own| own[7] = 0)),
        ("two bytes of the number", |case| case.rewritten(|own| own[6..8].fill(0))),
        ("no number", |case| case.rewritten(|own| own[4..8].fill(0))),
        ("the frame of number 0", |case| case.frame_of(|_| 0)),
        ("the frame of number 1", |case| case.frame_of(|_| 1)),
        ("the frame of the other parity", |case| case.frame_of(|number| number ^ 1)),
        ("the parity of the highest byte", |case| case.frame_of(|number| number >> 24)),
        ("the byte behind cleared", |case| {
            case.written(|answer, own| answer.buffer.iter_mut().skip(own.end).take(1).for_each(|byte| *byte = 0))
        }),
        ("all behind cleared", |case| case.written(|answer, own| answer.buffer[own.end..].fill(0))),
        ("the byte before cleared", |case| {
            case.written(|answer, own| answer.buffer[own.start.saturating_sub(1)..own.start].fill(0))
        }),
        ("all before cleared", |case| case.written(|answer, own| answer.buffer[..own.start].fill(0))),
        ("the last byte left", |case| {
            case.written(|answer, own| answer.buffer[own.end - 1] = case.lent().0[own.end - 1])
        }),
        ("at the beginning", |case| {
            case.written(|answer, own| {
                let record = answer.buffer[own].to_vec();
                answer.buffer = [&record, &case.lent().0[record.len()..]].concat();
            })
        }),
        ("the place after one short", |case| case.written(|answer, _| answer.after -= 1)),
        ("the place after one more", |case| case.written(|answer, _| answer.after += 1)),
        ("the place for that after", |case| case.written(|answer, own| answer.after = own.start as u64)),
        ("the length for the place after", |case| case.written(|answer, own| answer.after = own.len() as u64)),
        ("a record that fills the end refused", |case| {
            let (buffer, _) = case.lent();
            let fills = case.is_writing() && case.right.after == buffer.len() as u64;
            case.written(|answer, _| {
                if fills {
                    *answer = Answer { refusal: 19, buffer: buffer.to_vec(), ..Answer::default() };
                }
            })
        }),
        ("one byte too few taken", |case| case.end_taken(|bytes| case.rest().len() as u64 + 1 == bytes)),
        ("the buffer's length without the place", |case| case.end_taken(|bytes| case.lent().0.len() as u64 >= bytes)),
        ("the sum modulo 2^64", |case| {
            case.end_taken(|bytes| case.lent().1.wrapping_add(bytes) <= case.lent().0.len() as u64)
        }),
        ("as much as there is room for on 19", |case| {
            let mut answer = case.right.clone();
            if case.is_writing() && answer.refusal == 19 && !case.rest().is_empty() {
                answer.buffer[case.lent().1 as usize] = MARK[0];
            }
            answer
        }),
    ];

    /// Wrong ways to write that are told apart over the whole file.
    const FEW_WRITERS: [(&str, Wrong); 5] = [
        ("kind and grade exchanged", |case| case.rewritten(|own| own.swap(2, 3))),
        ("places of 32 bits", |case| {
            case.end_taken(|bytes| case.lent().1 as u32 as u64 + bytes <= case.lent().0.len() as u64)
        }),
        ("places of 16 bits", |case| {
            case.end_taken(|bytes| case.lent().1 as u16 as u64 + bytes <= case.lent().0.len() as u64)
        }),
        ("the place given on a refusal", |case| {
            let mut answer = case.right.clone();
            answer.after = if answer.refusal == 0 { answer.after } else { case.lent().1 };
            answer
        }),
        ("spare bits taken", |case| case.number_where(case.right.refusal == 5, 0)),
    ];

    /// Wrong ways to read, each of which is told apart at each kind and grade.
    const READERS: [(&str, Wrong); 35] = [
        ("the number highest byte first", |case| case.with_figures(|own| (turned(&own[4..8]), figures(own).1))),
        ("coordinates highest byte first", |case| case.with_coordinates(|bytes| turned(bytes) as i32 as i64)),
        ("the sign lost", |case| case.with_coordinates(|bytes| straight(bytes) as i64)),
        ("the size alone", |case| case.with_coordinates(|bytes| (straight(bytes) as i32 as i64).abs())),
        ("one's complement", |case| {
            case.with_coordinates(|bytes| straight(bytes) as i32 as i64 + (bytes[3] > 127) as i64)
        }),
        ("three bytes of a coordinate", |case| {
            case.with_coordinates(|bytes| ((straight(&bytes[..3]) << 8) as i32 >> 8) as i64)
        }),
        ("two bytes of a coordinate", |case| case.with_coordinates(|bytes| straight(&bytes[..2]) as i16 as i64)),
        ("one byte of a coordinate", |case| case.with_coordinates(|bytes| bytes[0] as i8 as i64)),
        ("three bytes of the number", |case| case.with_figures(|own| (straight(&own[4..7]), figures(own).1))),
        ("two bytes of the number", |case| case.with_figures(|own| (straight(&own[4..6]), figures(own).1))),
        ("strictly under number 0", |case| case.judged(figures, |kind, grade, _, frame| strict(kind, grade, 0, frame))),
        ("strictly under number 1", |case| case.judged(figures, |kind, grade, _, frame| strict(kind, grade, 1, frame))),
        ("the other parity", |case| {
            case.judged(figures, |kind, grade, number, frame| strict(kind, grade, number ^ 1, frame))
        }),
        ("either parity", |case| {
            case.judged(figures, |kind, grade, number, frame| {
                strict(kind, grade, number, frame).or_else(|_| strict(kind, grade, number ^ 1, frame))
            })
        }),
        ("the parity of the highest byte", |case| {
            case.judged(figures, |kind, grade, number, frame| strict(kind, grade, number >> 24, frame))
        }),
        ("openly", |case| {
            case.judged(figures, |kind, grade, _, frame| read_open(kind, grade, frame).map(|(_, energy)| energy))
        }),
        ("the energy at least", |case| {
            case.judged(figures, |kind, grade, number, frame| {
                let (message, energy) = read_open(kind, grade, frame)?;
                let least = send(kind, grade, number, &message)?.energy;
                if energy == least {
                    Ok(energy)
                } else {
                    Err(refusal::UNSHAPED)
                }
            })
        }),
        ("any number of coordinates lent", |case| {
            case.read_as(|_, _, lent| {
                if case.right.refusal == 4 {
                    lent.resize(1 << case.rest()[2], 1)
                }
            })
        }),
        ("a longer frame lent", |case| {
            let n = || 1 << case.rest()[2];
            case.read_as(|_, _, lent| {
                if case.right.refusal == 4 && lent.len() > n() {
                    lent.truncate(n())
                }
            })
        }),
        ("the mark untested", |case| case.mark_taken(|_| true)),
        ("the mark of a sheet taken", |case| case.mark_taken(|mark| mark == [0x4C, 0x43])),
        ("the mark turned round taken", |case| case.mark_taken(|mark| mark == [0x46, 0x4C])),
        ("the mark's first byte alone", |case| case.mark_taken(|mark| mark[0] == MARK[0])),
        ("the mark's second byte alone", |case| case.mark_taken(|mark| mark[1] == MARK[1])),
        ("the frame written on 9", |case| {
            case.figures_where(true, |answer| {
                if answer.refusal == 9 {
                    answer.frame = figures(case.whole().unwrap()).1
                }
            })
        }),
        ("the frame written before it is judged", |case| {
            case.figures_where(true, |answer| {
                if let Some(own) = case.whole() {
                    answer.frame = figures(own).1
                }
            })
        }),
        ("the frame cleared on a refusal", |case| case.figures_where(true, |answer| answer.frame.fill(0))),
        ("the frame left", |case| {
            let Call::Read { lent, .. } = &case.call else { return case.right.clone() };
            case.figures_where(false, |answer| answer.frame = lent.clone())
        }),
        ("the energy on 9", |case| {
            case.figures_where(true, |answer| answer.energy = if answer.refusal == 9 { 1 } else { 0 })
        }),
        ("the kind and the grade on a refusal", |case| {
            case.figures_where(true, |answer| (answer.kind, answer.grade) = case.format().unwrap_or((0, 0)))
        }),
        ("the place after one short", |case| case.figures_where(false, |answer| answer.after -= 1)),
        ("the place after one more", |case| case.figures_where(false, |answer| answer.after += 1)),
        ("the length for the place after", |case| {
            case.figures_where(false, |answer| answer.after = length(answer.kind))
        }),
        ("the place for that after", |case| case.figures_where(false, |answer| answer.after = case.lent().1)),
        ("a record that is not at the end refused", |case| {
            let Call::Read { buffer, lent, .. } = &case.call else { return case.right.clone() };
            case.figures_where(false, |answer| {
                if answer.after < buffer.len() as u64 {
                    *answer = Answer { refusal: 19, frame: lent.clone(), ..Answer::default() };
                }
            })
        }),
    ];

    /// Wrong ways to read that are told apart over the whole file.
    const FEW_READERS: [(&str, Wrong); 14] = [
        ("the record sought from the place on", |case| {
            case.read_as(|buffer, place, _| {
                let next = from_place(buffer, *place).windows(2).position(|two| two == MARK);
                *place += next.unwrap_or(0) as u64;
            })
        }),
        ("10 for a missing kind byte", |case| case.number_where(case.is_reading() && case.rest() == MARK, 10)),
        ("1 for a missing kind byte", |case| case.number_where(case.is_reading() && case.rest() == MARK, 1)),
        ("2 for a missing grade byte", |case| {
            case.number_where(case.is_reading() && case.rest().len() == 3 && case.right.refusal == 19, 2)
        }),
        ("10 for a missing grade byte", |case| {
            case.number_where(case.is_reading() && case.rest().len() == 3 && case.right.refusal == 19, 10)
        }),
        ("4 for a missing grade byte", |case| {
            let Call::Read { lent, .. } = &case.call else { return case.right.clone() };
            case.number_where(
                case.rest().len() == 3 && case.right.refusal == 19 && lent.len() != 1 << case.rest()[2],
                4,
            )
        }),
        ("19 for a missing mark", |case| case.number_where(case.is_reading() && case.rest().is_empty(), 19)),
        ("19 for half a mark", |case| case.number_where(case.is_reading() && case.rest() == &MARK[..1], 19)),
        ("19 for a wrong kind at the end", |case| {
            case.number_where(case.is_reading() && case.rest().len() == 3 && case.right.refusal == 1, 19)
        }),
        ("19 for a wrong grade at the end", |case| {
            case.number_where(case.is_reading() && case.rest().len() == 4 && case.right.refusal == 2, 19)
        }),
        ("19 for any place past the end", |case| {
            case.number_where(case.is_reading() && case.lent().1 > case.lent().0.len() as u64, 19)
        }),
        ("places of 32 bits", |case| case.read_as(|_, place, _| *place = *place as u32 as u64)),
        ("places of 16 bits", |case| case.read_as(|_, place, _| *place = *place as u16 as u64)),
        ("the sum modulo 2^64", |case| {
            let passes = |bytes: u64| case.lent().1.wrapping_add(bytes) <= case.lent().0.len() as u64;
            case.number_where(case.right.refusal == 10 && case.lent().1 > 1 << 63 && passes(40), 19)
        }),
    ];

    /// The length of a record of a kind.
    type Length = fn(u8) -> u64;

    /// Wrong lengths of a record.
    const LENGTHS: [(&str, Length); 5] = [
        ("without the head", |kind| length(kind).saturating_sub(8)),
        ("a byte for a coordinate", |kind| if KINDS.contains(&kind) { 8 + (1 << kind) } else { 0 }),
        ("of any kind", |kind| 8 + (4u64 << (kind % 32))),
        ("of kind 2 too", |kind| if kind == 2 { 24 } else { length(kind) }),
        ("of kind 7 too", |kind| if kind == 7 { 520 } else { length(kind) }),
    ];

    /// The cases that a wrong way differs from: some, and at each kind from this one on, where there is one, at each grade.
    fn told_apart(name: &str, from: Option<u8>, wrong: impl Fn(&Case) -> Answer) {
        let different: Vec<&Case> = all().iter().filter(|case| wrong(case) != case.right).collect();
        assert!(!different.is_empty(), "{name}");
        for (kind, grade) in formats().filter(|(kind, _)| from.is_some_and(|from| from <= *kind)) {
            assert!(comes(&different, (kind, grade)), "{name}, kind {kind}, grade {grade}");
        }
    }

    #[test]
    fn wrong_writers_are_told_apart() {
        WRITERS.iter().for_each(|(name, wrong)| told_apart(name, Some(3), wrong));
        FEW_WRITERS.iter().for_each(|(name, wrong)| told_apart(name, None, wrong));
    }

    #[test]
    fn wrong_readers_are_told_apart() {
        READERS.iter().for_each(|(name, wrong)| told_apart(name, Some(3), wrong));
        FEW_READERS.iter().for_each(|(name, wrong)| told_apart(name, None, wrong));
    }

    #[test]
    fn wrong_lengths_are_told_apart() {
        for (name, wrong) in LENGTHS {
            told_apart(name, None, |case| match case.call {
                Call::Length { kind } => Answer { after: wrong(kind), ..Answer::default() },
                _ => case.right.clone(),
            });
        }
    }

    #[test]
    fn wrong_ranges_are_told_apart() {
        for (name, kind, wrong) in WRONG_RANGES {
            told_apart(name, Some(kind), |case| {
                let Some(own) = case.whole() else { return case.right.clone() };
                let (number, frame) = figures(own);
                let format = Format::new(own[2], own[3]).unwrap();
                if wrong(&frame) == past(&frame) {
                    return case.right.clone();
                }
                let judged = if wrong(&frame) {
                    Err(6)
                } else {
                    message_of(&format, &frame).and_then(|message| {
                        let sent = send(own[2], own[3], number, &message).unwrap().frame;
                        if sent == frame {
                            Ok(())
                        } else {
                            Err(9)
                        }
                    })
                };
                case.number_where(true, judged.err().unwrap_or(0))
            });
        }
    }

    /// The tests of the reader in their order.
    const READER_TESTS: [&str; 10] =
        ["mark", "kind", "grade", "frame length", "end", "range", "level 0", "level 1", "level 2", "sent"];

    /// What each of them answers on its own, whatever the others do: 0 where it passes, or where there is nothing to test.
    fn reader_alone(rest: &[u8], lent: usize) -> [u8; 10] {
        let refused = |met: bool, number: u8| if met { number } else { 0 };
        let byte = |place: usize, range: std::ops::RangeInclusive<u8>, number| match rest.get(place) {
            None => 19,
            Some(byte) => refused(!range.contains(byte), number),
        };
        let kind = rest.get(2).copied().filter(|kind| KINDS.contains(kind));
        let grade = rest.get(3).copied().filter(|grade| GRADES.contains(grade));
        // Without a kind, as if it were the shortest, and any length of a frame fits.
        let n = kind.map_or(8, |kind| 1 << kind);
        let fits = kind.map_or([8, 16, 32, 64].contains(&lent), |_| lent == n);
        let coordinates = rest.get(8..).unwrap_or(&[]).chunks_exact(4).take(n);
        let frame: Vec<i64> = coordinates.map(|bytes| straight(bytes) as i32 as i64).collect();
        let whole = frame.len() == n;
        let levels = kind.map_or(&[][..], |kind| Format::new(kind, 1).unwrap().levels);
        let broken = |level: usize| {
            let word: Vec<bool> = frame.iter().map(|x| x >> level & 1 == 1).collect();
            whole && levels.get(level).is_some_and(|&r| code::message_bits(&word, r, n.ilog2()).is_none())
        };
        let sent = |kind, grade| read_strict(kind, grade, straight(&rest[4..8]), &frame).is_ok();
        let unsent = whole && kind.zip(grade).is_some_and(|(kind, grade)| !sent(kind, grade));
        [
            refused(!rest.starts_with(&MARK), 10),
            byte(2, KINDS, 1),
            byte(3, GRADES, 2),
            refused(!fits, 4),
            refused(!whole, 19),
            refused(past(&frame), 6),
            refused(broken(0), 7),
            refused(broken(1), 8),
            refused(broken(2), 13),
            refused(unsent, 9),
        ]
    }

    /// The tests of the writer likewise.
    const WRITER_TESTS: [&str; 5] = ["kind", "grade", "message length", "spare bits", "end"];

    fn writer_alone(kind: u8, grade: u8, message: &[u8], rest: usize) -> [u8; 5] {
        let refused = |met: bool, number: u8| if met { number } else { 0 };
        let format = Format::new(kind, grade);
        // Without a format, a length that none has; and its last four bits.
        let of = |(kind, grade)| Format::new(kind, grade).unwrap().message_bytes();
        let fits = format.map_or(formats().map(of).any(|bytes| bytes == message.len()), |format| {
            format.message_bytes() == message.len()
        });
        let from = format.map_or((8 * message.len()).saturating_sub(4), |format| format.message_bits());
        [
            refused(!KINDS.contains(&kind), 1),
            refused(!GRADES.contains(&grade), 2),
            refused(!fits, 3),
            refused((from..8 * message.len()).any(|k| bit(message, k)), 5),
            refused((rest as u64) < length(kind).max(40), 19),
        ]
    }

    /// Two tests, by their places, and the cases that show them to be in their order: the first of them is the first that refuses the
    /// case, and the other would by another number.
    type Shown = (usize, usize, Vec<&'static Case>);

    /// Of tests that are made in their order, each two.
    fn orders<const N: usize>(alone: impl Fn(&Case) -> Option<[u8; N]>) -> Vec<Shown> {
        let tested: Vec<(&Case, [u8; N])> = all().iter().filter_map(|case| Some((case, alone(case)?))).collect();
        let first = |tests: &[u8; N]| (0..N).find(|&i| tests[i] != 0);
        assert!(tested.iter().all(|(case, tests)| first(tests).map_or(0, |i| tests[i]) == case.right.refusal));
        let twos = (0..N).flat_map(|early| (early + 1..N).map(move |late| (early, late)));
        let shown = |(early, late): (usize, usize)| {
            let shows = |tests: &[u8; N]| first(tests) == Some(early) && ![0, tests[early]].contains(&tests[late]);
            let cases = tested.iter().filter(|(_, tests)| shows(tests)).map(|(case, _)| *case).collect();
            (early, late, cases)
        };
        twos.map(shown).collect()
    }

    /// Whether some of the cases is of this kind and grade.
    fn comes(cases: &[&Case], format: (u8, u8)) -> bool {
        cases.iter().any(|case| case.format() == Some(format))
    }

    /// Each two tests of the reader are in their order. Without a kind there is no frame, without a grade none to be sent, and nothing
    /// but the range can be tested before the record's end.
    #[test]
    fn wrong_orders_of_the_reader_are_told_apart() {
        let shown = orders(|case| match &case.call {
            Call::Read { lent, .. } => Some(reader_alone(case.rest(), lent.len())),
            _ => None,
        });
        for (early, late, cases) in shown {
            let two = (READER_TESTS[early], READER_TESTS[late]);
            let none = matches!(two, ("kind" | "end", "level 0" | "level 1" | "level 2" | "sent") | ("grade", "sent"));
            assert_eq!(cases.is_empty(), none, "{two:?}");
            let from = |test: &str| match test {
                "level 1" => 4,
                "level 2" => 6,
                _ => 3,
            };
            if !none && READER_TESTS[3..].contains(&two.0) {
                let own = formats().filter(|(kind, _)| *kind >= from(two.0).max(from(two.1)));
                own.for_each(|format| assert!(comes(&cases, format), "{two:?}, {format:?}"));
            }
        }
    }

    #[test]
    fn wrong_orders_of_the_writer_are_told_apart() {
        let shown = orders(|case| match &case.call {
            Call::Write { kind, grade, message, .. } => Some(writer_alone(*kind, *grade, message, case.rest().len())),
            _ => None,
        });
        for (early, late, cases) in shown {
            let two = (WRITER_TESTS[early], WRITER_TESTS[late]);
            assert!(!cases.is_empty(), "{two:?}");
            if early > 1 {
                let own = formats().filter(|(kind, _)| two.0 == "message length" || *kind < 5);
                own.for_each(|format| assert!(comes(&cases, format), "{two:?}, {format:?}"));
            }
        }
    }

    /// A planted case differs from the right one in one field, what is lent is the same, and no two are the same; and some check fails.
    #[test]
    fn one_thing_is_wrong() {
        for call in planted() {
            let (right, wrong) = (call.answer(), call.wrong_answers());
            let case = call.case(&right);
            let (message, lent, buffer) =
                (case[3] as usize, case[4] as usize, case[6] as usize + 256 * case[7] as usize);
            let left = if call.sort() == 0 { buffer } else { 0 };
            let sizes = || {
                let head = [1; 6].into_iter().chain([2, 4, 8, 8, 8]);
                head.chain(vec![1; message + buffer + left]).chain(vec![4; 2 * lent])
            };
            for (i, answer) in wrong.iter().enumerate() {
                let other = call.case(answer);
                assert_eq!(fields_apart(&case, &other, sizes()), 1);
                let what_is_lent = 36 + message + buffer;
                assert_eq!(case[36..what_is_lent + 4 * lent], other[36..what_is_lent + 4 * lent]);
                assert_eq!(
                    (case[0], &case[3..5], &case[6..8], &case[12..20]),
                    (other[0], &other[3..5], &other[6..8], &other[12..20])
                );
                assert!(!wrong[..i].contains(answer));
                let checks = call.checks(&right, answer);
                assert!(!checks[0].1);
                // The exported function stores no figure on a refusal, and has nothing to differ by.
                let figure =
                    (answer.refusal, &answer.buffer, &answer.frame) == (right.refusal, &right.buffer, &right.frame);
                assert!(checks.len() == 1 || checks[1].1 == (figure && right.refusal != 0));
            }
        }
        // Every number has a wrong one.
        let of = |sort, number| planted().iter().any(|call| call.sort() == sort && call.answer().refusal == number);
        assert!(WRITER.iter().all(|&number| of(0, number)));
        assert!(READER.iter().all(|&number| of(1, number)));
    }

    /// The coordinates that are lent are not 0, and each differs from what is read.
    #[test]
    fn what_is_written_shows() {
        for case in all() {
            if let Call::Read { lent, .. } = &case.call {
                assert!(!lent.contains(&0));
                assert!(case.right.refusal != 0 || lent.iter().zip(&case.right.frame).all(|(x, y)| x != y));
            }
        }
    }

    /// At each kind and grade every number comes that can; and records of both parities that have ties.
    #[test]
    fn every_number_of_a_record_comes() {
        let (file, counts) = records_file();
        assert!(file.bytes.len() < 4_000_000);
        let came = |numbers: [usize; 20]| (0..20).filter(|&number| numbers[number] > 0).collect::<Vec<_>>();
        assert_eq!(came(counts.writer), [0, 1, 2, 3, 5, 19]);
        assert_eq!(came(counts.reader), [0, 1, 2, 4, 6, 7, 8, 9, 10, 13, 19]);
        assert_eq!(counts.sorts.iter().map(|(_, count)| count).sum::<usize>(), counts.calls.iter().sum::<usize>());
        for (kind, grade) in formats() {
            let own = |sort: usize, number: u8| {
                let met = |case: &&Case| case.call.sort() == sort && case.right.refusal == number;
                all().iter().filter(met).any(|case| case.format() == Some((kind, grade)))
            };
            assert!([0, 3, 19].into_iter().all(|number| own(0, number)));
            assert_eq!(own(0, 5), kind < 5);
            assert!([0, 4, 6, 7, 9, 10, 19].into_iter().all(|number| own(1, number)));
            assert_eq!((own(1, 8), own(1, 13)), (kind > 3, kind > 5));
        }
        assert!(file.bytes == records_file().0.bytes);
    }
}
