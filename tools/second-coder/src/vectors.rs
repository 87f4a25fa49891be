//! Vectors and sheets for checking the library and the sheet program, the same on every run.

use std::collections::HashSet;
use std::ops::Range;

use crate::class::{twice_e8, Block};
use crate::frame::{leader, read_open, read_strict, send, send_into, shaped, Format, Tie, GRADES, KINDS};
use crate::random::Random;
use crate::refusal;
use crate::sheet::{listing, LONGEST, MARK};
use crate::test_file::TestFile;

/// How many messages of each sort a kind and grade gets, besides each single bit and all zeros.
const PAIRS: usize = 50;
const DENSE: usize = 80;
const TIED: usize = 200;

/// A message with every bit random.
pub fn dense(format: &Format, random: &mut Random) -> Vec<u8> {
    let mut message: Vec<u8> = (0..format.message_bytes()).map(|_| random.byte()).collect();
    clear_spare(format, &mut message);
    message
}

fn clear_spare(format: &Format, message: &mut [u8]) {
    for k in format.message_bits()..message.len() * 8 {
        message[k / 8] &= !(1 << (k % 8));
    }
}

/// A message with the bits at these places set.
pub fn with_bits(format: &Format, places: &[usize]) -> Vec<u8> {
    let mut message = vec![0; format.message_bytes()];
    for k in places {
        message[k / 8] |= 1 << (k % 8);
    }
    message
}

/// A message whose blocks lie on the edge of the shaping region: level words mostly zero or all
/// ones, and each block's numbers mostly of one bit, the top one or the next.
pub fn edge(format: &Format, random: &mut Random) -> Vec<u8> {
    let mut places = Vec::new();
    let mut next = 0;
    for &r in format.levels {
        let dimension = crate::code::masks(r, format.m).len();
        match random.below(4) {
            0 => places.push(next),
            1 => places.push(next + random.below(dimension as u64) as usize),
            _ => (),
        }
        next += dimension;
    }
    let b = format.grade;
    for _ in 0..format.length() / 8 {
        let style = random.below(4);
        for width in [b - 1, b, b, b, b, b, b, b + 1] {
            for i in 0..width {
                let depth = width - 1 - i;
                let set = match style {
                    0 => depth == 0 && random.one_in(2),
                    1 => depth <= 1 && random.one_in(3),
                    2 => depth == 1 || (depth == 0 && random.one_in(4)),
                    _ => random.one_in(2) && !random.one_in(1 + i as u64),
                };
                if set {
                    places.push(next + i);
                }
            }
            next += width;
        }
    }
    with_bits(format, &places)
}

/// The bits that add M/2 to the second number of block j and to the eighth: the highest of s2, the next to highest of s8.
/// A block with the first alone has energy (M/2)², and with both twice that.
pub fn halves(format: &Format, j: usize) -> (usize, usize) {
    let first = format.message_bits() - format.length() * format.grade + 8 * format.grade * j;
    (first + 2 * format.grade - 2, first + 8 * format.grade - 2)
}

/// A message on the edge that has several frames of least energy.
pub fn tied_edge(format: &Format, random: &mut Random) -> Vec<u8> {
    loop {
        let message = edge(format, random);
        if shaped(format, Tie::First, &leader(format, &message)).least > 1 {
            return message;
        }
    }
}

/// A message with two frames of least energy for each of these blocks, and no other tie: M/2 at the second and the eighth place of the
/// block, both of one sign.
pub fn tied(format: &Format, blocks: Range<usize>) -> Vec<u8> {
    let bits: Vec<usize> = blocks.map(|j| halves(format, j)).flat_map(|(second, eighth)| [second, eighth]).collect();
    with_bits(format, &bits)
}

/// Such a message with a tie in every block.
pub fn tied_throughout(format: &Format) -> Vec<u8> {
    tied(format, 0..format.length() / 8)
}

/// A frame with a random point of the lattice, not all zeros, added in one of its blocks.
pub fn moved_by_point(format: &Format, frame: &[i64], random: &mut Random) -> Vec<i64> {
    let block = 8 * random.below(format.length() as u64 / 8) as usize;
    let odd = random.below(2) as i64;
    let mut w: Block = [0; 8];
    while w == [0; 8] {
        w = std::array::from_fn(|_| 2 * (random.below(9) as i64 - 4) + odd);
        w[7] += if twice_e8(&w) { 0 } else { 2 };
    }
    let mut moved = frame.to_vec();
    for (x, w) in moved[block..].iter_mut().zip(w) {
        *x += format.scale() / 2 * w;
    }
    moved
}

/// The sorts of messages: a bit alone (or none), sparse, dense, and with several frames of least energy.
pub const SORTS: usize = 4;

/// A message of a kind and grade, and its sort.
pub struct Sorted {
    pub kind: u8,
    pub grade: u8,
    pub sort: u8,
    pub message: Vec<u8>,
}

/// The messages of a kind and grade, sort after sort, no two the same.
fn messages(kind: u8, grade: u8, random: &mut Random) -> Vec<Sorted> {
    let format = Format::new(kind, grade).unwrap();
    let bits = format.message_bits();
    let mut all = vec![with_bits(&format, &[])];
    all.extend((0..bits).map(|k| with_bits(&format, &[k])));
    let mut seen: HashSet<Vec<u8>> = all.iter().cloned().collect();
    let mut add = |count: usize, make: &mut dyn FnMut() -> Option<Vec<u8>>| {
        let end = all.len() + count;
        while all.len() < end {
            if let Some(message) = make() {
                if seen.insert(message.clone()) {
                    all.push(message);
                }
            }
        }
    };
    add(PAIRS, &mut || {
        let place = |random: &mut Random| random.below(bits as u64) as usize;
        let places = [place(random), place(random)];
        (places[0] != places[1]).then(|| with_bits(&format, &places))
    });
    add(DENSE, &mut || Some(dense(&format, random)));
    add(TIED, &mut || Some(tied_edge(&format, random)));
    let ends = [1 + bits, 1 + bits + PAIRS, 1 + bits + PAIRS + DENSE];
    let sort = |i: usize| ends.iter().filter(|&&end| end <= i).count() as u8;
    all.into_iter().enumerate().map(|(i, message)| Sorted { kind, grade, sort: sort(i), message }).collect()
}

/// The messages of every kind and grade, the same on every run.
pub fn all_messages() -> Vec<Sorted> {
    let mut random = Random::new(1);
    let formats = KINDS.flat_map(|kind| GRADES.map(move |grade| (kind, grade)));
    formats.flat_map(|(kind, grade)| messages(kind, grade, &mut random)).collect()
}

/// An even and an odd number for the message at a place of the file: from 0 on, about 2^31, down from the last, and any.
pub fn numbers(place: usize, random: &mut Random) -> [u32; 2] {
    let up = 2 * (place as u32 / 4);
    let even = match place % 4 {
        0 => up,
        1 if place % 8 == 1 => (1 << 31) + up,
        1 => (1 << 31) - up,
        2 => u32::MAX - 1 - up,
        _ => random.draw() as u32 & !1,
    };
    // Odd ones beside an even one, and any.
    [even, if place % 4 == 3 { random.draw() as u32 | 1 } else { even + 1 }]
}

/// What the program of the two ways counts: messages by their sort, and calls that are refused.
const WAYS: [&str; SORTS + 1] = ["a bit alone, or none", "sparse", "dense", "with ties", "refused"];
const REFUSED: usize = SORTS;

/// A call for sending both ways: a message with its sort, or one that is refused.
struct Way {
    sort: usize,
    kind: u8,
    grade: u8,
    number: u32,
    message: Vec<u8>,
    coordinates: usize,
}

impl Way {
    /// The record of README.md, with this sort.
    fn record(&self, sort: usize) -> Vec<u8> {
        let mut record = vec![sort as u8, self.kind, self.grade, self.message.len() as u8, self.coordinates as u8];
        record.extend(self.number.to_le_bytes());
        record.extend(&self.message);
        record
    }
}

/// These messages for sending both ways, and calls that are refused.
fn all_ways(all: &[Sorted]) -> Vec<Way> {
    let mut random = Random::new(9);
    let mut ways = Vec::new();
    let mut put = |sort: usize, kind: u8, grade: u8, message: &[u8], coordinates: usize| {
        let place = ways.len();
        let number = numbers(place, &mut random)[place / 4 % 2];
        ways.push(Way { sort, kind, grade, number, message: message.to_vec(), coordinates });
    };
    for Sorted { kind, grade, sort, message } in all {
        put(*sort as usize, *kind, *grade, message, Format::new(*kind, *grade).unwrap().length());
    }
    for kind in KINDS {
        for grade in GRADES {
            let format = Format::new(kind, grade).unwrap();
            let (n, good) = (format.length(), with_bits(&format, &[0]));
            let mut refused = |kind, grade, message: &[u8], n| {
                assert!(send_into(kind, grade, 0, message, n).is_err());
                put(REFUSED, kind, grade, message, n);
            };
            for k in format.message_bits()..8 * good.len() {
                refused(kind, grade, &with_bits(&format, &[k]), n);
            }
            refused(kind, grade, &good[1..], n);
            refused(kind, grade, &[&good[..], &[0]].concat(), n);
            refused(kind, grade, &good, n - 1);
            refused(kind, 0, &good, n);
            refused(kind, 5, &good, n);
        }
    }
    for kind in [0, 2, 7, 255] {
        let (good, n) = ([0; 46], 64);
        assert!(send_into(kind, 4, 0, &good, n).is_err());
        put(REFUSED, kind, 4, &good, n);
    }
    ways
}

/// Calls with a wrong sort: the first message of each sort as refused, and a refused call as of each sort.
fn wrong_ways(ways: &[Way]) -> Vec<(&Way, usize)> {
    let first = |sort| ways.iter().find(|way| way.sort == sort).unwrap();
    (0..SORTS).flat_map(|sort| [(first(sort), REFUSED), (first(REFUSED), sort)]).collect()
}

/// For sending both ways: the calls in the format of README.md, those with a wrong sort and one that is cut short last; and how many there
/// are of each sort, those that are refused and those with a wrong sort last.
pub fn ways(all: &[Sorted]) -> (TestFile, [usize; SORTS + 2]) {
    let ways = all_ways(all);
    let (mut file, mut counts) = (TestFile::new(&WAYS, "number"), [0; SORTS + 2]);
    for way in &ways {
        counts[way.sort] += 1;
        file.put(&way.record(way.sort), &[(way.sort, true)]);
    }
    for (way, sort) in wrong_ways(&ways) {
        counts[SORTS + 1] += 1;
        file.put(&way.record(sort), &[(sort, false)]);
    }
    file.cut_short(&ways[0].record(ways[0].sort));
    (file, counts)
}

/// The vectors of one kind and grade: how many messages, each under an even and an odd number, and how many of them have several frames
/// of least energy.
pub struct Count {
    pub kind: u8,
    pub grade: u8,
    pub messages: usize,
    pub tied: usize,
    pub most: u64,
}

/// What the program of the vectors counts.
const CHECKS: [&str; 11] = [
    "vectors",
    "sent",
    "read openly",
    "read strictly",
    "passed by the other parity",
    "refused by the other parity",
    "moved by a whole point",
    "moved by a half point",
    "moved by one",
    "moved by two",
    "moved by four",
];

/// A vector of README.md.
#[derive(Clone)]
struct Vector {
    kind: u8,
    grade: u8,
    number: u32,
    /// What the strict reading answers under the number beside it.
    other: u8,
    message: Vec<u8>,
    frame: Vec<i64>,
    /// Of the frame, and of the frame with each of the two points added.
    energies: [u64; 3],
}

/// A frame with so much added at these places.
fn moved(frame: &[i64], places: Range<usize>, by: i64) -> Vec<i64> {
    let mut moved = frame.to_vec();
    moved[places].iter_mut().for_each(|x| *x += by);
    moved
}

impl Vector {
    /// For a message under a number; and how many frames of least energy there are.
    fn new(kind: u8, grade: u8, number: u32, message: &[u8]) -> (Vector, u64) {
        let sent = send(kind, grade, number, message).unwrap();
        let other = read_strict(kind, grade, number ^ 1, &sent.frame).err().unwrap_or(0);
        assert_eq!(other, if sent.least > 1 { refusal::UNSHAPED } else { 0 });
        let message = message.to_vec();
        let mut vector = Vector { kind, grade, number, other, message, frame: sent.frame, energies: [sent.energy; 3] };
        for (energy, frame) in vector.energies[1..].iter_mut().zip(with_points(kind, grade, &vector.frame)) {
            *energy = read_open(kind, grade, &frame).unwrap().1;
        }
        (vector, sent.least)
    }

    /// The record of README.md.
    fn record(&self) -> Vec<u8> {
        let mut record = vec![self.kind, self.grade, self.message.len() as u8];
        record.extend(self.number.to_le_bytes());
        record.push(self.other);
        record.extend(&self.message);
        record.push(self.frame.len() as u8);
        record.extend(self.frame.iter().flat_map(|x| (*x as i32).to_le_bytes()));
        record.extend(self.energies.iter().flat_map(|energy| energy.to_le_bytes()));
        record
    }

    /// The checks that the program makes, in its order, and whether the vector passes each.
    fn checks(&self) -> Vec<(usize, bool)> {
        let Vector { kind, grade, number, other, ref message, ref frame, energies } = *self;
        let open = |frame: &[i64]| read_open(kind, grade, frame);
        let strict = |number: u32, frame: &[i64]| read_strict(kind, grade, number, frame);
        let read = |energy: u64| Ok((message.clone(), energy));
        let sent = send(kind, grade, number, message).map(|sent| (sent.frame, sent.energy));
        let beside = strict(number ^ 1, frame);
        let mut checks = vec![
            (1, sent == Ok((frame.clone(), energies[0]))),
            (2, open(frame) == read(energies[0])),
            (3, strict(number, frame) == read(energies[0])),
            if other == 0 { (4, beside == read(energies[0])) } else { (5, beside == Err(other)) },
        ];
        for (i, frame) in with_points(kind, grade, frame).iter().enumerate() {
            let equivalent = open(frame) == read(energies[i + 1]) && strict(number, frame) == Err(refusal::UNSHAPED);
            checks.push((6 + i, equivalent));
        }
        let levels = Format::new(kind, grade).unwrap().levels.len();
        let numbers = [refusal::BROKEN_LEVEL_0, refusal::BROKEN_LEVEL_1, refusal::BROKEN_LEVEL_2];
        for (level, broken) in numbers.into_iter().take(levels).enumerate() {
            let frame = moved(frame, 0..1, 1 << level);
            checks.push((8 + level, open(&frame) == Err(broken) && strict(number, &frame) == Err(broken)));
        }
        // The record is whole.
        checks.push((0, true));
        checks
    }

    /// Vectors that are right but for one thing: a byte of the message, a coordinate, an energy, or what the strict reading answers under
    /// the number beside it.
    fn wrong(&self) -> Vec<Vector> {
        let mut wrong = Vec::new();
        let mut change = |change: &dyn Fn(&mut Vector)| {
            let mut vector = self.clone();
            change(&mut vector);
            wrong.push(vector);
        };
        let last = self.message.len() - 1;
        // The last bit of all is a spare bit at kinds 3 and 4.
        for (place, bit) in [(0, 0), (last, 0), (last, 7)] {
            change(&|vector| vector.message[place] ^= 1 << bit);
        }
        for place in [0, self.frame.len() / 2, self.frame.len() - 1] {
            change(&|vector| vector.frame[place] += 1);
        }
        for i in 0..3 {
            change(&|vector| vector.energies[i] += 1);
        }
        change(&|vector| vector.other ^= refusal::UNSHAPED);
        change(&|vector| vector.other ^= 1);
        wrong
    }
}

/// The frame with each of two points of the lattice added: M at two places of the first block; M/2 at each place of the last.
fn with_points(kind: u8, grade: u8, frame: &[i64]) -> [Vec<i64>; 2] {
    let (n, scale) = (frame.len(), Format::new(kind, grade).unwrap().scale());
    [moved(frame, 0..2, scale), moved(frame, n - 8..n, scale / 2)]
}

/// A vector of each kind, two of which have ties: with these wrong ones are planted.
fn planted() -> Vec<Vector> {
    let vector = |kind, grade, number, tied: bool| {
        let format = Format::new(kind, grade).unwrap();
        let message = if tied { tied_throughout(&format) } else { with_bits(&format, &[]) };
        Vector::new(kind, grade, number, &message).0
    };
    vec![vector(3, 1, 0, false), vector(4, 2, 1, true), vector(5, 3, u32::MAX, false), vector(6, 4, 1 << 31, true)]
}

/// The wrong vectors, and one that is cut short, at the end of the file.
fn put_wrong(file: &mut TestFile) -> usize {
    let wrong: Vec<Vector> = planted().iter().flat_map(Vector::wrong).collect();
    for vector in &wrong {
        file.put(&vector.record(), &vector.checks());
    }
    let record = wrong[0].record();
    file.put(&record[..record.len() - 1], &[(0, false)]);
    wrong.len()
}

/// How many bytes stand at the end of the file that are wrong vectors.
pub fn wrong_bytes() -> usize {
    let mut file = TestFile::new(&CHECKS, "number");
    put_wrong(&mut file);
    file.bytes.len()
}

/// All vectors in the format of README.md, wrong ones last; how many there are of each kind and grade; and how many are wrong.
pub fn vectors(all: &[Sorted]) -> (TestFile, Vec<Count>, usize) {
    let (mut file, mut counts) = (TestFile::new(&CHECKS, "number"), Vec::<Count>::new());
    let mut random = Random::new(10);
    for (place, Sorted { kind, grade, message, .. }) in all.iter().enumerate() {
        let (kind, grade) = (*kind, *grade);
        let least = numbers(place, &mut random).map(|number| {
            let (vector, least) = Vector::new(kind, grade, number, message);
            let checks = vector.checks();
            assert!(checks.iter().all(|(_, passed)| *passed));
            file.put(&vector.record(), &checks);
            least
        })[0];
        if counts.last().is_none_or(|count| (count.kind, count.grade) != (kind, grade)) {
            counts.push(Count { kind, grade, messages: 0, tied: 0, most: 1 });
        }
        let count = counts.last_mut().unwrap();
        count.messages += 1;
        count.tied += (least > 1) as usize;
        count.most = count.most.max(least);
    }
    let wrong = put_wrong(&mut file);
    (file, counts, wrong)
}

/// A good record of a kind and grade, its message dense, sparse or on the edge.
pub fn record_of(kind: u8, grade: u8, random: &mut Random) -> Vec<u8> {
    let format = Format::new(kind, grade).unwrap();
    let message = match random.below(4) {
        0 => with_bits(&format, &[random.below(format.message_bits() as u64) as usize]),
        1 => edge(&format, random),
        _ => dense(&format, random),
    };
    [&MARK[..], &[kind, grade], &message].concat()
}

/// A good record of any kind and grade.
pub fn record(random: &mut Random) -> Vec<u8> {
    let (kind, grade) = (3 + random.below(4) as u8, 1 + random.below(4) as u8);
    record_of(kind, grade, random)
}

/// A sheet of so many good records.
pub fn records(count: usize, random: &mut Random) -> Vec<u8> {
    (0..count).flat_map(|_| record(random)).collect()
}

/// A sheet of so many bytes, all good records: filled up at random, then to the last byte with
/// records of kind 3, which have 6 to 9 bytes (12 and more are always a sum of such). No record has
/// more than 50 bytes, so 12 or more are left.
pub fn full(length: usize, random: &mut Random) -> Vec<u8> {
    let mut sheet = Vec::new();
    while length - sheet.len() >= 62 {
        sheet.extend(record(random));
    }
    while length > sheet.len() {
        let left = length - sheet.len();
        let bytes = match left {
            0..=9 => left,
            10..=17 => 6.max(left - 9),
            _ => 6,
        };
        sheet.extend(record_of(3, bytes as u8 - 5, random));
    }
    sheet
}

/// All sheets, good and damaged.
pub fn sheets() -> Vec<Vec<u8>> {
    let mut random = Random::new(2);
    let random = &mut random;
    let example = vec![0x4C, 0x43, 3, 1, 0, 8, 0x4C, 0x43, 3, 1, 2, 0, 0x4C, 0x43, 3, 5];
    let mut all = vec![vec![], example];
    // One record of each kind and grade, and a sheet of them all.
    for kind in KINDS {
        for grade in GRADES {
            all.push(record_of(kind, grade, random));
        }
    }
    all.push(all[2..].concat());
    all.push(records(40, random));
    // A sheet cut short at each place of its last record.
    for (kind, grade) in [(3, 1), (4, 2), (5, 1), (6, 1), (6, 4)] {
        let (before, last) = (records(2, random), record_of(kind, grade, random));
        all.extend((0..last.len()).map(|end| [&before, &last[..end]].concat()));
    }
    // A wrong kind or grade, with and without bytes after it.
    for wrong in [0, 1, 2, 7, 8, 0x43, 0x80, 0x86, 0xFF] {
        for bytes in [vec![wrong], vec![wrong, 1, 0, 0], vec![wrong, 9], vec![4, wrong | 8], vec![3, wrong | 8, 0, 0]] {
            all.push([record(random), MARK.to_vec(), bytes].concat());
        }
    }
    for kind in 5..=6 {
        all.push([MARK.to_vec(), vec![kind, 0]].concat());
        all.push([MARK.to_vec(), vec![kind, 5]].concat());
    }
    // A wrong mark: each byte of it, swapped, and a byte left between records.
    for mark in [[0x4C, 0x44], [0x4D, 0x43], [0x43, 0x4C], [0x4C, 0x4C], [0, 0], [0xFF, 0xFF]] {
        all.push([record(random), mark.to_vec(), vec![3, 1, 0, 0]].concat());
    }
    all.push([record(random), vec![0], record(random)].concat());
    all.push(vec![0x4C]);
    all.push(vec![0x0A]);
    // Each spare bit set, alone and with the rest of the message dense.
    for (kind, grade) in [(3, 1), (3, 4), (4, 1), (4, 4)] {
        for bit in 4..8 {
            let mut bad = record_of(kind, grade, random);
            *bad.last_mut().unwrap() |= 1 << bit;
            all.push([record(random), bad, record(random)].concat());
        }
    }
    // Near the longest sheet: full of good records; damaged in its last byte; cut short; full of
    // the shortest records, and of those with the longest listing; a byte or a record too long; nothing good.
    let longest = full(LONGEST, random);
    all.push(longest.clone());
    let mut spare = full(LONGEST - 6, random);
    spare.extend([0x4C, 0x43, 3, 1, 0, 0xF0]);
    all.push(spare);
    all.push(longest[..LONGEST - 1].to_vec());
    for kind in [3, 6] {
        let mut sheet = Vec::new();
        while sheet.len() < LONGEST {
            sheet.extend(record_of(kind, 1, random));
        }
        sheet.truncate(LONGEST);
        all.push(sheet);
    }
    all.push([longest.clone(), vec![0x4C]].concat());
    all.push([longest, record(random)].concat());
    all.push(vec![0; LONGEST]);
    all.push(vec![0x4C; LONGEST + 1]);
    // Longer than the library's caller may think of: good records throughout.
    for length in [40_000, 65_536] {
        all.push(full(length, random));
    }
    // A record refused by each number, with good records after it wherever one might go on.
    let after = records(3, random);
    for bad in
        [&[0x4C, 0x43, 7, 1][..], &[0x4C, 0x43, 2, 1], &[0x4C, 0x43, 3, 5], &[0x4C, 0x43, 4, 0], &[0x4C, 0x44, 3, 1]]
    {
        for filler in [0, 2] {
            all.push([&records(1, random), bad, &[0, 0][..filler], &after].concat());
        }
    }
    for bad in [&[0x4C, 0x43, 3, 1, 0, 0x80][..], &[0x4C, 0x44, 3, 1, 0, 0], &[0x4D, 0x43, 3, 1, 0, 0], &[0]] {
        all.push([bad, &after].concat());
    }
    // Cut short, with bytes in its message that would be good records.
    for count in 1..=2 {
        let inner: Vec<u8> = (0..count).flat_map(|_| record_of(3, 1, random)).collect();
        all.push([record(random), vec![0x4C, 0x43, 5, 4], inner.clone()].concat());
        all.push([record(random), vec![0x4C, 0x43, 6, 4], inner].concat());
    }
    // Random bytes, and good sheets with one byte changed.
    for length in [1, 2, 3, 5, 16, 100, 1000] {
        all.push((0..length).map(|_| random.byte()).collect());
    }
    for _ in 0..12 {
        let mut sheet = records(6, random);
        let place = random.below(sheet.len() as u64) as usize;
        sheet[place] ^= 1 << random.below(8);
        all.push(sheet);
    }
    all.extend(tied_sheets());
    all
}

/// Sheets with several records that have ties, so that the number of each record shows.
fn tied_sheets() -> Vec<Vec<u8>> {
    let formats: Vec<(u8, u8)> = KINDS.flat_map(|kind| GRADES.map(move |grade| (kind, grade))).collect();
    let record = |(kind, grade): (u8, u8), message: &[u8]| [&MARK[..], &[kind, grade], message].concat();
    let tie = |(kind, grade)| record((kind, grade), &tied_throughout(&Format::new(kind, grade).unwrap()));
    let plain = |(kind, grade)| record((kind, grade), &with_bits(&Format::new(kind, grade).unwrap(), &[]));
    // Five of each kind and grade.
    let mut all: Vec<Vec<u8>> = formats.iter().map(|&format| tie(format).repeat(5)).collect();
    // Kinds and grades in turn, each twice, and backwards; with records before them that have no tie.
    let each: Vec<Vec<u8>> = formats.iter().map(|&format| tie(format)).collect();
    all.push(each.iter().flat_map(|record| record.repeat(2)).collect());
    all.push(each.iter().rev().flatten().copied().collect());
    for count in 1..=3 {
        all.push([plain((3, 1)).repeat(count), each.concat()].concat());
    }
    all.push(formats.iter().flat_map(|&format| [plain(format), tie(format), tie(format)].concat()).collect());
    // A record that is refused after some that have ties, and more of these after it.
    let (three, six) = (tie((3, 1)), tie((6, 1)));
    for count in 1..=4 {
        for bad in [&[0x4C, 0x43, 3, 1, 0, 0x10][..], &[0x4C, 0x43, 7], &[0x4C, 0x43, 4, 5], &[0x4C, 0x42, 3, 1, 0, 8]]
        {
            all.push([&three.repeat(count), bad, &three, &six].concat());
        }
        all.push([&six.repeat(count), &three[..5]].concat());
    }
    // Many.
    all.push(three.repeat(300));
    all
}

/// The sheet that the sheet program is run on: the longest there may be, good records of every kind and grade and at last one with a
/// spare bit set.
pub fn program_sheet() -> Vec<u8> {
    let mut random = Random::new(5);
    [full(LONGEST - 6, &mut random), vec![0x4C, 0x43, 3, 1, 0, 0x10]].concat()
}

/// Sheets that are printed from files of their own: nothing, and longer than a sheet may be.
pub fn files() -> [(&'static str, Vec<u8>); 3] {
    let mut random = Random::new(6);
    let mut file = |name, length| (name, full(length, &mut random));
    [file("empty.bin", 0), file("long.bin", LONGEST + 1), file("longer.bin", 40_000)]
}

/// All sheets, in the format of README.md.
pub fn sheet_file() -> Vec<u8> {
    let mut file = Vec::new();
    for sheet in sheets() {
        file.extend((sheet.len() as u32).to_le_bytes());
        file.extend(&sheet);
    }
    file
}

/// What the program that lists them prints: the listings of the files, those of all sheets, each after its number, and how many these are.
pub fn sheet_listings() -> String {
    let mut printed: String = files().iter().map(|(_, sheet)| listing(sheet)).collect();
    let sheets = sheets();
    for (i, sheet) in sheets.iter().enumerate() {
        printed += &format!("sheet {}\n{}", i + 1, listing(sheet));
    }
    printed + &format!("sheets {}\n", sheets.len())
}

/// A fresh sheet: good, damaged, cut short, of random bytes or long.
pub fn random_sheet(random: &mut Random) -> Vec<u8> {
    let count = random.below(30) as usize;
    match random.below(10) {
        0..=3 => records(count, random),
        4..=5 => {
            let mut sheet = records(count + 1, random);
            let place = random.below(sheet.len() as u64) as usize;
            sheet[place] = random.byte();
            sheet
        }
        6 => {
            let mut sheet = records(count + 1, random);
            sheet.truncate(random.below(sheet.len() as u64) as usize);
            sheet
        }
        7 => (0..count).map(|_| random.byte()).collect(),
        8 => {
            // A good record or two, then a mark and random bytes, the first near the kinds.
            let mut sheet = records(count % 3, random);
            sheet.extend(MARK);
            sheet.extend((0..2).map(|_| random.below(9) as u8));
            sheet.extend((0..count).map(|_| random.byte()));
            sheet
        }
        _ => {
            let length = LONGEST - 3 + random.below(6) as usize;
            if random.one_in(8) {
                return full(length, random);
            }
            vec![MARK[0]; length]
        }
    }
}

#[cfg(test)]
mod tests {
    use super::*;
    use crate::sheet::listing_by;
    use crate::test_file::fields_apart;

    #[test]
    fn full_sheets_are_full_and_good() {
        let mut random = Random::new(3);
        for length in LONGEST - 60..=LONGEST {
            let sheet = full(length, &mut random);
            assert_eq!(sheet.len(), length);
            assert!(!listing(&sheet).contains("refused"));
        }
    }

    /// Records that someone numbers wrong are told apart, at each kind and grade.
    #[test]
    fn wrong_numbers_are_told_apart() {
        let sheets = tied_sheets();
        let wrong: [fn(u32) -> u32; 5] = [|_| 0, |_| 1, |place| place + 1, |place| place.min(1), |place| place / 2];
        for (i, number) in wrong.into_iter().enumerate() {
            for sheet in &sheets[..16] {
                assert_ne!(listing_by(sheet, number), listing(sheet), "{i}");
            }
        }
    }

    /// A planted vector differs from the right one in one thing alone, and fails a check; no two are the same.
    #[test]
    fn one_thing_is_wrong() {
        for vector in planted() {
            let (m, n) = (vector.message.len(), vector.frame.len());
            let sizes: Vec<usize> =
                [1, 1, 1, 4, 1].into_iter().chain(vec![1; m]).chain([1]).chain(vec![4; n]).chain([8; 3]).collect();
            assert!(vector.checks().iter().all(|(_, passed)| *passed));
            let wrong = vector.wrong();
            let records: Vec<Vec<u8>> = wrong.iter().map(Vector::record).collect();
            for (i, record) in records.iter().enumerate() {
                assert_eq!(fields_apart(&vector.record(), record, sizes.clone()), 1);
                assert_eq!(vector.record()[..7], record[..7]);
                assert!(wrong[i].checks().iter().any(|(_, passed)| !passed));
                assert!(!records[..i].contains(record));
            }
        }
        // Each check is failed by one of them, but the one for a record that is whole.
        let failed: HashSet<usize> = (planted().iter().flat_map(Vector::wrong))
            .flat_map(|vector| vector.checks())
            .filter_map(|(check, passed)| (!passed).then_some(check))
            .collect();
        assert_eq!(failed, (1..CHECKS.len()).collect());
    }

    /// A planted call for both ways differs from the right one in its sort alone, and each sort comes.
    #[test]
    fn the_sort_is_wrong() {
        let ways = all_ways(&all_messages());
        let wrong = wrong_ways(&ways);
        for (way, sort) in &wrong {
            let fields = [1, 1, 1, 1, 1, 4, way.message.len()];
            assert_eq!(fields_apart(&way.record(way.sort), &way.record(*sort), fields), 1);
            assert!(way.sort != *sort && (way.sort == REFUSED || *sort == REFUSED));
        }
        assert!((0..WAYS.len()).all(|sort| wrong.iter().any(|(_, other)| *other == sort)));
    }

    #[test]
    fn files_are_the_same_each_time() {
        let all = all_messages();
        assert!(vectors(&all).0.bytes == vectors(&all_messages()).0.bytes);
        assert!(sheet_file() == sheet_file());
    }
}
