//! The table of records: written one behind the other into a buffer, and read from it, good ones and refused ones.

use std::cell::RefCell;
use std::hint::black_box;

use super::{measure, sent, Room, FRAMES, GRADES};
use crate::{lengths, levels};
use bench::random::Random;
use bench::{exported, hand};

/// Another frame of the class of each, which is sent under no number: moved at two places of a block by the scale.
fn unsent(kind: u8, grade: u8, frames: &[Vec<i32>], random: &mut Random) -> Vec<Vec<i32>> {
    let moved = |frame: &Vec<i32>| loop {
        let (mut other, place) = (frame.clone(), random.below(frame.len() as u64) as usize);
        for place in [place, place ^ 1 << random.below(3)] {
            other[place] += (1 << (levels(kind) + grade as u32)) * if other[place] > 0 { -1 } else { 1 };
        }
        let judged = hand::read_strict(kind, grade, 0, &other, &mut vec![0; lengths(kind, grade).1]);
        if judged == Err(hand::refusal::UNSHAPED) {
            return other;
        }
    };
    frames.iter().map(moved).collect()
}

/// The records of frames one behind the other, sent or not, all under number 0.
fn row(kind: u8, grade: u8, frames: &[Vec<i32>]) -> Vec<u8> {
    let record = |frame: &Vec<i32>| {
        let coordinates = frame.iter().flat_map(|x| x.to_le_bytes());
        [0x4C, 0x46, kind, grade, 0, 0, 0, 0].into_iter().chain(coordinates).collect::<Vec<u8>>()
    };
    frames.iter().flat_map(record).collect()
}

/// The times of reading each record of a row: of the library, by hand, and of its strict reading of the frames.
fn reading(kind: u8, grade: u8, row: &[u8], frames: &[Vec<i32>]) -> [f64; 3] {
    let (length, bytes) = lengths(kind, grade);
    let frame = RefCell::new(Room([0; 64]));
    let whole = row.len() / FRAMES;
    measure([
        &mut || {
            let (row, mut frame, mut head) = (black_box(row), frame.borrow_mut(), (0, 0, 0, 0));
            let frame = &mut black_box(&mut *frame).0[..length];
            for place in (0..FRAMES).map(|i| i * whole) {
                black_box(exported::read_record(row, place, frame, &mut head));
            }
            black_box(head);
        },
        &mut || {
            let (row, mut frame) = (black_box(row), frame.borrow_mut());
            let frame = &mut black_box(&mut *frame).0[..length];
            for place in (0..FRAMES).map(|i| i * whole) {
                black_box(hand::read_record(row, place, frame).is_ok());
            }
        },
        &mut || {
            let ((k, b), mut message) = (black_box((kind, grade)), Room([0; 64]));
            let message = &mut black_box(&mut message).0[..bytes];
            for frame in frames {
                black_box(exported::read_strict(k, b, 0, 0, frame, message));
            }
        },
    ])
}

/// The times of writing the record of each message: of the library, by hand, and of its sending into frames end to end.
fn writing(kind: u8, grade: u8, messages: &[Vec<u8>]) -> [f64; 3] {
    let length = lengths(kind, grade).0;
    let row = RefCell::new(vec![0; FRAMES * (8 + 4 * length)]);
    let mut frames = vec![0; FRAMES * length];
    measure([
        &mut || {
            let ((k, b), mut row, mut place) = (black_box((kind, grade)), row.borrow_mut(), 0);
            for message in messages {
                black_box(exported::write_record(k, b, 0, message, &mut row, place, &mut place));
            }
            assert_eq!(place, row.len());
        },
        &mut || {
            let ((k, b), mut row, mut place) = (black_box((kind, grade)), row.borrow_mut(), 0);
            for message in messages {
                place = hand::write_record(k, b, 0, message, &mut row, place).expect("there is room");
            }
            assert_eq!(place, row.len());
        },
        &mut || {
            let (k, b) = black_box((kind, grade));
            for (message, frame) in messages.iter().zip(frames.chunks_exact_mut(length)) {
                black_box(exported::send(k, b, 0, 0, message, frame));
            }
        },
    ])
}

pub fn print() {
    let mut random = Random(3);
    println!("| kind | grade | records | library, ns a record | by hand, ns a record | ratio | sending or strict reading of the library, ns |");
    println!("|---|---|---|---|---|---|---|");
    for kind in 3..=6 {
        for grade in GRADES {
            let (messages, frames) = sent(kind, grade, &mut random);
            let line = |what: &str, [library, hand, beside]: [f64; 3]| {
                let ratio = library / hand;
                println!("| {kind} | {grade} | {what} | {library:.1} | {hand:.1} | {ratio:.2} | {beside:.1} |");
            };
            line("write", writing(kind, grade, &messages));
            let good = row(kind, grade, &frames);
            line("read", reading(kind, grade, &good, &frames));
            let unsent = unsent(kind, grade, &frames, &mut random);
            line("read, refused by 9", reading(kind, grade, &row(kind, grade, &unsent), &unsent));
            let mut unmarked = good.clone();
            unmarked.chunks_exact_mut(good.len() / FRAMES).for_each(|record| record[1] = 0x43);
            let [library, hand, _] = reading(kind, grade, &unmarked, &frames);
            let ratio = library / hand;
            println!("| {kind} | {grade} | read, refused by 10 | {library:.1} | {hand:.1} | {ratio:.2} | |");
        }
    }
}
