//! The tables of times: library and hand-tuned coder on the same messages, in one run.

use std::array::from_fn;
use std::cell::RefCell;
use std::hint::black_box;
use std::time::{Duration, Instant};

use crate::{dense, lengths};
use bench::random::Random;
use bench::{exported, hand};

const FRAMES: usize = 1024;
/// The grades of the tables of frames and of queues: the lowest and the highest.
const GRADES: [u8; 2] = [1, 4];
/// The highest changeover: by it every frame of an account is sent as number 0.
const FULL: u32 = 1_000_000;
const TURNS: usize = 200;
const TURN: Duration = Duration::from_millis(1);

/// Nanoseconds for each frame or block, over at least one turn's time.
fn turn(pass: &mut dyn FnMut()) -> f64 {
    let (start, mut passes) = (Instant::now(), 0);
    while start.elapsed() < TURN {
        pass();
        passes += 1;
    }
    start.elapsed().as_nanos() as f64 / (passes * FRAMES) as f64
}

/// The times of each, measured turn and turn about, after one turn that does not count.
fn turns<const N: usize>(mut passes: [&mut dyn FnMut(); N]) -> Vec<[f64; N]> {
    turn(passes[0]);
    (0..TURNS).map(|_| from_fn(|i| turn(passes[i]))).collect()
}

fn least<const N: usize>(turns: &[[f64; N]]) -> [f64; N] {
    from_fn(|i| turns.iter().map(|times| times[i]).fold(f64::INFINITY, f64::min))
}

/// The least time of each.
fn measure<const N: usize>(passes: [&mut dyn FnMut(); N]) -> [f64; N] {
    least(&turns(passes))
}

fn median(mut numbers: Vec<f64>) -> f64 {
    numbers.sort_by(f64::total_cmp);
    numbers[numbers.len() / 2]
}

fn line(what: &str, library: f64, hand: f64) {
    println!("| {what} | {library:.1} | {hand:.1} | {:.2} |", library / hand);
}

/// A pass over all inputs of a function that fills a buffer from each; with an account that begins
/// anew, and so does not run full, where one is given.
macro_rules! pass {
    ($function:path, $kind:expr, $grade:expr, $inputs:expr, $buffer:expr $(, $account:ident = $begun:expr)?) => {{
        let (inputs, mut buffer) = ($inputs, $buffer);
        move || {
            $(let mut $account = $begun;)?
            for input in inputs {
                let _ = black_box($function(
                    black_box($kind),
                    black_box($grade),
                    black_box(input),
                    black_box(&mut buffer),
                    $(black_box(&mut $account),)?
                ));
            }
        }
    }};
}

pub mod near;
pub mod records;

/// The functions without free bits, and those that take a number under number 0.
mod zero {
    use bench::{exported, hand};

    #[inline(always)]
    pub fn send(kind: u8, grade: u8, message: &[u8], frame: &mut [i32]) -> i64 {
        exported::send(kind, grade, 0, 0, message, frame)
    }

    #[inline(always)]
    pub fn plain_send(kind: u8, grade: u8, message: &[u8], frame: &mut [i32]) -> i64 {
        exported::plain_send(kind, grade, 0, message, frame)
    }

    #[inline(always)]
    pub fn read_strict(kind: u8, grade: u8, frame: &[i32], message: &mut [u8]) -> i64 {
        exported::read_strict(kind, grade, 0, 0, frame, message)
    }

    #[inline(always)]
    pub fn send_by_hand(kind: u8, grade: u8, message: &[u8], frame: &mut [i32]) -> Result<u64, u8> {
        hand::send(kind, grade, 0, message, frame)
    }

    #[inline(always)]
    pub fn read_strict_by_hand(kind: u8, grade: u8, frame: &[i32], message: &mut [u8]) -> Result<u64, u8> {
        hand::read_strict(kind, grade, 0, frame, message)
    }

    #[inline(always)]
    pub fn read_open(kind: u8, grade: u8, frame: &[i32], message: &mut [u8]) -> i64 {
        exported::read_open(kind, grade, 0, frame, message)
    }

    #[inline(always)]
    pub fn send_counted(
        kind: u8,
        grade: u8,
        message: &[u8],
        frame: &mut [i32],
        account: &mut exported::Figures,
    ) -> i64 {
        exported::send_counted(kind, grade, 0, message, frame, account)
    }
}

/// An account at its beginning, with a changeover, of the library and by hand.
fn begun(changeover: u32) -> exported::Figures {
    (0, 0.0, 0, changeover)
}

fn begun_by_hand(changeover: u32) -> hand::Account {
    hand::open(changeover).0
}

/// The frames of messages under a number, with so many bits free.
fn under(number: u32, free: u8, kind: u8, grade: u8, messages: &[Vec<u8>]) -> Vec<Vec<i32>> {
    let frame = |message: &Vec<u8>| {
        let mut frame = vec![0; lengths(kind, grade).0];
        hand::send_free(kind, grade, number, free, message, &mut frame).expect("the message is good");
        frame
    };
    messages.iter().map(frame).collect()
}

/// Frames of random messages under number 0, and their messages.
fn sent(kind: u8, grade: u8, random: &mut Random) -> (Vec<Vec<u8>>, Vec<Vec<i32>>) {
    let messages: Vec<Vec<u8>> = (0..FRAMES).map(|_| dense(kind, grade, random)).collect();
    let frames = under(0, 0, kind, grade, &messages);
    (messages, frames)
}

/// Each function under number 0, and with an account by the rule of number 0.
fn frames(random: &mut Random) {
    println!("| kind | grade | function | library, ns a frame | by hand, ns a frame | ratio |");
    println!("|---|---|---|---|---|---|");
    for kind in 3..=6 {
        for grade in GRADES {
            let (length, bytes) = lengths(kind, grade);
            let (messages, frames) = sent(kind, grade, random);
            let [library, hand] = measure([
                &mut pass!(zero::send, kind, grade, &messages, vec![0; length]),
                &mut pass!(zero::send_by_hand, kind, grade, &messages, vec![0; length]),
            ]);
            line(&format!("{kind} | {grade} | send"), library, hand);
            let [library, hand] = measure([
                &mut pass!(zero::send_counted, kind, grade, &messages, vec![0; length], a = begun(FULL)),
                &mut pass!(hand::send_counted, kind, grade, &messages, vec![0; length], a = begun_by_hand(FULL)),
            ]);
            line(&format!("{kind} | {grade} | send with an account"), library, hand);
            let [library, hand] = measure([
                &mut pass!(zero::read_open, kind, grade, &frames, vec![0; bytes]),
                &mut pass!(hand::read_open, kind, grade, &frames, vec![0; bytes]),
            ]);
            line(&format!("{kind} | {grade} | read openly"), library, hand);
            let [library, hand] = measure([
                &mut pass!(zero::read_strict, kind, grade, &frames, vec![0; bytes]),
                &mut pass!(zero::read_strict_by_hand, kind, grade, &frames, vec![0; bytes]),
            ]);
            line(&format!("{kind} | {grade} | read strictly"), library, hand);
        }
    }
}

/// Room for a frame or a message, which begins a line of the cache.
#[repr(align(64))]
struct Room<T>([T; 64]);

/// A pass that fills one room from each input, with nothing done between the calls.
fn each<I, T, R>(inputs: &[Vec<I>], room: &RefCell<Room<T>>, length: usize, mut call: impl FnMut(&[I], &mut [T]) -> R) {
    let mut room = room.borrow_mut();
    let room = &mut black_box(&mut *room).0[..length];
    for input in inputs {
        black_box(call(input, room));
    }
}

/// Each function that has a tie rule, under an even number and under an odd one, of the library and by hand. With an account
/// the two are a changeover of 1,000,000, by which every frame is sent as number 0, and of 0, by which every other frame is
/// odd. They differ by hundredths: at short frames more than that hangs on where a buffer lies and on what a caller does
/// between two calls. So all fill one room, and nothing is done between.
fn numbers(random: &mut Random) {
    println!("| kind | grade | function | even, ns a frame | odd, ns a frame | odd to even | by hand, odd to even |");
    println!("|---|---|---|---|---|---|---|");
    for kind in 3..=6 {
        for grade in 1..=4 {
            let (length, bytes) = lengths(kind, grade);
            let (messages, even) = sent(kind, grade, random);
            let frames = [even, under(1, 0, kind, grade, &messages)];
            let (frame, message) = (RefCell::new(Room([0; 64])), RefCell::new(Room([0; 64])));
            // Kind, grade, and number or changeover, which the compiler is not to know.
            let hidden = |x: u32| black_box((kind, grade, x));
            let line = |function: &str, [even, odd, even_by_hand, odd_by_hand]: [f64; 4]| {
                let (ratio, by_hand) = (odd / even, odd_by_hand / even_by_hand);
                println!("| {kind} | {grade} | {function} | {even:.1} | {odd:.1} | {ratio:.3} | {by_hand:.3} |");
            };

            let library = |number: u32| {
                let (k, b, number) = hidden(number);
                each(&messages, &frame, length, |message, frame| exported::send(k, b, number, 0, message, frame));
            };
            let hand = |number: u32| {
                let (k, b, number) = hidden(number);
                each(&messages, &frame, length, |message, frame| hand::send(k, b, number, message, frame));
            };
            line("send", measure([&mut || library(0), &mut || library(1), &mut || hand(0), &mut || hand(1)]));

            let library = |changeover: u32| {
                let (k, b, changeover) = hidden(changeover);
                let mut a = begun(changeover);
                each(&messages, &frame, length, |message, frame| zero::send_counted(k, b, message, frame, &mut a));
            };
            let hand = |changeover: u32| {
                let (k, b, changeover) = hidden(changeover);
                let mut a = begun_by_hand(changeover);
                each(&messages, &frame, length, |message, frame| hand::send_counted(k, b, message, frame, &mut a));
            };
            let times = measure([&mut || library(FULL), &mut || library(0), &mut || hand(FULL), &mut || hand(0)]);
            line("send with an account", times);

            let library = |number: u32| {
                let (k, b, number) = hidden(number);
                let frames = &frames[number as usize];
                each(frames, &message, bytes, |frame, message| exported::read_strict(k, b, number, 0, frame, message));
            };
            let hand = |number: u32| {
                let (k, b, number) = hidden(number);
                let frames = &frames[number as usize];
                each(frames, &message, bytes, |frame, message| hand::read_strict(k, b, number, frame, message));
            };
            line("read strictly", measure([&mut || library(0), &mut || library(1), &mut || hand(0), &mut || hand(1)]));
        }
    }
}

/// Sending and reading with no bit free and with one to four, under number 0. The same messages have their last four bits 0 throughout.
fn free_bits(random: &mut Random) {
    println!("| kind | grade | function | free bits | library, ns a frame | by hand, ns a frame | ratio |");
    println!("|---|---|---|---|---|---|---|");
    for kind in 3..=6 {
        for grade in GRADES {
            let (length, bytes) = lengths(kind, grade);
            let mut messages: Vec<Vec<u8>> = (0..FRAMES).map(|_| dense(kind, grade, random)).collect();
            let fixed = if kind < 5 { 0x00 } else { 0x0F };
            messages.iter_mut().for_each(|message| message[bytes - 1] &= fixed);
            let (frame, message) = (RefCell::new(Room([0; 64])), RefCell::new(Room([0; 64])));
            let line = |function: &str, free: u8, [library, hand]: [f64; 2]| {
                line(&format!("{kind} | {grade} | {function} | {free}"), library, hand);
            };
            for free in 0..=4 {
                let hidden = || black_box((kind, grade, free));
                let times = measure([
                    &mut || {
                        let (k, b, f) = hidden();
                        each(&messages, &frame, length, |message, frame| exported::send(k, b, 0, f, message, frame));
                    },
                    &mut || {
                        let (k, b, f) = hidden();
                        each(&messages, &frame, length, |message, frame| hand::send_free(k, b, 0, f, message, frame));
                    },
                ]);
                line("send", free, times);
            }
            for free in 0..=4 {
                let hidden = || black_box((kind, grade, free));
                let frames = under(0, free, kind, grade, &messages);
                let times = measure([
                    &mut || {
                        let (k, b, f) = hidden();
                        each(&frames, &message, bytes, |frame, bytes| exported::read_strict(k, b, 0, f, frame, bytes));
                    },
                    &mut || {
                        let (k, b, f) = hidden();
                        each(&frames, &message, bytes, |frame, bytes| hand::read_strict_free(k, b, 0, f, frame, bytes));
                    },
                ]);
                line("read strictly", free, times);
            }
        }
    }
}

/// Sending both ways: by the mask test at every position, and by whole words of the levels; and by hand.
fn ways(random: &mut Random) {
    println!("| kind | grade | mask test, ns a frame | whole words, ns a frame | ratio | by hand, ns a frame |");
    println!("|---|---|---|---|---|---|");
    for kind in 3..=6 {
        for grade in 1..=4 {
            let length = lengths(kind, grade).0;
            let (messages, _) = sent(kind, grade, random);
            let [plain, words, hand] = measure([
                &mut pass!(zero::plain_send, kind, grade, &messages, vec![0; length]),
                &mut pass!(zero::send, kind, grade, &messages, vec![0; length]),
                &mut pass!(zero::send_by_hand, kind, grade, &messages, vec![0; length]),
            ]);
            println!("| {kind} | {grade} | {plain:.0} | {words:.1} | {:.1} | {hand:.1} |", plain / words);
        }
    }
}

/// A queue, and the same messages one by one with an account, to the same places of one buffer; and the queue by hand. Every
/// frame has the rule of its number.
fn queues(random: &mut Random) {
    println!(
        "| kind | grade | one by one, million frames a second | queue, million frames a second | time, queue to one by one \
         | queue by hand, million frames a second |"
    );
    println!("|---|---|---|---|---|---|");
    for kind in 3..=6 {
        for grade in GRADES {
            let (length, bytes) = lengths(kind, grade);
            let messages: Vec<u8> = (0..FRAMES).flat_map(|_| dense(kind, grade, random)).collect();
            let buffer = RefCell::new(vec![0; FRAMES * length]);
            let turns = turns([
                &mut || {
                    let (kind, grade, mut account) = (black_box(kind), black_box(grade), begun(0));
                    let mut frames = buffer.borrow_mut();
                    for (message, frame) in messages.chunks_exact(bytes).zip(frames.chunks_exact_mut(length)) {
                        zero::send_counted(kind, grade, message, frame, &mut account);
                    }
                    black_box(account);
                },
                &mut || {
                    let (kind, grade, mut account, mut sent) = (black_box(kind), black_box(grade), begun(0), 0);
                    exported::send_queue(kind, grade, &messages, &mut buffer.borrow_mut(), &mut account, &mut sent);
                    assert_eq!(sent, FRAMES);
                },
                &mut || {
                    let (kind, grade, mut account) = (black_box(kind), black_box(grade), begun_by_hand(0));
                    let queued = hand::send_queue(kind, grade, &messages, &mut buffer.borrow_mut(), &mut account);
                    assert_eq!(queued, (FRAMES, 0));
                },
            ]);
            let ratio = median(turns.iter().map(|[one, queue, _]| queue / one).collect());
            let [one, queue, hand] = least(&turns).map(|time| 1000.0 / time);
            println!("| {kind} | {grade} | {one:.2} | {queue:.2} | {ratio:.3} | {hand:.2} |");
        }
    }
}

/// One block, each coder called by itself. The library's call includes its tests of scale, lengths
/// and range.
fn blocks(random: &mut Random) {
    println!("| shape a block alone | library, ns a block | by hand, ns a block | ratio |");
    println!("|---|---|---|---|");
    for k in [3, 6, 7] {
        let blocks: [[i32; 8]; FRAMES] = from_fn(|_| from_fn(|_| random.below(2 << k) as i32));
        let mut least = [0; 8];
        let [library, hand] = measure([
            &mut || {
                for block in &blocks {
                    black_box(exported::least(black_box(k - 1), black_box(block), black_box(&mut least)));
                }
            },
            &mut || {
                for block in &blocks {
                    black_box(hand::shape(black_box(k), black_box(block)));
                }
            },
        ]);
        line(&format!("scale {}", 1 << k), library, hand);
    }
}

pub fn print_free() {
    free_bits(&mut Random(1));
}

pub fn print() {
    let mut random = Random(1);
    frames(&mut random);
    println!();
    numbers(&mut random);
    println!();
    free_bits(&mut random);
    println!();
    ways(&mut random);
    println!();
    queues(&mut random);
    println!();
    blocks(&mut random);
    println!();
    near::print();
    println!();
    records::print();
}
