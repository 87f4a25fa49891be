//! Measures the library beside the hand-tuned coder, and compares their answers.
//!
//!     bench                                   the tables of times, per frame, under even and odd numbers, with free
//!                                             bits, per queue, per block, of noisy samples and of records, and as
//!                                             `compare` 200000 frames from a seed of the moment
//!     bench free                              the table of free bits alone
//!     bench near                              the tables of noisy samples alone
//!     bench records                           the table of records alone
//!     bench compare FRAMES [SEED]             compares all answers on fresh messages, frames, sums of frames, samples,
//!                                             pairs of recordings, records, queues and blocks
//!     bench compare-all FRAMES [SEED] [KIND]  the same with the second coder as a third, without the
//!                                             blocks; of one kind where one is given

mod coders;
mod compare;
mod noise;
mod table;

use std::process::ExitCode;
use std::time::{SystemTime, UNIX_EPOCH};

use compare::Plan;

/// Coordinates and message bytes of a kind and grade that exist.
pub fn lengths(kind: u8, grade: u8) -> (usize, usize) {
    let b = grade as usize;
    match kind {
        3 => (8, b + 1),
        4 => (16, 2 * b + 3),
        5 => (32, 4 * b + 4),
        _ => (64, 8 * b + 14),
    }
}

/// The levels of a kind that exists.
pub fn levels(kind: u8) -> u32 {
    match kind {
        3 => 1,
        4 | 5 => 2,
        _ => 3,
    }
}

/// A message with every bit random but the spare ones.
pub fn dense(kind: u8, grade: u8, random: &mut bench::random::Random) -> Vec<u8> {
    let mut message = vec![0; lengths(kind, grade).1];
    random.fill(&mut message);
    if kind < 5 {
        *message.last_mut().expect("no message is empty") &= 0x0F;
    }
    message
}

/// What to compare, by the words of the command line; none where they say nothing.
fn plan(words: &[&str]) -> Option<Plan> {
    let number = |word: &str| word.parse::<u64>().ok();
    let one = |word: &str| word.parse::<u8>().ok().filter(|kind| (3..=6).contains(kind));
    let plan = |frames: &str, seed: u64| Some(Plan { frames: number(frames)?, seed, kinds: 3..=6, all: false });
    match *words {
        [] => {
            let now = SystemTime::now().duration_since(UNIX_EPOCH).expect("the clock is past 1970");
            plan("200000", now.as_secs())
        }
        ["compare", frames] => plan(frames, 1),
        ["compare", frames, seed] => plan(frames, number(seed)?),
        ["compare-all", frames] => Some(Plan { all: true, ..plan(frames, 1)? }),
        ["compare-all", frames, seed] => Some(Plan { all: true, ..plan(frames, number(seed)?)? }),
        ["compare-all", frames, seed, kind] => {
            let kind = one(kind)?;
            Some(Plan { all: true, kinds: kind..=kind, ..plan(frames, number(seed)?)? })
        }
        _ => None,
    }
}

fn main() -> ExitCode {
    let arguments: Vec<String> = std::env::args().skip(1).collect();
    let words: Vec<&str> = arguments.iter().map(String::as_str).collect();
    if words == ["free"] {
        table::print_free();
        return ExitCode::SUCCESS;
    }
    if words == ["near"] {
        table::near::print();
        return ExitCode::SUCCESS;
    }
    if words == ["records"] {
        table::records::print();
        return ExitCode::SUCCESS;
    }
    let Some(plan) = plan(&words) else {
        eprintln!("usage: bench | bench free | bench near | bench records | bench compare FRAMES [SEED] | bench compare-all FRAMES [SEED] [KIND]");
        return ExitCode::FAILURE;
    };
    if words.is_empty() {
        table::print();
        println!("\nseed {}", plan.seed);
    }
    match compare::run(&plan) {
        0 => ExitCode::SUCCESS,
        _ => ExitCode::FAILURE,
    }
}
