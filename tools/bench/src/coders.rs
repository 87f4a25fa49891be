//! The coders that are compared, with one form of call: each fills what it is lent and gives the
//! energy, or gives the number of a refusal and leaves what it is lent as it was. Of a queue each gives
//! how many are sent, and the number of the refusal, 0 where all are. A near reading gives 0 for the energy, and a choice between
//! two recordings 1 or 2. The writing of a record gives 0 for the energy, and the place after it in what it is lent, as the reading gives
//! the head.

use bench::{exported, hand};
use frame_coder::{by_number, Account, Refusal};
use second_coder::{account, free, near, recordings, records};

pub use bench::exported::{Figures, Head};

type Answer = Result<u64, u8>;
type Sending = fn(u8, u8, u32, u8, &[u8], &mut [i32]) -> Answer;
type Opening = fn(u32, &mut Figures) -> Answer;
type Counting = fn(u8, u8, u8, &[u8], &mut [i32], &mut Figures) -> Answer;
type Queueing = fn(u8, u8, &[u8], &mut [i32], &mut Figures) -> (usize, u8);
type Reading = fn(u8, u8, u8, &[i32], &mut [u8]) -> Answer;
type Judging = fn(u8, u8, u32, u8, &[i32], &mut [u8]) -> Answer;
type Nearing = fn(u8, u8, &[f32], &mut [u8], &mut f64) -> Answer;
type Choosing = fn(u8, u8, &[f32], &[f32]) -> Result<u8, u8>;
type RecordWriting = fn(u8, u8, u32, &[u8], &mut [u8], usize, &mut usize) -> Answer;
type RecordReading = fn(&[u8], usize, &mut [i32], &mut Head) -> Answer;

pub struct Coder {
    pub name: &'static str,
    pub send: Sending,
    pub open: Opening,
    pub send_counted: Counting,
    pub send_queue: Queueing,
    pub read_open: Reading,
    pub read_strict: Judging,
    pub read_near: Nearing,
    pub closer: Choosing,
    pub write_record: RecordWriting,
    pub read_record: RecordReading,
}

/// The library, the hand-tuned coder and the second coder.
pub const CODERS: [Coder; 3] = [
    Coder {
        name: "library",
        send: |kind, grade, number, free, message, frame| {
            by_number::send_free(kind, grade, number, free, message, frame).map_err(Refusal::number)
        },
        // The exported function, which leaves an account also where it refuses.
        open: |changeover, figures| answered(exported::open(changeover, figures)),
        send_counted: |kind, grade, free, message, frame, figures| {
            let mut account = Account::from_parts(figures.0, figures.1, figures.2, figures.3);
            let answer = by_number::send_counted_free(kind, grade, free, message, frame, &mut account);
            *figures = (account.count(), account.sum(), account.largest(), account.changeover());
            answer.map_err(Refusal::number)
        },
        send_queue: |kind, grade, messages, frames, figures| {
            let mut account = Account::from_parts(figures.0, figures.1, figures.2, figures.3);
            let queued = by_number::send_queue(kind, grade, messages, frames, &mut account);
            *figures = (account.count(), account.sum(), account.largest(), account.changeover());
            queued.map_or_else(|stopped| (stopped.sent, stopped.refusal.number()), |sent| (sent, 0))
        },
        read_open: |kind, grade, free, frame, message| {
            by_number::read_open_free(kind, grade, free, frame, message).map_err(Refusal::number)
        },
        read_strict: |kind, grade, number, free, frame, message| {
            by_number::read_strict_free(kind, grade, number, free, frame, message).map_err(Refusal::number)
        },
        // The exported function, whose distance is to be left where it refuses.
        read_near: |kind, grade, samples, message, distance| {
            answered(exported::read_near(kind, grade, samples, message, distance))
        },
        closer: |kind, grade, first, second| {
            answered(exported::closer(kind, grade, first, second)).map(|chosen| chosen as u8)
        },
        // The exported functions, which are to leave `next` and the head where they refuse.
        write_record: |kind, grade, number, message, buffer, place, next| {
            answered(exported::write_record(kind, grade, number, message, buffer, place, next))
        },
        read_record: |buffer, place, frame, head| answered(exported::read_record(buffer, place, frame, head)),
    },
    Coder {
        name: "by hand",
        send: hand::send_free,
        open: |changeover, figures| {
            let (account, number) = hand::open(changeover);
            *figures = by_hand_figures(account);
            opened(number)
        },
        send_counted: |kind, grade, free, message, frame, figures| {
            let mut account = by_hand(figures);
            let answer = hand::send_counted_free(kind, grade, free, message, frame, &mut account);
            *figures = by_hand_figures(account);
            answer
        },
        send_queue: |kind, grade, messages, frames, figures| {
            let mut account = by_hand(figures);
            let queued = hand::send_queue(kind, grade, messages, frames, &mut account);
            *figures = by_hand_figures(account);
            queued
        },
        read_open: hand::read_open_free,
        read_strict: hand::read_strict_free,
        read_near: |kind, grade, samples, message, distance| {
            *distance = hand::read_near(kind, grade, samples, message)?;
            Ok(0)
        },
        closer: hand::closer,
        write_record: |kind, grade, number, message, buffer, place, next| {
            *next = hand::write_record(kind, grade, number, message, buffer, place)?;
            Ok(0)
        },
        read_record: |buffer, place, frame, head| {
            let read = hand::read_record(buffer, place, frame)?;
            *head = (read.kind, read.grade, read.number, read.next);
            Ok(read.energy)
        },
    },
    Coder {
        name: "second coder",
        send: |kind, grade, number, free, message, frame| {
            let sent = free::send_into(kind, grade, number, free, message, frame.len())?;
            narrow(&sent.frame, frame);
            Ok(sent.energy)
        },
        open: |changeover, figures| {
            let (number, account) = account::open(changeover);
            *figures = second_figures(account);
            opened(number)
        },
        send_counted: |kind, grade, free, message, frame, figures| {
            let (sent, account) = free::send_counted(kind, grade, free, message, frame.len(), second(figures))?;
            narrow(&sent.frame, frame);
            *figures = second_figures(account);
            Ok(sent.energy)
        },
        send_queue: |kind, grade, messages, frames, figures| {
            let mut left = wide(frames);
            let queued = account::send_queue(kind, grade, messages, &mut left, second(figures));
            narrow(&left, frames);
            *figures = second_figures(queued.account);
            (queued.sent, queued.number)
        },
        read_open: |kind, grade, free, frame, message| {
            let (read, energy) = free::read_open(kind, grade, free, &wide(frame), message.len())?;
            message.copy_from_slice(&read);
            Ok(energy)
        },
        read_strict: |kind, grade, number, free, frame, message| {
            let (read, energy) = free::read_strict(kind, grade, number, free, &wide(frame), message.len())?;
            message.copy_from_slice(&read);
            Ok(energy)
        },
        read_near: |kind, grade, samples, message, distance| {
            let read = near::read_near(kind, grade, samples, message.len())?;
            message.copy_from_slice(&read.message);
            *distance = read.distance;
            Ok(0)
        },
        closer: recordings::closer,
        write_record: |kind, grade, number, message, buffer, place, next| {
            let (written, after) = records::write(kind, grade, number, message, buffer, place as u64)?;
            buffer.copy_from_slice(&written);
            *next = after as usize;
            Ok(0)
        },
        read_record: |buffer, place, frame, head| {
            let read = records::read(buffer, place as u64, frame.len())?;
            narrow(&read.frame, frame);
            *head = (read.kind, read.grade, read.number, read.after as usize);
            Ok(read.energy)
        },
    },
];

/// What the archive answers.
fn answered(answer: i64) -> Answer {
    match answer {
        0.. => Ok(answer as u64),
        _ => Err(-answer as u8),
    }
}

/// What an opening answers.
fn opened(number: u8) -> Answer {
    match number {
        0 => Ok(0),
        _ => Err(number),
    }
}

fn by_hand(&(count, sum, largest, changeover): &Figures) -> hand::Account {
    hand::Account { count, sum, largest, changeover }
}

fn by_hand_figures(account: hand::Account) -> Figures {
    (account.count, account.sum, account.largest, account.changeover)
}

fn second(&(count, sum, largest, changeover): &Figures) -> account::Account {
    account::Account { count, sum, largest, changeover }
}

fn second_figures(account: account::Account) -> Figures {
    (account.count, account.sum, account.largest, account.changeover)
}

fn wide(frame: &[i32]) -> Vec<i64> {
    frame.iter().map(|&x| x as i64).collect()
}

fn narrow(sent: &[i64], frame: &mut [i32]) {
    for (x, &z) in frame.iter_mut().zip(sent) {
        *x = z as i32;
    }
}
