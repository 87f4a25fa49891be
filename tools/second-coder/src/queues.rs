//! Queues of messages for the library to send, with what they must answer and leave, the same on every run.

use crate::account::{largest_block, send_queue, Account, Queued, FULL};
use crate::calls::{changes, figures, write_account, NAN, NEW, NONE, OLD, ONE_FIGURE};
use crate::frame::{send, Format, GRADES, KINDS};
use crate::random::Random;
use crate::test_file::{places, TestFile};
use crate::vectors::{dense, edge, halves, tied_edge, tied_throughout, with_bits};

/// The places that the program has for message bytes and for coordinates.
const BYTES: usize = 288;
const COORDINATES: usize = 392;

/// How many coordinates past those that are lent stand in a record.
const PAST: usize = 8;

/// The coordinate at a place before the call: another one at each place, and none that a frame has.
fn before(place: usize) -> i64 {
    77_777 + place as i64
}

struct Queue {
    kind: u8,
    grade: u8,
    messages: Vec<u8>,
    coordinates: usize,
    account: Account,
}

/// What sending it gives, and the coordinates that it leaves.
type Answer = (Queued, Vec<i64>);

impl Queue {
    /// The coordinates that are lent, and more.
    fn frames(&self) -> Vec<i64> {
        (0..self.coordinates + PAST).map(before).collect()
    }

    fn answer(&self) -> Answer {
        let mut frames = self.frames();
        let lent = &mut frames[..self.coordinates];
        (send_queue(self.kind, self.grade, &self.messages, lent, self.account), frames)
    }

    /// The record of README.md, with this answer.
    fn record(&self, (queued, frames): &Answer) -> Vec<u8> {
        assert!(self.messages.len() <= BYTES && frames.len() <= COORDINATES);
        let mut record = vec![self.kind, self.grade];
        record.extend((self.messages.len() as u16).to_le_bytes());
        record.extend((self.coordinates as u16).to_le_bytes());
        record.extend([queued.number, queued.sent as u8]);
        write_account(self.account, &mut record);
        write_account(queued.account, &mut record);
        record.extend(&self.messages);
        record.extend(frames.iter().flat_map(|x| (*x as i32).to_le_bytes()));
        record
    }

    /// Answers that are right but for one thing: the number, the number sent, a figure of the account, or a coordinate.
    fn wrong_answers(&self) -> Vec<Answer> {
        let right = self.answer();
        let mut wrong = Vec::new();
        let mut change = |change: &dyn Fn(&mut Answer)| {
            let mut answer = right.clone();
            change(&mut answer);
            wrong.push(answer);
        };
        change(&|answer| {
            answer.0.number = match answer.0.number {
                0 => 5,
                5 => 11,
                11 => 0,
                number => number ^ 1,
            }
        });
        change(&|answer| answer.0.sent += 1);
        for figure in ONE_FIGURE {
            change(&|answer| figure(&mut answer.0.account));
        }
        for place in places(self.coordinates, self.coordinates + PAST) {
            change(&|answer| answer.1[place] += 1);
        }
        wrong
    }
}

/// The queues as they are collected.
struct Queues(Vec<Queue>);

impl Queues {
    fn lend(&mut self, kind: u8, grade: u8, messages: &[u8], coordinates: usize, account: Account) {
        self.0.push(Queue { kind, grade, messages: messages.to_vec(), coordinates, account });
    }

    /// With as many coordinates as the messages need.
    fn put(&mut self, kind: u8, grade: u8, messages: &[Vec<u8>], account: Account) {
        self.lend(kind, grade, &messages.concat(), messages.len() << kind, account);
    }
}

/// An account with room for so many frames.
fn room(frames: u32) -> Account {
    Account { count: FULL - frames, ..NONE }
}

/// Messages of random bits.
fn several(format: &Format, count: usize, random: &mut Random) -> Vec<Vec<u8>> {
    (0..count).map(|_| dense(format, random)).collect()
}

/// The exam messages of document 01: from the first on, backwards, and with the refused one among them.
fn document(queues: &mut Queues) {
    let messages = [[0, 0], [1, 0], [2, 0], [0x10, 0], [0, 4], [0x10, 4], [0, 8], [0xF0, 7]].map(Vec::from);
    for count in 1..=8 {
        queues.put(3, 1, &messages[..count], OLD);
    }
    // By the rule of their numbers: of those that have ties the second and the sixth are odd, and from count 1 on the seventh.
    queues.put(3, 1, &messages, NEW);
    queues.put(3, 1, &messages, Account { count: 1, ..NEW });
    let mut backwards = messages.clone();
    backwards.reverse();
    queues.put(3, 1, &backwards, NONE);
    let spare = vec![0x00, 0x10];
    for place in 0..=8 {
        let mut messages = messages.to_vec();
        messages.insert(place, spare.clone());
        queues.put(3, 1, &messages, if place % 2 == 0 { OLD } else { NEW });
    }
    queues.put(3, 1, &[vec![0, 8], vec![2, 0], spare.clone(), vec![1, 0]], OLD);
    queues.put(3, 1, &[spare], OLD);
    let messages = [vec![1, 0, 0, 0, 0], vec![0x20, 0, 0, 0, 0]];
    for account in [OLD, NEW] {
        queues.put(4, 1, &messages, account);
        queues.put(4, 1, &[messages[1].clone(), messages[0].clone()], account);
    }
}

/// No message, with accounts of all sorts.
fn empty(queues: &mut Queues, kind: u8, grade: u8) {
    for count in [FULL - 1, FULL, FULL + 1, u32::MAX] {
        queues.put(kind, grade, &[], Account { count, ..NONE });
    }
    for (sum, changeover) in [(NAN, FULL + 1), (f64::INFINITY, u32::MAX), (-0.0, 17)] {
        queues.put(kind, grade, &[], Account { sum, largest: u64::MAX, changeover, ..NONE });
    }
    queues.put(kind, grade, &[], OLD);
}

/// Good queues of 1 to 6 messages, and one of as many as there is room for.
fn good(queues: &mut Queues, kind: u8, grade: u8, random: &mut Random) {
    let format = Format::new(kind, grade).unwrap();
    for count in 1..=6 {
        queues.put(kind, grade, &several(&format, count, random), OLD);
        let any = |_| if random.one_in(2) { edge(&format, random) } else { dense(&format, random) };
        let messages: Vec<_> = (0..count).map(any).collect();
        queues.put(kind, grade, &messages, NONE);
    }
    queues.put(kind, grade, &several(&format, (COORDINATES - PAST) / format.length(), random), NEW);
}

/// Each spare bit at each place of a queue; those after it are good, or have spare bits set too.
fn spare(queues: &mut Queues, kind: u8, grade: u8, random: &mut Random) {
    let format = Format::new(kind, grade).unwrap();
    for bit in format.message_bits()..8 * format.message_bytes() {
        for place in 0..4 {
            let mut messages = several(&format, 4, random);
            messages[place][bit / 8] |= 1 << (bit % 8);
            if bit % 2 == 1 {
                messages[place + 1..].iter_mut().for_each(|message| message[bit / 8] |= 0xF0);
            }
            queues.put(kind, grade, &messages, NONE);
        }
    }
}

/// An account that becomes full at each place of a queue, behind it, not at all, or was full before.
fn full(queues: &mut Queues, kind: u8, grade: u8, random: &mut Random) {
    let format = Format::new(kind, grade).unwrap();
    let messages = several(&format, 4, random);
    for frames in 0..=5 {
        queues.put(kind, grade, &messages, room(frames));
    }
    for count in [FULL + 1, u32::MAX] {
        queues.put(kind, grade, &messages, Account { count, ..NONE });
    }
}

/// Both: a spare bit at each place, and room for each number of frames before it, up to it or past it.
fn spare_and_full(queues: &mut Queues, kind: u8, grade: u8, random: &mut Random) {
    let format = Format::new(kind, grade).unwrap();
    if format.message_bits() == 8 * format.message_bytes() {
        return;
    }
    for place in 0..4 {
        let mut messages = several(&format, 4, random);
        *messages[place].last_mut().unwrap() |= 0x80;
        for frames in 0..4 {
            queues.put(kind, grade, &messages, room(frames));
        }
    }
}

/// Lengths that do not fit, with everything that is tested later wrong, and with nothing else wrong.
fn lengths(queues: &mut Queues, kind: u8, grade: u8) {
    let format = Format::new(kind, grade).unwrap();
    let (m, n) = (format.message_bytes(), format.length());
    let mut all = vec![(0, 1), (0, n - 1), (0, n), (0, n + 1), (0, 4 * n)];
    for q in [1, 3] {
        for bytes in [m * q - 1, m * q + 1, m * q + m / 2] {
            all.extend([n * q, n * q - 1, n * q + n / 2, n * (q + 1), 0].map(|coordinates| (bytes, coordinates)));
        }
        for coordinates in [n * q - 1, n * q + 1, n * q + n / 2, n * (q - 1), n * (q + 1), 0] {
            all.push((m * q, coordinates));
        }
    }
    for (i, (bytes, coordinates)) in all.into_iter().enumerate() {
        if i % 2 == grade as usize % 2 {
            queues.lend(kind, grade, &vec![0xFF; bytes], coordinates, Account { count: FULL, ..NONE });
        } else {
            queues.lend(kind, grade, &vec![0; bytes], coordinates, OLD);
        }
    }
}

/// Wrong kinds and grades, with everything that is tested later wrong too, with nothing else wrong, and with no message.
fn wrong(queues: &mut Queues) {
    // A kind and grade that there are, whose lengths a wrong one is tried with, stand behind it.
    let mut all = Vec::new();
    for kind in [0, 1, 2, 7, 8, 131, 134, 255] {
        all.extend([0, 1, 4, 5].map(|grade| (kind, grade, (kind & 3) + 3, 1)));
    }
    for kind in KINDS {
        all.extend([0, 5, 6, 129, 255].map(|grade| (kind, grade, kind, 4)));
    }
    for (kind, grade, good_kind, good_grade) in all {
        let over = Account { count: u32::MAX, sum: 0.1, largest: u64::MAX, changeover: u32::MAX };
        queues.lend(kind, grade, &[0xFF; 7], 15, over);
        let format = Format::new(good_kind, good_grade).unwrap();
        queues.lend(kind, grade, &vec![0; 3 * format.message_bytes()], 3 * format.length(), NONE);
        queues.lend(kind, grade, &[], 0, over);
    }
}

/// Accounts from elsewhere: each sum with each figure for the largest block, over queues that are sent whole or are refused.
fn elsewhere(queues: &mut Queues, random: &mut Random) {
    let sums = [NAN, f64::INFINITY, f64::NEG_INFINITY, -0.0, 0.1, 9_007_199_254_740_992.0, f64::MAX, f64::from_bits(1)];
    for (i, sum) in sums.into_iter().enumerate() {
        for j in 0..9 {
            let (kind, grade) = (3 + ((i + j) % 4) as u8, 1 + (i % 4) as u8);
            let format = Format::new(kind, grade).unwrap();
            let mut messages = several(&format, 3, random);
            if j % 2 == 1 {
                messages[1] = tied_edge(&format, random);
            }
            let block = |message: &Vec<u8>| largest_block(&send(kind, grade, 0, message).unwrap().frame);
            let largest = figures(messages.iter().map(block).max().unwrap())[j];
            let count = [0, 1, 12_345, FULL - 3, FULL - 2, FULL - 1, FULL][(i + 2 * j) % 7];
            let account = Account { count, sum, largest, changeover: changes(count)[j % 7] };
            queues.put(kind, grade, &messages, account);
            // Of kinds 3 and 4 again with a spare bit set.
            if kind < 5 {
                *messages[j % 3].last_mut().unwrap() |= 0x10;
                queues.put(kind, grade, &messages, account);
            }
        }
    }
}

/// The largest block in each message of a queue in turn, sent and refused by a full account. With q for (M/2)² the largest
/// of the others is q, and its own 2q.
fn largest(queues: &mut Queues, kind: u8, grade: u8) {
    let format = Format::new(kind, grade).unwrap();
    for place in 0..4 {
        let (second, eighth) = halves(&format, place % (format.length() / 8));
        let mut messages = vec![with_bits(&format, &[second]); 4];
        messages[place] = with_bits(&format, &[second, eighth]);
        queues.put(kind, grade, &messages, OLD);
        queues.put(kind, grade, &messages, Account { count: FULL - place as u32, ..OLD });
    }
}

/// Five messages with ties, from an even and from an odd count on, with a changeover before the first of them, at each place, past the
/// last, and past those that an account may be opened with; and the same up to a full account and up to a spare bit.
fn changeovers(queues: &mut Queues, kind: u8, grade: u8, random: &mut Random) {
    let format = Format::new(kind, grade).unwrap();
    let mut messages = vec![tied_throughout(&format); 5];
    messages[2] = tied_edge(&format, random);
    for count in [0, 7] {
        for changeover in [0, count, count + 1, count + 2, count + 3, count + 4, count + 5, FULL, FULL + 1, u32::MAX] {
            queues.put(kind, grade, &messages, Account { count, sum: 0.5, largest: 1, changeover });
        }
    }
    for changeover in [0, FULL - 3, FULL - 2, FULL - 1, FULL] {
        queues.put(kind, grade, &messages, Account { count: FULL - 3, changeover, ..NONE });
    }
    if format.message_bits() < 8 * format.message_bytes() {
        *messages[3].last_mut().unwrap() |= 0x80;
        for changeover in [0, 18, 19, 20, 21] {
            queues.put(kind, grade, &messages, Account { changeover, ..NONE });
        }
    }
}

/// The queues that are put in.
fn once(put: impl FnOnce(&mut Queues)) -> Vec<Queue> {
    let mut queues = Queues(Vec::new());
    put(&mut queues);
    queues.0
}

/// The queues that are put in for each kind and grade.
fn each(mut put: impl FnMut(&mut Queues, u8, u8)) -> Vec<Queue> {
    once(|queues| KINDS.for_each(|kind| GRADES.for_each(|grade| put(queues, kind, grade))))
}

/// The queues of each sort.
fn sorts() -> [(&'static str, Vec<Queue>); 11] {
    let mut random = Random::new(5);
    let random = &mut random;
    [
        ("exam messages", once(document)),
        ("empty", each(empty)),
        ("good", each(|queues, kind, grade| good(queues, kind, grade, random))),
        ("spare bits", each(|queues, kind, grade| spare(queues, kind, grade, random))),
        ("full accounts", each(|queues, kind, grade| full(queues, kind, grade, random))),
        ("both", each(|queues, kind, grade| spare_and_full(queues, kind, grade, random))),
        ("lengths", each(lengths)),
        ("kinds and grades", once(wrong)),
        ("accounts from elsewhere", once(|queues| elsewhere(queues, random))),
        ("largest blocks", each(largest)),
        ("changeovers", each(|queues, kind, grade| changeovers(queues, kind, grade, random))),
    ]
}

/// A queue that is sent, and queues that are refused at a message, by a full account and before the first message: with these wrong
/// answers are planted.
fn planted() -> Vec<Queue> {
    once(|queues| {
        let tied = |kind, count| vec![tied_throughout(&Format::new(kind, 1).unwrap()); count];
        queues.put(3, 1, &tied(3, 3), NEW);
        let mut messages = tied(4, 4);
        messages[2][4] |= 0x80;
        queues.put(4, 1, &messages, NONE);
        queues.put(5, 1, &tied(5, 3), room(2));
        queues.lend(3, 1, &[0; 5], 24, Account { sum: -0.0, ..NONE });
    })
}

/// What the program counts: queues by the way they are sent.
const CHECKS: [&str; 3] = ["in one call", "exported", "one by one"];

/// What stands in the file: how many queues of each sort, how many are answered by each number, and how many have a wrong answer.
pub struct Counts {
    pub sorts: Vec<(&'static str, usize)>,
    pub numbers: [usize; 14],
    pub wrong: usize,
}

/// All queues in the format of README.md, those with wrong answers and one that is cut short last; and their counts.
pub fn queue_file() -> (TestFile, Counts) {
    let sorts = sorts();
    let of_sort = sorts.iter().map(|(name, queues)| (*name, queues.len())).collect();
    let mut counts = Counts { sorts: of_sort, numbers: [0; 14], wrong: 0 };
    let mut file = TestFile::new(&CHECKS, "queue");
    let mut put = |queue: &Queue, answer: &Answer, right: bool| {
        // One by one where, by the answer, nothing is refused before the first message.
        let ways = if [0, 5, 11].contains(&answer.0.number) { 3 } else { 2 };
        file.put(&queue.record(answer), &[0, 1, 2].map(|way| (way, right))[..ways]);
    };
    for queue in sorts.iter().flat_map(|(_, queues)| queues) {
        let answer = queue.answer();
        counts.numbers[answer.0.number as usize] += 1;
        put(queue, &answer, true);
    }
    for queue in planted() {
        for answer in queue.wrong_answers() {
            counts.wrong += 1;
            put(&queue, &answer, false);
        }
    }
    let first = &sorts[0].1[0];
    file.cut_short(&first.record(&first.answer()));
    (file, counts)
}

#[cfg(test)]
mod tests {
    use super::*;
    use crate::account::send_counted;
    use crate::account::tests::WRONG_RULES;
    use crate::frame::{send_by, Tie};
    use crate::test_file::fields_apart;

    /// What someone could answer who does it wrong, from the queue and the right answer.
    type Wrong = fn(&Queue, Answer) -> Answer;

    fn format(queue: &Queue) -> Format {
        Format::new(queue.kind, queue.grade).unwrap()
    }

    /// Whether a message was refused, after the lengths.
    fn stopped(answer: &Answer) -> bool {
        [5, 11].contains(&answer.0.number)
    }

    /// The answer with another account lent.
    fn with_account(queue: &Queue, account: Account) -> Answer {
        Queue { messages: queue.messages.clone(), account, ..*queue }.answer()
    }

    /// The refused message sent all the same, without its spare bits, and with an account that is not full.
    fn refused_sent(queue: &Queue, answer: &Answer) -> (Vec<i64>, Account) {
        let (m, n) = (format(queue).message_bytes(), format(queue).length());
        let mut message = queue.messages[m * answer.0.sent..][..m].to_vec();
        if queue.kind < 5 {
            message[m - 1] &= 0x0F;
        }
        let count = answer.0.account.count;
        let account = Account { count: 0, ..answer.0.account };
        let (sent, grown) = send_counted(queue.kind, queue.grade, &message, n, account).unwrap();
        (sent.frame, Account { count: count.wrapping_add(1), ..grown })
    }

    /// The frames that were sent, each by the rule for its place in the queue and the account before it: in its first block, and past it.
    fn by_rules(queue: &Queue, mut answer: Answer, rule: impl Fn(usize, &Account) -> [Tie; 2]) -> Answer {
        let (m, n) = if answer.0.sent > 0 { (format(queue).message_bytes(), format(queue).length()) } else { (1, 1) };
        for i in 0..answer.0.sent {
            let message = &queue.messages[m * i..][..m];
            let account = Account { count: queue.account.count + i as u32, ..queue.account };
            let [first, rest] =
                rule(i, &account).map(|tie| send_by(queue.kind, queue.grade, tie, message, n).unwrap().frame);
            answer.1[n * i..][..8].copy_from_slice(&first[..8]);
            answer.1[n * i..][8..n].copy_from_slice(&rest[8..]);
        }
        answer
    }

    /// The same with one rule for the frame.
    fn by_rule(queue: &Queue, answer: Answer, rule: impl Fn(usize, &Account) -> Tie) -> Answer {
        by_rules(queue, answer, |i, account| [rule(i, account); 2])
    }

    const ALL: [(&str, Wrong); 28] = [
        ("all or nothing", |queue, right| match right.0.number {
            0 => right,
            number => (Queued { number, sent: 0, account: queue.account }, queue.frames()),
        }),
        ("a refusal gives the account as it came", |queue, mut right| {
            if right.0.number != 0 {
                right.0.account = queue.account;
            }
            right
        }),
        ("a refusal gives no number sent", |_, mut right| {
            if right.0.number != 0 {
                right.0.sent = 0;
            }
            right
        }),
        ("the refused message counted as sent", |_, mut right| {
            right.0.sent += stopped(&right) as usize;
            right
        }),
        ("the refused message added", |queue, mut right| {
            if stopped(&right) {
                right.0.account = refused_sent(queue, &right).1;
            }
            right
        }),
        ("the refused message written", |queue, mut right| {
            if stopped(&right) {
                let frame = refused_sent(queue, &right).0;
                right.1[frame.len() * right.0.sent..][..frame.len()].copy_from_slice(&frame);
            }
            right
        }),
        ("the rest cleared", |queue, mut right| {
            if stopped(&right) {
                right.1[format(queue).length() * right.0.sent..queue.coordinates].fill(0);
            }
            right
        }),
        ("on past the refused", |queue, mut right| {
            if right.0.number == 5 {
                let (m, n) = (format(queue).message_bytes(), format(queue).length());
                let next = right.0.sent + 1;
                let rest = &mut right.1[n * next..queue.coordinates];
                let on = send_queue(queue.kind, queue.grade, &queue.messages[m * next..], rest, right.0.account);
                right.0 = Queued { number: 5, sent: right.0.sent + on.sent, account: on.account };
            }
            right
        }),
        ("a full account before spare bits", |_, mut right| {
            if right.0.number == 5 && right.0.account.count >= FULL {
                right.0.number = 11;
            }
            right
        }),
        ("a full account tested once", |queue, right| match right.0.number {
            11 if right.0.sent > 0 => {
                let (mut queued, frames) = with_account(queue, Account { count: 0, ..queue.account });
                queued.account.count += queue.account.count;
                (queued, frames)
            }
            _ => right,
        }),
        ("an empty queue with a full account is 11", |queue, mut right| {
            if queue.messages.is_empty() && right.0.number == 0 && queue.account.count >= FULL {
                right.0.number = 11;
            }
            right
        }),
        ("an empty queue is 3", |queue, mut right| {
            if queue.messages.is_empty() && right.0.number == 0 {
                right.0.number = 3;
            }
            right
        }),
        ("an empty queue is not tested", |queue, mut right| {
            if queue.messages.is_empty() && queue.coordinates == 0 {
                right.0.number = 0;
            }
            right
        }),
        ("bytes past the last message left out", |queue, right| match right.0.number {
            3 => {
                let m = format(queue).message_bytes();
                let messages = queue.messages[..queue.messages.len() / m * m].to_vec();
                Queue { messages, ..*queue }.answer()
            }
            _ => right,
        }),
        ("coordinates past the last frame left out", |queue, mut right| {
            let needed = |format: Format| queue.messages.len() / format.message_bytes() * format.length();
            if right.0.number == 4 && needed(format(queue)) < queue.coordinates {
                let lent = &mut right.1[..needed(format(queue))];
                right.0 = send_queue(queue.kind, queue.grade, &queue.messages, lent, queue.account);
            }
            right
        }),
        ("4 before 3", |queue, mut right| {
            if right.0.number == 3 {
                let (m, n) = (format(queue).message_bytes(), format(queue).length());
                right.0.number = if queue.coordinates == queue.messages.len() / m * n { 3 } else { 4 };
            }
            right
        }),
        ("the sum of the powers added at the end", |queue, mut right| {
            let powers = with_account(queue, Account { sum: 0.0, ..queue.account }).0.account.sum;
            right.0.account.sum = queue.account.sum + powers;
            right
        }),
        ("the number does not grow", |queue, right| by_rule(queue, right, |_, _| queue.account.tie())),
        ("the number is the place in the queue", |queue, right| {
            by_rule(queue, right, |i, account| match account.count >= account.changeover {
                true => Tie::of(i as u32),
                false => Tie::First,
            })
        }),
        ("the changeover looked at once", |queue, right| {
            by_rule(queue, right, |_, account| match queue.account.count >= queue.account.changeover {
                true => Tie::of(account.count),
                false => Tie::First,
            })
        }),
        ("the changeover is a place in the queue", |queue, right| {
            by_rule(queue, right, |i, account| match i as u32 >= account.changeover {
                true => Tie::of(account.count),
                false => Tie::First,
            })
        }),
        ("the rule in the first block alone", |queue, right| {
            by_rules(queue, right, |_, account| [account.tie(), Tie::First])
        }),
        ("the rule past the first block alone", |queue, right| {
            by_rules(queue, right, |_, account| [Tie::First, account.tie()])
        }),
        ("the changeover given back as 0", |_, mut right| {
            right.0.account.changeover = 0;
            right
        }),
        ("the changeover given back as 0 once it is reached", |_, mut right| {
            if right.0.sent > 0 && right.0.account.count >= right.0.account.changeover {
                right.0.account.changeover = 0;
            }
            right
        }),
        ("a changeover above 1,000,000 cut", |_, mut right| {
            right.0.account.changeover = right.0.account.changeover.min(FULL);
            right
        }),
        ("a changeover above 1,000,000 is 14", |queue, right| match right.0.number {
            0 if queue.account.changeover > FULL => {
                (Queued { number: 14, sent: 0, account: queue.account }, queue.frames())
            }
            _ => right,
        }),
        ("the largest block forgotten", |queue, mut right| {
            if right.0.sent > 0 {
                right.0.account.largest =
                    with_account(queue, Account { largest: 0, ..queue.account }).0.account.largest;
            }
            right
        }),
    ];

    /// Each wrong answer is told apart at each kind that can have it: kinds 5 and 6 have no spare bits, and a frame of kind 3 is one block.
    #[test]
    fn wrong_answers_are_told_apart() {
        let queues: Vec<Queue> = sorts().into_iter().flat_map(|(_, queues)| queues).collect();
        for (name, wrong) in ALL {
            for kind in KINDS {
                let told = |queue: &Queue| {
                    let right = queue.answer();
                    queue.record(&wrong(queue, right.clone())) != queue.record(&right)
                };
                let none = match name {
                    "on past the refused" | "a full account before spare bits" => kind >= 5,
                    "the rule in the first block alone" => kind == 3,
                    _ => false,
                };
                let any = queues.iter().any(|queue| queue.kind == kind && told(queue));
                assert_eq!(any, !none, "kind {kind}, {name}");
            }
        }
    }

    /// So is each wrong rule of an account, at each kind and grade.
    #[test]
    fn wrong_rules_are_told_apart() {
        for (_, queues) in sorts().into_iter().filter(|(name, _)| *name == "changeovers") {
            for (name, rule) in WRONG_RULES {
                for (kind, grade) in KINDS.flat_map(|kind| GRADES.map(move |grade| (kind, grade))) {
                    let told = queues.iter().filter(|queue| (queue.kind, queue.grade) == (kind, grade)).any(|queue| {
                        let right = queue.answer();
                        by_rule(queue, right.clone(), |_, account| rule(account)).1 != right.1
                    });
                    assert!(told, "kind {kind}, grade {grade}, {name}");
                }
            }
        }
    }

    /// A planted record differs from the right one in one thing alone that is answered or left, and no two are the same.
    #[test]
    fn one_thing_is_wrong() {
        for queue in planted() {
            let coordinates = queue.coordinates + PAST;
            let account = [4, 8, 8, 4];
            let head = [1, 1, 2, 2, 1, 1].into_iter().chain(account).chain(account);
            let sizes: Vec<usize> = head.chain([queue.messages.len()]).chain(vec![4; coordinates]).collect();
            let right = queue.record(&queue.answer());
            let wrong: Vec<Vec<u8>> = queue.wrong_answers().iter().map(|answer| queue.record(answer)).collect();
            for (i, record) in wrong.iter().enumerate() {
                assert_eq!(fields_apart(&right, record, sizes.clone()), 1);
                // What is lent is the same.
                let messages = 56..56 + queue.messages.len();
                assert_eq!((&right[..6], &right[8..32]), (&record[..6], &record[8..32]));
                assert_eq!(right[messages.clone()], record[messages]);
                assert!(!wrong[..i].contains(record));
            }
        }
    }

    #[test]
    fn every_number_of_a_queue_comes() {
        let (file, Counts { sorts, numbers, .. }) = queue_file();
        assert!((0..14).all(|number| (numbers[number] > 0) == [0, 1, 2, 3, 4, 5, 11].contains(&number)));
        assert_eq!(sorts.iter().map(|(_, count)| count).sum::<usize>(), numbers.iter().sum());
        assert!(file.bytes == queue_file().0.bytes);
    }
}
