//! The account: a count of frames, the sum of their powers, the largest energy of their blocks, and the changeover: the count from
//! which on a frame goes by the tie rule of its number, which is the count before it. Sending with it, one message or a queue.

use crate::class;
use crate::frame::{send_by, Format, Sent, Tie};
use crate::refusal;

#[derive(Clone, Copy, Debug)]
pub struct Account {
    pub count: u32,
    pub sum: f64,
    pub largest: u64,
    pub changeover: u32,
}

pub const FULL: u32 = 1_000_000;

impl Account {
    /// An account without a frame.
    pub const fn begun(changeover: u32) -> Account {
        Account { count: 0, sum: 0.0, largest: 0, changeover }
    }

    /// The number under which the next frame is sent: the count, and below the changeover 0, whose rule is the old one.
    pub fn number(&self) -> u32 {
        if self.count >= self.changeover {
            self.count
        } else {
            0
        }
    }

    /// The rule for the next frame.
    pub fn tie(&self) -> Tie {
        Tie::of(self.number())
    }
}

/// Opening an account: the number, and the account that is handed out, with zero in every figure where the changeover is refused.
pub fn open(changeover: u32) -> (u8, Account) {
    match changeover {
        0..=1_000_000 => (0, Account::begun(changeover)),
        _ => (refusal::CHANGEOVER, Account::begun(0)),
    }
}

/// The largest energy among the frame's blocks of 8 coordinates.
pub fn largest_block(frame: &[i64]) -> u64 {
    frame.chunks_exact(8).map(class::energy).max().unwrap_or(0)
}

/// Sending with an account, with the number of coordinates that the caller lends: the frame, and the account grown by it.
pub fn send_counted(
    kind: u8,
    grade: u8,
    message: &[u8],
    coordinates: usize,
    account: Account,
) -> Result<(Sent, Account), u8> {
    let sent = send_by(kind, grade, account.tie(), message, coordinates)?;
    let account = grown(account, &sent.frame)?;
    Ok((sent, account))
}

/// The account grown by a frame.
pub fn grown(account: Account, frame: &[i64]) -> Result<Account, u8> {
    if account.count >= FULL {
        return Err(refusal::ACCOUNT_FULL);
    }
    let power = class::energy(frame) as f64 / frame.len() as f64;
    let largest = account.largest.max(largest_block(frame));
    Ok(Account { count: account.count + 1, sum: account.sum + power, largest, ..account })
}

/// What sending a queue gives: the refusal number, 0 where no message is refused, the number of messages sent, and the account.
#[derive(Clone, Copy, Debug)]
pub struct Queued {
    pub number: u8,
    pub sent: usize,
    pub account: Account,
}

/// Sending a queue: messages of one kind and grade end to end, each sent as with an account, and their frames end to end in
/// the coordinates that the caller lends. It stops at the first message refused.
pub fn send_queue(kind: u8, grade: u8, messages: &[u8], frames: &mut [i64], account: Account) -> Queued {
    let mut queued = Queued { number: 0, sent: 0, account };
    if let Err(number) = send_each(kind, grade, messages, frames, &mut queued) {
        queued.number = number;
    }
    queued
}

/// Sends each message in turn, as far as it goes.
fn send_each(kind: u8, grade: u8, messages: &[u8], frames: &mut [i64], queued: &mut Queued) -> Result<(), u8> {
    let format = Format::new(kind, grade)?;
    let (m, n) = (format.message_bytes(), format.length());
    let messages = messages.chunks_exact(m);
    if !messages.remainder().is_empty() {
        return Err(refusal::MESSAGE_LENGTH);
    }
    if frames.len() != messages.len() * n {
        return Err(refusal::FRAME_LENGTH);
    }
    for (message, frame) in messages.zip(frames.chunks_exact_mut(n)) {
        let (sent, grown) = send_counted(kind, grade, message, n, queued.account)?;
        frame.copy_from_slice(&sent.frame);
        queued.sent += 1;
        queued.account = grown;
    }
    Ok(())
}

#[cfg(test)]
pub mod tests {
    use super::*;
    use crate::frame::send_into;
    use crate::vectors::with_bits;

    /// An account that goes by the old rule throughout.
    const BEGUN: Account = Account::begun(FULL);

    #[test]
    fn power_is_energy_by_length() {
        let (sent, account) = send_counted(3, 1, &[0x00, 0x08], 8, BEGUN).unwrap();
        assert_eq!((sent.energy, account.count, account.sum), (16, 1, 2.0));
        let (_, account) = send_counted(4, 1, &[0x20, 0, 0, 0, 0], 16, account).unwrap();
        assert_eq!((account.count, account.sum), (2, 6.0));
    }

    /// Sends the message with these bits at grade 1; gives the frame's energy and the largest block of the account.
    fn grow(account: &mut Account, kind: u8, bits: &[usize]) -> (u64, u64) {
        let format = Format::new(kind, 1).unwrap();
        let (sent, grown) = send_counted(kind, 1, &with_bits(&format, bits), format.length(), *account).unwrap();
        *account = grown;
        (sent.energy, grown.largest)
    }

    #[test]
    fn largest_of_two_blocks_in_either_order() {
        // Kind 4, scale 8: bits 20 and 28 are s2 of the two blocks, bits 26 and 34 the lower bit of their s8.
        let frame = |first: [i64; 8], second: [i64; 8]| [first, second].concat();
        let (one, two) = ([0, 4, 0, 0, 0, 0, 0, 0], [0, -4, 0, 0, 0, 0, 0, -4]);
        let format = Format::new(4, 1).unwrap();
        let sent = |bits: &[usize]| send_into(4, 1, 0, &with_bits(&format, bits), 16).unwrap().frame;
        assert_eq!(sent(&[20, 26, 28]), frame(two, one));
        assert_eq!(sent(&[20, 28, 34]), frame(one, two));
        for bits in [[20, 26, 28], [20, 28, 34]] {
            assert_eq!(grow(&mut BEGUN.clone(), 4, &bits), (48, 32));
        }
    }

    #[test]
    fn largest_block_of_the_frames_counted() {
        let mut account = BEGUN;
        // The last of 8 blocks, a smaller one, the third of 4 with the same (bit 55 is the top bit of its s8), the fourth of 8.
        assert_eq!(grow(&mut account, 6, &[112 + 56]), (64, 64));
        assert_eq!(grow(&mut account, 3, &[4]), (4, 64));
        assert_eq!(grow(&mut account, 5, &[32, 55]), (80, 64));
        assert_eq!(grow(&mut account, 6, &[112, 112 + 24, 118 + 24]), (192, 128));
        assert_eq!((account.count, account.sum), (4, 1.0 + 0.5 + 2.5 + 3.0));
    }

    #[test]
    fn largest_from_elsewhere() {
        // One message bit of kind 4: a block of energy 16, in a frame of energy 16.
        for (old, new) in [(0, 16), (15, 16), (16, 16), (17, 17), (1 << 32, 1 << 32), (u64::MAX, u64::MAX)] {
            let mut account = Account { largest: old, ..BEGUN };
            assert_eq!(grow(&mut account, 4, &[28]), (16, new));
        }
    }

    #[test]
    fn full_at_a_million_after_the_tests_of_sending() {
        let full = |count| send_counted(3, 1, &[0, 0], 8, Account { count, ..BEGUN }).err();
        assert_eq!(full(FULL - 1), None);
        assert_eq!(full(FULL), Some(refusal::ACCOUNT_FULL));
        assert_eq!(full(u32::MAX), Some(refusal::ACCOUNT_FULL));
        let account = Account { count: FULL, ..BEGUN };
        assert_eq!(send_counted(3, 1, &[0, 0x10], 8, account).err(), Some(refusal::SPARE_BITS));
    }

    /// The rule for the next frame of an account, by someone who does it wrong.
    pub type Rule = fn(&Account) -> Tie;

    pub const WRONG_RULES: [(&str, Rule); 9] = [
        ("the old rule throughout", |_| Tie::First),
        ("the changeover left out", |account| Tie::of(account.count)),
        ("parity exchanged", |account| match account.tie() {
            Tie::First if account.count >= account.changeover => Tie::Last,
            _ => Tie::First,
        }),
        ("the count after the send", |account| Account { count: account.count.wrapping_add(1), ..*account }.tie()),
        ("the old rule at the changeover", |account| match account.count > account.changeover {
            true => Tie::of(account.count),
            false => Tie::First,
        }),
        ("the new rule one frame too soon", |account| match account.count.wrapping_add(1) >= account.changeover {
            true => Tie::of(account.count),
            false => Tie::First,
        }),
        ("old and new exchanged", |account| match account.count >= account.changeover {
            true => Tie::First,
            false => Tie::of(account.count),
        }),
        ("frames numbered from the changeover", |account| match account.count.checked_sub(account.changeover) {
            Some(number) => Tie::of(number),
            None => Tie::First,
        }),
        ("a changeover above 1,000,000 taken for none", |account| match account.changeover {
            0..=FULL => account.tie(),
            _ => Tie::of(account.count),
        }),
    ];

    #[test]
    fn opening() {
        let figures = |account: Account| (account.count, account.sum.to_bits(), account.largest, account.changeover);
        for (changeover, number, kept) in [
            (0, 0, 0),
            (1, 0, 1),
            (999_999, 0, 999_999),
            (1_000_000, 0, 1_000_000),
            (1_000_001, refusal::CHANGEOVER, 0),
            (1 << 31, refusal::CHANGEOVER, 0),
            (u32::MAX, refusal::CHANGEOVER, 0),
        ] {
            let opened = open(changeover);
            assert_eq!((opened.0, figures(opened.1)), (number, (0, 0, 0, kept)));
        }
    }

    /// The first coordinates of the frames of 00 08, which are −4 by the old rule and under even numbers and 4 under odd ones, as often
    /// as the account takes it, five times at most.
    fn firsts(changeover: u32, count: u32) -> Vec<i64> {
        let mut account = Account { count, sum: 0.5, largest: 7, changeover };
        let mut firsts = Vec::new();
        while firsts.len() < 5 {
            let Ok((sent, grown)) = send_counted(3, 1, &[0x00, 0x08], 8, account) else { break };
            assert_eq!(sent.energy, 16);
            assert_eq!((grown.count, grown.changeover, grown.largest), (account.count + 1, changeover, 16));
            assert_eq!(grown.sum, account.sum + 2.0);
            firsts.push(sent.frame[0]);
            account = grown;
        }
        firsts
    }

    #[test]
    fn the_rule_changes_at_the_changeover() {
        assert_eq!(firsts(0, 0), [-4, 4, -4, 4, -4]);
        assert_eq!(firsts(1, 0), [-4, 4, -4, 4, -4]);
        assert_eq!(firsts(2, 0), [-4, -4, -4, 4, -4]);
        assert_eq!(firsts(3, 0), [-4, -4, -4, 4, -4]);
        assert_eq!(firsts(4, 0), [-4, -4, -4, -4, -4]);
        assert_eq!(firsts(5, 1), [-4, -4, -4, -4, 4]);
        assert_eq!(firsts(0, 1), [4, -4, 4, -4, 4]);
        assert_eq!(firsts(2, 2), [-4, 4, -4, 4, -4]);
        assert_eq!(firsts(3, 3), [4, -4, 4, -4, 4]);
        assert_eq!(firsts(0, FULL - 3), [4, -4, 4]);
        assert_eq!(firsts(FULL - 1, FULL - 3), [-4, -4, 4]);
        for changeover in [FULL, FULL + 1, u32::MAX] {
            assert_eq!(firsts(changeover, FULL - 3), [-4, -4, -4]);
        }
        for count in [FULL, FULL + 1, u32::MAX] {
            assert_eq!(firsts(0, count), []);
        }
    }

    #[test]
    fn a_queue_goes_through_its_changeover() {
        let first = |changeover, count| {
            let account = Account { count, changeover, ..BEGUN };
            let mut frames = vec![9; 40];
            let queued = send_queue(3, 1, &[0x00, 0x08].repeat(5), &mut frames, account);
            assert_eq!(queued.account.changeover, changeover);
            frames.chunks_exact(8).take(queued.sent).map(|frame| frame[0]).collect::<Vec<_>>()
        };
        for count in [0, 1, 2, 3, FULL - 5, FULL - 2, FULL] {
            for changeover in [0, 1, 2, 3, 4, 5, 6, FULL - 4, FULL - 1, FULL, u32::MAX] {
                assert_eq!(first(changeover, count), firsts(changeover, count));
            }
        }
    }

    /// What a queue gives: number, messages sent, the account's figures, and the coordinates, which were 9.
    type Given = (u8, usize, (u32, f64, u64), Vec<i64>);

    fn queue_of(kind: u8, grade: u8, messages: &[u8], coordinates: usize, account: Account) -> Given {
        let mut frames = vec![9; coordinates];
        let Queued { number, sent, account } = send_queue(kind, grade, messages, &mut frames, account);
        (number, sent, (account.count, account.sum, account.largest), frames)
    }

    /// The same of kind 3, grade 1.
    fn queue(messages: &[u8], coordinates: usize, account: Account) -> Given {
        queue_of(3, 1, messages, coordinates, account)
    }

    /// The frames of 00 08 and 02 00, of energies 16 and 4.
    const FIRST: [i64; 8] = [-4, 0, 0, 0, 0, 0, 0, 0];
    const SECOND: [i64; 8] = [0, 1, 0, 1, 0, 1, 0, 1];

    #[test]
    fn a_queue_is_sent_up_to_the_first_message_refused() {
        // 00 10 has a spare bit set.
        let whole = queue(&[0x00, 0x08, 0x02, 0x00], 16, BEGUN);
        assert_eq!(whole, (0, 2, (2, 2.5, 16), [FIRST, SECOND].concat()));
        let stopped = queue(&[0x00, 0x08, 0x02, 0x00, 0x00, 0x10, 0x01, 0x00], 32, BEGUN);
        assert_eq!(stopped, (refusal::SPARE_BITS, 2, (2, 2.5, 16), [FIRST, SECOND, [9; 8], [9; 8]].concat()));
        let at_once = queue(&[0x00, 0x10, 0x00, 0x08], 16, Account { count: 7, sum: 0.25, largest: 3, ..BEGUN });
        assert_eq!(at_once, (refusal::SPARE_BITS, 0, (7, 0.25, 3), vec![9; 16]));
    }

    #[test]
    fn an_account_is_full_in_the_middle_of_a_queue() {
        let account = Account { count: FULL - 1, sum: 3.0, largest: 5, ..BEGUN };
        let stopped = queue(&[0x02, 0x00, 0x00, 0x08, 0x00, 0x10], 24, account);
        assert_eq!(stopped, (refusal::ACCOUNT_FULL, 1, (FULL, 3.5, 5), [SECOND, [9; 8], [9; 8]].concat()));
        // The full account's message has a spare bit set: that is tested first.
        let spare = queue(&[0x02, 0x00, 0x00, 0x10, 0x00, 0x08], 24, account);
        assert_eq!(spare, (refusal::SPARE_BITS, 1, (FULL, 3.5, 5), [SECOND, [9; 8], [9; 8]].concat()));
        let last = queue(&[0x00, 0x08], 8, account);
        assert_eq!(last, (0, 1, (FULL, 5.0, 16), FIRST.to_vec()));
    }

    #[test]
    fn an_empty_queue_sends_none() {
        for count in [0, 1, FULL - 1, FULL, u32::MAX] {
            assert_eq!(
                queue(&[], 0, Account { count, sum: -0.5, largest: 9, ..BEGUN }),
                (0, 0, (count, -0.5, 9), vec![])
            );
        }
    }

    #[test]
    fn lengths_of_a_queue_before_anything_is_sent() {
        let account = Account { count: FULL, sum: 1.0, largest: 2, ..BEGUN };
        let number = |kind, grade, bytes: usize, coordinates: usize| {
            let (number, sent, figures, frames) = queue_of(kind, grade, &vec![0xFF; bytes], coordinates, account);
            assert_eq!((sent, figures, frames), (0, (FULL, 1.0, 2), vec![9; coordinates]));
            number
        };
        // Kind 4, grade 1: messages of 5 bytes, frames of 16 coordinates.
        assert_eq!([number(2, 0, 9, 9), number(7, 1, 10, 32), number(2, 1, 0, 0)], [refusal::KIND; 3]);
        assert_eq!([number(4, 0, 9, 9), number(4, 5, 10, 32), number(4, 0, 0, 0)], [refusal::GRADE; 3]);
        assert_eq!([number(4, 1, 9, 32), number(4, 1, 11, 32), number(4, 1, 4, 0)], [refusal::MESSAGE_LENGTH; 3]);
        assert_eq!([number(4, 1, 9, 31), number(4, 1, 12, 33), number(4, 1, 1, 16)], [refusal::MESSAGE_LENGTH; 3]);
        assert_eq!([number(4, 1, 10, 31), number(4, 1, 10, 33), number(4, 1, 10, 0)], [refusal::FRAME_LENGTH; 3]);
        assert_eq!([number(4, 1, 10, 16), number(4, 1, 10, 48), number(4, 1, 0, 16)], [refusal::FRAME_LENGTH; 3]);
        assert_eq!(number(4, 1, 10, 32), refusal::SPARE_BITS);
        assert_eq!(number(5, 1, 16, 64), refusal::ACCOUNT_FULL);
    }
}
