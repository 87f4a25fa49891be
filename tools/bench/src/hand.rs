//! A hand-tuned coder of document 01 in portable Rust: no intrinsics and no unsafe code.
//!
//! A block is an array of eight i32, and its loops have no branches, so that the compiler can put
//! them into lanes. A codeword is the sum modulo 2 of the rows of its message bits; backwards it goes
//! through the transform in place. It is a u32 up to 32 positions; at 64 it is a u64, and four message
//! bits at a time are looked up. Numbers stand in the message by shifts.
//!
//! # Rounding finds the first of the least members
//!
//! The class of a block x is W ∪ V, where W is all x − M·u and V all x − H − M·u, H = M/2, over
//! whole u with even sum (`w = 2u` and `w = 2u + 1` of twice a point of E8; 8 ones add 8 to the
//! sum of w, which 4 divides). V is the W of x − H. So take W.
//!
//! Let c be x with each coordinate rounded into [−H, H): c = x − M·u. Any member of W has at each
//! coordinate c_i + M·k_i, k_i whole, the sum of the k_i even or odd as the sum of u is.
//! - Even. c is a member. Each |c_i| is least in its residue class; the others of that size are
//!   only +H beside −H, which is larger. So c has least energy, and every member of that energy
//!   has each coordinate c_i or larger: c is the first.
//! - Odd. Some k_i is odd, which costs at least M(M − 2|c_i|) ≥ 0 over c_i², by going to
//!   c_i − M where c_i ≥ 0 and to c_i + M where c_i < 0 (from 0 also to +M, which is larger than
//!   −M). Let m be the largest |c_i|. Changing one coordinate of size m costs M(M − 2m), the least.
//!   If m < H, any further change costs more than 0, so the least members change exactly one
//!   coordinate of size m. Of these, one that changes coordinate i from c_i = m ≥ 0 to m − M comes
//!   before all that change a later coordinate, and before all that change an earlier one from −m
//!   to M − m. So: the first i with c_i = +m; if there is none, the last i with c_i = −m.
//!   If m = H, then c_i = −H only (+H is not in the range), the cost is 0, and the least members
//!   are those with an odd number of the −H changed to +H; the first of them changes the last −H
//!   alone. The same rule says so.
//! - The rule is one largest key: |32·c_i + 15 − 2i|. For c_i = +m it lies from 32m + 1 to
//!   32m + 15, falling with i; for c_i = −m from 32m − 15 to 32m − 1, rising with i. No two
//!   coordinates have the same key, and m is (key + 16) / 32.
//!
//! The half part needs no second rounding. Let d be x − H rounded into [−H, H): d_i is c_i − H
//! where c_i ≥ 0, and c_i + H where c_i < 0. So |d_i| = H − |c_i|, and the key of d_i is 32·H less
//! the key of c_i: in V the coordinate to change is the one whose c_i has the smallest key. Before
//! any change V's energy is M·(2M − the sum of |c_i|) more than W's; a change costs M·(M − 2m) in W
//! and M·2m in V, m being the size |c_i| of the coordinate changed.
//!
//! Members of W and V differ at every coordinate, since their residues modulo M differ by H. So
//! the first of all is the one of less energy, and at equal energy the one whose first coordinate
//! is smaller. Where c_0 ≥ 0, W's is c_0 or c_0 − M, and V's is c_0 − H or c_0 + H: V's is the
//! smaller just when neither is changed. Where c_0 < 0, the other way round.
//!
//! # And, for an odd number, the last
//!
//! The class of −x is that of x with every sign changed, since the points of the lattice come in pairs ±. The
//! energies are the same, and the reading order is turned round: the last of the least members of x's class
//! is the first of those of −x's, with every sign changed.
//!
//! # Large coordinates
//!
//! A block is rounded and reduced modulo 2^32. That is an even multiple of each scale, so that it is a point of the lattice at each
//! coordinate, and any i32 is taken. The energy of a frame that is read is 64·2^48 at most, in 64 bits; that of a frame past the
//! range may go round, and is not given.
//!
//! # Free bits
//!
//! The last bits of a message are those of the last block: fillings differ in that block alone, and the filling that is sent is the
//! first whose last block is least. What a filling adds to the block's leader is the same for every message, so any member of the
//! class of one filling gives a member of each: the block that is sent for one, or that is read, and what the other filling has more.

#![forbid(unsafe_code)]

mod near;
mod records;

use std::array::from_fn;

pub use records::{read_record, write_record, Record};

/// The refusals of document 01, by number.
pub mod refusal {
    pub const KIND: u8 = 1;
    pub const GRADE: u8 = 2;
    pub const MESSAGE_LENGTH: u8 = 3;
    pub const FRAME_LENGTH: u8 = 4;
    pub const SPARE_BITS: u8 = 5;
    pub const OVER_RANGE: u8 = 6;
    pub const BROKEN_LEVEL_0: u8 = 7;
    pub const BROKEN_LEVEL_1: u8 = 8;
    pub const UNSHAPED: u8 = 9;
    pub const MARK: u8 = 10;
    pub const ACCOUNT_FULL: u8 = 11;
    pub const BROKEN_LEVEL_2: u8 = 13;
    pub const CHANGEOVER: u8 = 14;
    pub const UNFIT_SAMPLE: u8 = 15;
    pub const TOO_FAR: u8 = 16;
    pub const FREE_COUNT: u8 = 17;
    pub const AT_ODDS: u8 = 18;
    pub const RECORD_END: u8 = 19;
}

/// What is asked of a block, each compiled by itself: nothing, as in the open reading; to be the first of the least members
/// of its class, as under an even number; or the last, as under an odd one.
mod rule {
    pub const NONE: u8 = 0;
    pub const FIRST: u8 = 1;
    pub const LAST: u8 = 2;
}

/// Whether a number is odd.
fn odd(number: u32) -> bool {
    number & 1 == 1
}

/// The largest size of a coordinate that is read.
pub const FURTHEST: i32 = 16_777_216;
const FULL: u32 = 1_000_000;
const MOST_FREE: u8 = 4;

/// The masks of N positions, by number of set bits, then by value.
const fn order<const N: usize>() -> [u32; N] {
    let mut masks = [0; N];
    let (mut next, mut weight) = (0, 0);
    while next < N {
        let mut mask = 0;
        while mask < N as u32 {
            if mask.count_ones() == weight {
                masks[next] = mask;
                next += 1;
            }
            mask += 1;
        }
        weight += 1;
    }
    masks
}

/// For each message bit, the positions whose value it is part of: those its mask lies in.
const fn long_rows<const N: usize>() -> [u64; N] {
    let masks = order::<N>();
    let mut rows = [0; N];
    let mut k = 0;
    while k < N {
        let mut p = 0;
        while p < N as u32 {
            if masks[k] & p == masks[k] {
                rows[k] |= 1 << p;
            }
            p += 1;
        }
        k += 1;
    }
    rows
}

/// The same for 32 positions at most.
const fn rows<const N: usize>() -> [u32; N] {
    let long = long_rows::<N>();
    let mut rows = [0; N];
    let mut k = 0;
    while k < N {
        rows[k] = long[k] as u32;
        k += 1;
    }
    rows
}

/// For each four bits of a word and each value of them, the sum modulo 2 of their rows.
type Sums = [[u64; 16]; 16];

const fn sums(rows: &[u64; 64]) -> Sums {
    let mut sums = [[0; 16]; 16];
    let mut k = 0;
    while k < 64 {
        let mut bits = 0;
        while bits < 16 {
            if bits >> (k % 4) & 1 == 1 {
                sums[k / 4][bits] ^= rows[k];
            }
            bits += 1;
        }
        k += 1;
    }
    sums
}

/// For each mask, its place in the order, as a word with that bit set.
const fn places() -> [u64; 64] {
    let masks = order::<64>();
    let mut places = [0; 64];
    let mut k = 0;
    while k < 64 {
        places[masks[k] as usize] = 1 << k;
        k += 1;
    }
    places
}

static ORDER_3: [u32; 8] = order();
static ORDER_4: [u32; 16] = order();
static ORDER_5: [u32; 32] = order();
static ROWS_3: [u32; 8] = rows();
static ROWS_4: [u32; 16] = rows();
static ROWS_5: [u32; 32] = rows();
static ROW_SUMS_6: Sums = sums(&long_rows());
static PLACE_SUMS_6: Sums = sums(&places());

/// The sum modulo 2 of the rows whose message bits are set.
#[inline(always)]
fn sum_of_rows(rows: &[u32], bits: u32) -> u32 {
    let mut sum = 0;
    for (k, row) in rows.iter().enumerate() {
        sum ^= row & (bits >> k & 1).wrapping_neg();
    }
    sum
}

/// The same for a word of 64 bits, of which this many can be set.
#[inline(always)]
fn looked_up(sums: &Sums, count: usize, bits: u64) -> u64 {
    let mut sum = 0;
    for (k, sums) in sums[..count.div_ceil(4)].iter().enumerate() {
        sum ^= sums[(bits >> (4 * k) & 15) as usize];
    }
    sum
}

/// For each mask, the parity of the word at all positions that lie in it; at most 32 positions.
#[inline(always)]
fn parities(word: u32) -> u32 {
    let word = word ^ (word & 0x5555_5555) << 1;
    let word = word ^ (word & 0x3333_3333) << 2;
    let word = word ^ (word & 0x0F0F_0F0F) << 4;
    let word = word ^ (word & 0x00FF_00FF) << 8;
    word ^ word << 16
}

/// The same for 64 positions.
#[inline(always)]
fn long_parities(word: u64) -> u64 {
    let half = parities(word as u32);
    half as u64 | ((parities((word >> 32) as u32) ^ half) as u64) << 32
}

/// The bits at the masks, in the order given.
#[inline(always)]
fn gathered(masks: &[u32], parities: u32) -> u32 {
    let mut bits = 0;
    for (k, mask) in masks.iter().enumerate() {
        bits |= (parities >> mask & 1) << k;
    }
    bits
}

/// What a kind and a grade fix.
struct Format<const KIND: usize, const B: usize>;

impl<const KIND: usize, const B: usize> Format<KIND, B> {
    const N: usize = 1 << KIND;
    const BLOCKS: usize = Self::N / 8;
    /// The number of levels, and the dimensions of their codes; 0 where a kind has no such level.
    const A: usize = [1, 2, 2, 3][KIND - 3];
    const LEVEL_0: usize = KIND + 1;
    const LEVEL_1: usize = [0, 15, 26, 42][KIND - 3];
    const LEVEL_2: usize = [0, 0, 0, 63][KIND - 3];
    const LEVELS: usize = Self::LEVEL_0 + Self::LEVEL_1 + Self::LEVEL_2;
    const BYTES: usize = (Self::LEVELS + Self::N * B).div_ceil(8);
    /// Message bits of the levels in whole bytes, and those left over, which begin the next byte.
    const WHOLE: usize = Self::LEVELS / 8;
    const OVER: usize = Self::LEVELS % 8;
    /// Message bits in the last byte.
    const LAST: usize = if Self::OVER == 0 { 8 } else { Self::OVER };
    /// The scale is 2^K.
    const K: u32 = (Self::A + B) as u32;

    /// The codeword of the level whose message bits begin here, as many as the dimension.
    #[inline(always)]
    fn codeword(dimension: usize, message: &[u8], start: usize) -> u64 {
        let end = start + dimension;
        let bits = load(&message[start / 8..end.div_ceil(8)]) >> (start % 8) & ((1 << dimension) - 1);
        match KIND {
            3 => sum_of_rows(&ROWS_3[..dimension], bits as u32) as u64,
            4 => sum_of_rows(&ROWS_4[..dimension], bits as u32) as u64,
            5 => sum_of_rows(&ROWS_5[..dimension], bits as u32) as u64,
            _ => looked_up(&ROW_SUMS_6, dimension, bits),
        }
    }

    /// The message bits of a codeword; none where the word is not one.
    #[inline(always)]
    fn message_bits(dimension: usize, word: u64) -> Option<u64> {
        let (taken, others) = match KIND {
            3 => ORDER_3.split_at(dimension),
            4 => ORDER_4.split_at(dimension),
            5 => ORDER_5.split_at(dimension),
            _ => {
                let bits = looked_up(&PLACE_SUMS_6, 64, long_parities(word));
                return (bits >> dimension == 0).then_some(bits);
            }
        };
        let parities = parities(word as u32);
        let others = others.iter().fold(0, |sum, mask| sum | 1 << mask);
        (parities & others == 0).then(|| gathered(taken, parities) as u64)
    }

    /// Where number i of a block begins in its message bits.
    const fn place(i: usize) -> usize {
        (B * i).saturating_sub(1)
    }

    /// s1 to s8 of a block's 8·B message bits.
    #[inline(always)]
    fn unpack(bits: u32) -> [i32; 8] {
        from_fn(|i| {
            let width = [B - 1, B, B, B, B, B, B, B + 1][i];
            (bits >> Self::place(i)) as i32 & ((1 << width) - 1)
        })
    }

    /// The 8·B message bits to which a block reduces.
    #[inline(always)]
    fn reduce(x: &[i32; 8]) -> u32 {
        // In units of 2^a, modulo 4h; h is half of 2^B.
        let h = 1i32 << (B - 1);
        // The first row, h in every coordinate, as often as brings the first into [0, h).
        let first = (x[0] >> Self::A) & -h;
        // Rows 2 to 7, each 2h also in the eighth: the parity of their number moves s8 by 2h.
        let (mut bits, mut odd) = (0, 0);
        for (i, x) in x.iter().enumerate() {
            let d = (x >> Self::A).wrapping_sub(first);
            bits |= ((d & (2 * h - 1)) as u32) << Self::place(i);
            odd ^= d;
        }
        bits | ((odd & (2 * h)) as u32) << Self::place(7)
    }

    /// What a filling adds to the leader of the last block, where so many bits are free: four bits lie in the last three numbers.
    #[inline(always)]
    fn added(free: u8, filling: u32) -> [i32; 8] {
        let bits = filling << (8 * B - free as usize);
        let [six, seven, eight] = [(5, B), (6, B), (7, B + 1)]
            .map(|(i, width)| ((bits >> Self::place(i)) as i32 & ((1 << width) - 1)) << Self::A);
        [0, 0, 0, 0, 0, six, seven, eight]
    }

    /// The tests of sending, with so many coordinates lent.
    #[inline(always)]
    fn test(message: &[u8], length: usize) -> Result<(), u8> {
        if message.len() != Self::BYTES {
            return Err(refusal::MESSAGE_LENGTH);
        }
        if length != Self::N {
            return Err(refusal::FRAME_LENGTH);
        }
        if Self::OVER != 0 && message[Self::BYTES - 1] >> Self::OVER != 0 {
            return Err(refusal::SPARE_BITS);
        }
        Ok(())
    }

    /// The same with free bits, which lie in the last byte too.
    #[inline(always)]
    fn test_free(free: u8, message: &[u8], length: usize) -> Result<(), u8> {
        if free > MOST_FREE {
            return Err(refusal::FREE_COUNT);
        }
        Self::test(message, length)?;
        if message[Self::BYTES - 1] >> (Self::LAST - free as usize) != 0 {
            return Err(refusal::SPARE_BITS);
        }
        Ok(())
    }

    /// Fills the frame of a message that is tested, and gives its energy; `each` is shown that of every block.
    #[inline(always)]
    fn fill<const RULE: u8>(message: &[u8], frame: &mut [i32], mut each: impl FnMut(i32)) -> u64 {
        let c0 = Self::codeword(Self::LEVEL_0, message, 0);
        let c1 = Self::codeword(Self::LEVEL_1, message, Self::LEVEL_0);
        let c2 = Self::codeword(Self::LEVEL_2, message, Self::LEVEL_0 + Self::LEVEL_1);
        let mut energy = 0;
        for (j, block) in frame.as_chunks_mut::<8>().0.iter_mut().enumerate() {
            let start = Self::WHOLE + B * j;
            let bits = load(&message[start..start + B + (Self::OVER != 0) as usize]) >> Self::OVER;
            let s = Self::unpack(bits as u32);
            let [w0, w1, w2] = [c0, c1, c2].map(|c| (c >> (8 * j)) as u8 as i32);
            let x = from_fn(|i| (s[i] << Self::A) + 4 * (w2 >> i & 1) + 2 * (w1 >> i & 1) + (w0 >> i & 1));
            *block = shaped::<RULE>(Self::K, &x);
            let own = block.iter().map(|z| z * z).sum::<i32>();
            each(own);
            energy += own;
        }
        energy as u64
    }

    /// Puts in place of the last block, which is that of filling 0, the least of all fillings, the first where several are; gives by
    /// how much the energy is less.
    #[inline(always)]
    fn quiet<const RULE: u8>(free: u8, frame: &mut [i32]) -> u64 {
        let last = &mut frame.as_chunks_mut::<8>().0[Self::BLOCKS - 1];
        let (first, loud) = (*last, square(last));
        let mut least = loud;
        for filling in 1..1 << free {
            let added = Self::added(free, filling);
            let block = shaped::<RULE>(Self::K, &from_fn(|i| first[i] + added[i]));
            let energy = square(&block);
            if energy < least {
                (*last, least) = (block, energy);
            }
        }
        (loud - least) as u64
    }

    fn send(number: u32, message: &[u8], frame: &mut [i32]) -> Result<u64, u8> {
        Self::test(message, frame.len())?;
        Ok(match odd(number) {
            false => Self::fill::<{ rule::FIRST }>(message, frame, |_| ()),
            true => Self::fill::<{ rule::LAST }>(message, frame, |_| ()),
        })
    }

    /// With free bits: as without, and then the last block for the other fillings.
    fn send_free(number: u32, free: u8, message: &[u8], frame: &mut [i32]) -> Result<u64, u8> {
        Self::test_free(free, message, frame.len())?;
        let energy = send(KIND as u8, B as u8, number, message, frame)?;
        Ok(match odd(number) {
            false => energy - Self::quiet::<{ rule::FIRST }>(free, frame),
            true => energy - Self::quiet::<{ rule::LAST }>(free, frame),
        })
    }

    #[inline(always)]
    fn send_counted(message: &[u8], frame: &mut [i32], account: &mut Account) -> Result<u64, u8> {
        Self::test(message, frame.len())?;
        if account.count >= FULL {
            return Err(refusal::ACCOUNT_FULL);
        }
        let mut largest = 0;
        let each = |own: i32| largest = own.max(largest);
        let energy = match odd(account.number()) {
            false => Self::fill::<{ rule::FIRST }>(message, frame, each),
            true => Self::fill::<{ rule::LAST }>(message, frame, each),
        };
        account.count += 1;
        account.sum += energy as f64 / Self::N as f64;
        account.largest = account.largest.max(largest as u64);
        Ok(energy)
    }

    fn send_counted_free(free: u8, message: &[u8], frame: &mut [i32], account: &mut Account) -> Result<u64, u8> {
        Self::test_free(free, message, frame.len())?;
        if account.count >= FULL {
            return Err(refusal::ACCOUNT_FULL);
        }
        let energy = Self::send_free(account.number(), free, message, frame)?;
        let largest = frame.as_chunks::<8>().0.iter().map(square).max().unwrap_or(0);
        account.count += 1;
        account.sum += energy as f64 / Self::N as f64;
        account.largest = account.largest.max(largest as u64);
        Ok(energy)
    }

    fn send_queue(messages: &[u8], frames: &mut [i32], account: &mut Account) -> Result<(usize, u8), u8> {
        let count = messages.len() / Self::BYTES;
        if messages.len() != count * Self::BYTES {
            return Err(refusal::MESSAGE_LENGTH);
        }
        if frames.len() != count * Self::N {
            return Err(refusal::FRAME_LENGTH);
        }
        let turns = messages.chunks_exact(Self::BYTES).zip(frames.chunks_exact_mut(Self::N));
        for (sent, (message, frame)) in turns.enumerate() {
            if let Err(number) = Self::send_counted(message, frame, account) {
                return Ok((sent, number));
            }
        }
        Ok((count, 0))
    }

    /// Whether another filling is sent than that of this last block, which is the one in the message bits that it reduces to: one with
    /// a block of less energy, or a smaller one with a block of as much.
    #[inline(never)]
    fn outdone<const RULE: u8>(free: u8, block: &[i32; 8], bits: u32) -> bool {
        let (own, energy) = (bits >> (8 * B - free as usize), square(block));
        let taken_off = Self::added(free, own);
        (0..1 << free).any(|filling| {
            let added = Self::added(free, filling);
            let other = square(&shaped::<RULE>(Self::K, &from_fn(|i| block[i] - taken_off[i] + added[i])));
            other < energy + (filling < own) as i32
        })
    }

    #[inline(always)]
    fn read<const RULE: u8>(frame: &[i32], message: &mut [u8]) -> Result<u64, u8> {
        Self::read_with::<RULE, false>(0, frame, message)
    }

    fn read_free<const RULE: u8>(free: u8, frame: &[i32], message: &mut [u8]) -> Result<u64, u8> {
        if free > MOST_FREE {
            return Err(refusal::FREE_COUNT);
        }
        Self::read_with::<RULE, true>(free, frame, message)
    }

    /// Compiled for free bits, and for none.
    #[inline(always)]
    fn read_with<const RULE: u8, const FREE: bool>(free: u8, frame: &[i32], message: &mut [u8]) -> Result<u64, u8> {
        if frame.len() != Self::N {
            return Err(refusal::FRAME_LENGTH);
        }
        if message.len() != Self::BYTES {
            return Err(refusal::MESSAGE_LENGTH);
        }
        let (mut over, mut unlike) = (false, false);
        let mut energy = 0u64;
        let (mut c0, mut c1, mut c2) = (0, 0, 0);
        let mut packed = [0; 8];
        for (j, block) in frame.as_chunks::<8>().0.iter().enumerate() {
            let (mut w0, mut w1, mut w2) = (0, 0, 0);
            for (i, &x) in block.iter().enumerate() {
                over |= !(-FURTHEST..=FURTHEST).contains(&x);
                let size = x.unsigned_abs() as u64;
                energy = energy.wrapping_add(size * size);
                w0 |= (x as u32 & 1) << i;
                w1 |= (x as u32 >> 1 & 1) << i;
                w2 |= (x as u32 >> 2 & 1) << i;
            }
            c0 |= (w0 as u64) << (8 * j);
            c1 |= (w1 as u64) << (8 * j);
            c2 |= (w2 as u64) << (8 * j);
            packed[j] = Self::reduce(block);
            if RULE != rule::NONE {
                unlike |= shaped::<RULE>(Self::K, block) != *block;
            }
        }
        if over {
            return Err(refusal::OVER_RANGE);
        }
        let level_0 = Self::message_bits(Self::LEVEL_0, c0).ok_or(refusal::BROKEN_LEVEL_0)?;
        let level_1 = match Self::A {
            1 => 0,
            _ => Self::message_bits(Self::LEVEL_1, c1).ok_or(refusal::BROKEN_LEVEL_1)?,
        };
        let level_2 = match Self::A {
            1 | 2 => 0,
            _ => Self::message_bits(Self::LEVEL_2, c2).ok_or(refusal::BROKEN_LEVEL_2)?,
        };
        if unlike {
            return Err(refusal::UNSHAPED);
        }
        if FREE {
            let (last, bits) = (&frame.as_chunks::<8>().0[Self::BLOCKS - 1], &mut packed[Self::BLOCKS - 1]);
            if RULE != rule::NONE && Self::outdone::<RULE>(free, last, *bits) {
                return Err(refusal::UNSHAPED);
            }
            *bits &= u32::MAX >> (32 - 8 * B) >> free;
        }
        // Bits of the levels, then of each block; those that fill no byte go on to the next.
        let bits = level_0 | level_1 << Self::LEVEL_0;
        let bits = bits as u128 | (level_2 as u128) << (Self::LEVEL_0 + Self::LEVEL_1);
        store(bits, &mut message[..Self::WHOLE]);
        let mut rest = (bits >> (8 * Self::WHOLE)) as u64;
        for (j, &block) in packed[..Self::BLOCKS].iter().enumerate() {
            let bits = rest | (block as u64) << Self::OVER;
            let start = Self::WHOLE + B * j;
            store(bits as u128, &mut message[start..start + B]);
            rest = bits >> (8 * B);
        }
        if Self::OVER != 0 {
            message[Self::BYTES - 1] = rest as u8;
        }
        Ok(energy)
    }
}

/// The number that bytes make, lowest first.
#[inline(always)]
fn load(bytes: &[u8]) -> u64 {
    bytes.iter().enumerate().fold(0, |sum, (i, &byte)| sum | (byte as u64) << (8 * i))
}

#[inline(always)]
fn store(bits: u128, bytes: &mut [u8]) {
    for (i, byte) in bytes.iter_mut().enumerate() {
        *byte = (bits >> (8 * i)) as u8;
    }
}

/// A figure of all eight coordinates, by halves: the compiler keeps the first step in lanes.
#[inline(always)]
fn fold(x: [i32; 8], f: impl Fn(i32, i32) -> i32) -> i32 {
    let x: [i32; 4] = from_fn(|i| f(x[i], x[i + 4]));
    f(f(x[0], x[2]), f(x[1], x[3]))
}

/// The energy of a block that is sent.
#[inline(always)]
fn square(block: &[i32; 8]) -> i32 {
    block.iter().map(|z| z * z).sum()
}

/// The block that is sent by a rule.
#[inline(always)]
fn shaped<const RULE: u8>(k: u32, x: &[i32; 8]) -> [i32; 8] {
    match RULE {
        rule::LAST => shape_last(k, x),
        _ => shape(k, x),
    }
}

/// The block of the class of x that is sent under an odd number, at scale M = 2^k; as `shape`.
#[inline(always)]
pub fn shape_last(k: u32, x: &[i32; 8]) -> [i32; 8] {
    shape(k, &x.map(i32::wrapping_neg)).map(|z| -z)
}

/// The block of the class of x that is sent under an even number, at scale M = 2^k, k from 1 to 7; x is any eight numbers.
#[inline(always)]
pub fn shape(k: u32, x: &[i32; 8]) -> [i32; 8] {
    let (scale, half) = (1i32 << k, 1i32 << (k - 1));
    let raised = x.map(|x| x.wrapping_add(half));
    let c = raised.map(|x| (x & (scale - 1)) - half);
    let keys: [i32; 8] = from_fn(|i| (32 * c[i] + 15 - 2 * i as i32).abs());
    let most = fold(keys, i32::max);
    let least = fold(keys, i32::min);
    let sizes = fold(c.map(i32::abs), |a, b| a + b);
    // All ones where the sum of u is odd: bit k of the coordinates, added up.
    let odd_c = -(fold(raised, |a, b| a ^ b) >> k & 1);
    let odd_d = -(fold(*x, |a, b| a ^ b) >> k & 1);
    // What V's energy is over W's, by M.
    let cost_c = (scale - 2 * ((most + 16) >> 5)) & odd_c;
    let cost_d = (2 * ((least + 16) >> 5)) & odd_d;
    let more = 2 * scale - sizes + cost_d - cost_c;
    // No key is 0, so an even sum changes nothing.
    let (key_c, key_d) = (most & odd_c, least & odd_d);
    let changed = (keys[0] == key_c) | (keys[0] == key_d);
    let smaller_d = (c[0] >= 0) ^ changed;
    // All ones to take V's.
    let take_d = -((more < smaller_d as i32) as i32);
    let key = key_c ^ (key_c ^ key_d) & take_d;
    let shift = half & take_d;
    from_fn(|i| {
        let z = if c[i] < 0 { c[i] + shift } else { c[i] - shift };
        let past = if z < 0 { z + scale } else { z - scale };
        if keys[i] == key {
            past
        } else {
            z
        }
    })
}

/// Kind and grade as one number from 0 to 15, for one jump; or their refusal.
#[inline(always)]
fn entry(kind: u8, grade: u8) -> Result<u8, u8> {
    match (kind, grade) {
        (3..=6, 1..=4) => Ok(4 * (kind - 3) + grade - 1),
        (3..=6, _) => Err(refusal::GRADE),
        _ => Err(refusal::KIND),
    }
}

/// Calls the function of a kind and grade, or refuses them.
macro_rules! by_format {
    ($kind:expr, $grade:expr, $function:ident $(::<$rule:ident>)? ($($argument:expr),*)) => {
        match entry($kind, $grade) {
            Ok(0) => Format::<3, 1>::$function $(::<{ rule::$rule }>)? ($($argument),*),
            Ok(1) => Format::<3, 2>::$function $(::<{ rule::$rule }>)? ($($argument),*),
            Ok(2) => Format::<3, 3>::$function $(::<{ rule::$rule }>)? ($($argument),*),
            Ok(3) => Format::<3, 4>::$function $(::<{ rule::$rule }>)? ($($argument),*),
            Ok(4) => Format::<4, 1>::$function $(::<{ rule::$rule }>)? ($($argument),*),
            Ok(5) => Format::<4, 2>::$function $(::<{ rule::$rule }>)? ($($argument),*),
            Ok(6) => Format::<4, 3>::$function $(::<{ rule::$rule }>)? ($($argument),*),
            Ok(7) => Format::<4, 4>::$function $(::<{ rule::$rule }>)? ($($argument),*),
            Ok(8) => Format::<5, 1>::$function $(::<{ rule::$rule }>)? ($($argument),*),
            Ok(9) => Format::<5, 2>::$function $(::<{ rule::$rule }>)? ($($argument),*),
            Ok(10) => Format::<5, 3>::$function $(::<{ rule::$rule }>)? ($($argument),*),
            Ok(11) => Format::<5, 4>::$function $(::<{ rule::$rule }>)? ($($argument),*),
            Ok(12) => Format::<6, 1>::$function $(::<{ rule::$rule }>)? ($($argument),*),
            Ok(13) => Format::<6, 2>::$function $(::<{ rule::$rule }>)? ($($argument),*),
            Ok(14) => Format::<6, 3>::$function $(::<{ rule::$rule }>)? ($($argument),*),
            Ok(15) => Format::<6, 4>::$function $(::<{ rule::$rule }>)? ($($argument),*),
            Ok(_) => unreachable!(),
            Err(number) => Err(number),
        }
    };
}

/// Sends under a number: fills the frame and gives its energy, or refuses and leaves the frame as it is.
#[inline(never)]
pub fn send(kind: u8, grade: u8, number: u32, message: &[u8], frame: &mut [i32]) -> Result<u64, u8> {
    by_format!(kind, grade, send(number, message, frame))
}

/// The same with the last bits of the message free. This and the like are functions by themselves: so those without free bits are
/// compiled as if there were none.
#[inline(never)]
pub fn send_free(kind: u8, grade: u8, number: u32, free: u8, message: &[u8], frame: &mut [i32]) -> Result<u64, u8> {
    match free {
        0 => send(kind, grade, number, message, frame),
        _ => by_format!(kind, grade, send_free(number, free, message, frame)),
    }
}

/// Reads openly: fills the message and gives the frame's energy, or refuses and leaves the message.
#[inline(never)]
pub fn read_open(kind: u8, grade: u8, frame: &[i32], message: &mut [u8]) -> Result<u64, u8> {
    by_format!(kind, grade, read::<NONE>(frame, message))
}

/// The same with the last bits of the message free, which are filled as 0.
#[inline(never)]
pub fn read_open_free(kind: u8, grade: u8, free: u8, frame: &[i32], message: &mut [u8]) -> Result<u64, u8> {
    match free {
        0 => read_open(kind, grade, frame, message),
        _ => by_format!(kind, grade, read_free::<NONE>(free, frame, message)),
    }
}

/// Reads strictly, as `read_open` but only the frame that is sent under the number.
#[inline(never)]
pub fn read_strict(kind: u8, grade: u8, number: u32, frame: &[i32], message: &mut [u8]) -> Result<u64, u8> {
    match odd(number) {
        false => by_format!(kind, grade, read::<FIRST>(frame, message)),
        true => by_format!(kind, grade, read::<LAST>(frame, message)),
    }
}

/// The same with the last bits of the message free: only the frame of the smallest filling of least energy.
#[inline(never)]
pub fn read_strict_free(
    kind: u8,
    grade: u8,
    number: u32,
    free: u8,
    frame: &[i32],
    message: &mut [u8],
) -> Result<u64, u8> {
    match (free, odd(number)) {
        (0, _) => read_strict(kind, grade, number, frame, message),
        (_, false) => by_format!(kind, grade, read_free::<FIRST>(free, frame, message)),
        (_, true) => by_format!(kind, grade, read_free::<LAST>(free, frame, message)),
    }
}

/// Reads samples: fills the message of the frame that is near to them and gives its squared distance, or refuses and leaves the
/// message. Kind 6 has no near reading.
#[inline(never)]
pub fn read_near(kind: u8, grade: u8, samples: &[f32], message: &mut [u8]) -> Result<f64, u8> {
    match (kind, grade) {
        (3, 1) => Format::<3, 1>::read_near(samples, message),
        (3, 2) => Format::<3, 2>::read_near(samples, message),
        (3, 3) => Format::<3, 3>::read_near(samples, message),
        (3, 4) => Format::<3, 4>::read_near(samples, message),
        (4, 1) => Format::<4, 1>::read_near(samples, message),
        (4, 2) => Format::<4, 2>::read_near(samples, message),
        (4, 3) => Format::<4, 3>::read_near(samples, message),
        (4, 4) => Format::<4, 4>::read_near(samples, message),
        (5, 1) => Format::<5, 1>::read_near(samples, message),
        (5, 2) => Format::<5, 2>::read_near(samples, message),
        (5, 3) => Format::<5, 3>::read_near(samples, message),
        (5, 4) => Format::<5, 4>::read_near(samples, message),
        (3..=5, _) => Err(refusal::GRADE),
        _ => Err(refusal::KIND),
    }
}

/// Chooses between two recordings of one frame, each read like that into a message of its own: 1 or 2, or the number by which there is
/// none to choose.
#[inline(never)]
pub fn closer(kind: u8, grade: u8, first: &[f32], second: &[f32]) -> Result<u8, u8> {
    let (b, mut one, mut other) = (grade as usize, [0; 20], [0; 20]);
    let bytes = match (kind, grade) {
        (3, 1..=4) => b + 1,
        (4, 1..=4) => 2 * b + 3,
        (5, 1..=4) => 4 * b + 4,
        (3..=5, _) => return Err(refusal::GRADE),
        _ => return Err(refusal::KIND),
    };
    let first = read_near(kind, grade, first, &mut one[..bytes]);
    let second = read_near(kind, grade, second, &mut other[..bytes]);
    match (first, second) {
        (Ok(_), Ok(_)) if one != other => Err(refusal::AT_ODDS),
        (Ok(first), Ok(second)) => Ok(if first <= second { 1 } else { 2 }),
        (Ok(_), Err(_)) => Ok(1),
        (Err(_), Ok(_)) => Ok(2),
        (Err(number), Err(_)) => Err(number),
    }
}

/// A count of frames, the sum of their powers, the largest energy of their blocks, and the count from which on frames follow
/// the rule of their number.
#[derive(Clone, Copy, Debug, Default, PartialEq)]
pub struct Account {
    pub count: u32,
    pub sum: f64,
    pub largest: u64,
    pub changeover: u32,
}

impl Account {
    /// The number of the next frame; below the changeover all are sent as number 0.
    fn number(&self) -> u32 {
        if self.count < self.changeover {
            0
        } else {
            self.count
        }
    }
}

/// Opens an account: gives it, or the refusal, with zero in every figure.
pub fn open(changeover: u32) -> (Account, u8) {
    match changeover {
        0..=FULL => (Account { changeover, ..Account::default() }, 0),
        _ => (Account::default(), refusal::CHANGEOVER),
    }
}

/// Sends with an account, which grows by the frame. Only a message that would be sent is refused for a full account.
#[inline(never)]
pub fn send_counted(kind: u8, grade: u8, message: &[u8], frame: &mut [i32], account: &mut Account) -> Result<u64, u8> {
    by_format!(kind, grade, send_counted(message, frame, account))
}

/// The same with the last bits of the message free.
#[inline(never)]
pub fn send_counted_free(
    kind: u8,
    grade: u8,
    free: u8,
    message: &[u8],
    frame: &mut [i32],
    account: &mut Account,
) -> Result<u64, u8> {
    match free {
        0 => send_counted(kind, grade, message, frame, account),
        _ => by_format!(kind, grade, send_counted_free(free, message, frame, account)),
    }
}

/// Sends messages that stand end to end with an account, each in its turn, up to the first refused. Gives how many are sent, and
/// the refusal, 0 where all are.
#[inline(never)]
pub fn send_queue(kind: u8, grade: u8, messages: &[u8], frames: &mut [i32], account: &mut Account) -> (usize, u8) {
    by_format!(kind, grade, send_queue(messages, frames, account)).unwrap_or_else(|number| (0, number))
}

#[cfg(test)]
mod tests;
