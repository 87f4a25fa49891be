//! Reed-Muller codes by the definition: masks in order, a word's value at each position.

/// All masks of length 2^m, by number of set bits, then by value.
pub fn order(m: u32) -> Vec<usize> {
    let mut masks: Vec<usize> = (0..1usize << m).collect();
    masks.sort_by_key(|&mask| (mask.count_ones(), mask));
    masks
}

/// The masks of RM(r,m): those with at most r bits set, in order.
pub fn masks(r: u32, m: u32) -> Vec<usize> {
    order(m).into_iter().filter(|mask| mask.count_ones() <= r).collect()
}

/// The codeword of the message bits: at p, the parity of the bits whose masks lie in p.
pub fn codeword(bits: &[bool], r: u32, m: u32) -> Vec<bool> {
    let masks = masks(r, m);
    assert_eq!(bits.len(), masks.len());
    (0..1usize << m)
        .map(|p| masks.iter().zip(bits).filter(|&(&mask, &bit)| bit && mask & p == mask).count() % 2 == 1)
        .collect()
}

/// The message bits of a codeword, or None where the word is not in the code. The bit of a mask
/// is the parity of the values at the positions that lie in it; a word is in the code when it is
/// the codeword of the bits so found.
pub fn message_bits(word: &[bool], r: u32, m: u32) -> Option<Vec<bool>> {
    let bits: Vec<bool> = masks(r, m)
        .into_iter()
        .map(|mask| (0..word.len()).filter(|&p| p & mask == p && word[p]).count() % 2 == 1)
        .collect();
    (codeword(&bits, r, m) == word).then_some(bits)
}

/// For each mask with more than r bits set, the positions that lie in it, as bits of a number. A word that is held so is in the
/// code when it has an even number of its values in each.
pub fn checks(r: u32, m: u32) -> Vec<u64> {
    let high = order(m).into_iter().filter(|mask| mask.count_ones() > r);
    high.map(|mask| (0..1 << m).filter(|p| p & mask == *p).map(|p| 1 << p).sum()).collect()
}

#[cfg(test)]
mod tests {
    use super::*;

    #[test]
    fn order_of_kind_4_level_1() {
        assert_eq!(masks(3, 4), [0, 1, 2, 4, 8, 3, 5, 6, 9, 10, 12, 7, 11, 13, 14]);
    }

    #[test]
    fn dimensions() {
        let dimension = |r, m| masks(r, m).len();
        assert_eq!(dimension(1, 3), 4);
        assert_eq!((dimension(1, 4), dimension(3, 4)), (5, 15));
        assert_eq!((dimension(1, 5), dimension(3, 5)), (6, 26));
        assert_eq!((dimension(1, 6), dimension(3, 6), dimension(5, 6)), (7, 42, 63));
    }

    /// Codewords of every code of lengths 8 to 64 give their message bits back, and with one value changed are not in the code.
    #[test]
    fn message_bits_come_back() {
        let mut random = crate::random::Random::new(8);
        for m in 3..=6u32 {
            for r in 1..m {
                for _ in 0..20 {
                    let bits: Vec<bool> = masks(r, m).iter().map(|_| random.one_in(2)).collect();
                    let mut word = codeword(&bits, r, m);
                    assert_eq!(message_bits(&word, r, m), Some(bits));
                    let p = random.below(1 << m) as usize;
                    word[p] = !word[p];
                    assert_eq!(message_bits(&word, r, m), None);
                }
            }
        }
    }

    /// Membership by the other rule of document 01: the bits of all masks above weight r are 0.
    #[test]
    fn membership_by_high_masks() {
        for m in 3..=4u32 {
            for r in 1..m {
                let checks = checks(r, m);
                for number in 0..1u32 << (1 << m) {
                    let word: Vec<bool> = (0..1 << m).map(|p| number >> p & 1 == 1).collect();
                    let even = |check: &u64| (number as u64 & check).count_ones().is_multiple_of(2);
                    assert_eq!(checks.iter().all(even), message_bits(&word, r, m).is_some());
                    if m == 4 && number > 4096 {
                        break;
                    }
                }
            }
        }
    }
}
