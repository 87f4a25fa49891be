//! The class of a block: all x − H·w, w twice a point of E8, H half the scale M.
//! The sent block is found by searching the class, not by rounding.

pub type Block = [i64; 8];

pub fn energy(block: &[i64]) -> u64 {
    block.iter().map(|&x| (x * x) as u64).sum()
}

/// Whether w is twice a point of E8: all even or all odd, with a sum that 4 divides.
pub fn twice_e8(w: &Block) -> bool {
    let one_parity = w.iter().all(|x| x.rem_euclid(2) == w[0].rem_euclid(2));
    one_parity && w.iter().sum::<i64>().rem_euclid(4) == 0
}

/// Whether two blocks differ by a point of M times E8.
pub fn same_class(x: &Block, y: &Block, scale: i64) -> bool {
    let half = scale / 2;
    let difference: Block = std::array::from_fn(|i| x[i] - y[i]);
    difference.iter().all(|d| d % half == 0) && twice_e8(&difference.map(|d| d / half))
}

/// A search of one parity of w, coordinate by coordinate.
struct Search {
    block: Block,
    half: i64,
    /// For each coordinate, the values it can have within the bound, smallest size first.
    values: [Vec<i64>; 8],
    /// The least energy that coordinates i to 7 can have.
    rest: [u64; 9],
    least: u64,
    found: Vec<Block>,
}

impl Search {
    /// All values of each coordinate, for w of this parity, whose square is within the bound.
    fn new(block: &Block, scale: i64, parity: i64, bound: u64) -> Search {
        let size = (0..).take_while(|&z: &i64| (z * z) as u64 <= bound).last().unwrap_or(0);
        let values: [Vec<i64>; 8] = std::array::from_fn(|i| {
            let first = -size + (block[i] - parity * (scale / 2) + size).rem_euclid(scale);
            let mut values: Vec<i64> = (first..=size).step_by(scale as usize).collect();
            values.sort_by_key(|&z| (z.abs(), z));
            values
        });
        let mut rest = [0; 9];
        for i in (0..8).rev() {
            // No value within the bound: no member of this parity is.
            rest[i] = rest[i + 1] + values[i].first().map_or(bound + 1, |&z| (z * z) as u64);
        }
        Search { block: *block, half: scale / 2, values, rest, least: bound, found: Vec::new() }
    }

    /// Goes through every member that begins with the chosen coordinates and has at most the
    /// least energy found so far; keeps all of least energy.
    fn walk(&mut self, i: usize, chosen: &mut Block, spent: u64) {
        if i == 8 {
            let w: Block = std::array::from_fn(|j| (self.block[j] - chosen[j]) / self.half);
            if twice_e8(&w) {
                if spent < self.least {
                    self.least = spent;
                    self.found.clear();
                }
                self.found.push(*chosen);
            }
            return;
        }
        for j in 0..self.values[i].len() {
            let z = self.values[i][j];
            let now = spent + (z * z) as u64;
            if now + self.rest[i + 1] > self.least {
                break;
            }
            chosen[i] = z;
            self.walk(i + 1, chosen, now);
        }
    }
}

/// All members of least energy of the block's class, in reading order.
///
/// The bound starts at the energy of the block itself, a member of its class, and only falls
/// to energies of members found; so no member of least energy is passed over.
pub fn least_members(block: &Block, scale: i64) -> Vec<Block> {
    let mut all: Vec<Block> = Vec::new();
    let mut bound = energy(block);
    for parity in 0..2 {
        let mut search = Search::new(block, scale, parity, bound);
        search.walk(0, &mut [0; 8], 0);
        if search.least < bound {
            all.clear();
            bound = search.least;
        }
        all.append(&mut search.found);
    }
    all.sort();
    all
}

#[cfg(test)]
mod tests {
    use super::*;

    /// Every w of entries −3 to 3 that is twice a point of E8, as a plain list.
    fn points() -> Vec<Block> {
        let mut all = Vec::new();
        for number in 0..7i64.pow(8) {
            let mut rest = number;
            let w: Block = std::array::from_fn(|_| {
                let digit = rest % 7 - 3;
                rest /= 7;
                digit
            });
            if twice_e8(&w) {
                all.push(w);
            }
        }
        all
    }

    /// The search against a plain list of members, for blocks near the origin (for which no
    /// least member lies further away than the list goes).
    #[test]
    fn search_against_a_plain_list() {
        let points = points();
        let mut random = crate::random::Random::new(7);
        for _ in 0..300 {
            let scale = 4 << random.below(2);
            let half = scale / 2;
            let block: Block = std::array::from_fn(|_| random.below(2 * half as u64 + 1) as i64 - half);
            let members: Vec<Block> = points.iter().map(|w| std::array::from_fn(|i| block[i] - half * w[i])).collect();
            let least = members.iter().map(|z| energy(z)).min().unwrap();
            let mut all: Vec<Block> = members.into_iter().filter(|z| energy(z) == least).collect();
            all.sort();
            assert_eq!(all, least_members(&block, scale));
        }
    }

    /// At grid points with a tie of 16: the least points of M·e1 are plus and minus M times each unit.
    #[test]
    fn sixteen_least_members() {
        let mut block = [0; 8];
        block[7] = 4;
        let all = least_members(&block, 4);
        assert_eq!(all.len(), 16);
        assert_eq!(all[0], [-4, 0, 0, 0, 0, 0, 0, 0]);
        assert_eq!(all[15], [4, 0, 0, 0, 0, 0, 0, 0]);
    }
}
