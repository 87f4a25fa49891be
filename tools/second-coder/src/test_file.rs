//! The data file of a test program, and what the program prints of it.

/// Records, and of each whether it passes the program's checks. The program prints a line for each check that differs; then a line for
/// each check, with how many records passed it, and how many checks differed.
pub struct TestFile {
    pub bytes: Vec<u8>,
    /// The checks, in the order of the last lines.
    names: &'static [&'static str],
    /// What a record is called.
    record: &'static str,
    records: usize,
    lines: String,
    passed: Vec<usize>,
    different: usize,
}

impl TestFile {
    pub fn new(names: &'static [&'static str], record: &'static str) -> TestFile {
        let passed = vec![0; names.len()];
        TestFile { bytes: Vec::new(), names, record, records: 0, lines: String::new(), passed, different: 0 }
    }

    /// The next record, with its checks in the order in which they are made, and whether it passes each.
    pub fn put(&mut self, record: &[u8], checks: &[(usize, bool)]) {
        self.bytes.extend(record);
        self.records += 1;
        for &(check, passed) in checks {
            if passed {
                self.passed[check] += 1;
            } else {
                self.different += 1;
                self.lines += &format!("different: {}, {} {}\n", self.names[check], self.record, self.records);
            }
        }
    }

    /// A last record, without its last byte.
    pub fn cut_short(&mut self, record: &[u8]) {
        self.bytes.extend(&record[..record.len() - 1]);
        self.different += 1;
        self.lines += "different: the file\n";
    }

    pub fn printed(&self) -> String {
        let counts = self.names.iter().zip(&self.passed).map(|(name, count)| format!("{name} {count}\n"));
        format!("{}{}different {}\n", self.lines, counts.collect::<String>(), self.different)
    }
}

/// The places at which a row of which so many are lent is changed: the first, the middle and the last of those that are lent, the first
/// and the last past them.
pub fn places(lent: usize, row: usize) -> Vec<usize> {
    let mut all = vec![0, lent / 2, lent.saturating_sub(1), lent, row - 1];
    all.retain(|&place| place < row);
    all.dedup();
    all
}

/// Another float, by one bit: the sign of a zero, and the last bit of any other.
pub fn one_bit(x: f64) -> f64 {
    if x == 0.0 {
        return -x;
    }
    f64::from_bits(x.to_bits() ^ 1)
}

/// How many fields of two records differ, which have fields of these sizes.
#[cfg(test)]
pub fn fields_apart(one: &[u8], other: &[u8], sizes: impl IntoIterator<Item = usize>) -> usize {
    let (mut one, mut other, mut apart) = (one, other, 0);
    for size in sizes {
        apart += (one[..size] != other[..size]) as usize;
        (one, other) = (&one[size..], &other[size..]);
    }
    assert!(one.is_empty() && other.is_empty());
    apart
}
