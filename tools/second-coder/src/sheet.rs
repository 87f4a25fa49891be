//! The sheet program's listing, as document 01 has it.

use crate::frame::{self, Format, KINDS};
use crate::refusal;

pub const HEADER: &str = "kind grade energy frame\n";
pub const LONGEST: usize = 32_768;
pub const MARK: [u8; 2] = [0x4C, 0x43];

/// The first record of a sheet that is not empty, under its number: its line, and what follows the record.
fn record(sheet: &[u8], number: u32) -> Result<(String, &[u8]), u8> {
    let rest = sheet.strip_prefix(&MARK).ok_or(refusal::MARK)?;
    let (&kind, rest) = rest.split_first().ok_or(refusal::MESSAGE_LENGTH)?;
    if !KINDS.contains(&kind) {
        return Err(refusal::KIND);
    }
    let (&grade, rest) = rest.split_first().ok_or(refusal::MESSAGE_LENGTH)?;
    let bytes = Format::new(kind, grade)?.message_bytes();
    if rest.len() < bytes {
        return Err(refusal::MESSAGE_LENGTH);
    }
    let (message, rest) = rest.split_at(bytes);
    let sent = frame::send(kind, grade, number, message)?;
    let coordinates: String = sent.frame.iter().map(|x| format!(" {x}")).collect();
    Ok((format!("{kind} {grade} {}{coordinates}\n", sent.energy), rest))
}

/// The whole listing of a sheet, its records numbered from 0.
pub fn listing(sheet: &[u8]) -> String {
    listing_by(sheet, |place| place)
}

/// The listing with the number of each record by its place, the first of which is 0.
pub fn listing_by(sheet: &[u8], number: impl Fn(u32) -> u32) -> String {
    let mut text = HEADER.to_string();
    if sheet.len() > LONGEST {
        return text + &format!("refused {}\n", refusal::LONG_SHEET);
    }
    let mut rest = sheet;
    for place in 0.. {
        if rest.is_empty() {
            break;
        }
        match record(rest, number(place)) {
            Ok((line, after)) => {
                text += &line;
                rest = after;
            }
            Err(refused) => return text + &format!("refused {refused}\n"),
        }
    }
    text
}

#[cfg(test)]
mod tests {
    use super::*;

    #[test]
    fn the_example_sheet() {
        let sheet = [0x4C, 0x43, 3, 1, 0, 8, 0x4C, 0x43, 3, 1, 2, 0, 0x4C, 0x43, 3, 5];
        let text = "kind grade energy frame\n3 1 16 -4 0 0 0 0 0 0 0\n3 1 4 0 1 0 1 0 1 0 1\nrefused 2\n";
        assert_eq!(listing(&sheet), text);
    }

    #[test]
    fn records_are_numbered_from_0() {
        let tied = [0x4C, 0x43, 3, 1, 0, 8];
        let other = [0x4C, 0x43, 3, 1, 2, 0];
        let spare = [0x4C, 0x43, 3, 1, 0, 0x10];
        let (even, odd) = ("3 1 16 -4 0 0 0 0 0 0 0\n", "3 1 16 4 0 0 0 0 0 0 0\n");
        let line = "3 1 4 0 1 0 1 0 1 0 1\n";
        let lines = |sheet: &[u8]| listing(sheet)[HEADER.len()..].to_string();
        assert_eq!(lines(&tied.repeat(4)), [even, odd, even, odd].concat());
        assert_eq!(lines(&[other, tied, tied].concat()), [line, odd, even].concat());
        // Every record counts, of whatever kind; a refused one ends the listing.
        let four = [&[0x4C, 0x43, 4, 1, 0x20, 0, 0, 0, 0][..], &tied, &tied, &spare, &tied].concat();
        let all = |x: i64| format!("4 1 64{}\n", format!(" {x}").repeat(16));
        assert_eq!(lines(&four), [&all(-2), odd, even, "refused 5\n"].concat());
        assert_eq!(lines(&[&tied[..], &four].concat()), [even, &all(2), even, odd, "refused 5\n"].concat());
    }

    #[test]
    fn refusals() {
        let ends = |sheet: &[u8]| listing(sheet)[HEADER.len()..].to_string();
        assert_eq!(ends(&[]), "");
        assert_eq!(ends(&[0x4C]), "refused 10\n");
        assert_eq!(ends(&[0x4C, 0x44, 3, 1, 0, 0]), "refused 10\n");
        assert_eq!(ends(&[0x4C, 0x43]), "refused 3\n");
        assert_eq!(ends(&[0x4C, 0x43, 7]), "refused 1\n");
        assert_eq!(ends(&[0x4C, 0x43, 7, 9]), "refused 1\n");
        assert_eq!(ends(&[0x4C, 0x43, 3]), "refused 3\n");
        assert_eq!(ends(&[0x4C, 0x43, 6]), "refused 3\n");
        assert_eq!(ends(&[0x4C, 0x43, 3, 0]), "refused 2\n");
        assert_eq!(ends(&[0x4C, 0x43, 3, 1]), "refused 3\n");
        assert_eq!(ends(&[0x4C, 0x43, 3, 1, 0]), "refused 3\n");
        assert_eq!(ends(&[0x4C, 0x43, 3, 1, 0, 0x10]), "refused 5\n");
        assert_eq!(ends(&[0; 32_769]), "refused 12\n");
        assert_eq!(ends(&[0; 32_768]), "refused 10\n");
    }
}
