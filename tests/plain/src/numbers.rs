//! Numbers as they are written, and the limits of each kind.

pub const FORMAT_NUMBERS: (i64, i64) = (0, 65_535);
pub const SENTENCE_NUMBERS: (i64, i64) = (1, 65_535);
pub const ORIGIN_IDS: (i64, i64) = (1, 65_535);
pub const EDITOR_IDS: (i64, i64) = (-1, 65_535);
pub const TAG_ROW_IDS: (i64, i64) = (-1, 65_535);
pub const DATES: (i64, i64) = (0, 4_294_967_295);
pub const PHRASE_NUMBERS: (i64, i64) = (500, 999);

/// More digits than the largest date has are outside every range.
const MOST_DIGITS: usize = 10;

/// The number, if it is well written: digits without plus or leading zeros, or `-1`.
fn well_written(bytes: &[u8]) -> Option<i64> {
    if bytes == b"-1" {
        return Some(-1);
    }
    let leading_zero = bytes.len() > 1 && bytes[0] == b'0';
    let length_fits = (1..=MOST_DIGITS).contains(&bytes.len());
    if !length_fits || leading_zero || !bytes.iter().all(u8::is_ascii_digit) {
        return None;
    }
    Some(
        bytes
            .iter()
            .fold(0, |number, digit| number * 10 + i64::from(digit - b'0')),
    )
}

pub fn number_within(bytes: &[u8], lowest: i64, highest: i64) -> Option<i64> {
    well_written(bytes).filter(|&number| lowest <= number && number <= highest)
}
