//! Texts, columns and white bytes by dice.

use super::dice::Dice;

const LETTERS: &[u8] = b"abcdefghijklmnopqrstuvwxyzABCDEFGHIJKLMNOPQRSTUVWXYZ";
const SIGNS: &[u8] = b"0123456789.,;:!?-+*/()[]$&'\"_=<>@^|~%%##";

fn column_byte(dice: &mut Dice) -> u8 {
    match dice.below(12) {
        0..=6 => *dice.pick(LETTERS),
        7..=9 => *dice.pick(SIGNS),
        10 => dice.between(160, 255) as u8,
        _ => *dice.pick(&[127, 160, 255, b'%', b'!', b'~']),
    }
}

fn length_by_dice(dice: &mut Dice, ordinary: usize, limit: usize) -> usize {
    if ordinary > 3 && dice.one_in(14) {
        limit
    } else {
        dice.between(1, ordinary.min(limit))
    }
}

/// A column of at most `limit` bytes that isn't `%%`; mostly no longer than `ordinary`.
pub fn column(dice: &mut Dice, ordinary: usize, limit: usize) -> Vec<u8> {
    let length = length_by_dice(dice, ordinary, limit);
    let mut bytes: Vec<u8> = (0..length).map(|_| column_byte(dice)).collect();
    if bytes == b"%%" {
        bytes[1] = b'x';
    }
    bytes
}

/// A text of at most `limit` bytes with white bytes only in its inside.
pub fn text(dice: &mut Dice, ordinary: usize, limit: usize) -> Vec<u8> {
    let mut bytes = column(dice, ordinary, limit);
    for place in 1..bytes.len().max(2) - 1 {
        if dice.one_in(5) {
            bytes[place] = *dice.pick(b"  \t");
        }
    }
    bytes
}

/// At least one white byte.
pub fn white(dice: &mut Dice) -> Vec<u8> {
    let length = if dice.one_in(5) {
        dice.between(2, 5)
    } else {
        1
    };
    (0..length).map(|_| *dice.pick(b" \t")).collect()
}

/// White bytes or none.
pub fn maybe_white(dice: &mut Dice) -> Vec<u8> {
    if dice.one_in(6) {
        white(dice)
    } else {
        Vec::new()
    }
}

/// Columns with white bytes between them.
pub fn joined(dice: &mut Dice, columns: &[Vec<u8>]) -> Vec<u8> {
    let mut line = Vec::new();
    for (index, column) in columns.iter().enumerate() {
        if index > 0 {
            line.extend(white(dice));
        }
        line.extend(column);
    }
    line
}

pub fn number(number: impl std::fmt::Display) -> Vec<u8> {
    number.to_string().into_bytes()
}
