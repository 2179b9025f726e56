//! Damage within one line.

use super::dice::Dice;
use super::draft::{Draft, DraftLine, Role};
use crate::lines::{is_legal, is_white, LONGEST_LINE};
use crate::tables::{ORIGIN, WORDTAG};

const BAD_NUMBERS: [&[u8]; 22] = [
    b"00",
    b"01",
    b"0500",
    b"+1",
    b"-0",
    b"-2",
    b"-",
    b"65536",
    b"4294967296",
    b"x",
    b"1x",
    b"0x1",
    b"499",
    b"1000",
    b"18446744073709551617",
    b"-1",
    b"0",
    b"%%",
    b"7%%",
    b"\xb2",
    b"1.0",
    b"5O0",
];

const BAD_PHRASES: [&str; 6] = ["#499", "#0", "#0500", "#1000", "#50000000000000", "#00"];

/// Each limit of a text, and one byte more.
const TEXT_LENGTHS: [usize; 14] = [10, 11, 16, 17, 32, 33, 40, 41, 80, 81, 128, 129, 160, 161];

/// The places where the columns of a line begin and end.
fn columns_of(line: &[u8]) -> Vec<(usize, usize)> {
    let mut columns = Vec::new();
    let mut place = 0;
    for column in line.split(|&byte| is_white(byte)) {
        if !column.is_empty() {
            columns.push((place, place + column.len()));
        }
        place += column.len() + 1;
    }
    columns
}

pub fn column_count(line: &[u8]) -> usize {
    columns_of(line).len()
}

/// The bytes of a column, none if there is no such column.
pub fn column_at(line: &[u8], index: usize) -> &[u8] {
    columns_of(line)
        .get(index)
        .map_or(b"", |&(start, end)| &line[start..end])
}

/// Replaces a column, or does nothing if there is no such column.
pub fn replace_column(line: &mut Vec<u8>, index: usize, column: &[u8]) {
    if let Some(&(start, end)) = columns_of(line).get(index) {
        line.splice(start..end, column.iter().copied());
    }
}

fn delete_column(line: &mut Vec<u8>, index: usize) {
    replace_column(line, index, b"");
}

/// Puts a column before another one, or at the line's end.
pub fn insert_column(line: &mut Vec<u8>, index: usize, column: &[u8]) {
    let place = columns_of(line)
        .get(index)
        .map_or(line.len(), |&(start, _)| start);
    line.splice(place..place, [b" ", column, b" "].concat());
}

fn illegal_byte(dice: &mut Dice) -> u8 {
    loop {
        let byte = dice.below(160) as u8;
        if byte != b'\n' && !is_legal(byte) {
            return byte;
        }
    }
}

pub fn put_illegal_byte(dice: &mut Dice, line: &mut Vec<u8>) {
    let place = dice.below(line.len() + 1);
    let byte = illegal_byte(dice);
    line.insert(place, byte);
}

/// Makes a line too long, or only just as long as it may be.
pub fn make_too_long(dice: &mut Dice, line: &mut Vec<u8>) {
    let length = LONGEST_LINE + *dice.pick(&[0, 1, 1, 2, 60]);
    let filling = *dice.pick(b" \tx%");
    line.resize(length.max(line.len()), filling);
}

pub fn put_white_first(dice: &mut Dice, line: &mut Vec<u8>) {
    line.insert(0, *dice.pick(b" \t"));
}

/// A column missing or one too many.
pub fn miscount_columns(dice: &mut Dice, line: &mut Vec<u8>) {
    let index = dice.below(column_count(line) + 1);
    match dice.below(4) {
        0 | 1 => delete_column(line, index),
        2 => insert_column(line, index, dice.pick_column(&["%%", "500", "xx", "--"])),
        _ => {
            let count = column_count(line);
            insert_column(
                line,
                count,
                dice.pick_column(&["%%", "500", "x", "%%x", "--"]),
            );
        }
    }
}

/// The columns of a line that hold numbers; `#500` is one of them.
fn number_columns(line: &DraftLine) -> Vec<usize> {
    match line.role {
        Role::Format | Role::SentenceEnd => vec![1],
        Role::Row(_) => vec![0],
        Role::SentenceBegin => vec![1, 2, 3, 4],
        Role::Word => (4..column_count(&line.bytes)).step_by(2).collect(),
        Role::Phrase => (0..column_count(&line.bytes))
            .step_by(2)
            .filter(|&index| index != 2)
            .collect(),
        _ => Vec::new(),
    }
}

pub fn spoil_number(dice: &mut Dice, line: &mut DraftLine) {
    let columns = number_columns(line);
    if columns.is_empty() {
        return;
    }
    let index = *dice.pick(&columns);
    let is_phrase = line.role == Role::Phrase && index == 0;
    let spoilt = match dice.below(4) {
        0 => nudged(dice, column_at(&line.bytes, index)),
        _ if is_phrase => dice.pick_column(&BAD_PHRASES).to_vec(),
        _ => dice.pick(&BAD_NUMBERS).to_vec(),
    };
    replace_column(&mut line.bytes, index, &spoilt);
}

/// A number one larger or smaller than it was.
fn nudged(dice: &mut Dice, column: &[u8]) -> Vec<u8> {
    let sign = if column.starts_with(b"#") { "#" } else { "" };
    let digits = String::from_utf8_lossy(&column[sign.len()..]);
    let number: i64 = digits.parse().unwrap_or(0);
    let nudge = *dice.pick(&[-1, 1]);
    format!("{sign}{}", number.saturating_add(nudge)).into_bytes()
}

/// Makes a text as long as some limit or one byte longer, or a tag `%%`, or a flag
/// another letter.
pub fn spoil_text(dice: &mut Dice, line: &mut DraftLine) {
    let longer = match line.role {
        Role::Row(ORIGIN) => [1, column_count(&line.bytes).max(2) - 1],
        Role::Row(_) => [1, 2],
        Role::Word | Role::Phrase => [dice.between(1, 3), 3 + 2 * dice.below(2)],
        _ => return,
    };
    if let Role::Row(table) = line.role {
        if table != ORIGIN && dice.one_in(4) {
            return replace_column(&mut line.bytes, 1, b"%%");
        }
        if table == WORDTAG && dice.one_in(3) {
            return replace_column(
                &mut line.bytes,
                2,
                dice.pick_column(&["y", "n", "X", "YN", "%%"]),
            );
        }
    }
    let index = *dice.pick(&longer);
    let length = *dice.pick(&TEXT_LENGTHS);
    let mut column = column_at(&line.bytes, index).to_vec();
    column.resize(length, b'x');
    replace_column(&mut line.bytes, index, &column);
}

/// Gives a node another tag, edge or secondary label.
pub fn change_tag(dice: &mut Dice, line: &mut DraftLine) {
    if matches!(line.role, Role::Word | Role::Phrase) {
        let index = *dice.pick(&[1, 2, 3, 5]);
        replace_column(
            &mut line.bytes,
            index,
            dice.pick_column(&["zz", "NoTag", "unknown", "-"]),
        );
    }
}

/// Gives a node another parent, primary or secondary, or the parent 0.
pub fn change_parent(dice: &mut Dice, line: &mut DraftLine) {
    if !matches!(line.role, Role::Word | Role::Phrase) {
        return;
    }
    if dice.one_in(3) {
        return change_secondary_parent(dice, &mut line.bytes);
    }
    let parent = match dice.below(4) {
        0 => own_number(&line.bytes),
        1 => b"500".to_vec(),
        2 => dice.between(500, 999).to_string().into_bytes(),
        _ => {
            replace_column(&mut line.bytes, 3, dice.pick_column(&["UNKNOWN", "SB"]));
            b"0".to_vec()
        }
    };
    replace_column(&mut line.bytes, 4, &parent);
}

/// A phrase's number; 500 for a word.
pub fn own_number(line: &[u8]) -> Vec<u8> {
    let digits = column_at(line, 0).strip_prefix(b"#").unwrap_or(b"");
    if digits.is_empty() {
        return b"500".to_vec();
    }
    digits.to_vec()
}

/// A secondary edge to the node itself, or to a phrase that may be absent.
fn change_secondary_parent(dice: &mut Dice, line: &mut Vec<u8>) {
    let parent = match dice.below(4) {
        0 | 1 => own_number(line),
        2 => b"500".to_vec(),
        _ => dice.between(500, 999).to_string().into_bytes(),
    };
    put_secondary_parent(dice, line, &parent);
}

/// Puts the parent into one of the node's secondary edges, or into one more.
pub fn put_secondary_parent(dice: &mut Dice, line: &mut Vec<u8>, parent: &[u8]) {
    let pairs = column_count(line).max(5) / 2 - 2;
    if pairs > 0 && dice.one_in(2) {
        let index = 6 + 2 * dice.below(pairs);
        return replace_column(line, index, parent);
    }
    let label = dice.pick_column(&["--", "UNKNOWN"]);
    insert_column(line, 5, &[label, b"\t", parent].concat());
}

/// Two damages of one line, so that the smallest number has to win.
pub fn two_faults_in_a_line(dice: &mut Dice, draft: &mut Draft) {
    if draft.lines.is_empty() {
        return;
    }
    let index = dice.below(draft.lines.len());
    for _ in 0..2 {
        damage_line(dice, &mut draft.lines[index]);
    }
}

/// One more damage now and then, for a line that is faulty already.
pub fn maybe_damage_line(dice: &mut Dice, line: &mut DraftLine) {
    if dice.one_in(3) {
        damage_line(dice, line);
    }
}

fn damage_line(dice: &mut Dice, line: &mut DraftLine) {
    match dice.below(16) {
        0 => put_illegal_byte(dice, &mut line.bytes),
        1 => make_too_long(dice, &mut line.bytes),
        2 => put_white_first(dice, &mut line.bytes),
        3..=5 => miscount_columns(dice, &mut line.bytes),
        6..=8 => spoil_number(dice, line),
        9..=11 => spoil_text(dice, line),
        12 | 13 => change_tag(dice, line),
        _ => change_parent(dice, line),
    }
}
