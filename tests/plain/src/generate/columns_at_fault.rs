//! Damage to several columns of one line, with equal and with different numbers.

use super::aimed_lines::is_node;
use super::dice::Dice;
use super::draft::{Draft, DraftLine, Role};
use super::line_damage::{
    column_at, column_count, insert_column, own_number, replace_column, spoil_number,
};

/// The numbers of refusal that point at a column.
const POINTING: [usize; 5] = [8, 10, 15, 18, 19];

/// Longer than a tag may be, or than some other text.
const LENGTHS: [usize; 6] = [11, 17, 33, 41, 81, 161];

pub fn several_columns_at_fault(dice: &mut Dice, draft: &mut Draft) {
    let aim = *dice.pick(&POINTING);
    let places = draft.places_of(|role| can_have(role, aim));
    if places.is_empty() {
        return;
    }
    let line = &mut draft.lines[*dice.pick(&places)];
    if is_node(line.role) {
        add_secondary_edges(dice, &mut line.bytes);
    }
    for _ in 0..dice.between(2, 4) {
        let refusal = if dice.one_in(2) {
            aim
        } else {
            *dice.pick(&POINTING)
        };
        if can_have(line.role, refusal) {
            spoil_column(dice, refusal, line);
        }
    }
}

fn can_have(role: Role, refusal: usize) -> bool {
    match refusal {
        8 => is_node(role) || role == Role::SentenceBegin,
        10 => is_node(role) || matches!(role, Role::Row(_)),
        15 => role == Role::SentenceBegin,
        _ => is_node(role),
    }
}

fn spoil_column(dice: &mut Dice, refusal: usize, line: &mut DraftLine) {
    match refusal {
        8 => spoil_number(dice, line),
        10 => lengthen_text(dice, line),
        15 => cite_another(dice, &mut line.bytes),
        18 => put_unknown_tag(dice, &mut line.bytes),
        _ => put_wrong_parent(dice, line),
    }
}

/// Up to three more secondary edges, to another phrase.
fn add_secondary_edges(dice: &mut Dice, line: &mut Vec<u8>) {
    let other = if own_number(line) == b"500" {
        "--\t501"
    } else {
        "--\t500"
    };
    for _ in 0..dice.below(4) {
        insert_column(line, 5, other.as_bytes());
    }
}

/// The columns of a node line up to its comment.
fn columns_before_comment(line: &[u8]) -> usize {
    (0..column_count(line))
        .find(|&index| column_at(line, index) == b"%%")
        .unwrap_or(column_count(line))
}

/// The column of a tag, of the edge or of a secondary label.
fn any_tag_column(dice: &mut Dice, line: &[u8]) -> usize {
    let labels = (5..columns_before_comment(line)).step_by(2);
    let columns: Vec<usize> = (1..=3).chain(labels).collect();
    *dice.pick(&columns)
}

/// The column of the parent or of a secondary parent.
fn any_parent_column(dice: &mut Dice, line: &[u8]) -> usize {
    let parents = (4..columns_before_comment(line).max(5)).step_by(2);
    let columns: Vec<usize> = parents.collect();
    *dice.pick(&columns)
}

/// A tag or a text too long, or only as long as another kind of text may be.
fn lengthen_text(dice: &mut Dice, line: &mut DraftLine) {
    let bytes = &mut line.bytes;
    let index = if is_node(line.role) {
        any_tag_column(dice, bytes)
    } else {
        dice.between(1, column_count(bytes).max(2) - 1)
    };
    let mut column = column_at(bytes, index).to_vec();
    column.resize(*dice.pick(&LENGTHS), b'x');
    replace_column(bytes, index, &column);
}

fn cite_another(dice: &mut Dice, line: &mut Vec<u8>) {
    let index = *dice.pick(&[2, 4]);
    let id = dice.between(1, 65_535).to_string();
    replace_column(line, index, id.as_bytes());
}

fn put_unknown_tag(dice: &mut Dice, line: &mut Vec<u8>) {
    let index = any_tag_column(dice, line);
    let tag = dice.pick_column(&["zz", "NoTag", "unknown", "-"]);
    replace_column(line, index, tag);
}

/// A phrase itself as one of its parents, or parent 0 with another label.
fn put_wrong_parent(dice: &mut Dice, line: &mut DraftLine) {
    let bytes = &mut line.bytes;
    if line.role == Role::Word || dice.one_in(4) {
        replace_column(bytes, 3, dice.pick_column(&["UNKNOWN", "SB"]));
        return replace_column(bytes, 4, b"0");
    }
    let own = own_number(bytes);
    let index = any_parent_column(dice, bytes);
    replace_column(bytes, index, &own);
}
