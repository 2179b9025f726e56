//! Damage aimed at the refusals of tables and their rows.

use super::aimed_lines::{any_line, is_row, table_lines};
use super::dice::Dice;
use super::draft::{Draft, DraftLine, Role};
use super::line_damage::{column_at, maybe_damage_line, replace_column};
use crate::tables::{EDITOR, NAMES, ORIGIN};

pub fn other_table_name(dice: &mut Dice, draft: &mut Draft) {
    let is_edge = |role| matches!(role, Role::TableBegin(_) | Role::TableEnd(_));
    let Some(index) = any_line(dice, draft, is_edge) else {
        return;
    };
    let name = match dice.below(3) {
        0 => *dice.pick(&["origin", "TAG", "%%", "ORIGINS", "EDGE-TAG"]),
        _ => *dice.pick(&NAMES),
    };
    replace_column(&mut draft.lines[index].bytes, 1, name.as_bytes());
}

/// A table once more behind itself, or behind the last sentence.
pub fn copy_table(dice: &mut Dice, draft: &mut Draft) {
    let Some(begin) = any_line(dice, draft, |role| matches!(role, Role::TableBegin(_))) else {
        return;
    };
    let range = table_lines(draft, begin);
    let copy = draft.lines[range.clone()].to_vec();
    let place = if dice.one_in(2) {
        range.end() + 1
    } else {
        draft.lines.len()
    };
    if dice.one_in(2) && place == draft.lines.len() {
        draft.lines.drain(range);
    }
    let place = place.min(draft.lines.len());
    draft.lines.splice(place..place, copy);
}

pub fn wrong_row(dice: &mut Dice, draft: &mut Draft) {
    let Some(index) = any_line(dice, draft, is_row) else {
        return;
    };
    let mut copy = draft.lines[index].clone();
    let bytes = &mut draft.lines[index].bytes;
    match dice.below(6) {
        0 | 1 => draft.lines.insert(index + 1, copy),
        2 => {
            let other = any_line(dice, draft, |role| role == copy.role).unwrap_or(index);
            draft.lines.swap(index, other);
        }
        3 => replace_column(bytes, 0, dice.pick_column(&["-1", "99", "33"])),
        4 => replace_column(bytes, 1, dice.pick_column(&["UNKNOWN", "--"])),
        _ => {
            // The next id, the same tag.
            let id = row_id(&copy) + 1;
            replace_column(&mut copy.bytes, 0, id.to_string().as_bytes());
            draft.lines.insert(index + 1, copy);
        }
    }
}

/// A row's id, or 0 if it is spoilt.
fn row_id(row: &DraftLine) -> i64 {
    String::from_utf8_lossy(column_at(&row.bytes, 0))
        .parse()
        .unwrap_or(0)
}

/// Rows added to a table, so that it comes to 257, or only to 256.
pub fn add_rows(dice: &mut Dice, draft: &mut Draft) {
    let is_begin = |role| matches!(role, Role::TableBegin(_));
    let Some(begin) = any_line(dice, draft, is_begin) else {
        return;
    };
    let Role::TableBegin(table) = draft.lines[begin].role else {
        return;
    };
    let old_rows = draft.places_of(|role| role == Role::Row(table));
    let ids: Vec<i64> = old_rows
        .iter()
        .map(|&row| row_id(&draft.lines[row]))
        .collect();
    let largest = ids.iter().max().map_or(0, |&id| id.max(0));
    let first = if largest > 60_000 { 1 } else { largest + 1 };
    let wanted = dice.pick(&[256, 257, 257usize]).saturating_sub(ids.len());
    let new_ids = (first..).filter(|id| !ids.contains(id)).take(wanted);
    let new_row = |id| format!("{id} zz{id} Y new").into_bytes();
    let mut new_rows: Vec<DraftLine> = new_ids
        .map(|id| DraftLine {
            role: Role::Row(table),
            bytes: new_row(id),
        })
        .collect();
    if let Some(last) = new_rows.last_mut() {
        maybe_damage_line(dice, last);
    }
    let end = *table_lines(draft, begin).end();
    draft.lines.splice(end..end, new_rows);
}

/// ORIGIN or EDITOR taken out, perhaps with all sentences.
pub fn drop_table(dice: &mut Dice, draft: &mut Draft) {
    let table = *dice.pick(&[ORIGIN, EDITOR]);
    let Some(begin) = any_line(dice, draft, |role| role == Role::TableBegin(table)) else {
        return;
    };
    let range = table_lines(draft, begin);
    draft.lines.drain(range);
    let sentences = draft.places_of(|role| role == Role::SentenceBegin);
    let Some(&first) = sentences.first() else {
        return;
    };
    if dice.one_in(4) {
        draft.lines.truncate(first);
    } else {
        maybe_damage_line(dice, &mut draft.lines[first]);
    }
}
