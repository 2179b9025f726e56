//! Questions about a tag: a file, a list, a table's number and the tag.

use super::aimed_lines::table_lines;
use super::dice::Dice;
use super::draft::{Draft, DraftLine, Measure, Role};
use super::line_damage::{column_at, column_count};
use super::texts::{column, joined, number, text, white};
use super::{damage, draft_file};
use crate::tables::{longest_tag, NOT_BOUND, SECEDGETAG, UNKNOWN, WORDTAG};

pub type Question = (Vec<u8>, Vec<u8>, u32, Vec<u8>);

const LARGE_TABLES: [u32; 9] = [
    10,
    255,
    256,
    259,
    65_535,
    65_539,
    1 << 31,
    (1 << 31) + 3,
    u32::MAX,
];

/// Tags that no row carries, and some that look like others.
const ODD_TAGS: [&[u8]; 18] = [
    b"",
    b"",
    b"%%",
    b"%%",
    b" ",
    b"\t",
    b"\n",
    b"\0",
    b"N N",
    b"-- ",
    b" UNKNOWN",
    b"-",
    b"---",
    b"unknown",
    b"UNKNOWNS",
    b"12345678901",
    b"123456789012345678901234567890123",
    b"#EOT",
];

pub fn question(dice: &mut Dice) -> Question {
    let (mut file, mut list) = two_drafts(dice);
    let table = any_table(dice, &[&file, &list]);
    let tag = asked_tag(dice, &[&file, &list], table);
    leave_tables_out(dice, &mut file);
    leave_tables_out(dice, &mut list);
    let file = maybe_damaged(dice, file);
    let list = maybe_damaged(dice, list);
    (file, list, table, tag)
}

/// Two drafts that have nothing in common, or many tags with other descriptions.
fn two_drafts(dice: &mut Dice) -> (Draft, Draft) {
    let one = any_draft(dice);
    match dice.below(3) {
        0 => (one, any_draft(dice)),
        1 => (sister(dice, &one), one),
        _ => {
            let other = sister(dice, &one);
            (one, other)
        }
    }
}

/// A draft that mostly has tags.
fn any_draft(dice: &mut Dice) -> Draft {
    loop {
        let measure = match dice.below(3) {
            0 => Measure::small(),
            _ => Measure::of_size(dice.between(1, 3)),
        };
        let draft = draft_file(dice, measure);
        if !tables_with_rows(&[&draft]).is_empty() || dice.one_in(8) {
            return draft;
        }
    }
}

/// The tag tables that have rows.
fn tables_with_rows(drafts: &[&Draft]) -> Vec<usize> {
    let rows = |table| {
        drafts
            .iter()
            .any(|draft| !draft.places_of(|role| role == Role::Row(table)).is_empty())
    };
    (WORDTAG..=SECEDGETAG)
        .filter(|&table| rows(table))
        .collect()
}

/// The same draft with other descriptions, and with more tags.
fn sister(dice: &mut Dice, draft: &Draft) -> Draft {
    let mut sister = draft.clone();
    for line in &mut sister.lines {
        if let Role::Row(table @ WORDTAG..=SECEDGETAG) = line.role {
            change_description(dice, table, &mut line.bytes);
        }
    }
    for table in WORDTAG..=SECEDGETAG {
        if dice.one_in(2) {
            add_row(dice, table, &mut sister);
        }
    }
    sister
}

/// The columns of a tag's row before its description.
fn columns_before_description(table: usize) -> usize {
    if table == WORDTAG {
        3
    } else {
        2
    }
}

fn change_description(dice: &mut Dice, table: usize, row: &mut Vec<u8>) {
    let mut columns: Vec<Vec<u8>> = (0..columns_before_description(table))
        .map(|index| column_at(row, index).to_vec())
        .collect();
    columns.push(text(dice, 8, 80));
    *row = joined(dice, &columns);
}

/// A row more for a table that is there and has rows already.
fn add_row(dice: &mut Dice, table: usize, draft: &mut Draft) {
    let rows = draft.places_of(|role| role == Role::Row(table));
    let Some(&last) = rows.last() else {
        return;
    };
    let id = String::from_utf8_lossy(column_at(&draft.lines[last].bytes, 0)).parse();
    let Ok(id) = id.map(|id: i64| id.max(0) + 1) else {
        return;
    };
    let tag = format!("zz{id}").into_bytes();
    let mut columns = vec![number(id), tag, b"Y".to_vec(), text(dice, 8, 60)];
    if table != WORDTAG {
        columns.remove(2);
    }
    let bytes = joined(dice, &columns);
    let role = Role::Row(table);
    draft.lines.insert(last + 1, DraftLine { role, bytes });
}

/// Mostly a tag table that has rows in one of the drafts.
fn any_table(dice: &mut Dice, drafts: &[&Draft]) -> u32 {
    let tables = tables_with_rows(drafts);
    match dice.below(10) {
        0 => dice.below(10) as u32,
        1 => *dice.pick(&LARGE_TABLES),
        2 => dice.between(3, 7) as u32,
        _ if tables.is_empty() => dice.between(3, 7) as u32,
        _ => *dice.pick(&tables) as u32 + 1,
    }
}

/// Mostly a tag of the table asked about, in one of the drafts.
fn asked_tag(dice: &mut Dice, drafts: &[&Draft], table: u32) -> Vec<u8> {
    let own = |role: Role| matches!(role, Role::Row(name) if name + 1 == table as usize);
    let any = |role: Role| matches!(role, Role::Row(_));
    match dice.below(12) {
        0 => NOT_BOUND.to_vec(),
        1 => UNKNOWN.to_vec(),
        2 => tag_in(dice, drafts, any),
        3 => dice.pick(&ODD_TAGS).to_vec(),
        4 => {
            let tag = tag_in(dice, drafts, own);
            nearly(dice, tag)
        }
        _ => tag_in(dice, drafts, own),
    }
}

/// The second column of a row, or any column if there is no such row.
fn tag_in(dice: &mut Dice, drafts: &[&Draft], wanted: impl Fn(Role) -> bool) -> Vec<u8> {
    let rows: Vec<&DraftLine> = drafts
        .iter()
        .flat_map(|draft| &draft.lines)
        .filter(|line| wanted(line.role) && column_count(&line.bytes) > 1)
        .collect();
    if rows.is_empty() {
        return column(dice, 8, 10);
    }
    column_at(&dice.pick(&rows).bytes, 1).to_vec()
}

/// A tag with a byte more, less or other, or with white in it, or too long.
fn nearly(dice: &mut Dice, mut tag: Vec<u8>) -> Vec<u8> {
    let place = dice.below(tag.len());
    match dice.below(7) {
        0 => tag.push(b'x'),
        1 => drop(tag.pop()),
        2 => drop(tag.remove(0)),
        3 => tag[place] ^= 1,
        4 => drop(tag.splice(place..place, white(dice))),
        5 => tag.extend(white(dice)),
        _ => {
            let limit = longest_tag(dice.between(WORDTAG, SECEDGETAG)) as usize;
            tag.resize(limit + dice.between(0, 2), b'x');
        }
    }
    tag
}

/// Leaves out all tag tables, some, or none. What cites them stays accepted.
fn leave_tables_out(dice: &mut Dice, draft: &mut Draft) {
    let chances = *dice.pick(&[0, 0, 1, 2, 3]);
    for table in WORDTAG..=SECEDGETAG {
        let begin = draft.places_of(|role| role == Role::TableBegin(table));
        if let (true, Some(&begin)) = (chances > 0 && dice.one_in(chances), begin.first()) {
            let range = table_lines(draft, begin);
            draft.lines.drain(range);
        }
    }
}

fn maybe_damaged(dice: &mut Dice, draft: Draft) -> Vec<u8> {
    if dice.one_in(8) {
        damage(dice, draft)
    } else {
        draft.bytes()
    }
}
