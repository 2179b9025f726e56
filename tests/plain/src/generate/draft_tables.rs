//! The tables of a draft.

use super::dice::Dice;
use super::draft::{Draft, Measure, Role};
use super::texts::{column, joined, maybe_white, number, text, white};
use crate::tables::*;

/// What a sentence may cite.
#[derive(Default)]
pub struct Known {
    pub origins: Vec<usize>,
    pub editors: Vec<i64>,
    /// The tags of each table that is present, in the order of tables.
    pub tags: [Option<Vec<Vec<u8>>>; 7],
}

const ODD_TAGS: [&[u8]; 12] = [
    b"%%x", b"%%%", b"%", b"#", b"#500", b"500", b"0", b"-1", b"---", b"-", b"Y", b"unknown",
];

/// All tables in any order; ORIGIN and EDITOR always, the others perhaps.
pub fn draft_tables(
    dice: &mut Dice,
    measure: &Measure,
    origin_needed: bool,
    draft: &mut Draft,
) -> Known {
    let mut known = Known::default();
    let mut tables = vec![ORIGIN, EDITOR];
    tables.extend((WORDTAG..=SECEDGETAG).filter(|_| dice.one_in(2)));
    dice.shuffle(&mut tables);
    for table in tables {
        table_edge(dice, measure, draft, table, "#BOT");
        let rows = row_count(dice, measure, table == ORIGIN && origin_needed);
        match table {
            ORIGIN => known.origins = origin_rows(dice, measure, rows, draft),
            EDITOR => known.editors = editor_rows(dice, measure, rows, draft),
            _ => known.tags[table] = Some(tag_rows(dice, measure, rows, table, draft)),
        }
        table_edge(dice, measure, draft, table, "#EOT");
    }
    known
}

fn table_edge(dice: &mut Dice, measure: &Measure, draft: &mut Draft, table: usize, keyword: &str) {
    let line = joined(dice, &[keyword.into(), NAMES[table].into()]);
    let role = if keyword == "#BOT" {
        Role::TableBegin(table)
    } else {
        Role::TableEnd(table)
    };
    draft.add(dice, measure, role, line);
}

fn row_count(dice: &mut Dice, measure: &Measure, needed: bool) -> usize {
    if measure.to_the_limits && dice.one_in(150) {
        return MOST_ROWS;
    }
    dice.between(usize::from(needed), measure.rows)
}

/// Distinct ids from `lowest` to 65,535 in any order.
fn distinct_ids(dice: &mut Dice, count: usize, lowest: i64) -> Vec<i64> {
    let mut ids = Vec::new();
    while ids.len() < count {
        let id = match dice.below(4) {
            0 => dice.below(300) as i64 + lowest,
            1 => *dice.pick(&[-1, 0, 1, 2, 65_535]),
            _ => dice.between(1, 65_535) as i64,
        };
        if id >= lowest && !ids.contains(&id) {
            ids.push(id);
        }
    }
    ids
}

fn origin_rows(dice: &mut Dice, measure: &Measure, count: usize, draft: &mut Draft) -> Vec<usize> {
    let ids = distinct_ids(dice, count, 1);
    for id in &ids {
        let name = origin_name(dice, measure);
        let mut line = joined(dice, &[number(id), name]);
        line.extend(origin_comment(dice, measure, line.ends_with(b"%")));
        draft.add(dice, measure, Role::Row(ORIGIN), line);
    }
    ids.into_iter().map(|id| id as usize).collect()
}

/// A name without two adjacent percent signs.
fn origin_name(dice: &mut Dice, measure: &Measure) -> Vec<u8> {
    let mut name = text(dice, measure.ordinary_text, 128);
    for place in 1..name.len() {
        if name[place - 1..=place] == *b"%%" {
            name[place] = b'x';
        }
    }
    name
}

/// Percent signs and comment, glued to the name only if that doesn't end with one.
fn origin_comment(dice: &mut Dice, measure: &Measure, name_ends_with_percent: bool) -> Vec<u8> {
    if dice.one_in(2) {
        return Vec::new();
    }
    let before = if name_ends_with_percent {
        white(dice)
    } else {
        maybe_white(dice)
    };
    let comment = if dice.one_in(6) {
        Vec::new()
    } else {
        text(dice, measure.ordinary_text, 160)
    };
    [before, b"%%".to_vec(), maybe_white(dice), comment].concat()
}

fn editor_rows(dice: &mut Dice, measure: &Measure, count: usize, draft: &mut Draft) -> Vec<i64> {
    let mut ids = distinct_ids(dice, count, -1);
    for id in &ids {
        let login = if dice.one_in(10) {
            b"%%".to_vec()
        } else {
            column(dice, measure.ordinary_text, 16)
        };
        let full_name = text(dice, measure.ordinary_text, 40);
        let line = joined(dice, &[number(id), login, full_name]);
        draft.add(dice, measure, Role::Row(EDITOR), line);
    }
    ids.extend([-1, 0]);
    ids
}

fn tag_rows(
    dice: &mut Dice,
    measure: &Measure,
    count: usize,
    table: usize,
    draft: &mut Draft,
) -> Vec<Vec<u8>> {
    let mut tags: Vec<Vec<u8>> = Vec::new();
    let mut id = dice.below(3) as i64 - 1;
    for _ in 0..count {
        let tag = match id {
            -1 => UNKNOWN.to_vec(),
            0 => NOT_BOUND.to_vec(),
            _ => new_tag(dice, measure, table, &tags),
        };
        tag_row(dice, measure, table, id, &tag, draft);
        tags.push(tag);
        // Row 1 may follow row -1.
        id += if id == -1 && dice.one_in(2) { 2 } else { 1 };
    }
    tags
}

fn tag_row(
    dice: &mut Dice,
    measure: &Measure,
    table: usize,
    id: i64,
    tag: &[u8],
    draft: &mut Draft,
) {
    let mut columns = vec![number(id), tag.to_vec()];
    if table == WORDTAG {
        columns.push(dice.pick(&[b"Y", b"N"]).to_vec());
    }
    columns.push(text(dice, measure.ordinary_text, 80));
    let line = joined(dice, &columns);
    draft.add(dice, measure, Role::Row(table), line);
}

fn new_tag(dice: &mut Dice, measure: &Measure, table: usize, taken: &[Vec<u8>]) -> Vec<u8> {
    loop {
        let tag = any_tag(dice, measure, table);
        let reserved = tag == UNKNOWN || tag == NOT_BOUND;
        if !reserved && !taken.contains(&tag) {
            return tag;
        }
    }
}

/// A tag for a table that needn't be present.
pub fn any_tag(dice: &mut Dice, measure: &Measure, table: usize) -> Vec<u8> {
    if dice.one_in(8) {
        return dice.pick(&ODD_TAGS).to_vec();
    }
    column(dice, measure.ordinary_text, longest_tag(table) as usize)
}
