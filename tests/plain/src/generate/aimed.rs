//! Damage aimed at one number of refusal. It may miss: then another number, or an
//! accepted file, comes of it.

use super::aimed_lines::{any_line, is_node, is_row};
use super::aimed_nodes::*;
use super::aimed_sentences::*;
use super::aimed_tables::*;
use super::dice::Dice;
use super::draft::{Draft, Role};
use super::line_damage::*;
use super::texts::text;
use crate::tables::NAMES;

const ODD_FIRST_COLUMNS: [&str; 14] = [
    "#", "#x", "#BOS", "#BOT", "#EOT", "#EOS", "#FORMAT", "#499x", "#bos", "#-1", "#500x", "#500",
    "Ja", "#EOS7",
];

pub fn aim_at_any(dice: &mut Dice, draft: &mut Draft) {
    let refusal = dice.between(3, 23);
    aim_at(dice, refusal, draft);
}

fn aim_at(dice: &mut Dice, refusal: usize, draft: &mut Draft) {
    match refusal {
        3 => leave_a_rest(dice, draft),
        6 => wrong_kind(dice, draft),
        9 => wrong_format(dice, draft),
        11 => wrong_row(dice, draft),
        12 => add_rows(dice, draft),
        13 => drop_table(dice, draft),
        14 => repeat_sentence(dice, draft),
        15 => other_editor_or_origin(dice, draft),
        16 => too_many_nodes(dice, draft),
        17 => repeat_phrase(dice, draft),
        18 => unknown_tag(dice, draft),
        19 if dice.one_in(2) => own_secondary_parent(dice, draft),
        20 => other_end(dice, draft),
        21 => leave_a_gap(dice, draft),
        22 => absent_parent(dice, draft),
        23 => end_inside(dice, draft),
        _ => damage_any_line(dice, refusal, draft),
    }
}

/// The numbers 4, 5, 7, 8, 10 and 19 need no more than one line.
fn damage_any_line(dice: &mut Dice, refusal: usize, draft: &mut Draft) {
    let wanted = |role: Role| match refusal {
        4 | 5 => true,
        10 => is_node(role) || is_row(role),
        19 => is_node(role),
        _ => role != Role::Ignored,
    };
    let Some(index) = any_line(dice, draft, wanted) else {
        return;
    };
    let line = &mut draft.lines[index];
    match refusal {
        4 => put_illegal_byte(dice, &mut line.bytes),
        5 => make_too_long(dice, &mut line.bytes),
        7 => miscount_columns(dice, &mut line.bytes),
        8 => spoil_number(dice, line),
        10 => spoil_text(dice, line),
        _ => change_parent(dice, line),
    }
}

fn leave_a_rest(dice: &mut Dice, draft: &mut Draft) {
    draft.rest = match dice.below(7) {
        0 => b" ".to_vec(),
        1 => b"%%".to_vec(),
        2 => vec![0],
        3 => vec![b'x'; 4_097],
        4 => text(dice, 8, 40),
        _ => draft.lines.pop().map_or(b"#".to_vec(), |line| line.bytes),
    };
}

fn wrong_kind(dice: &mut Dice, draft: &mut Draft) {
    let Some(index) = any_line(dice, draft, |role| role != Role::Ignored) else {
        return;
    };
    match dice.below(7) {
        0 => put_white_first(dice, &mut draft.lines[index].bytes),
        1 => replace_column(
            &mut draft.lines[index].bytes,
            0,
            dice.pick_column(&ODD_FIRST_COLUMNS),
        ),
        2 => other_table_name(dice, draft),
        3 => copy_table(dice, draft),
        4 => word_after_phrase(dice, draft),
        5 => draft.lines[index].bytes = any_keyword_line(dice),
        _ => {
            if let Some(index) = any_line(dice, draft, |role| !is_node(role) && !is_row(role)) {
                draft.lines.remove(index);
            }
        }
    }
}

fn any_keyword_line(dice: &mut Dice) -> Vec<u8> {
    let name = *dice.pick(&NAMES);
    let keyword = *dice.pick(&[
        "#BOT",
        "#EOT",
        "#BOS 1 0 0",
        "#EOS",
        "#FORMAT",
        "#BOT x",
        "#500",
        "Ja",
    ]);
    format!("{keyword} {name}").into_bytes()
}

fn wrong_format(dice: &mut Dice, draft: &mut Draft) {
    if dice.one_in(4) {
        draft.lines.retain(|line| line.role == Role::Ignored);
        return;
    }
    let Some(index) = any_line(dice, draft, |role| role == Role::Format) else {
        return;
    };
    let format = *dice.pick(&["0", "1", "2", "4", "33", "65535"]);
    replace_column(&mut draft.lines[index].bytes, 1, format.as_bytes());
}

fn end_inside(dice: &mut Dice, draft: &mut Draft) {
    let inside = |role| !matches!(role, Role::Ignored | Role::TableEnd(_) | Role::SentenceEnd);
    if let Some(index) = any_line(dice, draft, inside) {
        draft.lines.truncate(index + 1);
    }
}
