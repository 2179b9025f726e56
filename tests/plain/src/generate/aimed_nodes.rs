//! Damage aimed at the refusals of words and phrases, their tags and parents.

use super::aimed_lines::{any_line, is_node};
use super::dice::Dice;
use super::draft::{Draft, DraftLine, Role};
use super::line_damage::*;
use crate::tables::{NAMES, SECEDGETAG, WORDTAG};

pub fn word_after_phrase(dice: &mut Dice, draft: &mut Draft) {
    let Some(index) = any_line(dice, draft, |role| role == Role::Phrase) else {
        return;
    };
    let bytes = dice
        .pick_column(&["Ja ITJ -- -- 0", "# ITJ -- -- 0", "#", "Ja"])
        .to_vec();
    draft.lines.insert(
        index + 1,
        DraftLine {
            role: Role::Word,
            bytes,
        },
    );
}

pub fn repeat_phrase(dice: &mut Dice, draft: &mut Draft) {
    let Some(index) = any_line(dice, draft, |role| role == Role::Phrase) else {
        return;
    };
    let mut copy = draft.lines[index].clone();
    maybe_damage_line(dice, &mut copy);
    draft.lines.insert(index + 1, copy);
}

/// A tag that isn't in its table, perhaps because a table without rows is added.
pub fn unknown_tag(dice: &mut Dice, draft: &mut Draft) {
    let Some(index) = any_line(dice, draft, is_node) else {
        return;
    };
    change_tag(dice, &mut draft.lines[index]);
    let table = dice.between(WORDTAG, SECEDGETAG);
    let present = !draft
        .places_of(|role| role == Role::TableBegin(table))
        .is_empty();
    let sentence = draft
        .places_of(|role| role == Role::SentenceBegin)
        .first()
        .copied();
    if let (false, Some(place)) = (present, sentence) {
        let name = NAMES[table];
        let begin = DraftLine {
            role: Role::TableBegin(table),
            bytes: format!("#BOT {name}").into_bytes(),
        };
        let end = DraftLine {
            role: Role::TableEnd(table),
            bytes: format!("#EOT {name}").into_bytes(),
        };
        draft.lines.splice(place..place, [begin, end]);
    }
}

/// A phrase that is its own secondary parent.
pub fn own_secondary_parent(dice: &mut Dice, draft: &mut Draft) {
    if let Some(index) = any_line(dice, draft, |role| role == Role::Phrase) {
        let line = &mut draft.lines[index].bytes;
        let own = own_number(line);
        put_secondary_parent(dice, line, &own);
    }
}

/// A phrase with another number, or one phrase line less.
pub fn leave_a_gap(dice: &mut Dice, draft: &mut Draft) {
    let Some(index) = any_line(dice, draft, |role| role == Role::Phrase) else {
        return;
    };
    if dice.one_in(2) {
        draft.lines.remove(index);
        return;
    }
    let number = dice.between(500, 999).to_string();
    let bytes = format!("#{number} -- -- -- 0").into_bytes();
    draft.lines.insert(
        index + 1,
        DraftLine {
            role: Role::Phrase,
            bytes,
        },
    );
}

pub fn absent_parent(dice: &mut Dice, draft: &mut Draft) {
    let Some(index) = any_line(dice, draft, is_node) else {
        return;
    };
    let parent = dice.between(510, 999).to_string();
    let line = &mut draft.lines[index].bytes;
    if dice.one_in(2) {
        put_secondary_parent(dice, line, parent.as_bytes());
    } else {
        replace_column(line, 4, parent.as_bytes());
    }
}
