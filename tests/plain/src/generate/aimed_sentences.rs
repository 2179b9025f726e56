//! Damage aimed at the refusals of whole sentences, of their first and last lines.

use super::aimed_lines::{any_line, sentence_lines};
use super::aimed_nodes::absent_parent;
use super::dice::Dice;
use super::draft::{Draft, DraftLine, Role};
use super::line_damage::{maybe_damage_line, replace_column};

/// A sentence once more, before itself or behind the last one.
pub fn repeat_sentence(dice: &mut Dice, draft: &mut Draft) {
    let Some(begin) = any_line(dice, draft, |role| role == Role::SentenceBegin) else {
        return;
    };
    let copy = draft.lines[sentence_lines(draft, begin)].to_vec();
    if dice.one_in(2) {
        maybe_damage_line(dice, &mut draft.lines[begin]);
        draft.lines.splice(begin..begin, copy);
    } else {
        let end = draft.lines.len();
        draft.lines.extend(copy);
        maybe_damage_line(dice, &mut draft.lines[end]);
    }
}

pub fn other_editor_or_origin(dice: &mut Dice, draft: &mut Draft) {
    let Some(index) = any_line(dice, draft, |role| role == Role::SentenceBegin) else {
        return;
    };
    let column = *dice.pick(&[2, 4]);
    let id = dice.between(1, 65_535).to_string();
    replace_column(&mut draft.lines[index].bytes, column, id.as_bytes());
}

/// A sentence whose words are others: 500 or 501, or with 512 or 513 secondary edges.
pub fn too_many_nodes(dice: &mut Dice, draft: &mut Draft) {
    let Some(begin) = any_line(dice, draft, |role| role == Role::SentenceBegin) else {
        return;
    };
    let range = sentence_lines(draft, begin);
    let phrases: Vec<DraftLine> = draft.lines[range.clone()]
        .iter()
        .filter(|line| line.role == Role::Phrase)
        .cloned()
        .collect();
    let mut words = if dice.one_in(2) {
        many_words(dice)
    } else {
        many_edges(dice)
    };
    if let Some(last) = words.last_mut() {
        maybe_damage_line(dice, last);
    }
    words.extend(phrases);
    draft
        .lines
        .splice(begin + 1..(*range.end()).max(begin + 1), words);
}

fn many_words(dice: &mut Dice) -> Vec<DraftLine> {
    let count = *dice.pick(&[500, 501, 501, 502]);
    (0..count)
        .map(|_| DraftLine {
            role: Role::Word,
            bytes: b"Ja -- -- -- 0".to_vec(),
        })
        .collect()
}

fn many_edges(dice: &mut Dice) -> Vec<DraftLine> {
    let last = *dice.pick(&[170, 171, 171, 180]);
    let line = |edges: usize| {
        ["Ja -- -- -- 0", &" -- 500".repeat(edges)]
            .concat()
            .into_bytes()
    };
    let counts = [171, 171, last];
    counts
        .iter()
        .map(|&edges| DraftLine {
            role: Role::Word,
            bytes: line(edges),
        })
        .collect()
}

pub fn other_end(dice: &mut Dice, draft: &mut Draft) {
    let Some(index) = any_line(dice, draft, |role| role == Role::SentenceEnd) else {
        return;
    };
    let number = dice.between(1, 65_535).to_string();
    replace_column(&mut draft.lines[index].bytes, 1, number.as_bytes());
    if dice.one_in(3) {
        absent_parent(dice, draft);
    }
}
