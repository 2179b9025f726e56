//! The lines that damage is aimed at: one line with a role, a whole table, a whole
//! sentence.

use super::dice::Dice;
use super::draft::{Draft, DraftLine, Role};

/// A line with one of the roles wanted, if there is one.
pub fn any_line(dice: &mut Dice, draft: &Draft, wanted: impl Fn(Role) -> bool) -> Option<usize> {
    let places = draft.places_of(wanted);
    (!places.is_empty()).then(|| *dice.pick(&places))
}

pub fn is_node(role: Role) -> bool {
    matches!(role, Role::Word | Role::Phrase)
}

pub fn is_row(role: Role) -> bool {
    matches!(role, Role::Row(_))
}

/// The lines from the begin of a table to its end.
pub fn table_lines(draft: &Draft, begin: usize) -> std::ops::RangeInclusive<usize> {
    let is_end = |line: &DraftLine| matches!(line.role, Role::TableEnd(_));
    let length = draft.lines[begin..].iter().position(is_end).unwrap_or(0);
    begin..=begin + length
}

/// The lines from the begin of a sentence to its end.
pub fn sentence_lines(draft: &Draft, begin: usize) -> std::ops::RangeInclusive<usize> {
    let is_end = |line: &DraftLine| line.role == Role::SentenceEnd;
    let length = draft.lines[begin..].iter().position(is_end).unwrap_or(0);
    begin..=begin + length
}
