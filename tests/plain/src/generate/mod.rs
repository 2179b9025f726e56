//! Files made by dice: accepted ones that use every freedom of the rules, damaged
//! ones that meet every refusal, small ones to be cut at every byte, pairs of files
//! with a tag to be explained, and a corpus.
//!
//! The same seed always gives the same file.

mod aimed;
mod aimed_lines;
mod aimed_nodes;
mod aimed_sentences;
mod aimed_tables;
mod blind;
mod columns_at_fault;
mod corpus;
mod dice;
mod draft;
mod draft_sentences;
mod draft_tables;
mod line_damage;
mod longest;
mod questions;
mod texts;

pub use corpus::corpus;
pub use dice::Dice;
pub use longest::longest_tidy;
pub use questions::Question;

use draft::{Draft, Measure};

/// Small files are shorter than this.
pub const SMALL_FILE: usize = 400;

/// An accepted file. The larger the size, the more sentences, nodes and rows; from
/// size 2 on some files go to the limits.
pub fn accepted(seed: u64, size: usize) -> Vec<u8> {
    accepted_with_count(seed, size).0
}

/// An accepted file and the count of its sentences.
pub fn accepted_with_count(seed: u64, size: usize) -> (Vec<u8>, usize) {
    let draft = draft_file(&mut Dice::new(seed), Measure::of_size(size));
    (draft.bytes(), draft.sentence_count())
}

/// An accepted file with some damage done to it, which it may survive.
pub fn damaged(seed: u64, size: usize) -> Vec<u8> {
    let mut dice = Dice::new(seed ^ 0x5eed_da3a_6ed0_0000);
    let draft = draft_file(&mut dice, Measure::of_size(size));
    damage(&mut dice, draft)
}

/// An accepted file in which several columns of one line are damaged.
pub fn damaged_columns(seed: u64, size: usize) -> Vec<u8> {
    let mut dice = Dice::new(seed ^ 0xc010_3a5d_a3a6_0000);
    let mut draft = draft_file(&mut dice, Measure::of_size(size));
    columns_at_fault::several_columns_at_fault(&mut dice, &mut draft);
    draft.bytes()
}

/// A small accepted file.
pub fn small_accepted(seed: u64) -> Vec<u8> {
    small_draft(&mut Dice::new(seed ^ 0x0005_3a11_acce_0000)).bytes()
}

/// A small accepted file with some damage done to it. Its length has no limit.
pub fn small_damaged(seed: u64) -> Vec<u8> {
    let mut dice = Dice::new(seed ^ 0x0005_3a11_da3a_0000);
    let draft = small_draft(&mut dice);
    damage(&mut dice, draft)
}

/// A small file, accepted or damaged.
pub fn small(seed: u64) -> Vec<u8> {
    if seed.is_multiple_of(2) {
        small_accepted(seed)
    } else {
        small_damaged(seed)
    }
}

/// A question about a tag: a file, a list, a table's number and the tag. Mostly both are
/// accepted, with tag tables or without.
pub fn explained(seed: u64) -> Question {
    questions::question(&mut Dice::new(seed ^ 0x0e81_a14e_d000_0000))
}

fn small_draft(dice: &mut Dice) -> Draft {
    loop {
        let draft = draft_file(dice, Measure::small());
        if draft.bytes().len() < SMALL_FILE {
            return draft;
        }
    }
}

/// An accepted file from top to bottom.
fn draft_file(dice: &mut Dice, measure: Measure) -> Draft {
    let mut draft = Draft::default();
    draft.format_line(dice, &measure);
    let sentences = dice.between(0, measure.sentences);
    let known = draft_tables::draft_tables(dice, &measure, sentences > 0, &mut draft);
    draft_sentences::draft_sentences(dice, &measure, sentences, &known, &mut draft);
    draft
}

fn damage(dice: &mut Dice, mut draft: Draft) -> Vec<u8> {
    let rounds = if dice.one_in(5) { 2 } else { 1 };
    for _ in 0..rounds {
        match dice.below(12) {
            0..=6 => aimed::aim_at_any(dice, &mut draft),
            7 => line_damage::two_faults_in_a_line(dice, &mut draft),
            8 => columns_at_fault::several_columns_at_fault(dice, &mut draft),
            9 => blind::move_lines(dice, &mut draft),
            _ => return blind::change_bytes(dice, draft.bytes()),
        }
    }
    draft.bytes()
}
