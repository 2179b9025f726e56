//! Files made by dice, and what must hold of all of them.

mod common;

use common::*;
use plain::generate::*;
use plain::Survey;

#[test]
fn the_same_seed_gives_the_same_file() {
    for seed in 0..200 {
        assert_eq!(accepted(seed, 4), accepted(seed, 4));
        assert_eq!(damaged(seed, 4), damaged(seed, 4));
        assert_eq!(small(seed), small(seed));
    }
    assert_ne!(accepted(1, 4), accepted(2, 4));
}

/// What a survey says does not hang on what the buffers held, and an opening and a
/// writing fill table sheet and seen set as a survey does.
#[test]
fn openings_and_writings_agree_with_the_survey() {
    let mut refused = 0;
    for seed in 0..3_000 {
        let file = damaged(seed, size_of(seed));
        let mut surveyed = Lent::with_old_contents();
        let answer = surveyed.survey(&file);
        let mut out = vec![7; file.len() + 512];
        let mut written = Lent::with_old_contents();
        let writing = written.write(&file, &mut out);
        assert_eq!(
            (writing.refusal, writing.place),
            (answer.refusal, answer.place),
            "seed {seed}"
        );
        assert!(written.table_sheet == surveyed.table_sheet && written.seen == surveyed.seen);
        assert!(written.sentence_is_zero());
        assert!(out[writing.length as usize..].iter().all(|&byte| byte == 7));
        refused += usize::from(answer.refusal != 0);
        check_openings(&file, &answer, &surveyed);
    }
    assert!(refused > 2_000, "{refused}");
}

fn check_openings(file: &[u8], answer: &Survey, surveyed: &Lent) {
    let numbers = surveyed.numbers_seen();
    assert_eq!(numbers.len(), answer.sentences as usize);
    for &number in &numbers {
        let mut opened = Lent::with_old_contents();
        assert_eq!(opened.open(file, number), 0);
        assert_eq!(opened.sentence_sheet[0], number);
        assert!(opened.table_sheet == surveyed.table_sheet && opened.seen == surveyed.seen);
    }
    for number in [0, 1, 2, 7, 40, 65_535, 65_536, u32::MAX] {
        if !numbers.contains(&number) {
            let mut opened = Lent::with_old_contents();
            assert_eq!(opened.open(file, number), 24);
            assert!(opened.sentence_is_zero());
            assert!(opened.table_sheet == surveyed.table_sheet && opened.seen == surveyed.seen);
        }
    }
}
