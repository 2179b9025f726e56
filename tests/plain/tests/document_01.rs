//! The cases printed in document 01.

mod common;

use common::*;
use plain::documents::{cases_run_only, changed, replaced, starred_cases, A};

#[test]
fn lengths_of_file_a() {
    assert_eq!(A.len(), 126);
    assert!(A[HEAD..].starts_with(b"#BOS"));
}

#[test]
fn cases_with_a_star() {
    assert_answered(starred_cases());
}

#[test]
fn cases_that_are_run() {
    assert_answered(cases_run_only());
}

fn assert_answered(cases: Vec<(Vec<u8>, plain::Survey)>) {
    for (file, answer) in cases {
        assert_eq!(
            survey_of(&file),
            answer,
            "{}",
            String::from_utf8_lossy(&file)
        );
    }
}

/// The starred case with parent 500 for #500 is 19; with another label it stays 19.
#[test]
fn parent_of_a_phrase_must_be_larger() {
    assert_eq!(
        survey_of(&changed("S -- -- 0", "S -- SB 500")),
        survey(19, 117, 0, 0)
    );
}

#[test]
fn tidy_text_of_a() {
    assert_eq!(tidy_of(A), TIDY_A);
    assert_eq!(tidy_of(TIDY_A), TIDY_A);
}

#[test]
fn sheets_of_a() {
    let mut lent = Lent::with_old_contents();
    assert_eq!(lent.open(A, 7), 0);
    let mut tables = vec![0; plain::TABLE_SHEET];
    tables[0] = 2;
    tables[1] = 2;
    tables[7..13].copy_from_slice(&[2, 24, 3, 0, 0, 0]);
    tables[7 + 256 * 6..][..6].copy_from_slice(&[3, 54, 3, 58, 3, 0]);
    assert!(lent.table_sheet == tables);
    assert_eq!(lent.numbers_seen(), [7]);
    assert_eq!(lent.seen[0], 128);
    let mut sheet = vec![0; plain::SENTENCE_SHEET];
    sheet[..9].copy_from_slice(&[7, 3, 0, 1, 0, 0, 1, 1, 0]);
    sheet[9..20].copy_from_slice(&[87, 2, 90, 3, 94, 2, 97, 2, 500, 0, 0]);
    sheet[9 + 500 * 11..][..11].copy_from_slice(&[0, 0, 109, 1, 111, 2, 114, 2, 0, 0, 0]);
    assert!(lent.sentence_sheet == sheet);
    assert!(lent
        .edges
        .iter()
        .all(|edge| *edge == plain::Edge::default()));
}

/// The slips students make.
#[test]
fn slips() {
    let twelve = replaced(&changed("#BOS 7", "#BOS 12"), "#EOS 7", "#EOS 12");
    let unended = &twelve[..twelve.len() - 2];
    assert!(unended.ends_with(b"#EOS 1"));
    assert_eq!(survey_of(unended).refusal, 3);
    let one = replaced(&changed("#BOS 7", "#BOS 1"), "#EOS 7", "#EOS 1");
    assert_eq!(survey_of(&one[..one.len() - 1]), survey(3, 119, 0, 0));
    assert_eq!(survey_of(&changed("-- 500", "-- 501")).refusal, 22);
    let later = changed("#500 S -- -- 0", "#501 S -- -- 0\n#500 NP -- SB 501");
    assert_eq!(survey_of(&later).refusal, 0);
    let two_phrases = changed("#500 S -- -- 0", "#500 NP -- -- 501\n#501 S -- -- 0");
    assert_eq!(
        survey_of(&two_phrases).refusal,
        0,
        "label -- under a phrase"
    );
}

#[test]
fn byte_160_is_an_ordinary_byte() {
    let with_byte = |pattern: &str| -> Vec<u8> {
        let file = changed("Ja ITJ -- -- 500", pattern);
        file.iter()
            .map(|&byte| if byte == b'~' { 160 } else { byte })
            .collect()
    };
    for accepted in [
        "Ja~nein ITJ -- -- 500",
        "~ ITJ -- -- 500",
        "Ja ~ -- -- 500",
        "~%% ITJ -- -- 500",
    ] {
        assert_eq!(survey_of(&with_byte(accepted)).refusal, 0, "{accepted}");
    }
    for (line, refusal) in [("Ja~ITJ -- -- 500", 7), ("Ja ITJ -- -- 500~", 8), ("~", 7)] {
        assert_eq!(survey_of(&with_byte(line)).refusal, refusal, "{line}");
    }
    let name = replaced(&with_byte("Ja ITJ -- -- 500"), "1 lab", "1 ~");
    let name: Vec<u8> = name
        .iter()
        .map(|&byte| if byte == b'~' { 160 } else { byte })
        .collect();
    let mut lent = Lent::with_old_contents();
    assert_eq!(lent.survey(&name).refusal, 0);
    assert_eq!(lent.table_sheet[7..13], [2, 24, 1, 0, 0, 0]);
}
