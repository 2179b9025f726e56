//! The example sentence of document 000, with its lost ids and tags mended.

mod common;

use common::*;
use plain::documents::{example, replaced};

#[test]
fn the_example_is_accepted() {
    let file = example();
    let mut lent = Lent::with_old_contents();
    assert_eq!(lent.survey(&file), survey(0, file.len(), 1, file.len()));
    assert_eq!(lent.numbers_seen(), [12]);
    assert_eq!(lent.table_sheet[..7], [2, 2, 13, 9, 5, 10, 1]);
    assert_eq!(
        lent.table_sheet[7 + 2 * 256 * 6 + 2 * 6 + 5],
        1,
        "ADJD is to be bound"
    );
    assert_eq!(lent.open(&file, 12), 0);
    assert_eq!(
        lent.sentence_sheet[..9],
        [12, 2, 847_184_076, 1, 0, 0, 12, 4, 0]
    );
    let third_word = &lent.sentence_sheet[9 + 2 * 11..][..2];
    assert_eq!(
        &file[third_word[0] as usize..][..third_word[1] as usize],
        [b'd', b'a', 223]
    );
    let parents: Vec<u32> = (500..504)
        .map(|node| lent.sentence_sheet[9 + node * 11 + 8])
        .collect();
    assert_eq!(parents, [501, 502, 503, 0]);
}

#[test]
fn its_tidy_text_has_one_tab_between_columns() {
    let tidy = tidy_of(&example());
    let line = b"Schade\tADJD\tPos\tPD\t503\n";
    assert!(tidy.windows(line.len()).any(|window| window == line));
    let row = b"1\trefcorpus\t%%\tStuttgarter Referenzkorpus, Frankfurter Rundschau\n";
    assert!(tidy.windows(row.len()).any(|window| window == row));
    assert!(!tidy.windows(2).any(|pair| pair == b"\t\t"));
    assert_eq!(tidy_of(&tidy), tidy);
}

/// As printed, NODETAG's row 1 stands before row 0.
#[test]
fn rows_as_printed_are_out_of_order() {
    let file = replaced(
        &example(),
        "0\t--\tnot bound\n1\tNP\tnoun phrase\n",
        "1\tNP\tnoun phrase\n0\t--\tnot bound\n",
    );
    let answer = survey_of(&file);
    assert_eq!(answer.refusal, 11);
    assert!(file[answer.place as usize..].starts_with(b"0\t--\tnot bound\n2\tS"));
}
