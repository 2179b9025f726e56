//! The index, and the sentence that begins at a place.

mod common;

use common::{Lent, HEAD};
use plain::documents::{replaced, A};
use plain::{index, open_at, PLACES};

/// The answer at a place; the sheet and the list must be those of the opening of sentence
/// 7 in A, or zero.
fn opened_at(file: &[u8], place: usize) -> u32 {
    let (mut expected, mut there) = (Lent::with_old_contents(), Lent::with_old_contents());
    let edges = &mut there.edges;
    let refusal = open_at(file, place as u32, &mut there.sentence_sheet, edges);
    assert_eq!(expected.open(A, if refusal == 0 { 7 } else { 0 }), refusal);
    assert!(expected.sentence_sheet == there.sentence_sheet && expected.edges == there.edges);
    refusal
}

#[test]
fn the_index_tells_one_more_than_the_place() {
    for (file, told) in [(A.to_vec(), HEAD + 1), (A[..A.len() - 1].to_vec(), 0)] {
        let mut lent = Lent::with_old_contents();
        let mut places = vec![9; PLACES];
        let answer = index(&file, &mut lent.table_sheet, &mut lent.seen, &mut places);
        let mut surveyed = Lent::with_old_contents();
        assert_eq!(answer, surveyed.survey(&file));
        assert!(lent == surveyed);
        let mut expected = vec![0; PLACES];
        expected[7] = told as u32;
        assert!(places == expected);
    }
}

#[test]
fn a_sentence_begins_at_one_place_of_file_a() {
    for place in (0..A.len() + 3).chain([u32::MAX as usize]) {
        let refusal = if place == HEAD { 0 } else { 24 };
        assert_eq!(opened_at(A, place), refusal, "place {place}");
    }
}

#[test]
fn nothing_is_asked_of_tables_and_other_sentences() {
    let no_row = replaced(A, "\n1 lab\n", "\n3 lab\n");
    let same_number = [A, &A[HEAD..]].concat();
    let no_tables = [&vec![b'\n'; HEAD][..], &A[HEAD..]].concat();
    let bytes_behind = [A, b"\x00"].concat();
    for file in [no_row, same_number, no_tables, bytes_behind] {
        assert_eq!(opened_at(&file, HEAD), 0);
    }
}

#[test]
fn a_fault_in_its_own_lines_is_no_sentence() {
    let changes = [
        ("#BOS 7 2 0 1", " #BOS 7 2 0 1"),
        ("#BOS 7 2 0 1", "#BOS 7 2 0"),
        ("#BOS 7 2 0 1", "#BOS 7 2 0 1 x"),
        ("#BOS 7 2 0 1", "#BOS 0 2 0 1"),
        ("-- 500", "-- 501"),
        ("#500 S", "#501 S"),
        ("-- 0\n#EOS", "-- 500\n#EOS"),
        ("#EOS 7", "#EOS 8"),
        ("#EOS 7", " #EOS 7"),
        ("#EOS 7", "%%\x01\n#EOS 7"),
        ("#EOS 7\n", "#EOS 7"),
        ("Ja ITJ", "#BOS 8 2 0 1\nJa ITJ"),
    ];
    for (old, new) in changes {
        let file = replaced(A, old, new);
        assert_eq!(opened_at(&file, HEAD), 24, "{new}");
    }
}
