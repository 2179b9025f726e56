//! The description of a tag, from the file or from the list.

mod common;

use common::explaining::*;
use plain::documents::{example, A};
use plain::{Explained, OF_FILE, OF_LIST};

#[test]
fn the_file_is_asked_first() {
    let file = with_table(NODETAG, "1 NP noun phrase\n2 S sentence\n");
    let list = with_table(NODETAG, "1 S Satz\n2 NP Nominalphrase\n");
    assert_described(&file, &list, NODETAG, b"S", OF_FILE, "sentence");
    assert_described(&list, &file, NODETAG, b"S", OF_FILE, "Satz");
}

#[test]
fn the_list_is_asked_where_the_file_has_not_the_table() {
    let list = with_table(NODETAG, "1 NP noun phrase\n2 S sentence\n");
    assert_described(A, &list, NODETAG, b"S", OF_LIST, "sentence");
    let other = with_table(WORDTAG, "1 S Y Satz\n");
    assert_described(&other, &list, NODETAG, b"S", OF_LIST, "sentence");
    assert_described(&list, A, NODETAG, b"S", OF_FILE, "sentence");
}

#[test]
fn file_and_list_may_be_the_same() {
    let file = example();
    assert_described(&file, &file, 6, b"SB", OF_FILE, "subject");
}

/// A place is that of the description's first byte.
#[test]
fn the_part_is_told_by_its_place() {
    let list = with_table(NODETAG, "1 S \t a  sentence \t\n");
    let start = list.len() - "a  sentence \t\n#EOT NODETAG\n".len();
    let expected = Explained {
        refusal: 0,
        of: OF_LIST,
        start: start as u32,
        length: "a  sentence".len() as u32,
    };
    assert_eq!(answer(A, &list, NODETAG, b"S"), expected);
}

#[test]
fn each_of_the_five_tables_has_descriptions() {
    let file = example();
    let cases: [(u32, &[u8], &str); 6] = [
        (3, b"$,", "Komma"),
        (3, b"--", "nicht zugeordnet"),
        (4, b"Masc.Nom.Sg.*", "masculinum, nominative, singular, *"),
        (5, b"UNKNOWN", "unknown tag, error"),
        (5, b"NP", "noun phrase"),
        (6, b"CP", "complementizer"),
    ];
    for (table, tag, text) in cases {
        assert_described(&file, A, table, tag, OF_FILE, text);
        assert_described(A, &file, table, tag, OF_LIST, text);
    }
    let edges = with_table(7, "1 SE Y %% x\n");
    assert_described(A, &edges, 7, b"SE", OF_LIST, "Y %% x");
}

#[test]
fn the_longest_tags_and_descriptions() {
    let (tag, text) = ("t".repeat(32), "d".repeat(80));
    let list = with_table(4, &format!("1 {tag} {text}\n"));
    assert_described(A, &list, 4, tag.as_bytes(), OF_LIST, &text);
    assert_eq!(answer(A, &list, 4, &tag.as_bytes()[..31]), refused(26));
    let longer = [tag.as_bytes(), b"t"].concat();
    assert_eq!(answer(A, &list, 4, &longer), refused(26));
}

#[test]
fn the_last_of_256_rows() {
    let rows: String = (1..=256)
        .map(|id| format!("{id} t{id} Y d{id}\n"))
        .collect();
    let list = with_table(WORDTAG, &rows);
    assert_described(A, &list, WORDTAG, b"t256", OF_LIST, "d256");
    assert_eq!(answer(A, &list, WORDTAG, b"t257"), refused(26));
}

#[test]
fn two_tags_without_a_row_have_an_empty_description() {
    let no_rows = with_table(NODETAG, "");
    let others = with_table(NODETAG, "1 S sentence\n");
    for tag in [b"--".as_slice(), b"UNKNOWN"] {
        for present in [&no_rows, &others] {
            assert_eq!(answer(present, A, NODETAG, tag), granted_empty(OF_FILE));
            assert_eq!(answer(A, present, NODETAG, tag), granted_empty(OF_LIST));
        }
    }
    let one = with_table(NODETAG, "-1 UNKNOWN error\n1 S sentence\n");
    assert_described(A, &one, NODETAG, b"UNKNOWN", OF_LIST, "error");
    assert_eq!(answer(A, &one, NODETAG, b"--"), granted_empty(OF_LIST));
}

/// The table decides, not the tag.
#[test]
fn a_table_of_the_file_hides_that_of_the_list() {
    let list = with_table(NODETAG, "-1 UNKNOWN error\n0 -- not bound\n1 S sentence\n");
    for rows in ["", "1 NP noun phrase\n"] {
        let file = with_table(NODETAG, rows);
        assert_eq!(answer(&file, &list, NODETAG, b"S"), refused(26));
        let empty = granted_empty(OF_FILE);
        assert_eq!(answer(&file, &list, NODETAG, b"--"), empty);
        assert_eq!(answer(&file, &list, NODETAG, b"UNKNOWN"), empty);
    }
    let file = with_table(NODETAG, "0 -- nicht gebunden\n");
    assert_described(&file, &list, NODETAG, b"--", OF_FILE, "nicht gebunden");
    assert_eq!(
        answer(&file, &list, NODETAG, b"UNKNOWN"),
        granted_empty(OF_FILE)
    );
}
