//! Tags that are not explained: those in neither file nor list, and the refusals before 26.

mod common;

use common::explaining::*;
use common::OLD;
use plain::documents::{example, replaced, A};
use plain::{explain, FILE_LIMIT, OF_FILE, OF_LIST, TABLE_SHEET};

#[test]
fn a_table_in_neither() {
    let (file, list) = (with_table(3, "1 S Y d\n"), with_table(4, "1 S d\n"));
    for tag in [b"S".as_slice(), b"--", b"UNKNOWN"] {
        for table in 5..=7 {
            assert_eq!(answer(&file, &list, table, tag), refused(26));
            assert_eq!(answer(A, A, table, tag), refused(26));
        }
    }
}

#[test]
fn a_tag_in_neither() {
    let list = with_table(NODETAG, "1 S sentence\n");
    for tag in ["NP", "s", "SS", "sentence", "1", "unknown", "-", "---"] {
        assert_eq!(answer(A, &list, NODETAG, tag.as_bytes()), refused(26));
        assert_eq!(answer(&list, A, NODETAG, tag.as_bytes()), refused(26));
    }
}

#[test]
fn tables_other_than_the_five() {
    let file = example();
    let large = [8, 9, 10, 255, 259, 65_539, 1 << 31, u32::MAX];
    for table in [0, 1, 2].into_iter().chain(large) {
        for tag in ["refcorpus", "skut", "S", "--", "UNKNOWN", ""] {
            assert_eq!(answer(&file, &file, table, tag.as_bytes()), refused(26));
        }
    }
}

#[test]
fn tags_that_no_row_can_carry() {
    let file = with_table(NODETAG, "-1 UNKNOWN u\n0 -- n\n1 S a\n2 12345678901\n");
    assert_eq!(answer(&file, A, NODETAG, b"S").refusal, 7);
    let file = with_table(NODETAG, "-1 UNKNOWN u\n0 -- n\n1 S a\n2 1234567890 b\n");
    let long = "x".repeat(5_000);
    for tag in [
        "",
        "%%",
        "12345678901",
        " S",
        "S ",
        "S\t",
        "S a",
        "--\n",
        "-- ",
        "UNKNOWN u",
        "\0",
        &long,
    ] {
        assert_eq!(answer(&file, A, NODETAG, tag.as_bytes()), refused(26));
        assert_eq!(answer(A, &file, NODETAG, tag.as_bytes()), refused(26));
    }
}

/// Both are surveyed whole.
#[test]
fn refusals_of_the_file_come_before_those_of_the_list() {
    let good = with_table(NODETAG, "1 S sentence\n");
    let late = [&good[..], b"#BOS 7 2 0 1\n#EOS 8\n"].concat();
    let early = replaced(&good, "#FORMAT 3", "#FORMAT 4");
    let unended = &good[..good.len() - 1];
    for (bad, refusal) in [(&late[..], 20), (&early, 9), (unended, 3), (b"", 9)] {
        for table in [0, NODETAG, 7, 8] {
            for tag in [b"S".as_slice(), b"NP", b"--", b""] {
                assert_eq!(answer(bad, &good, table, tag), refused(refusal));
                assert_eq!(answer(&good, bad, table, tag), refused(refusal));
            }
        }
    }
    assert_eq!(answer(&late, &early, NODETAG, b"S"), refused(20));
    assert_eq!(answer(&early, &late, NODETAG, b"S"), refused(9));
}

#[test]
fn wrong_sizes_come_first() {
    let good = with_table(NODETAG, "1 S sentence\n");
    let sizes = [TABLE_SHEET - 1, TABLE_SHEET, TABLE_SHEET + 1, 0];
    let sets = [plain::SEEN_SET - 1, plain::SEEN_SET, plain::SEEN_SET + 1, 0];
    for sheet in sizes {
        for set in sets {
            let (mut tables, mut seen) = (vec![OLD; sheet], vec![0xa5; set]);
            let right = sheet == TABLE_SHEET && set == plain::SEEN_SET;
            for (file, list, table) in [(&good[..], A, NODETAG), (b"x", b"", 0)] {
                let told = explain(file, list, table, b"S", &mut tables, &mut seen);
                if !right {
                    assert_eq!(told, refused(1));
                    assert!(tables == vec![OLD; sheet] && seen == vec![0xa5; set]);
                } else {
                    assert_ne!(told.refusal, 1);
                }
            }
        }
    }
}

#[test]
fn a_file_or_list_too_long_comes_next() {
    let mut long = vec![b'\n'; FILE_LIMIT + 1];
    let good = with_table(NODETAG, "1 S sentence\n");
    long[..good.len()].copy_from_slice(&good);
    for other in [&good[..], A, b"", b"x"] {
        assert_eq!(answer(&long, other, NODETAG, b"S"), refused(2));
        assert_eq!(answer(other, &long, NODETAG, b"S"), refused(2));
        assert_eq!(answer(other, &long, 0, b""), refused(2));
    }
    assert_eq!(answer(&long, &long, NODETAG, b"S"), refused(2));
    let (mut tables, mut seen) = (vec![OLD; 1], vec![0xa5; plain::SEEN_SET]);
    let told = explain(&long, &long, NODETAG, b"S", &mut tables, &mut seen);
    assert_eq!(told, refused(1));
    long.pop();
    assert_described(A, &long, NODETAG, b"S", OF_LIST, "sentence");
    assert_described(&long, A, NODETAG, b"S", OF_FILE, "sentence");
}
