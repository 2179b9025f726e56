//! Buffer sizes, the file limit, and what the buffers hold after each refusal.

mod common;

use common::*;
use plain::documents::{replaced, A};
use plain::generate::longest_tidy;
use plain::{Edge, Written, FILE_LIMIT};

/// Lent buffers of which one has a wrong size.
fn wrong_sizes() -> Vec<Lent> {
    let mut all = Vec::new();
    for longer in [false, true] {
        for which in 0..4 {
            let mut lent = Lent::with_old_contents();
            match (which, longer) {
                (0, false) => drop(lent.table_sheet.pop()),
                (0, true) => lent.table_sheet.push(OLD),
                (1, false) => drop(lent.seen.pop()),
                (1, true) => lent.seen.push(1),
                (2, false) => drop(lent.sentence_sheet.pop()),
                (2, true) => lent.sentence_sheet.push(OLD),
                (_, false) => drop(lent.edges.pop()),
                (_, true) => lent.edges.push(Edge::default()),
            }
            all.push(lent);
        }
    }
    let nothing = Lent {
        table_sheet: vec![],
        seen: vec![],
        sentence_sheet: vec![],
        edges: vec![],
    };
    all.push(nothing);
    all
}

#[test]
fn wrong_sizes_are_refused_and_change_nothing() {
    for file in [A, b"", b"x"] {
        for mut lent in wrong_sizes() {
            let before = lent.clone();
            assert_eq!(lent.open(file, 7), 1);
            let mut out = vec![3; 200];
            assert_eq!(
                lent.write(file, &mut out),
                Written {
                    refusal: 1,
                    place: 0,
                    length: 0
                }
            );
            assert!(lent == before && out == [3; 200]);
            let survey_sizes_wrong =
                lent.table_sheet.len() != plain::TABLE_SHEET || lent.seen.len() != plain::SEEN_SET;
            if survey_sizes_wrong {
                assert_eq!(lent.survey(file), survey(1, 0, 0, 0));
                assert!(lent == before);
            } else {
                assert_ne!(lent.survey(file).refusal, 1);
            }
        }
    }
}

#[test]
fn file_too_long() {
    let mut file = vec![b'\n'; FILE_LIMIT + 1];
    file[..A.len()].copy_from_slice(A);
    let mut lent = Lent::with_old_contents();
    let before = lent.clone();
    assert_eq!(lent.survey(&file), survey(2, 0, 0, 0));
    assert_eq!(lent.open(&file, 7), 2);
    let mut out = vec![3; 200];
    assert_eq!(
        lent.write(&file, &mut out),
        Written {
            refusal: 2,
            place: 0,
            length: 0
        }
    );
    assert!(lent == before && out == [3; 200]);
    for mut wrong in wrong_sizes() {
        assert_eq!(wrong.open(&file, 7), 1);
    }
    file.pop();
    assert_eq!(lent.survey(&file), survey(0, FILE_LIMIT, 1, 126));
}

#[test]
fn table_sheet_holds_only_closed_tables() {
    let file = &A[..HEAD - "#EOT EDITOR\n".len()];
    let mut lent = Lent::with_old_contents();
    assert_eq!(lent.survey(file).refusal, 23);
    let mut expected = vec![0; plain::TABLE_SHEET];
    expected[0] = 2;
    expected[7..13].copy_from_slice(&[2, 24, 3, 0, 0, 0]);
    assert!(lent.table_sheet == expected);
    assert!(lent.seen.iter().all(|&byte| byte == 0));
}

/// Writes A into `room` bytes that hold 3.
fn write_a(room: usize) -> (Written, Vec<u8>, Lent) {
    let mut lent = Lent::with_old_contents();
    let mut out = vec![3; room];
    let written = lent.write(A, &mut out);
    (written, out, lent)
}

#[test]
fn writing_into_an_output_too_short() {
    for room in 0..A.len() {
        let (written, out, lent) = write_a(room);
        assert_eq!(
            written,
            Written {
                refusal: 25,
                place: 126,
                length: 0
            }
        );
        assert!(out.iter().all(|&byte| byte == 3) && lent.sentence_is_zero());
        assert_eq!(lent.numbers_seen(), [7]);
        assert_eq!(lent.table_sheet[..7], [2, 2, 0, 0, 0, 0, 0]);
    }
}

#[test]
fn writing_changes_only_the_first_bytes() {
    for room in [126, 127, 1_000] {
        let (written, out, lent) = write_a(room);
        assert_eq!(
            written,
            Written {
                refusal: 0,
                place: 126,
                length: 126
            }
        );
        assert_eq!(out[..126], *TIDY_A);
        assert!(out[126..].iter().all(|&byte| byte == 3) && lent.sentence_is_zero());
    }
}

#[test]
fn a_refused_writing() {
    let file = [A, b"#BOS 8 2 0 1\n"].concat();
    let mut lent = Lent::with_old_contents();
    let mut out = vec![3; 300];
    let written = lent.write(&file, &mut out);
    assert_eq!(
        written,
        Written {
            refusal: 23,
            place: 139,
            length: 0
        }
    );
    assert!(out == [3; 300] && lent.sentence_is_zero());
    assert_eq!(lent.numbers_seen(), [7]);
}

#[test]
fn tidy_text_longer_than_its_file() {
    let file = replaced(A, "1 lab", "1 lab%%c");
    let tidy = tidy_of(&file);
    assert_eq!(tidy.len(), file.len() + 2);
    let mut out = vec![0; file.len() + 1];
    assert_eq!(Lent::with_old_contents().write(&file, &mut out).refusal, 25);
}

#[test]
fn tidy_text_longer_than_a_file_may_be() {
    let tidy = b"#FORMAT 3\n#BOT ORIGIN\n1\tlab\t%%\tc\n#EOT ORIGIN\n#BOT EDITOR\n#EOT EDITOR\n";
    let glued = b"#FORMAT 3\n#BOT ORIGIN\n1\tlab%%cc\n#EOT ORIGIN\n#BOT EDITOR\n#EOT EDITOR\n\n";
    assert_eq!(tidy.len(), glued.len());
    let mut file = longest_tidy(tidy);
    assert_eq!(file.len(), FILE_LIMIT);
    let mut lent = Lent::with_old_contents();
    let mut out = vec![3; FILE_LIMIT + 10];
    let granted = lent.write(&file, &mut out);
    let whole = FILE_LIMIT as u32;
    assert_eq!(
        granted,
        Written {
            refusal: 0,
            place: whole,
            length: whole
        }
    );
    assert!(out[..FILE_LIMIT] == file && out[FILE_LIMIT..] == [3; 10]);
    // Two tabs come and one ignored newline goes: one byte too many.
    file[..glued.len()].copy_from_slice(glued);
    out.fill(3);
    let refused = lent.write(&file, &mut out);
    assert_eq!(
        refused,
        Written {
            refusal: 25,
            place: whole,
            length: 0
        }
    );
    assert!(out.iter().all(|&byte| byte == 3) && lent.sentence_is_zero());
}
