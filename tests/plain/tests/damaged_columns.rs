//! Files made by dice with several columns of one line at fault: the leftmost is told.

mod common;

use common::{size_of, survey_of};
use plain::generate::damaged_columns;
use plain::Survey;

/// The first byte of the line that a place stands in, and its newline.
fn line_around(file: &[u8], place: usize) -> (usize, usize) {
    let before = file[..place].iter().rposition(|&byte| byte == b'\n');
    let length = file[place..].iter().position(|&byte| byte == b'\n');
    (
        before.map_or(0, |newline| newline + 1),
        place + length.unwrap(),
    )
}

/// How many columns of a line stand in front of a place.
fn columns_before(file: &[u8], line: usize, place: usize) -> usize {
    file[line..place]
        .split(|byte| b" \t".contains(byte))
        .filter(|column| !column.is_empty())
        .count()
}

/// A column that never has the refusal where the column at fault stands.
fn mended_column(file: &[u8], line: usize, answer: &Survey) -> Option<&'static [u8]> {
    let itself_highest = file[line..].starts_with(b"#999");
    let at_a_sign = file[answer.place as usize] == b'#';
    let in_first_half = columns_before(file, line, answer.place as usize) < 4;
    match answer.refusal {
        8 if at_a_sign && line == answer.place as usize => Some(b"#999"),
        8 => Some(b"999"),
        10 => Some(b"Y"),
        15 if in_first_half => Some(b"0"),
        18 => Some(b"--"),
        19 if !itself_highest => Some(b"999"),
        _ => None,
    }
}

/// The file with the column at a place replaced.
fn with_column(file: &[u8], place: usize, column: &[u8]) -> Vec<u8> {
    let white = |byte: &u8| b" \t\n".contains(byte);
    let length = file[place..].iter().position(white).unwrap();
    [&file[..place], column, &file[place + length..]].concat()
}

/// Once the column told is mended, what is left in its line has a larger number or stands
/// further right.
#[test]
fn columns_are_mended_from_left_to_right() {
    let (mut equal, mut larger) = ([0; 27], [0; 27]);
    for seed in 0..30_000 {
        let file = damaged_columns(seed, size_of(seed));
        let answer = survey_of(&file);
        if ![8, 10, 15, 18, 19].contains(&answer.refusal) {
            continue;
        }
        let place = answer.place as usize;
        let (line, end) = line_around(&file, place);
        assert!(place < end, "seed {seed}");
        let in_a_table = !file[..line].windows(5).any(|part| part == b"\n#BOS");
        let Some(column) = mended_column(&file, line, &answer) else {
            continue;
        };
        let mended = with_column(&file, place, column);
        let again = survey_of(&mended);
        let (_, end) = line_around(&mended, place);
        assert!(again.place as usize >= line, "seed {seed}");
        let line_too_long = again.refusal == 5;
        if again.refusal == 0 || line_too_long || again.place as usize > end {
            continue;
        }
        if again.refusal == answer.refusal {
            // Of a text with white inside only the first column is mended.
            let further_right = again.place > answer.place || in_a_table;
            assert!(further_right, "seed {seed}");
            equal[answer.refusal as usize] += 1;
        } else {
            assert!(again.refusal > answer.refusal, "seed {seed}");
            larger[answer.refusal as usize] += 1;
        }
    }
    println!("{equal:?}\n{larger:?}");
    for refusal in [8, 10, 15, 18, 19] {
        assert!(equal[refusal] >= 100, "{refusal}: {equal:?}");
    }
    for refusal in [8, 10, 18] {
        assert!(larger[refusal] >= 100, "{refusal}: {larger:?}");
    }
}

/// A refusal, and how many columns stand in front of the one at fault; 7 for more.
const PLACES_AT_FAULT: [(u32, usize); 21] = [
    (8, 0),
    (8, 1),
    (8, 2),
    (8, 3),
    (8, 4),
    (8, 6),
    (10, 1),
    (10, 2),
    (10, 3),
    (10, 5),
    (10, 7),
    (15, 2),
    (15, 4),
    (18, 1),
    (18, 2),
    (18, 3),
    (18, 5),
    (18, 7),
    (19, 4),
    (19, 6),
    (19, 7),
];

/// Each kind of place is met: a parent, a secondary parent, a label, a text.
#[test]
fn damaged_columns_stand_everywhere() {
    let mut met = std::collections::BTreeMap::new();
    for seed in 0..20_000 {
        let file = damaged_columns(seed, size_of(seed));
        let answer = survey_of(&file);
        let (line, _) = match answer.refusal {
            8 | 10 | 15 | 18 | 19 => line_around(&file, answer.place as usize),
            _ => continue,
        };
        let columns = columns_before(&file, line, answer.place as usize);
        *met.entry((answer.refusal, columns.min(7))).or_insert(0) += 1;
    }
    println!("{met:?}");
    for kind in PLACES_AT_FAULT {
        assert!(
            met.get(&kind).is_some_and(|&count| count >= 20),
            "{kind:?}: {met:?}"
        );
    }
}
