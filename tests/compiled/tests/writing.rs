//! Writings of files made by dice, of the files that documents 000 and 01 print and of an
//! untidy one; writings refused by a size, or by a limit.

use std::fmt::Arguments;
use std::fs;

use compiled::lent::{choices_of_sizes, OPEN_SIZES};
use compiled::writings::{agreed_writing, assert_read_back, writings_agree, LentToWrite};
use hraunlik::layout::TIDY_ROOM;
use plain::documents::{cases_run_only, changed, replaced, starred_cases, A};
use plain::generate::{accepted, damaged, longest_tidy, small};
use plain::{Written, FILE_LIMIT};

const ACCEPTED_SEEDS: u64 = 6_000;
const DAMAGED_SEEDS: u64 = 15_000;
const GLUED_SEEDS: u64 = 500;

/// The files have other seeds than those that are surveyed or opened.
const FIRST_SEED: u64 = 2_000_000;

/// Each refusal that a file can earn is met this often, and acceptance too.
const OFTEN_ENOUGH: usize = 50;

fn size_of(seed: u64) -> usize {
    1 + (seed % 6) as usize
}

/// The refusal of the file, and the text that was written.
fn refusal_and_text(case: Arguments, file: &[u8], seed: u64) -> (u32, Vec<u8>) {
    let (answer, text) = writings_agree(case, file, seed);
    if answer.refusal == 0 {
        assert_read_back(case, file, &text, seed);
    }
    (answer.refusal, text)
}

#[test]
fn of_accepted_files() {
    for seed in FIRST_SEED..FIRST_SEED + ACCEPTED_SEEDS {
        let case = format_args!("writing, accepted seed {seed}");
        let file = accepted(seed, size_of(seed));
        assert_eq!(refusal_and_text(case, &file, seed).0, 0, "{case}");
    }
}

#[test]
fn of_damaged_files() {
    let mut met = [0; 26];
    for seed in FIRST_SEED..FIRST_SEED + DAMAGED_SEEDS {
        let case = format_args!("writing, damaged seed {seed}");
        let file = damaged(seed, size_of(seed));
        met[refusal_and_text(case, &file, seed).0 as usize] += 1;
    }
    println!("refusals {met:?}");
    let often = |&count: &usize| count >= OFTEN_ENOUGH;
    assert!(often(&met[0]) && met[3..=23].iter().all(often), "{met:?}");
}

#[test]
fn of_the_cases_of_document_01() {
    let cases = [starred_cases(), cases_run_only()].concat();
    for (number, (file, answer)) in cases.iter().enumerate() {
        let case = format_args!("writing, case {number} of document 01");
        let (refusal, _) = refusal_and_text(case, file, number as u64);
        assert_eq!(refusal, answer.refusal, "{case}");
    }
}

/// "Its tidy text is A with tabs in lines 3, 6, 9 and 10."
#[test]
fn of_file_a() {
    let tidy = [
        "1 lab\n",
        "2 kim Kim\n",
        "Ja ITJ -- -- 500\n",
        "#500 S -- -- 0\n",
    ]
    .iter()
    .fold(A.to_vec(), |text, line| {
        replaced(&text, line, &line.replace(' ', "\t"))
    });
    assert_eq!(refusal_and_text(format_args!("file A"), A, 0), (0, tidy));
}

/// The tidy texts were written by hand.
#[test]
fn of_the_examples_and_an_untidy_file() {
    let root = concat!(env!("CARGO_MANIFEST_DIR"), "/../..");
    for (name, place) in [
        ("ja", "examples"),
        ("schade", "examples"),
        ("untidy", "tests/neaten"),
    ] {
        let file = fs::read(format!("{root}/{place}/{name}.export")).unwrap();
        let tidy = fs::read(format!("{root}/tests/neaten/{name}.tidy")).unwrap();
        let written = refusal_and_text(format_args!("{name}.export"), &file, 0);
        assert_eq!(written, (0, tidy), "{name}");
    }
}

/// The comments of a tidy text's origins, each glued to the name in front of it.
fn with_comments_glued(tidy: &[u8]) -> Vec<u8> {
    let rows = b"#EOT ORIGIN\n";
    let end = tidy.windows(rows.len()).position(|line| line == rows);
    let (origins, rest) = tidy.split_at(end.unwrap());
    let mut glued = Vec::new();
    let mut place = 0;
    while place < origins.len() {
        let comment = origins[place..].starts_with(b"\t%%\t");
        glued.extend(if comment {
            b"%%"
        } else {
            &origins[place..=place]
        });
        place += if comment { 4 } else { 1 };
    }
    [&glued, rest].concat()
}

#[test]
fn of_files_shorter_than_their_tidy_texts() {
    let mut longer = 0;
    for seed in FIRST_SEED..FIRST_SEED + GLUED_SEEDS {
        let case = format_args!("writing, comments glued, seed {seed}");
        let file = accepted(seed, size_of(seed));
        let glued = with_comments_glued(&writings_agree(case, &file, seed).1);
        let (_, text) = refusal_and_text(case, &glued, seed);
        longer += usize::from(text.len() > glued.len());
    }
    println!("{longer} tidy texts are longer than their files");
    assert!(longer >= OFTEN_ENOUGH);
}

/// Two bytes more for each of as many origins as there may be.
#[test]
fn of_as_many_glued_comments_as_may_be() {
    let rows: String = (1..=256).map(|id| format!("{id} lab%%c\n")).collect();
    let file = changed("1 lab\n", &rows);
    let (refusal, text) = refusal_and_text(format_args!("256 glued comments"), &file, 0);
    assert_eq!((refusal, text.len()), (0, file.len() + TIDY_ROOM));
}

/// Nothing may change.
fn assert_unread(case: Arguments, file: &[u8], lent: &LentToWrite, refusal: u32) {
    let unread = Written {
        refusal,
        place: 0,
        length: 0,
    };
    let (answer, after) = agreed_writing(case, file, lent);
    assert_eq!(answer, unread, "{case}");
    assert!(after == *lent, "{case}");
}

fn assert_wrong_sizes_refused(file: &[u8], seed: u64) {
    for sizes in &choices_of_sizes(OPEN_SIZES)[1..] {
        let case = format_args!("writing, seed {seed}, buffers of {sizes:?}");
        let lent = LentToWrite::noise(seed, *sizes, file.len().min(1_000));
        assert_unread(case, file, &lent, 1);
    }
}

#[test]
fn without_a_fixed_size() {
    for seed in 0..20 {
        assert_wrong_sizes_refused(&small(seed), seed);
    }
}

#[test]
fn of_one_byte_more_than_a_file_may_have() {
    let mut file = A.to_vec();
    file.resize(FILE_LIMIT + 1, b'\n');
    let lent = LentToWrite::noise(0, OPEN_SIZES, 1_000);
    assert_unread(format_args!("one byte more"), &file, &lent, 2);
    assert_wrong_sizes_refused(&file, 0);
    file.pop();
    let (answer, _) = agreed_writing(format_args!("the longest file"), &file, &lent);
    assert_eq!((answer.refusal, answer.length), (0, A.len() as u32));
}

/// A tidy file of the largest size is written as it is. With two bytes of tidy text more and
/// one of an ignored line less it is refused, though the output is long enough.
#[test]
fn of_a_tidy_text_longer_than_a_file_may_be() {
    let tidy = b"#FORMAT 3\n#BOT ORIGIN\n1\tlab\t%%\tc\n#EOT ORIGIN\n#BOT EDITOR\n#EOT EDITOR\n";
    let glued = b"#FORMAT 3\n#BOT ORIGIN\n1\tlab%%cc\n#EOT ORIGIN\n#BOT EDITOR\n#EOT EDITOR\n\n";
    let mut file = longest_tidy(tidy);
    let mut lent = LentToWrite::noise(0, OPEN_SIZES, FILE_LIMIT + 10);
    let place = FILE_LIMIT as u32;
    file[..glued.len()].copy_from_slice(glued);
    let before = lent.output.clone();
    let refused = Written {
        refusal: 25,
        place,
        length: 0,
    };
    assert_eq!(lent.write_compiled(&file), refused);
    assert!(lent.output == before);
    file[..tidy.len()].copy_from_slice(tidy);
    let granted = Written {
        refusal: 0,
        place,
        length: place,
    };
    assert_eq!(lent.write_compiled(&file), granted);
    let (written, behind) = lent.output.entries().split_at(FILE_LIMIT);
    assert!(written == file && behind == &before.entries()[FILE_LIMIT..]);
}
