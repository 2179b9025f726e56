//! Damaged files made by dice, and the refusals they meet.

mod common;

use common::*;
use plain::generate::*;

const DAMAGED_SEEDS: u64 = 60_000;

/// The first byte of the line that a place stands in.
fn line_start(file: &[u8], place: usize) -> usize {
    let newline = file[..place].iter().rposition(|&byte| byte == b'\n');
    newline.map_or(0, |newline| newline + 1)
}

/// The secondary parents in the line of a file that begins at a place.
fn secondary_parents(file: &[u8], place: usize) -> Vec<String> {
    let line = file[place..].split(|&byte| byte == b'\n').next();
    let line = String::from_utf8_lossy(line.unwrap_or(b"")).into_owned();
    let columns = line.split([' ', '\t']).filter(|column| !column.is_empty());
    let columns = columns.take_while(|&column| column != "%%");
    columns.skip(6).step_by(2).map(str::to_string).collect()
}

#[test]
fn damaged_files_cite_themselves_and_absent_phrases() {
    let (mut themselves, mut absent) = (0, 0);
    for seed in 0..DAMAGED_SEEDS / 3 {
        let file = damaged(seed, size_of(seed));
        let answer = survey_of(&file);
        if answer.refusal == 19 {
            let line = line_start(&file, answer.place as usize);
            let own = String::from_utf8_lossy(&file[line + 1..line + 4]).into_owned();
            themselves += usize::from(secondary_parents(&file, line).contains(&own));
        }
        if answer.refusal == 22 {
            absent += usize::from(absent_only_by_secondary_edges(&file));
        }
    }
    let found = (themselves, absent);
    assert!(themselves >= 100 && absent >= 100, "{found:?}");
}

/// Without secondary edges the `#EOS` is passed.
fn absent_only_by_secondary_edges(file: &[u8]) -> bool {
    let answer = survey_of(file);
    let mended = without_secondary_edges(file, answer.sound_end as usize);
    survey_of(&mended).sentences > answer.sentences
}

/// The file with the secondary edges of the sentences behind a place left out.
fn without_secondary_edges(file: &[u8], place: usize) -> Vec<u8> {
    let mut mended = file[..place].to_vec();
    for line in file[place..].split_inclusive(|&byte| byte == b'\n') {
        let columns: Vec<&[u8]> = line
            .split(|byte| b" \t\n".contains(byte))
            .filter(|column| !column.is_empty())
            .collect();
        let number = |index: usize| columns[index].iter().all(u8::is_ascii_digit);
        if columns.len() >= 7 && number(4) && number(6) {
            mended.extend(columns[..5].join(&b' '));
            mended.push(b'\n');
        } else {
            mended.extend(line);
        }
    }
    mended
}

#[test]
fn damaged_files_meet_every_refusal() {
    let mut met = [0; 26];
    let mut lent = Lent::with_old_contents();
    for seed in 0..DAMAGED_SEEDS {
        let answer = lent.survey(&damaged(seed, size_of(seed)));
        met[answer.refusal as usize] += 1;
    }
    println!("{met:?}");
    assert!(met[3..=23].iter().all(|&count| count >= 200), "{met:?}");
    assert_eq!((met[1], met[2], met[24], met[25]), (0, 0, 0, 0));
}

#[test]
fn small_files_meet_every_refusal_that_fits() {
    let mut met = [0; 26];
    for seed in 0..10_000 {
        let file = small_accepted(seed);
        assert!(file.len() < SMALL_FILE);
        assert_eq!(survey_of(&file).refusal, 0, "seed {seed}");
        met[survey_of(&small(seed)).refusal as usize] += 1;
    }
    assert!(met[3..=23].iter().all(|&count| count >= 20), "{met:?}");
}
