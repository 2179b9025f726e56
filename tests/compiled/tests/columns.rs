//! Surveys of files in which several columns of a line are at fault, with equal and with
//! different numbers: 8, 10, 15, 18 and 19 point at a column.

use compiled::beside::{agreed, Call};
use plain::generate::damaged_columns;

const SEEDS: u64 = 24_000;

/// Each number that points at a column is met this often.
const OFTEN_ENOUGH: usize = 1_000;

/// Of the wrong parents, so many are secondary ones.
const SECONDARY_ENOUGH: usize = 200;

/// Words and phrases: tag, morphology, edge, and then the parent.
const COLUMNS_BEFORE_PARENT: usize = 4;

/// How many columns stand in front of a place in its line.
fn columns_before(file: &[u8], place: usize) -> usize {
    let newline = file[..place].iter().rposition(|&byte| byte == b'\n');
    file[newline.map_or(0, |newline| newline + 1)..place]
        .split(|byte| b" \t".contains(byte))
        .filter(|column| !column.is_empty())
        .count()
}

#[test]
fn several_columns_at_fault() {
    let (mut met, mut secondary) = ([0; 26], 0);
    for seed in 0..SEEDS {
        let file = damaged_columns(seed, 1 + (seed % 6) as usize);
        let case = format_args!("damaged columns seed {seed}");
        let answer = agreed(case, Call::Survey, &file, seed).0;
        met[answer.refusal as usize] += 1;
        let before = columns_before(&file, answer.place as usize);
        if answer.refusal == 19 && before > COLUMNS_BEFORE_PARENT {
            secondary += 1;
        }
    }
    println!("{met:?}, {secondary} secondary parents");
    for refusal in [8, 10, 15, 18, 19] {
        assert!(met[refusal] >= OFTEN_ENOUGH, "{refusal}: {met:?}");
    }
    assert!(secondary >= SECONDARY_ENOUGH, "{secondary}");
}
