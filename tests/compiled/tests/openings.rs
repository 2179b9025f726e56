//! Index and openings of files made by dice: every sentence by its number and at its place,
//! numbers that are absent or impossible, places where no sentence handed out begins.

use compiled::openings::{headings, numbers_given, numbers_to_ask, openings_agree, Openings};
use plain::generate::{accepted, damaged};

const ACCEPTED_SEEDS: u64 = 6_000;
const DAMAGED_SEEDS: u64 = 20_000;

/// Each refusal that a file can earn is met this often, and acceptance too.
const OFTEN_ENOUGH: usize = 50;

/// The accepted files have other seeds than those that are only surveyed.
const FIRST_SEED: u64 = 1_000_000;

fn size_of(seed: u64) -> usize {
    1 + (seed % 6) as usize
}

/// The survey's refusal of the file; its openings are added to those before.
fn all_openings(case: std::fmt::Arguments, file: &[u8], seed: u64, before: &mut Openings) -> u32 {
    let numbers = numbers_to_ask(numbers_given(file));
    let (answer, openings) = openings_agree(case, file, &numbers, &headings(file), seed);
    before.granted += openings.granted;
    before.refused += openings.refused;
    before.granted_beside_the_index += openings.granted_beside_the_index;
    answer.refusal
}

#[test]
fn of_accepted_files() {
    let mut openings = Openings::default();
    for seed in FIRST_SEED..FIRST_SEED + ACCEPTED_SEEDS {
        let case = format_args!("openings, accepted seed {seed}");
        let file = accepted(seed, size_of(seed));
        assert_eq!(all_openings(case, &file, seed, &mut openings), 0, "{case}");
    }
    println!("{openings:?}");
    assert!(openings.granted as u64 > ACCEPTED_SEEDS);
    assert_eq!(openings.granted_beside_the_index, 0);
}

#[test]
fn of_damaged_files() {
    let (mut openings, mut met) = (Openings::default(), [0; 26]);
    for seed in FIRST_SEED..FIRST_SEED + DAMAGED_SEEDS {
        let case = format_args!("openings, damaged seed {seed}");
        let file = damaged(seed, size_of(seed));
        met[all_openings(case, &file, seed, &mut openings) as usize] += 1;
    }
    println!("{openings:?}, refusals {met:?}");
    assert!(openings.granted as u64 > DAMAGED_SEEDS / 2);
    assert!(openings.granted_beside_the_index > 100 * OFTEN_ENOUGH);
    let often = |&count: &usize| count >= OFTEN_ENOUGH;
    assert!(often(&met[0]) && met[3..=23].iter().all(often), "{met:?}");
}
