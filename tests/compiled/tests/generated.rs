//! Surveys of files made by dice, accepted and damaged.

use compiled::beside::{agreed, Call};
use plain::generate::{accepted, damaged};

const ACCEPTED_SEEDS: u64 = 8_000;
const DAMAGED_SEEDS: u64 = 32_000;

/// Each refusal that a file can earn is met this often, and acceptance too.
const OFTEN_ENOUGH: usize = 100;

fn size_of(seed: u64) -> usize {
    1 + (seed % 6) as usize
}

#[test]
fn accepted_files() {
    for seed in 0..ACCEPTED_SEEDS {
        let file = accepted(seed, size_of(seed));
        let answer = agreed(
            format_args!("accepted seed {seed}"),
            Call::Survey,
            &file,
            seed,
        )
        .0;
        assert_eq!(answer.refusal, 0, "accepted seed {seed}");
    }
}

#[test]
fn damaged_files_meet_every_refusal() {
    let mut met = [0; 26];
    for seed in 0..DAMAGED_SEEDS {
        let file = damaged(seed, size_of(seed));
        let answer = agreed(
            format_args!("damaged seed {seed}"),
            Call::Survey,
            &file,
            seed,
        )
        .0;
        met[answer.refusal as usize] += 1;
    }
    for (refusal, count) in met.iter().enumerate() {
        println!("refusal {refusal}: {count}");
    }
    assert!(met[0] >= OFTEN_ENOUGH, "{met:?}");
    assert!(
        met[3..=23].iter().all(|&count| count >= OFTEN_ENOUGH),
        "{met:?}"
    );
}
