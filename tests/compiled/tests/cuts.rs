//! Small files cut at every byte: with nothing behind the cut, though other bytes lie
//! there in memory, and with these bytes as the rest of the file.

use compiled::beside::{agreed, Call};
use compiled::openings::{headings, numbers_given, openings_agree};
use plain::generate::{small, small_accepted, Dice, SMALL_FILE};

const FILES: u64 = 60;
const MOST_BEHIND: usize = 200;

/// Half of the files are whole before the cut.
fn file_to_cut(seed: u64) -> Vec<u8> {
    if seed < FILES / 2 {
        small_accepted(seed)
    } else {
        small(seed)
    }
}

fn every_cut(what: &str, behind: impl Fn(&mut Dice) -> Vec<u8>) {
    let mut dice = Dice::new(2);
    for seed in 0..FILES {
        let file = file_to_cut(seed);
        for cut in 0..=file.len() {
            let joined = [&file[..cut], &behind(&mut dice)].concat();
            let noise = dice.roll();
            agreed(
                format_args!("seed {seed} cut at {cut}"),
                Call::Survey,
                &joined[..cut],
                noise,
            );
            agreed(
                format_args!("seed {seed} cut at {cut} before {what}"),
                Call::Survey,
                &joined,
                noise,
            );
        }
    }
}

#[test]
fn before_random_bytes() {
    every_cut("random bytes", |dice| {
        let length = dice.below(MOST_BEHIND);
        (0..length).map(|_| dice.roll() as u8).collect()
    });
}

#[test]
fn before_legal_bytes() {
    every_cut("legal bytes", |dice| {
        let length = dice.below(MOST_BEHIND);
        let bytes = b"\n\n\t  #%-0123456789EOSBTN\xa0";
        (0..length).map(|_| *dice.pick(bytes)).collect()
    });
}

/// The tail begins anywhere, or at a line.
#[test]
fn before_the_tail_of_another_file() {
    let others: Vec<Vec<u8>> = (FILES..3 * FILES).map(small_accepted).collect();
    every_cut("another tail", |dice| {
        let other = dice.pick(&others);
        let start = dice.below(other.len());
        let line = |&at: &usize| at == 0 || other[at - 1] == b'\n';
        let start = if dice.one_in(2) {
            (start..other.len()).find(line).unwrap_or(start)
        } else {
            start
        };
        other[start..].to_vec()
    });
}

/// Every sentence of the whole file is asked for after every cut; the rest of the file lies
/// behind the cut in memory.
#[test]
fn openings_before_the_rest_of_the_file() {
    let (mut granted, mut refused) = (0, 0);
    let files = (0..).map(|seed| (seed, file_to_cut(seed)));
    let small_ones = files.filter(|(_, file)| file.len() < SMALL_FILE);
    for (seed, file) in small_ones.take(FILES as usize) {
        let (mut numbers, places) = (numbers_given(&file), headings(&file));
        numbers.insert(0);
        for cut in 0..=file.len() {
            let case = format_args!("openings, seed {seed} cut at {cut}");
            let part = &file[..cut];
            let (_, openings) = openings_agree(case, part, &numbers, &places, cut as u64);
            granted += openings.granted;
            refused += openings.refused;
        }
    }
    println!("{granted} granted, {refused} refused");
    assert!(granted > 1_000 && refused > 10_000);
}
