//! Openings at every place of small files, of their tails from a `#BOS` line on, and of such
//! tails with some bytes changed.

use compiled::beside::{agreed_with, Call};
use compiled::lent::{Lent, OPEN_AT_SIZES};
use compiled::openings::headings;
use plain::generate::{small, Dice};

const FILES: u64 = 400;
const CHANGED_TAILS: u64 = 8;

/// How many of these places a sentence begins at.
fn granted_at(
    case: std::fmt::Arguments,
    file: &[u8],
    places: impl Iterator<Item = u32>,
    noise: u64,
) -> usize {
    let lent = Lent::noise(noise, OPEN_AT_SIZES);
    let granted = |&place: &u32| {
        let (answer, _) = agreed_with(case, Call::OpenAt(place), file, &lent);
        answer.refusal == 0
    };
    places.filter(granted).count()
}

/// Every place, the file's end, places behind it and the last there are.
fn every_place(file: &[u8]) -> impl Iterator<Item = u32> {
    (0..file.len() as u32 + 3).chain([1 << 31, u32::MAX - 1, u32::MAX])
}

/// The file from each of its `#BOS` lines on.
fn tails(file: &[u8]) -> impl Iterator<Item = &[u8]> {
    headings(file).into_iter().map(|place| &file[place..])
}

#[test]
fn of_small_files() {
    let mut granted = 0;
    for seed in 0..FILES {
        let file = small(seed);
        let case = format_args!("every place, seed {seed}");
        granted += granted_at(case, &file, every_place(&file), seed);
    }
    println!("{granted} granted");
    assert!(granted as u64 > FILES / 2);
}

#[test]
fn of_tails() {
    let mut granted_at_first = 0;
    for seed in FILES..2 * FILES {
        for tail in tails(&small(seed)) {
            let case = format_args!("every place, tail of {} of seed {seed}", tail.len());
            granted_at(case, tail, every_place(tail), seed);
            granted_at_first += granted_at(case, tail, 0..1, seed + 1);
        }
    }
    println!("{granted_at_first} granted at place 0");
    assert!(granted_at_first as u64 > FILES / 2);
}

/// One byte is changed, left out or put in; the sentence is asked for at places 0 to 2.
#[test]
fn of_changed_tails() {
    let (mut granted, mut asked, mut dice) = (0, 0, Dice::new(10));
    for seed in 2 * FILES..12 * FILES {
        for tail in tails(&small(seed)) {
            for change in 0..CHANGED_TAILS {
                let changed = changed(tail, &mut dice);
                let case = format_args!("tail of {}, change {change}, seed {seed}", tail.len());
                granted += granted_at(case, &changed, 0..3, seed + change);
                asked += 1;
            }
        }
    }
    println!("{granted} of {asked} granted");
    assert!(granted > asked / 10 && granted < asked * 9 / 10);
}

fn changed(tail: &[u8], dice: &mut Dice) -> Vec<u8> {
    let mut changed = tail.to_vec();
    let place = dice.below(tail.len());
    let byte = *dice.pick(b"\n\n\t  #%-0156789ES\x7f\xa0\x9f\r\0");
    match dice.below(3) {
        0 => changed[place] = byte,
        1 => drop(changed.remove(place)),
        _ => changed.insert(place, byte),
    }
    changed
}
