//! All that can be opened in a file, and more that can't.

use std::collections::BTreeSet;
use std::fmt::Arguments;

use plain::Survey;

use crate::beside::{agreed, agreed_with, Call};
use crate::lent::{Lent, OPEN_AT_SIZES, OPEN_SIZES};

/// How many openings were granted and refused, and how many were granted at places of
/// sentences that aren't handed out.
#[derive(Default, Debug)]
pub struct Openings {
    pub granted: usize,
    pub refused: usize,
    pub granted_beside_the_index: usize,
}

/// The places of the lines that begin with `#BOS`.
pub fn headings(file: &[u8]) -> Vec<usize> {
    let begins_line = |&place: &usize| place == 0 || file[place - 1] == b'\n';
    (0..file.len())
        .filter(begins_line)
        .filter(|&place| file[place..].starts_with(b"#BOS"))
        .collect()
}

/// The numbers on these lines, whether they are handed out or not.
pub fn numbers_given(file: &[u8]) -> BTreeSet<u32> {
    let number_at = |place: usize| -> Option<u32> {
        let line = file[place..].split(|&byte| byte == b'\n').next()?;
        let line = String::from_utf8_lossy(line);
        line.split_ascii_whitespace().nth(1)?.parse().ok()
    };
    headings(file).into_iter().filter_map(number_at).collect()
}

/// Besides the numbers given: the smallest and the largest that aren't, 0, numbers above
/// the range, and one that is a given number in its lower 16 bits.
pub fn numbers_to_ask(given: BTreeSet<u32>) -> BTreeSet<u32> {
    let absent = |number: &u32| !given.contains(number);
    let mut asked = BTreeSet::from([0, 65_536, u32::MAX]);
    asked.extend((1..=65_535).find(absent));
    asked.extend((1..=65_535).rev().find(absent));
    asked.extend(given.first().map(|number| number.wrapping_add(65_536)));
    asked.extend(given);
    asked
}

/// Index and openings agree: of each of these numbers, and at each of these places. What
/// the index tells of a sentence opens the same sentence as its number does.
pub fn openings_agree(
    case: Arguments,
    file: &[u8],
    numbers: &BTreeSet<u32>,
    places: &[usize],
    noise: u64,
) -> (Survey, Openings) {
    let (answer, indexed) = agreed(case, Call::Index, file, noise);
    let index = indexed.places.entries();
    let lent = Lent::noise(noise, OPEN_SIZES);
    let lent_at = Lent::noise(noise, OPEN_AT_SIZES);
    let mut openings = Openings::default();
    for &number in numbers {
        let (opening, opened) = agreed_with(case, Call::Open(number), file, &lent);
        let told = index.get(number as usize).copied().unwrap_or(0);
        assert_eq!(opening.refusal, if told > 0 { 0 } else { 24 }, "{case}");
        if told > 0 {
            let (there, opened_there) = agreed_with(case, Call::OpenAt(told - 1), file, &lent_at);
            assert_eq!(there.refusal, 0, "{case}, sentence {number}");
            assert!(
                opened.same_sentence(&opened_there),
                "{case}, sentence {number}"
            );
            openings.granted += 1;
        } else {
            openings.refused += 1;
        }
    }
    for &place in places
        .iter()
        .filter(|&&place| !index.contains(&(place as u32 + 1)))
    {
        let (there, _) = agreed_with(case, Call::OpenAt(place as u32), file, &lent_at);
        openings.granted_beside_the_index += usize::from(there.refusal == 0);
    }
    (answer, openings)
}
