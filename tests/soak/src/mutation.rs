//! Files changed without regard to their meaning, as disks, editors and copies change them.

use plain::generate::{accepted, damaged, small, Dice};

/// The file of a seed: a quarter accepted, a quarter damaged with an aim, the rest mutated.
pub fn file_of(seed: u64) -> Vec<u8> {
    let mut dice = Dice::new(seed ^ 0x0000_50a4_0000_50a4);
    let size = dice.between(1, 4);
    match seed % 4 {
        0 => accepted(seed, size),
        1 => damaged(seed, size),
        2 => mutated(&mut dice, small(seed)),
        _ => mutated(&mut dice, accepted(seed, size)),
    }
}

fn mutated(dice: &mut Dice, mut file: Vec<u8>) -> Vec<u8> {
    for _ in 0..dice.between(1, 3) {
        let (one, other) = (dice.below(file.len() + 1), dice.below(file.len() + 1));
        let (start, end) = (one.min(other), one.max(other));
        match dice.below(6) {
            0 => file.truncate(start),
            1 => drop(file.drain(start..end)),
            2 => file.extend_from_within(start..end),
            3 => continue_as_another(dice, &mut file, start),
            4 => file.insert(start, dice.below(256) as u8),
            _ => file[..end]
                .iter_mut()
                .skip(start)
                .take(1)
                .for_each(|byte| *byte = *dice.pick(b"\n\t #%-059AYx\r\xa0")),
        }
    }
    file
}

/// The front of one file and the tail of another, each cut anywhere.
fn continue_as_another(dice: &mut Dice, file: &mut Vec<u8>, cut: usize) {
    let other = accepted(dice.roll(), 1);
    file.truncate(cut);
    file.extend_from_slice(&other[dice.below(other.len())..]);
}
