//! Damage without an aim: lines moved about, bytes changed, files cut.

use super::dice::Dice;
use super::draft::Draft;

/// Deletes, doubles, swaps or moves a few lines.
pub fn move_lines(dice: &mut Dice, draft: &mut Draft) {
    for _ in 0..dice.between(1, 3) {
        if draft.lines.is_empty() {
            return;
        }
        let (one, other) = (dice.below(draft.lines.len()), dice.below(draft.lines.len()));
        match dice.below(4) {
            0 => drop(draft.lines.remove(one)),
            1 => draft.lines.insert(other, draft.lines[one].clone()),
            2 => draft.lines.swap(one, other),
            _ => {
                let line = draft.lines.remove(one);
                draft.lines.insert(other.min(draft.lines.len()), line);
            }
        }
    }
}

/// Changes, inserts or deletes a few bytes, or cuts the file.
pub fn change_bytes(dice: &mut Dice, mut file: Vec<u8>) -> Vec<u8> {
    for _ in 0..dice.between(1, 4) {
        if file.is_empty() {
            return file;
        }
        let place = dice.below(file.len());
        match dice.below(8) {
            0 => file[place] ^= 1 << dice.below(8),
            1 => file[place] = dice.below(256) as u8,
            2 | 3 => file[place] = *dice.pick(b"\n \t#%0159-xY"),
            4 => drop(file.remove(place)),
            5 | 6 => file.insert(place, *dice.pick(b"\n\n \t#%0159-xY")),
            _ => file.truncate(place),
        }
    }
    file
}
