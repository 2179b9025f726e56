//! The buffers that a call is lent: full of noise, each between margins that belong to the
//! caller.

use std::fmt::Debug;

use plain::generate::Dice;
use plain::{EDGE_LIST, PLACES, SEEN_SET, SENTENCE_SHEET, TABLE_SHEET};

/// Numbers in a list of edges, four a record.
pub const EDGE_NUMBERS: usize = 4 * EDGE_LIST;

/// Entries on either side of a buffer.
const MARGIN: usize = 64;

/// The sizes of the table sheet, the seen set, the list of places, the sentence sheet and
/// the list of edges; 0 for one that a call doesn't take.
pub type Sizes = [usize; 5];

pub const SURVEY_SIZES: Sizes = [TABLE_SHEET, SEEN_SET, 0, 0, 0];
pub const INDEX_SIZES: Sizes = [TABLE_SHEET, SEEN_SET, PLACES, 0, 0];
pub const OPEN_SIZES: Sizes = [TABLE_SHEET, SEEN_SET, 0, SENTENCE_SHEET, EDGE_NUMBERS];
pub const OPEN_AT_SIZES: Sizes = [0, 0, 0, SENTENCE_SHEET, EDGE_NUMBERS];

/// Every choice of the fixed size, one less, one more and 0 for each buffer that is lent; the
/// fixed sizes come first.
pub fn choices_of_sizes(fixed: Sizes) -> Vec<Sizes> {
    let mut choices = vec![fixed];
    for buffer in (0..fixed.len()).filter(|&buffer| fixed[buffer] > 0) {
        for mut sizes in choices.clone() {
            for size in [fixed[buffer] - 1, fixed[buffer] + 1, 0] {
                sizes[buffer] = size;
                choices.push(sizes);
            }
        }
    }
    choices
}

#[derive(Clone, PartialEq, Eq)]
pub struct Room<T>(Vec<T>);

impl<T> Room<T> {
    pub fn filled(size: usize, entry: impl Fn(usize) -> T) -> Room<T> {
        Room((0..size + 2 * MARGIN).map(entry).collect())
    }

    pub fn lent(&mut self) -> &mut [T] {
        let end = self.0.len() - MARGIN;
        &mut self.0[MARGIN..end]
    }

    pub fn entries(&self) -> &[T] {
        &self.0[MARGIN..self.0.len() - MARGIN]
    }
}

impl<T: PartialEq + Debug> Room<T> {
    /// Entries are counted from the buffer's first; those of the margin in front are below 0.
    pub fn first_difference(&self, name: &str, plain: &Room<T>) -> String {
        let mut entries = self.0.iter().zip(&plain.0).enumerate();
        match entries.find(|(_, (compiled, plain))| compiled != plain) {
            None => String::new(),
            Some((entry, (compiled, plain))) => {
                let entry = entry as isize - MARGIN as isize;
                format!("; entry {entry} of the {name}: compiled {compiled:?}, plain {plain:?}")
            }
        }
    }
}

#[derive(Clone, PartialEq, Eq)]
pub struct Lent {
    pub tables: Room<u32>,
    pub seen: Room<u8>,
    pub places: Room<u32>,
    pub sheet: Room<u32>,
    pub edges: Room<u32>,
}

impl Lent {
    pub fn noise(seed: u64, [tables, seen, places, sheet, edges]: Sizes) -> Lent {
        let mut dice = Dice::new(seed ^ 0x0000_0153_0000_0153);
        let (first, step) = (dice.roll() as u32, dice.roll() as u32 | 1);
        let noise = |entry: usize| first.wrapping_add(step.wrapping_mul(entry as u32));
        Lent {
            tables: Room::filled(tables, noise),
            seen: Room::filled(seen, |entry| noise(entry) as u8),
            places: Room::filled(places, noise),
            sheet: Room::filled(sheet, noise),
            edges: Room::filled(edges, noise),
        }
    }

    /// Where these buffers of the compiled library and those of the independent reader differ.
    pub fn differences(&self, plain: &Lent) -> String {
        [
            self.tables.first_difference("table sheet", &plain.tables),
            self.seen.first_difference("seen set", &plain.seen),
            self.places
                .first_difference("list of places", &plain.places),
            self.sheet.first_difference("sentence sheet", &plain.sheet),
            self.edges.first_difference("list of edges", &plain.edges),
        ]
        .concat()
    }

    pub fn same_sentence(&self, other: &Lent) -> bool {
        self.sheet.entries() == other.sheet.entries()
            && self.edges.entries() == other.edges.entries()
    }
}
