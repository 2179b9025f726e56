//! A draft: the lines of a file, each with the part it plays.

use super::dice::Dice;
use super::texts::{joined, maybe_white, text};
use crate::lines::LONGEST_LINE;

/// How much a draft holds.
pub struct Measure {
    pub sentences: usize,
    pub nodes: usize,
    pub rows: usize,
    /// The length most texts stay below.
    pub ordinary_text: usize,
    /// May the draft go to the limits?
    pub to_the_limits: bool,
}

impl Measure {
    pub fn of_size(size: usize) -> Measure {
        Measure {
            sentences: size,
            nodes: 1 + 2 * size,
            rows: 1 + size,
            ordinary_text: 8,
            to_the_limits: size >= 2,
        }
    }

    pub fn small() -> Measure {
        Measure {
            sentences: 3,
            nodes: 3,
            rows: 2,
            ordinary_text: 3,
            to_the_limits: false,
        }
    }
}

/// The part a line plays; a table is told by its place in the order of tables.
#[derive(Clone, Copy, PartialEq, Eq, Debug)]
pub enum Role {
    Ignored,
    Format,
    TableBegin(usize),
    Row(usize),
    TableEnd(usize),
    SentenceBegin,
    Word,
    Phrase,
    SentenceEnd,
}

#[derive(Clone)]
pub struct DraftLine {
    pub role: Role,
    pub bytes: Vec<u8>,
}

#[derive(Clone, Default)]
pub struct Draft {
    pub lines: Vec<DraftLine>,
    /// Bytes behind the last newline.
    pub rest: Vec<u8>,
}

impl Draft {
    pub fn bytes(&self) -> Vec<u8> {
        let mut file = Vec::new();
        for line in &self.lines {
            file.extend(&line.bytes);
            file.push(b'\n');
        }
        file.extend(&self.rest);
        file
    }

    pub fn sentence_count(&self) -> usize {
        self.places_of(|role| role == Role::SentenceEnd).len()
    }

    /// The indices of the lines whose role is asked for.
    pub fn places_of(&self, wanted: impl Fn(Role) -> bool) -> Vec<usize> {
        (0..self.lines.len())
            .filter(|&index| wanted(self.lines[index].role))
            .collect()
    }

    pub fn format_line(&mut self, dice: &mut Dice, measure: &Measure) {
        self.ignored_lines(dice, measure);
        let line = joined(dice, &[b"#FORMAT".to_vec(), b"3".to_vec()]);
        self.add(dice, measure, Role::Format, line);
    }

    /// Adds a line with white at its end, and perhaps ignored lines behind it.
    pub fn add(&mut self, dice: &mut Dice, measure: &Measure, role: Role, mut bytes: Vec<u8>) {
        let white = maybe_white(dice);
        if bytes.len() + white.len() <= LONGEST_LINE {
            bytes.extend(white);
        }
        if measure.to_the_limits && dice.one_in(500) {
            bytes.resize(LONGEST_LINE, b' ');
        }
        assert!(bytes.len() <= LONGEST_LINE);
        self.lines.push(DraftLine { role, bytes });
        self.ignored_lines(dice, measure);
    }

    fn ignored_lines(&mut self, dice: &mut Dice, measure: &Measure) {
        while dice.one_in(10) {
            let bytes = ignored_line(dice, measure);
            self.lines.push(DraftLine {
                role: Role::Ignored,
                bytes,
            });
        }
    }
}

fn ignored_line(dice: &mut Dice, measure: &Measure) -> Vec<u8> {
    let mut bytes = match dice.below(4) {
        0 => Vec::new(),
        1 => maybe_white(dice),
        2 => b"%%".to_vec(),
        _ => [
            b"%%".to_vec(),
            maybe_white(dice),
            text(dice, measure.ordinary_text, 100),
        ]
        .concat(),
    };
    if measure.to_the_limits && dice.one_in(60) {
        bytes.resize(LONGEST_LINE, b'\t');
    }
    bytes
}
