//! Buffers to lend, and files the tests share.
#![allow(dead_code)]

pub mod explaining;

use plain::{Edge, Survey, Written, EDGE_LIST, SEEN_SET, SENTENCE_SHEET, TABLE_SHEET};

/// The length of A's format line and tables.
pub const HEAD: usize = 74;

/// A's format line and tables.
pub const TABLES: &str =
    "#FORMAT 3\n#BOT ORIGIN\n1 lab\n#EOT ORIGIN\n#BOT EDITOR\n2 kim Kim\n#EOT EDITOR\n";

/// The first and the last line of A's sentence.
pub const BOS: &str = "#BOS 7 2 0 1\n";
pub const EOS: &str = "#EOS 7\n";

/// The tidy text of A.
pub const TIDY_A: &[u8] = b"#FORMAT 3
#BOT ORIGIN
1\tlab
#EOT ORIGIN
#BOT EDITOR
2\tkim\tKim
#EOT EDITOR
#BOS 7 2 0 1
Ja\tITJ\t--\t--\t500
#500\tS\t--\t--\t0
#EOS 7
";

/// All buffers a caller lends, full of old contents.
#[derive(Clone, PartialEq, Eq)]
pub struct Lent {
    pub table_sheet: Vec<u32>,
    pub seen: Vec<u8>,
    pub sentence_sheet: Vec<u32>,
    pub edges: Vec<Edge>,
}

pub const OLD: u32 = 0xdead_beef;

impl Lent {
    pub fn with_old_contents() -> Lent {
        let edge = Edge {
            child: OLD,
            label_start: OLD,
            label_length: OLD,
            parent: OLD,
        };
        Lent {
            table_sheet: vec![OLD; TABLE_SHEET],
            seen: vec![0xa5; SEEN_SET],
            sentence_sheet: vec![OLD; SENTENCE_SHEET],
            edges: vec![edge; EDGE_LIST],
        }
    }

    pub fn survey(&mut self, file: &[u8]) -> Survey {
        plain::survey(file, &mut self.table_sheet, &mut self.seen)
    }

    pub fn open(&mut self, file: &[u8], number: u32) -> u32 {
        plain::open(
            file,
            number,
            &mut self.table_sheet,
            &mut self.seen,
            &mut self.sentence_sheet,
            &mut self.edges,
        )
    }

    pub fn write(&mut self, file: &[u8], out: &mut [u8]) -> Written {
        plain::write(
            file,
            &mut self.table_sheet,
            &mut self.seen,
            &mut self.sentence_sheet,
            &mut self.edges,
            out,
        )
    }

    pub fn sentence_is_zero(&self) -> bool {
        let no_edges = self.edges.iter().all(|edge| *edge == Edge::default());
        no_edges && self.sentence_sheet.iter().all(|&number| number == 0)
    }

    pub fn has_seen(&self, number: usize) -> bool {
        self.seen[number / 8] >> (number % 8) & 1 == 1
    }

    pub fn count_seen(&self) -> usize {
        self.seen
            .iter()
            .map(|byte| byte.count_ones() as usize)
            .sum()
    }

    pub fn numbers_seen(&self) -> Vec<u32> {
        (0..65_536)
            .filter(|&number| self.has_seen(number as usize))
            .collect()
    }
}

pub fn survey_of(file: &[u8]) -> Survey {
    Lent::with_old_contents().survey(file)
}

/// A refusal must be given at `place`; 0 at the file's end.
pub fn assert_judged(file: &[u8], place: usize, refusal: u32, case: &str) {
    let answer = survey_of(file);
    let place = if refusal == 0 { file.len() } else { place };
    assert_eq!(
        (answer.refusal, answer.place as usize),
        (refusal, place),
        "{case}"
    );
}

/// Judges `line` behind `before`; a refusal must be given at that line, and at the column
/// that `^` marks, if there is a mark. What follows makes the file whole if the line is
/// accepted.
pub fn judge(before: &str, line: &str, after: &str, refusal: u32) {
    let place = before.len() + line.find('^').unwrap_or(0);
    let file = [before, &line.replace('^', ""), "\n", after].concat();
    let case = format!("{before}>>>{line}");
    assert_judged(file.as_bytes(), place, refusal, &case);
}

pub fn judge_all(before: &str, after: &str, cases: &[(&str, u32)]) {
    for &(line, refusal) in cases {
        judge(before, line, after, refusal);
    }
}

/// The tidy text of a file that must be accepted.
pub fn tidy_of(file: &[u8]) -> Vec<u8> {
    let mut out = vec![0; file.len() + 512];
    let written = Lent::with_old_contents().write(file, &mut out);
    assert_eq!((written.refusal, written.place as usize), (0, file.len()));
    out.truncate(written.length as usize);
    out
}

pub fn survey(refusal: u32, place: usize, sentences: u32, sound_end: usize) -> Survey {
    Survey {
        refusal,
        place: place as u32,
        sentences,
        sound_end: sound_end as u32,
    }
}

pub fn long(length: usize) -> String {
    "x".repeat(length)
}

/// The size of the file that dice make of a seed.
pub fn size_of(seed: u64) -> usize {
    1 + (seed % 6) as usize
}
