//! Writes statements for the prover to compute: on each of some generated files the definitions of `crates/rules` give
//! what the independent reader gives, in every number of the answer and the sheets and every byte of the tidy text.
//!
//! `definitions COUNT LONGEST` prints COUNT statements over files of at most LONGEST bytes.

use plain::{generate, open, survey, write, Edge};
use plain::{EDGE_LIST, SEEN_SET, SENTENCE_SHEET, TABLE_SHEET};

const TABLES: usize = 7;
const TABLE_ROOM: usize = 1_536;
const ROW: usize = 6;
const LEADING: usize = 9;
const NODE: usize = 11;
const FIRST_PHRASE: usize = 500;

struct Lent {
    tables: Vec<u32>,
    seen: Vec<u8>,
    sheet: Vec<u32>,
    edges: Vec<Edge>,
}

fn lent() -> Lent {
    Lent {
        tables: vec![0; TABLE_SHEET],
        seen: vec![0; SEEN_SET],
        sheet: vec![0; SENTENCE_SHEET],
        edges: vec![Edge::default(); EDGE_LIST],
    }
}

/// The answer, the counts, and the rows of the tables that are there.
fn survey_numbers(file: &[u8], lent: &mut Lent) -> Vec<u32> {
    let answer = survey(file, &mut lent.tables, &mut lent.seen);
    let mut numbers = vec![answer.refusal, answer.place, answer.sentences, answer.sound_end];
    numbers.extend(&lent.tables[..TABLES]);
    for table in 0..TABLES {
        let rows = (lent.tables[table] as usize).saturating_sub(1);
        let start = TABLES + TABLE_ROOM * table;
        numbers.extend(&lent.tables[start..start + ROW * rows]);
    }
    numbers
}

/// What a sentence's sheet and list hold, without the unused room.
fn sentence_numbers(file: &[u8], number: u32, lent: &mut Lent) -> Vec<u32> {
    let granted = open(file, number, &mut lent.tables, &mut lent.seen, &mut lent.sheet, &mut lent.edges);
    assert_eq!(granted, 0, "sentence {number} is in the seen set");
    let sheet = &lent.sheet;
    let (words, phrases, edges) = (sheet[6] as usize, sheet[7] as usize, sheet[8] as usize);
    let mut numbers = sheet[..LEADING].to_vec();
    for node in (0..words).chain(FIRST_PHRASE..FIRST_PHRASE + phrases) {
        numbers.extend(&sheet[LEADING + NODE * node..LEADING + NODE * (node + 1)]);
    }
    for edge in &lent.edges[..edges] {
        numbers.extend([edge.child, edge.label_start, edge.label_length, edge.parent]);
    }
    numbers
}

fn tidy_bytes(file: &[u8], lent: &mut Lent) -> Vec<u32> {
    let mut out = vec![0; file.len() + 1_000];
    let Lent { tables, seen, sheet, edges } = lent;
    let written = write(file, tables, seen, sheet, edges, &mut out);
    out[..written.length as usize].iter().map(|&byte| u32::from(byte)).collect()
}

fn expected(file: &[u8]) -> Vec<u32> {
    let mut lent = lent();
    let mut numbers = survey_numbers(file, &mut lent);
    let seen = lent.seen.clone();
    for number in 0..8 * SEEN_SET {
        if seen[number / 8] >> (number % 8) & 1 == 1 {
            numbers.extend(sentence_numbers(file, number as u32, &mut lent));
        }
    }
    numbers.extend(tidy_bytes(file, &mut lent));
    numbers
}

fn quoted(file: &[u8]) -> String {
    file.iter()
        .map(|&byte| match byte {
            b'"' | b'\\' => format!("\\{}", byte as char),
            32..=126 => (byte as char).to_string(),
            _ => format!("\\u{{{byte:x}}}"),
        })
        .collect()
}

fn generated(seed: u64) -> Vec<u8> {
    match seed % 3 {
        0 => generate::damaged(seed, 1),
        1 => generate::small(seed),
        _ => generate::accepted(seed, 1),
    }
}

fn main() {
    let mut words = std::env::args().skip(1).map(|word| word.parse::<usize>().expect("a number"));
    let count = words.next().expect("how many files");
    let longest = words.next().expect("the longest file");
    let files = (0..).map(|seed| (seed, generated(seed))).filter(|(_, file)| file.len() <= longest);
    for (seed, file) in files.take(count) {
        let numbers: Vec<String> = expected(&file).iter().map(u32::to_string).collect();
        println!("file_{seed} : T (agrees (bytes \"{}\") ({} ∷ []))", quoted(&file), numbers.join(" ∷ "));
        println!("UNFOLDING");
        println!("file_{seed} = tt\n");
    }
}
