//! Pieces of work: what the compiled library does with a file, what the independent reader
//! does, and a count of its newlines.

use std::hint::black_box;

use hraunlik::calls;
use hraunlik::layout::{EDGES, PLACES, SEEN, SHEET, TABLES, TIDY_ROOM};

/// The buffers that all work shares. The independent reader's list of edges has records.
pub struct Lent {
    tables: Vec<u32>,
    seen: Vec<u8>,
    places: Vec<u32>,
    sheet: Vec<u32>,
    edges: Vec<u32>,
    records: Vec<plain::Edge>,
    output: Vec<u8>,
    /// How long the last text was that was written.
    written: usize,
}

impl Lent {
    /// The output has room for the tidy text of a file of this length.
    pub fn zero(file: usize) -> Lent {
        Lent {
            tables: vec![0; TABLES],
            seen: vec![0; SEEN],
            places: vec![0; PLACES],
            sheet: vec![0; SHEET],
            edges: vec![0; EDGES],
            records: vec![plain::Edge::default(); plain::EDGE_LIST],
            output: vec![0; file + TIDY_ROOM],
            written: 0,
        }
    }
}

pub type Work = fn(&[u8], &mut Lent);

pub fn count_newlines(file: &[u8], _: &mut Lent) {
    black_box(file.iter().filter(|&&byte| byte == b'\n').count());
}

pub fn survey(file: &[u8], lent: &mut Lent) {
    let answer = calls::survey(file, &mut lent.tables, &mut lent.seen);
    assert_accepted(file, answer.refusal, answer.place);
}

pub fn survey_plainly(file: &[u8], lent: &mut Lent) {
    let answer = plain::survey(file, &mut lent.tables, &mut lent.seen);
    assert_accepted(file, answer.refusal, answer.place);
}

/// Opens sentence 1, which every corpus has.
pub fn open_one(file: &[u8], lent: &mut Lent) {
    let (tables, seen) = (&mut lent.tables, &mut lent.seen);
    let refusal = calls::open(file, 1, tables, seen, &mut lent.sheet, &mut lent.edges);
    assert_opened(refusal, 1, lent);
}

pub fn open_one_plainly(file: &[u8], lent: &mut Lent) {
    let (tables, seen) = (&mut lent.tables, &mut lent.seen);
    let refusal = plain::open(file, 1, tables, seen, &mut lent.sheet, &mut lent.records);
    assert_opened(refusal, 1, lent);
}

pub fn index(file: &[u8], lent: &mut Lent) {
    let (tables, seen) = (&mut lent.tables, &mut lent.seen);
    let answer = calls::index(file, tables, seen, &mut lent.places);
    assert_accepted(file, answer.refusal, answer.place);
}

pub fn index_plainly(file: &[u8], lent: &mut Lent) {
    let (tables, seen) = (&mut lent.tables, &mut lent.seen);
    let answer = plain::index(file, tables, seen, &mut lent.places);
    assert_accepted(file, answer.refusal, answer.place);
}

/// An index, and then every sentence at its place.
pub fn open_all(file: &[u8], lent: &mut Lent) {
    index(file, lent);
    for number in 1..PLACES {
        if let Some(place) = lent.places[number].checked_sub(1) {
            let refusal = calls::open_at(file, place, &mut lent.sheet, &mut lent.edges);
            assert_opened(refusal, number, lent);
        }
    }
}

pub fn open_all_plainly(file: &[u8], lent: &mut Lent) {
    index_plainly(file, lent);
    for number in 1..PLACES {
        if let Some(place) = lent.places[number].checked_sub(1) {
            let refusal = plain::open_at(file, place, &mut lent.sheet, &mut lent.records);
            assert_opened(refusal, number, lent);
        }
    }
}

/// Sheet and list cleared once for each sentence of the last index, and nothing else: what every
/// opening has to do, whatever the sentence.
pub fn clear_for_all(_: &[u8], lent: &mut Lent) {
    for _ in lent.places.iter().filter(|&&place| place != 0) {
        black_box(&mut lent.sheet).fill(0);
        black_box(&mut lent.edges).fill(0);
    }
}

/// Writes the tidy text. The output has room for every text of a file of this length.
pub fn write(file: &[u8], lent: &mut Lent) {
    let room = file.len() + TIDY_ROOM;
    lent.written = write_into(file, room, lent);
}

/// Writes it into an output of just its length, so that it has to be measured first.
pub fn write_exactly(file: &[u8], lent: &mut Lent) {
    let written = write_into(file, lent.written, lent);
    assert_eq!(written, lent.written);
}

fn write_into(file: &[u8], room: usize, lent: &mut Lent) -> usize {
    let (tables, seen) = (&mut lent.tables, &mut lent.seen);
    let (sheet, edges) = (&mut lent.sheet, &mut lent.edges);
    let output = &mut lent.output[..room];
    let answer = calls::write(file, output, tables, seen, sheet, edges);
    assert_accepted(file, answer.refusal, answer.place);
    assert!(lent.output.starts_with(b"#FORMAT 3\n"));
    answer.length as usize
}

pub fn write_plainly(file: &[u8], lent: &mut Lent) {
    let (tables, seen) = (&mut lent.tables, &mut lent.seen);
    let (sheet, records) = (&mut lent.sheet, &mut lent.records);
    let answer = plain::write(file, tables, seen, sheet, records, &mut lent.output);
    assert_accepted(file, answer.refusal, answer.place);
    assert!(lent.output.starts_with(b"#FORMAT 3\n"));
}

fn assert_accepted(file: &[u8], refusal: u32, place: u32) {
    assert_eq!((refusal, place as usize), (0, file.len()));
}

fn assert_opened(refusal: u32, number: usize, lent: &Lent) {
    assert_eq!((refusal, lent.sheet[0] as usize), (0, number));
}
