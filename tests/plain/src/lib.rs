//! A plain reader of NeGra export files, written from documents 000 and 01, the requests of
//! document 02 that have landed and the readings of their open points, to be compared with
//! the library. It shares no code with it.
//!
//! The whole file is read into a model (`reading`), and the sheets (`sheets`) and
//! the tidy text (`tidy`) are made from the model.

mod columns;
mod descriptions;
pub mod documents;
pub mod generate;
mod lines;
mod numbers;
mod places;
mod reading;
mod refusals;
mod sentences;
mod sheets;
mod tables;
mod tidy;

use descriptions::description;
use places::sentence_at;
use reading::{read, Reading};
use refusals::{BUFFER_SIZE, FILE_TOO_LONG, NOT_EXPLAINED, NOT_HANDED_OUT, TIDY_TOO_LONG};
use sentences::Sentence;
use sheets::{clear_sentence, fill_places, fill_sentence, fill_tables_and_seen};

/// Numbers in a table sheet.
pub const TABLE_SHEET: usize = 10_759;
/// Bytes in a seen set.
pub const SEEN_SET: usize = 8_192;
/// Numbers in a sentence sheet.
pub const SENTENCE_SHEET: usize = 11_009;
/// Records in an edge list.
pub const EDGE_LIST: usize = 512;
/// Numbers in a list of places, one for each sentence number and for 0.
pub const PLACES: usize = 65_536;
/// The longest file in bytes.
pub const FILE_LIMIT: usize = 268_435_456;
/// A tidy text is at most so many bytes longer than its file.
const TIDY_ROOM: usize = 512;

/// A refused explanation is a part of neither.
pub const OF_NEITHER: u32 = 0;
/// A part of the file.
pub const OF_FILE: u32 = 1;
/// A part of the list.
pub const OF_LIST: u32 = 2;

/// A secondary edge in the edge list.
#[repr(C)]
#[derive(Clone, Copy, Default, PartialEq, Eq, Debug)]
pub struct Edge {
    pub child: u32,
    pub label_start: u32,
    pub label_length: u32,
    pub parent: u32,
}

/// The answer of a survey.
#[derive(Clone, Copy, PartialEq, Eq, Debug)]
pub struct Survey {
    pub refusal: u32,
    pub place: u32,
    pub sentences: u32,
    pub sound_end: u32,
}

/// The answer of a writing.
#[derive(Clone, Copy, PartialEq, Eq, Debug)]
pub struct Written {
    pub refusal: u32,
    pub place: u32,
    pub length: u32,
}

/// The answer of an explanation: a part of the file or of the list. An empty part is 0, 0.
#[derive(Clone, Copy, PartialEq, Eq, Debug)]
pub struct Explained {
    pub refusal: u32,
    pub of: u32,
    pub start: u32,
    pub length: u32,
}

/// Checks the file and fills the table sheet and the seen set.
pub fn survey(file: &[u8], table_sheet: &mut [u32], seen: &mut [u8]) -> Survey {
    let sizes_right = table_sheet.len() == TABLE_SHEET && seen.len() == SEEN_SET;
    if let Some(refusal) = refusal_before_reading(file, sizes_right) {
        return unread(refusal);
    }
    let reading = read(file);
    fill_tables_and_seen(&reading, table_sheet, seen);
    answer_of(&reading)
}

/// A survey that also tells one more than the place of each sentence handed out.
pub fn index(file: &[u8], table_sheet: &mut [u32], seen: &mut [u8], places: &mut [u32]) -> Survey {
    let sizes_right =
        table_sheet.len() == TABLE_SHEET && seen.len() == SEEN_SET && places.len() == PLACES;
    if let Some(refusal) = refusal_before_reading(file, sizes_right) {
        return unread(refusal);
    }
    let reading = read(file);
    fill_tables_and_seen(&reading, table_sheet, seen);
    fill_places(&reading.sentences, places);
    answer_of(&reading)
}

fn unread(refusal: u32) -> Survey {
    Survey {
        refusal,
        place: 0,
        sentences: 0,
        sound_end: 0,
    }
}

fn answer_of(reading: &Reading) -> Survey {
    Survey {
        refusal: reading.refusal,
        place: reading.place as u32,
        sentences: reading.sentences.len() as u32,
        sound_end: reading.sound_end as u32,
    }
}

/// Opens the sentence with the given number; the answer is a refusal, 0 if granted.
pub fn open(
    file: &[u8],
    number: u32,
    table_sheet: &mut [u32],
    seen: &mut [u8],
    sentence_sheet: &mut [u32],
    edges: &mut [Edge],
) -> u32 {
    let sizes_right = sizes_right(table_sheet, seen, sentence_sheet, edges);
    if let Some(refusal) = refusal_before_reading(file, sizes_right) {
        return refusal;
    }
    let reading = read(file);
    fill_tables_and_seen(&reading, table_sheet, seen);
    let mut sentences = reading.sentences.iter();
    let asked = sentences.find(|sentence| sentence.number == number);
    hand_over(asked, sentence_sheet, edges)
}

/// Opens the sentence that begins at a place of the file, whatever stands before it and
/// behind it; the answer is a refusal, 0 if granted.
pub fn open_at(file: &[u8], place: u32, sentence_sheet: &mut [u32], edges: &mut [Edge]) -> u32 {
    let sizes_right = sentence_sheet.len() == SENTENCE_SHEET && edges.len() == EDGE_LIST;
    if let Some(refusal) = refusal_before_reading(file, sizes_right) {
        return refusal;
    }
    let asked = sentence_at(file, place as usize);
    hand_over(asked.as_ref(), sentence_sheet, edges)
}

fn hand_over(asked: Option<&Sentence>, sentence_sheet: &mut [u32], edges: &mut [Edge]) -> u32 {
    clear_sentence(sentence_sheet, edges);
    match asked {
        None => NOT_HANDED_OUT,
        Some(sentence) => {
            fill_sentence(sentence, sentence_sheet, edges);
            0
        }
    }
}

/// A writing with room enough, and its text, empty if it is refused.
pub fn tidied(file: &[u8]) -> (Written, Vec<u8>) {
    let (mut tables, mut seen) = (vec![0; TABLE_SHEET], vec![0; SEEN_SET]);
    let (mut sheet, mut edges) = (vec![0; SENTENCE_SHEET], vec![Edge::default(); EDGE_LIST]);
    let mut out = vec![0; file.len() + TIDY_ROOM];
    let written = write(
        file,
        &mut tables,
        &mut seen,
        &mut sheet,
        &mut edges,
        &mut out,
    );
    out.truncate(written.length as usize);
    (written, out)
}

/// Writes the tidy text of an accepted file to the beginning of `out`.
pub fn write(
    file: &[u8],
    table_sheet: &mut [u32],
    seen: &mut [u8],
    sentence_sheet: &mut [u32],
    edges: &mut [Edge],
    out: &mut [u8],
) -> Written {
    let sizes_right = sizes_right(table_sheet, seen, sentence_sheet, edges);
    if let Some(refusal) = refusal_before_reading(file, sizes_right) {
        return Written {
            refusal,
            place: 0,
            length: 0,
        };
    }
    let reading = read(file);
    fill_tables_and_seen(&reading, table_sheet, seen);
    clear_sentence(sentence_sheet, edges);
    let place = reading.place as u32;
    if reading.refusal != 0 {
        return Written {
            refusal: reading.refusal,
            place,
            length: 0,
        };
    }
    let tidy = tidy::tidy_text(&reading);
    if tidy.len() > out.len() || tidy.len() > FILE_LIMIT {
        return Written {
            refusal: TIDY_TOO_LONG,
            place,
            length: 0,
        };
    }
    out[..tidy.len()].copy_from_slice(&tidy);
    Written {
        refusal: 0,
        place,
        length: tidy.len() as u32,
    }
}

/// The description of a tag of the table with this place in the order of tables, from 1 to
/// 7: from the file if it has that table, else from the list. Both are checked whole.
pub fn explain(
    file: &[u8],
    list: &[u8],
    table: u32,
    tag: &[u8],
    table_sheet: &mut [u32],
    seen: &mut [u8],
) -> Explained {
    let sizes_right = table_sheet.len() == TABLE_SHEET && seen.len() == SEEN_SET;
    for lent in [file, list] {
        if let Some(refusal) = refusal_before_reading(lent, sizes_right) {
            return unexplained(refusal);
        }
    }
    table_sheet.fill(0);
    seen.fill(0);
    let (file, list) = (read(file), read(list));
    for reading in [&file, &list] {
        if reading.refusal != 0 {
            return unexplained(reading.refusal);
        }
    }
    match description(&file, &list, table, tag) {
        None => unexplained(NOT_EXPLAINED),
        Some((of, text)) => Explained {
            refusal: 0,
            of,
            start: text.start,
            length: text.length,
        },
    }
}

fn unexplained(refusal: u32) -> Explained {
    Explained {
        refusal,
        of: OF_NEITHER,
        start: 0,
        length: 0,
    }
}

fn sizes_right(tables: &[u32], seen: &[u8], sentence: &[u32], edges: &[Edge]) -> bool {
    tables.len() == TABLE_SHEET
        && seen.len() == SEEN_SET
        && sentence.len() == SENTENCE_SHEET
        && edges.len() == EDGE_LIST
}

/// 1 and 2 come before everything else and change no buffer.
fn refusal_before_reading(file: &[u8], sizes_right: bool) -> Option<u32> {
    if !sizes_right {
        Some(BUFFER_SIZE)
    } else if file.len() > FILE_LIMIT {
        Some(FILE_TOO_LONG)
    } else {
        None
    }
}
