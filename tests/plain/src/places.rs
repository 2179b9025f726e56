//! The sentence that begins at a place, read from there alone: nothing is asked of tables
//! or of other sentences.

use crate::columns::Columns;
use crate::lines::{next_line, Line, Next};
use crate::sentences::{begin_sentence_alone, Sentence};
use crate::tables::Tables;

/// The sentence, if a line begins at the place and the lines from there up to an `#EOS`
/// are those of a sentence.
pub fn sentence_at(file: &[u8], place: usize) -> Option<Sentence> {
    if place > file.len() || (place > 0 && file[place - 1] != b'\n') {
        return None;
    }
    let heading = line_at(file, place)?;
    let columns = Columns::of(heading);
    if heading.begins_white() || columns.bytes(0) != b"#BOS" {
        return None;
    }
    let mut open = begin_sentence_alone(&columns).ok()?;
    let no_tables = Tables::default();
    let mut line = heading;
    loop {
        line = line_at(file, line.end + 1)?;
        if line.is_ignored() {
            continue;
        }
        if line.begins_white() {
            return None;
        }
        let columns = Columns::of(line);
        if columns.bytes(0) == b"#EOS" {
            open.check_end(&columns).ok()?;
            return Some(open.sentence);
        }
        open.take_node(&columns, &no_tables).ok()?;
    }
}

/// The ended line at a place, if its bytes and its length are those of a line.
fn line_at(file: &[u8], place: usize) -> Option<Line<'_>> {
    match next_line(file, place) {
        Next::Line(line) if line.check_bytes().is_ok() => Some(line),
        _ => None,
    }
}
