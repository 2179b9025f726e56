//! The tables and their rows.

use crate::columns::{check_text, trimmed, Columns, Text};
use crate::numbers::{EDITOR_IDS, ORIGIN_IDS, TAG_ROW_IDS};
use crate::refusals::{Fault, Faults, ROW, TEXT, TOO_MANY_ROWS};

/// The tables' names in the order of the table sheet and of the tidy text.
pub const NAMES: [&str; 7] = [
    "ORIGIN",
    "EDITOR",
    "WORDTAG",
    "MORPHTAG",
    "NODETAG",
    "EDGETAG",
    "SECEDGETAG",
];
pub const ORIGIN: usize = 0;
pub const EDITOR: usize = 1;
pub const WORDTAG: usize = 2;
pub const MORPHTAG: usize = 3;
pub const NODETAG: usize = 4;
pub const EDGETAG: usize = 5;
pub const SECEDGETAG: usize = 6;

pub const MOST_ROWS: usize = 256;
const LONGEST_ORIGIN_NAME: u32 = 128;
const LONGEST_ORIGIN_COMMENT: u32 = 160;
const LONGEST_LOGIN: u32 = 16;
const LONGEST_FULL_NAME: u32 = 40;
const LONGEST_DESCRIPTION: u32 = 80;

pub const UNKNOWN: &[u8] = b"UNKNOWN";
pub const NOT_BOUND: &[u8] = b"--";

pub struct Row {
    pub id: i64,
    pub first: Text,
    pub second: Text,
    pub flag: bool,
}

/// A table by the place of its name in `NAMES`, with its rows in file order.
pub struct Table {
    pub name: usize,
    pub rows: Vec<Row>,
}

/// The tables closed so far; a place is empty while its table is absent.
pub type Tables = [Option<Table>; 7];

pub fn table_named(name: &[u8]) -> Option<usize> {
    NAMES.iter().position(|known| known.as_bytes() == name)
}

/// The longest tag of a table.
pub fn longest_tag(table: usize) -> u32 {
    if table == MORPHTAG {
        32
    } else {
        10
    }
}

impl Table {
    pub fn has_id(&self, id: i64) -> bool {
        self.rows.iter().any(|row| row.id == id)
    }

    fn has_first(&self, file: &[u8], text: &[u8]) -> bool {
        self.rows.iter().any(|row| row.first.of(file) == text)
    }

    /// Adds the row that the line holds, or tells the line's fault.
    pub fn take_row(&mut self, columns: &Columns) -> Result<(), Fault> {
        let mut faults = Faults::default();
        faults.add_if(self.rows.len() >= MOST_ROWS, TOO_MANY_ROWS);
        let row = match self.name {
            ORIGIN => self.origin_row(columns, &mut faults),
            EDITOR => self.editor_row(columns, &mut faults),
            _ => self.tag_row(columns, &mut faults),
        };
        self.rows.push(faults.judge(row)?);
        Ok(())
    }

    fn origin_row(&self, columns: &Columns, faults: &mut Faults) -> Row {
        let id = columns.number(0, ORIGIN_IDS.0, ORIGIN_IDS.1, faults);
        faults.add_if(self.has_id(id), ROW);
        let (name, comment) = name_and_comment(columns.file, columns.text_behind(0));
        check_text(name, LONGEST_ORIGIN_NAME, faults);
        let too_long = comment.length > LONGEST_ORIGIN_COMMENT;
        faults.add_at_if(too_long, comment.start, TEXT);
        Row {
            id,
            first: name,
            second: comment,
            flag: false,
        }
    }

    fn editor_row(&self, columns: &Columns, faults: &mut Faults) -> Row {
        let id = columns.number(0, EDITOR_IDS.0, EDITOR_IDS.1, faults);
        faults.add_if(self.has_id(id), ROW);
        let login = columns.text(1);
        let full_name = columns.text_behind(1);
        check_text(login, LONGEST_LOGIN, faults);
        check_text(full_name, LONGEST_FULL_NAME, faults);
        Row {
            id,
            first: login,
            second: full_name,
            flag: false,
        }
    }

    fn tag_row(&self, columns: &Columns, faults: &mut Faults) -> Row {
        let id = columns.number(0, TAG_ROW_IDS.0, TAG_ROW_IDS.1, faults);
        let tag = columns.text(1);
        check_text(tag, longest_tag(self.name), faults);
        self.check_tag(id, tag, columns.file, faults);
        let (flag, last_column) = self.flag(columns, faults);
        let description = columns.text_behind(last_column);
        check_text(description, LONGEST_DESCRIPTION, faults);
        Row {
            id,
            first: tag,
            second: description,
            flag,
        }
    }

    fn check_tag(&self, id: i64, tag: Text, file: &[u8], faults: &mut Faults) {
        let place = tag.start;
        let tag = tag.of(file);
        faults.add_at_if(tag == b"%%", place, TEXT);
        faults.add_if(!self.id_is_next(id), ROW);
        faults.add_if((id == -1) != (tag == UNKNOWN), ROW);
        faults.add_if((id == 0) != (tag == NOT_BOUND), ROW);
        faults.add_if(self.has_first(file, tag), ROW);
    }

    /// The flag, and the column behind which the description stands. Only word
    /// tags have a flag.
    fn flag(&self, columns: &Columns, faults: &mut Faults) -> (bool, usize) {
        if self.name != WORDTAG {
            return (false, 1);
        }
        let flag = columns.bytes(2);
        let neither = flag != b"Y" && flag != b"N";
        faults.add_at_if(neither, columns.text(2).start, TEXT);
        (flag == b"Y", 2)
    }

    /// -1 if given, 0 if given, then 1, 2, 3 without a gap.
    fn id_is_next(&self, id: i64) -> bool {
        match self.rows.last().map(|row| row.id) {
            None => id <= 1,
            Some(-1) => id == 0 || id == 1,
            Some(last) => id == last + 1,
        }
    }
}

/// An origin's name ends at the first two adjacent percent signs.
fn name_and_comment(file: &[u8], text: Text) -> (Text, Text) {
    let start = text.start as usize;
    match text.of(file).windows(2).position(|pair| pair == b"%%") {
        None => (text, Text::default()),
        Some(length) => {
            let name = trimmed(file, start, start + length);
            let comment = trimmed(file, start + length + 2, text.end());
            (name, comment)
        }
    }
}

/// May a node use this tag? It must stand in its table if the file has that table.
pub fn tag_is_known(tables: &Tables, name: usize, file: &[u8], tag: &[u8]) -> bool {
    match &tables[name] {
        None => true,
        Some(_) if tag == UNKNOWN || tag == NOT_BOUND => true,
        Some(table) => table.has_first(file, tag),
    }
}
