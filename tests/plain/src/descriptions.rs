//! The description of a tag, as the file or else the list gives it.

use crate::columns::Text;
use crate::reading::Reading;
use crate::tables::{Table, NOT_BOUND, SECEDGETAG, UNKNOWN, WORDTAG};
use crate::{OF_FILE, OF_LIST};

/// The description of a tag in the table with this place in the order of tables, counted
/// from 1, and which of the two readings holds it. The table decides, not the tag: the
/// list is asked only where the file hasn't the table.
pub fn description(file: &Reading, list: &Reading, table: u32, tag: &[u8]) -> Option<(u32, Text)> {
    let name = (table as usize).checked_sub(1)?;
    if !(WORDTAG..=SECEDGETAG).contains(&name) {
        return None;
    }
    let (of, reading, table) = match (&file.tables[name], &list.tables[name]) {
        (Some(table), _) => (OF_FILE, file, table),
        (None, Some(table)) => (OF_LIST, list, table),
        (None, None) => return None,
    };
    Some((of, description_in(table, reading.file, tag)?))
}

/// The two tags that need no row have an empty description without one.
fn description_in(table: &Table, file: &[u8], tag: &[u8]) -> Option<Text> {
    let row = table.rows.iter().find(|row| row.first.of(file) == tag);
    match row {
        Some(row) => Some(row.second),
        None if tag == UNKNOWN || tag == NOT_BOUND => Some(Text::default()),
        None => None,
    }
}
