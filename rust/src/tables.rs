//! The seven tables in front of the sentences.

use crate::layout::{self, RowRecord};
use crate::text;

/// The tables, in the order of the table sheet.
#[derive(Clone, Copy, PartialEq, Eq, Debug)]
pub enum Table {
    /// Where sentences come from.
    Origin,
    /// Who annotated them.
    Editor,
    /// Tags of words.
    WordTag,
    /// Morphology of words and phrases.
    MorphTag,
    /// Tags of phrases.
    NodeTag,
    /// Labels of edges.
    EdgeTag,
    /// Labels of secondary edges.
    SecEdgeTag,
}

/// A row of a table.
#[derive(Clone, Copy, PartialEq, Eq, Debug)]
pub struct Row<'f> {
    /// Its id, from -1.
    pub id: i32,
    /// Name, login or tag.
    pub first: &'f [u8],
    /// Comment, full name or description.
    pub second: Option<&'f [u8]>,
    /// Whether the flag of a word's tag is `Y`.
    pub flag: bool,
}

pub(crate) fn rows<'f>(file: &'f [u8], tables: &[u32], table: Table) -> Option<Vec<Row<'f>>> {
    let row = |RowRecord(id, first, second, flag)| Row {
        id: id as i32 - 1,
        first: text(file, first).unwrap_or_default(),
        second: text(file, second),
        flag,
    };
    Some(layout::rows(tables, table as usize)?.map(row).collect())
}
