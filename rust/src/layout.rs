//! Where things stand in the buffers, the only place that knows. The numbers are those of
//! `include/hraunlik.h`, taken from there when this crate is built; `docs/RULES.md` explains them.

#[allow(dead_code)]
mod header {
    include!(concat!(env!("OUT_DIR"), "/header.rs"));
}

use header::{EDGE_WIDTH, LEADING, NODE_WIDTH, TABLE_COUNT};
use header::{ROW_FIRST, ROW_FLAG, ROW_ID, ROW_ROOM, ROW_SECOND, ROW_WIDTH};

/// Numbers in a table sheet.
pub const TABLES: usize = header::TABLES;
/// Bytes in a seen set.
pub const SEEN: usize = header::SEEN;
/// Numbers in a list of places.
pub const PLACES: usize = header::PLACES;
/// Numbers in a sentence sheet.
pub const SHEET: usize = header::SHEET;
/// Numbers in a list of secondary edges.
pub const EDGES: usize = header::EDGES;
/// Bytes in the longest file.
pub const FILE_LIMIT: usize = header::FILE_LIMIT;
/// A tidy text is at most so many bytes longer than its file.
pub const TIDY_ROOM: usize = header::TIDY_ROOM;
/// Of which an explained tag's description is a part: the file.
pub const OF_FILE: u32 = header::OF_FILE as u32;
/// The list.
pub const OF_LIST: u32 = header::OF_LIST as u32;
/// The number of a sentence's first phrase.
pub const FIRST_PHRASE: u32 = header::FIRST_PHRASE as u32;

/// The start and the length of a text in the file; 0 and 0 if it is absent.
pub(crate) type Place = [u32; 2];

fn place(numbers: &[u32], at: usize) -> Place {
    [numbers[at], numbers[at + 1]]
}

/// A row of the table sheet: id + 1, first and second text, flag.
pub(crate) struct RowRecord(pub u32, pub Place, pub Place, pub bool);

/// The rows of a table of the table sheet, `None` if the file hasn't it.
pub(crate) fn rows(tables: &[u32], table: usize) -> Option<impl Iterator<Item = RowRecord> + '_> {
    let rows = (tables[table] as usize).checked_sub(1)?;
    let begin = TABLE_COUNT + table * ROW_ROOM * ROW_WIDTH;
    let numbers = &tables[begin..begin + rows * ROW_WIDTH];
    let row = |row: &[u32]| {
        let (first, second) = (place(row, ROW_FIRST), place(row, ROW_SECOND));
        RowRecord(row[ROW_ID], first, second, row[ROW_FLAG] == 1)
    };
    Some(numbers.chunks_exact(ROW_WIDTH).map(row))
}

/// What a sentence sheet and its list hold, without the room that isn't used.
#[derive(Clone, PartialEq, Eq)]
pub(crate) struct SentenceRecord {
    leading: [u32; LEADING],
    nodes: Vec<[u32; NODE_WIDTH]>,
    edges: Vec<[u32; EDGE_WIDTH]>,
}

/// Fields of the leading numbers.
impl SentenceRecord {
    pub fn copied(sheet: &[u32], edges: &[u32]) -> SentenceRecord {
        let (leading, records) = sheet.split_at(LEADING);
        let leading: [u32; LEADING] = leading.try_into().expect("the leading numbers");
        let [words, phrases, secondary] =
            [header::WORDS, header::PHRASES, header::SECONDARY].map(|at| leading[at] as usize);
        let node = |number: usize| {
            let at = number * NODE_WIDTH;
            records[at..at + NODE_WIDTH].try_into().expect("a record")
        };
        let numbers = (0..words).chain(header::FIRST_PHRASE..header::FIRST_PHRASE + phrases);
        let edges = edges.chunks_exact(EDGE_WIDTH).take(secondary);
        SentenceRecord {
            leading,
            nodes: numbers.map(node).collect(),
            edges: edges
                .map(|edge| edge.try_into().expect("a record"))
                .collect(),
        }
    }

    pub fn number(&self) -> u32 {
        self.leading[header::NUMBER]
    }

    pub fn editor(&self) -> i32 {
        self.leading[header::EDITOR] as i32 - 1
    }

    pub fn date(&self) -> u32 {
        self.leading[header::DATE]
    }

    pub fn origin(&self) -> u32 {
        self.leading[header::ORIGIN]
    }

    pub fn comment(&self) -> Place {
        place(&self.leading, header::COMMENT)
    }

    pub fn words(&self) -> u32 {
        self.leading[header::WORDS]
    }

    pub fn phrases(&self) -> u32 {
        self.leading[header::PHRASES]
    }

    /// The record of a node that the sentence has.
    pub fn node(&self, number: u32) -> NodeRecord<'_> {
        let at = match number.checked_sub(FIRST_PHRASE) {
            None => number,
            Some(phrase) => self.words() + phrase,
        };
        NodeRecord(&self.nodes[at as usize])
    }

    /// Child, label and parent of each secondary edge.
    pub fn edges(&self) -> impl Iterator<Item = (u32, Place, u32)> + '_ {
        let label = |edge| place(edge, header::EDGE_LABEL);
        self.edges
            .iter()
            .map(move |e| (e[header::EDGE_CHILD], label(e), e[header::EDGE_PARENT]))
    }
}

/// Fields of a node's record.
pub(crate) struct NodeRecord<'s>(&'s [u32; NODE_WIDTH]);

impl NodeRecord<'_> {
    pub fn word(&self) -> Place {
        place(self.0, header::NODE_WORD)
    }

    pub fn tag(&self) -> Place {
        place(self.0, header::NODE_TAG)
    }

    pub fn morphology(&self) -> Place {
        place(self.0, header::NODE_MORPHOLOGY)
    }

    pub fn edge(&self) -> Place {
        place(self.0, header::NODE_EDGE)
    }

    pub fn parent(&self) -> u32 {
        self.0[header::NODE_PARENT]
    }

    pub fn comment(&self) -> Place {
        place(self.0, header::NODE_COMMENT)
    }
}
