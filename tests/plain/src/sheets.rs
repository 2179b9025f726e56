//! The sheets, the seen set and the edge list, filled from a reading.

use crate::columns::Text;
use crate::reading::Reading;
use crate::sentences::{Node, Sentence};
use crate::tables::{Row, Tables, MOST_ROWS, NAMES};
use crate::Edge;

const ROW_NUMBERS: usize = 6;
const SENTENCE_NUMBERS: usize = 9;
const NODE_NUMBERS: usize = 11;

pub fn fill_table_sheet(tables: &Tables, sheet: &mut [u32]) {
    sheet.fill(0);
    for (name, table) in tables.iter().enumerate() {
        let Some(table) = table else { continue };
        sheet[name] = table.rows.len() as u32 + 1;
        for (index, row) in table.rows.iter().enumerate() {
            let place = NAMES.len() + (name * MOST_ROWS + index) * ROW_NUMBERS;
            sheet[place..place + ROW_NUMBERS].copy_from_slice(&row_numbers(row));
        }
    }
}

fn row_numbers(row: &Row) -> [u32; ROW_NUMBERS] {
    let id = (row.id + 1) as u32;
    let (first, second) = (row.first, row.second);
    [
        id,
        first.start,
        first.length,
        second.start,
        second.length,
        u32::from(row.flag),
    ]
}

pub fn fill_seen_set(sentences: &[Sentence], seen: &mut [u8]) {
    seen.fill(0);
    for sentence in sentences {
        let number = sentence.number as usize;
        seen[number / 8] |= 1 << (number % 8);
    }
}

/// One more than the place of each sentence, at its number.
pub fn fill_places(sentences: &[Sentence], places: &mut [u32]) {
    places.fill(0);
    for sentence in sentences {
        places[sentence.number as usize] = sentence.place + 1;
    }
}

pub fn fill_tables_and_seen(reading: &Reading, table_sheet: &mut [u32], seen: &mut [u8]) {
    fill_table_sheet(&reading.tables, table_sheet);
    fill_seen_set(&reading.sentences, seen);
}

pub fn clear_sentence(sheet: &mut [u32], edges: &mut [Edge]) {
    sheet.fill(0);
    edges.fill(Edge::default());
}

/// Fills a sentence sheet and an edge list that have been cleared.
pub fn fill_sentence(sentence: &Sentence, sheet: &mut [u32], edges: &mut [Edge]) {
    sheet[..SENTENCE_NUMBERS].copy_from_slice(&sentence_numbers(sentence));
    for node in sentence.nodes() {
        let place = SENTENCE_NUMBERS + node.number as usize * NODE_NUMBERS;
        sheet[place..place + NODE_NUMBERS].copy_from_slice(&node_numbers(node));
    }
    for (room, edge) in edges.iter_mut().zip(secondary_edges(sentence)) {
        *room = edge;
    }
}

fn sentence_numbers(sentence: &Sentence) -> [u32; SENTENCE_NUMBERS] {
    let Text { start, length } = sentence.comment;
    [
        sentence.number,
        (sentence.editor + 1) as u32,
        sentence.date,
        sentence.origin,
        start,
        length,
        sentence.words.len() as u32,
        sentence.phrases.len() as u32,
        sentence.secondary_edges as u32,
    ]
}

fn node_numbers(node: &Node) -> [u32; NODE_NUMBERS] {
    let (word, tag, morphology, edge) = (node.word, node.tag, node.morphology, node.edge);
    [
        word.start,
        word.length,
        tag.start,
        tag.length,
        morphology.start,
        morphology.length,
        edge.start,
        edge.length,
        node.parent,
        node.comment.start,
        node.comment.length,
    ]
}

/// The secondary edges in file order: by lines, within a line by columns.
fn secondary_edges(sentence: &Sentence) -> impl Iterator<Item = Edge> + '_ {
    sentence.nodes().flat_map(|node| {
        node.secondary_edges.iter().map(|edge| Edge {
            child: node.number,
            label_start: edge.label.start,
            label_length: edge.label.length,
            parent: edge.parent,
        })
    })
}
