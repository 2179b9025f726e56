//! The tidy text of files made by dice says the same as the files.

mod common;

use common::*;
use plain::generate::*;
use plain::Edge;

/// A row without its places: id + 1, both texts, flag.
type RowTexts = (u32, Vec<u8>, Vec<u8>, u32);

/// The tables of a file without places: for each its rows by id, as texts.
fn table_texts(file: &[u8], lent: &Lent) -> Vec<Vec<RowTexts>> {
    let text = |start: u32, length: u32| file[start as usize..][..length as usize].to_vec();
    let mut tables = Vec::new();
    for table in 0..7 {
        let rows = lent.table_sheet[table].saturating_sub(1) as usize;
        let records = lent.table_sheet[7 + table * 256 * 6..].chunks(6).take(rows);
        let mut rows: Vec<_> = records
            .map(|row| (row[0], text(row[1], row[2]), text(row[3], row[4]), row[5]))
            .collect();
        rows.sort();
        tables.push(rows);
    }
    tables
}

/// A sentence without places: its numbers, its texts, and the secondary edges by child.
type SentenceTexts = (Vec<u32>, Vec<Vec<u8>>, Vec<(u32, Vec<u8>, u32)>);

fn sentence_texts(file: &[u8], lent: &Lent) -> SentenceTexts {
    let text = |start: u32, length: u32| file[start as usize..][..length as usize].to_vec();
    let sheet = &lent.sentence_sheet;
    let mut numbers = [&sheet[..4], &sheet[6..9]].concat();
    let mut texts = vec![text(sheet[4], sheet[5])];
    for node in sheet[9..].chunks(11) {
        numbers.push(node[8]);
        for at in [0, 2, 4, 6, 9] {
            texts.push(text(node[at], node[at + 1]));
        }
    }
    let edges = lent.edges.iter().take(sheet[8] as usize);
    let mut edges: Vec<_> = edges
        .map(|edge| {
            (
                edge.child,
                text(edge.label_start, edge.label_length),
                edge.parent,
            )
        })
        .collect();
    edges.sort_by_key(|edge| edge.0);
    assert!(lent.edges[edges.len()..]
        .iter()
        .all(|edge| *edge == Edge::default()));
    (numbers, texts, edges)
}

#[test]
fn tidy_text_says_the_same() {
    let mut sentences = 0;
    for seed in 0..3_000 {
        let file = accepted(seed, size_of(seed));
        let tidy = tidy_of(&file);
        assert!(tidy.len() <= file.len() + 512);
        assert_eq!(tidy_of(&tidy), tidy, "seed {seed}");
        let (mut before, mut after) = (Lent::with_old_contents(), Lent::with_old_contents());
        let numbers = {
            before.survey(&file);
            before.numbers_seen()
        };
        after.survey(&tidy);
        assert_eq!(before.table_sheet[..7], after.table_sheet[..7]);
        assert_eq!(table_texts(&file, &before), table_texts(&tidy, &after));
        assert_eq!(numbers, after.numbers_seen());
        for number in numbers {
            assert_eq!(
                (before.open(&file, number), after.open(&tidy, number)),
                (0, 0)
            );
            assert!(
                sentence_texts(&file, &before) == sentence_texts(&tidy, &after),
                "seed {seed}"
            );
            sentences += 1;
        }
    }
    assert!(sentences > 3_000, "{sentences}");
}
