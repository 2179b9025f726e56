//! The views of the crate in `rust`: a tidy text printed from them is the independent reader's,
//! so each number and text of tables, sentences, nodes and edges is the right one.

use compiled::beside::same_words;
use hraunlik::{Corpus, Node, Sentence, Table};
use plain::generate::{accepted, damaged};
use plain::{SEEN_SET, TABLE_SHEET};

const SEEDS: std::ops::Range<u64> = 2_000_000..2_003_000;

const TABLES: [(Table, &str); 7] = [
    (Table::Origin, "ORIGIN"),
    (Table::Editor, "EDITOR"),
    (Table::WordTag, "WORDTAG"),
    (Table::MorphTag, "MORPHTAG"),
    (Table::NodeTag, "NODETAG"),
    (Table::EdgeTag, "EDGETAG"),
    (Table::SecEdgeTag, "SECEDGETAG"),
];

/// The tidy text, by the views.
fn printed(corpus: &Corpus) -> Vec<u8> {
    let mut text = b"#FORMAT 3\n".to_vec();
    for (table, name) in TABLES {
        put_table(&mut text, corpus, table, name);
    }
    let mut sentences: Vec<Sentence> = corpus.sentences().collect();
    sentences.sort_by_key(Sentence::number);
    for sentence in &sentences {
        put_sentence(&mut text, sentence);
    }
    text
}

fn put_table(text: &mut Vec<u8>, corpus: &Corpus, table: Table, name: &str) {
    let Some(mut rows) = corpus.table(table) else {
        return;
    };
    rows.sort_by_key(|row| row.id);
    text.extend(format!("#BOT {name}\n").bytes());
    for row in rows {
        let id = row.id.to_string();
        let flag: &[u8] = if row.flag { b"Y" } else { b"N" };
        let mut columns = vec![id.as_bytes(), row.first];
        columns.extend((table == Table::WordTag).then_some(flag));
        columns.extend((table == Table::Origin && row.second.is_some()).then_some(&b"%%"[..]));
        columns.extend(row.second);
        put_line(text, &columns.join(&b'\t'));
    }
    text.extend(format!("#EOT {name}\n").bytes());
}

fn put_sentence(text: &mut Vec<u8>, sentence: &Sentence) {
    let (number, editor) = (sentence.number(), sentence.editor());
    let (date, origin) = (sentence.date(), sentence.origin());
    let heading = format!("#BOS {number} {editor} {date} {origin}");
    let comment = sentence.comment();
    let comment = comment.map(|comment| [b" %% ", comment].concat());
    put_line(
        text,
        &[heading.as_bytes(), &comment.unwrap_or_default()].concat(),
    );
    for node in sentence.nodes() {
        put_node(text, node);
    }
    put_line(text, format!("#EOS {number}").as_bytes());
}

fn put_node(text: &mut Vec<u8>, node: Node) {
    let name = match node.word() {
        Some(word) => word.to_vec(),
        None => format!("#{}", node.number()).into_bytes(),
    };
    let parent = node.parent().map_or(0, |phrase| phrase.number());
    let columns = [node.tag(), node.morphology(), node.edge()];
    let mut columns: Vec<Vec<u8>> = columns.map(<[u8]>::to_vec).into();
    columns.insert(0, name);
    columns.push(parent.to_string().into_bytes());
    for edge in node.secondary() {
        columns.extend([edge.label.to_vec(), edge.parent.to_string().into_bytes()]);
    }
    if let Some(comment) = node.comment() {
        columns.extend([b"%%".to_vec(), comment.to_vec()]);
    }
    put_line(text, &columns.join(&b'\t'));
}

fn put_line(text: &mut Vec<u8>, line: &[u8]) {
    text.extend(line);
    text.push(b'\n');
}

/// The independent reader's tidy text of an accepted file.
fn tidy(file: &[u8]) -> Vec<u8> {
    let (written, text) = plain::tidied(file);
    assert_eq!(written.refusal, 0);
    text
}

#[test]
fn accepted_files_are_printed_tidily() {
    for seed in SEEDS {
        let file = accepted(seed, 1 + (seed % 6) as usize);
        let corpus = Corpus::new(&file);
        assert!(corpus.survey().is_accepted(), "seed {seed}");
        assert!(printed(&corpus) == tidy(&file), "seed {seed}");
        assert!(corpus.tidy() == Ok(tidy(&file)), "seed {seed}");
    }
}

#[test]
fn of_damaged_files_the_sound_part_is() {
    for seed in SEEDS {
        let file = damaged(seed, 1 + (seed % 6) as usize);
        let corpus = Corpus::new(&file);
        let (mut tables, mut seen) = ([0; TABLE_SHEET], [0; SEEN_SET]);
        let expected = plain::survey(&file, &mut tables, &mut seen);
        assert_eq!(same_words(corpus.survey()), expected, "seed {seed}");
        let handed_out = |number: &u32| seen[*number as usize / 8] >> (number % 8) & 1 == 1;
        let mut numbers: Vec<u32> = corpus.numbers().collect();
        numbers.sort_unstable();
        assert!(
            numbers.into_iter().eq((0..65_536).filter(handed_out)),
            "seed {seed}"
        );
        if expected.refusal != 0 {
            assert_eq!(corpus.tidy(), Err(expected.refusal), "seed {seed}");
        }
        if !corpus.sound_part().is_empty() {
            assert!(printed(&corpus) == tidy(corpus.sound_part()), "seed {seed}");
        }
    }
}

#[test]
fn children_are_those_whose_parent_it_is() {
    for seed in SEEDS.take(300) {
        let file = accepted(seed, 3);
        for sentence in &Corpus::new(&file) {
            for node in sentence.nodes() {
                let children: Vec<u32> = node.children().map(|child| child.number()).collect();
                let is_child = |other: &Node| {
                    other.parent().map(|phrase| phrase.number()) == Some(node.number())
                };
                let expected: Vec<u32> = sentence
                    .nodes()
                    .filter(is_child)
                    .map(|child| child.number())
                    .collect();
                assert_eq!(children, expected, "seed {seed}");
            }
        }
    }
}
