//! Accepted files that grow in one respect.

use std::ops::RangeInclusive;

use plain::generate::{corpus, Dice};

use crate::tags::{numbered, Tag};

pub const BYTES: usize = 4_000_000;
const MOST_SENTENCES: usize = 65_535;
const WORDS: usize = 18;
const PHRASES: usize = 9;

/// How long a tag may be, and one of morphology.
const TAG: usize = 10;
const MORPHOLOGY: usize = 32;

const TAG_TABLES: [(&str, usize); 5] = [
    ("WORDTAG", TAG),
    ("MORPHTAG", MORPHOLOGY),
    ("NODETAG", TAG),
    ("EDGETAG", TAG),
    ("SECEDGETAG", TAG),
];

/// The corpus without its five tables of tags: no tag is looked up.
pub fn without_tag_tables(corpus: &[u8]) -> Vec<u8> {
    let place = |line: &str| {
        let line = line.as_bytes();
        let found = corpus.windows(line.len()).position(|bytes| bytes == line);
        found.expect("the corpus has all tables")
    };
    let behind = place("#EOT SECEDGETAG\n") + "#EOT SECEDGETAG\n".len();
    [&corpus[..place("#BOT WORDTAG\n")], &corpus[behind..]].concat()
}

/// The corpus with its sentences in an order made by dice.
pub fn shuffled_corpus(sentences: usize) -> Vec<u8> {
    let corpus = corpus(sentences);
    let (heading, mut begins, mut dice) = (b"\n#BOS ", Vec::new(), Dice::new(1997));
    begins.extend((1..corpus.len()).filter(|&place| corpus[place - 1..].starts_with(heading)));
    let ends = begins[1..].iter().copied().chain([corpus.len()]);
    let mut order: Vec<(usize, usize)> = begins.iter().copied().zip(ends).collect();
    dice.shuffle(&mut order);
    let shuffled = order.iter().map(|&(begin, end)| &corpus[begin..end]);
    [&corpus[..begins[0]]]
        .into_iter()
        .chain(shuffled)
        .collect::<Vec<_>>()
        .concat()
}

/// The seven tables with this many rows each.
pub fn tables(rows: usize) -> Vec<u8> {
    table_lines(1..=rows as i32, numbered).into_bytes()
}

/// The format line and the seven tables. Tags have these ids; `UNKNOWN` has -1, `--` has 0.
pub fn table_lines(ids: RangeInclusive<i32>, tag: Tag) -> String {
    let mut file = format!("#FORMAT 3\n{}", origins_and_editors(*ids.end()));
    for (name, longest) in TAG_TABLES {
        let flag = if name == "WORDTAG" { "Y\t" } else { "" };
        file += &format!("#BOT {name}\n");
        for id in ids.clone() {
            let tag = match id {
                -1 => "UNKNOWN".to_string(),
                0 => "--".to_string(),
                row => tag(row as usize, longest),
            };
            file += &format!("{id}\t{tag}\t{flag}the use of {tag}\n");
        }
        file += &format!("#EOT {name}\n");
    }
    file
}

fn origins_and_editors(rows: i32) -> String {
    let mut tables = String::from("#BOT ORIGIN\n");
    for id in 1..=rows {
        tables += &format!("{id}\tpart{id}.txt\n");
    }
    tables += "#EOT ORIGIN\n#BOT EDITOR\n";
    for id in 1..=rows {
        tables += &format!("{id}\tlogin{id}\tEditor Number {id}\n");
    }
    tables + "#EOT EDITOR\n"
}

/// Sentences that use every row of the tables equally often.
pub fn with_rows(rows: usize) -> Vec<u8> {
    citing(rows, numbered)
}

/// Sentences that use every row of tables with such tags equally often.
pub fn citing(rows: usize, tag: Tag) -> Vec<u8> {
    let mut dice = Dice::new(1997);
    with_sentences(table_lines(1..=rows as i32, tag), || {
        let mut nodes = String::new();
        for node in 0..WORDS + PHRASES {
            let [first, morphology, edge] =
                [TAG, MORPHOLOGY, TAG].map(|longest| tag(dice.between(1, rows), longest));
            let columns = format!("{first}\t{morphology}\t{edge}");
            nodes += &match node.checked_sub(WORDS) {
                None => format!("Wort{node}\t{columns}\t500\n"),
                Some(8) => format!("#508\t{first}\t{morphology}\t--\t0\n"),
                Some(phrase) => format!("#{}\t{columns}\t508\n", 500 + phrase),
            };
        }
        (dice.between(1, rows), nodes)
    })
}

/// Sentences of this many words.
pub fn with_words(words: usize) -> Vec<u8> {
    with_lines("Wort\tT1\tT1\tT1\t500\n", words)
}

/// Sentences of eight words and this many secondary edges.
pub fn with_edges(edges: usize) -> Vec<u8> {
    let pairs = "\tT1\t500".repeat(edges / 8);
    with_lines(&format!("Wort\tT1\tT1\tT1\t500{pairs}\n"), 8)
}

/// Words so long that their lines have this length.
pub fn with_long_words(length: usize) -> Vec<u8> {
    let columns = "\tT1\tT1\tT1\t500\n";
    let word = "w".repeat(length + 1 - columns.len());
    with_lines(&format!("{word}{columns}"), WORDS)
}

/// Comments so long that the word lines have this length.
pub fn with_long_comments(length: usize) -> Vec<u8> {
    let columns = "Wort\tT1\tT1\tT1\t500 %% ";
    let comment = "gut ".repeat(length)[..length - columns.len()].to_string();
    with_lines(&format!("{columns}{comment}\n"), WORDS)
}

/// Words with so many secondary edges that their lines have about this length.
pub fn with_many_edges(length: usize) -> Vec<u8> {
    let (columns, edge) = ("Wort\tT1\tT1\tT1\t500", "\t\tT1\t500");
    let edges = (length - columns.len()) / edge.len();
    let line = format!("{columns}{}\n", edge.repeat(edges));
    with_lines(&line, WORDS.min(512 / edges))
}

/// Ignored lines of this length between the words.
pub fn with_ignored_lines(length: usize) -> Vec<u8> {
    let ignored = format!("%%{}\n", "x".repeat(length - 2));
    with_lines(&format!("Wort\tT1\tT1\tT1\t500\n{ignored}"), WORDS)
}

/// Sentences of one line again and again, under one phrase.
fn with_lines(line: &str, words: usize) -> Vec<u8> {
    let nodes = line.repeat(words) + "#500\tT1\tT1\t--\t0\n";
    with_sentences(table_lines(1..=20, numbered), || (1, nodes.clone()))
}

/// A file with sentences behind its tables, about as many bytes whatever a sentence is. Each
/// has an id, for editor and origin, and the lines of its nodes.
pub fn with_sentences(mut file: String, mut sentence: impl FnMut() -> (usize, String)) -> Vec<u8> {
    let mut number = 0;
    while file.len() < BYTES && number < MOST_SENTENCES {
        let (id, nodes) = sentence();
        number += 1;
        file += &format!("#BOS {number} {id} 847184076 {id}\n{nodes}#EOS {number}\n");
    }
    file.into_bytes()
}
