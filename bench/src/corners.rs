//! Accepted files that have one thing alone, which a reader might be slow at.

use crate::files::{table_lines, with_sentences, BYTES};
use crate::tags::{numbered, shortest, Tag};

pub const ROWS: usize = 256;
const LINE: usize = 4_096;
const UNKNOWN: [&str; 2] = ["UNKNOWN"; 2];
const NOT_BOUND: [&str; 2] = ["--"; 2];
const NO_ROWS: &str = "#FORMAT 3\n#BOT ORIGIN\n#EOT ORIGIN\n#BOT EDITOR\n#EOT EDITOR\n";

/// What a file has, and the file.
pub type Corner = (&'static str, fn() -> Vec<u8>);

/// The corners but those that differ in their tags, of which `tags::TAGS` has the kinds.
pub const CORNERS: [Corner; 15] = [
    ("256 rows, none cited", || reserved(1, ["--", "UNKNOWN"])),
    ("UNKNOWN alone, without a row", || reserved(1, UNKNOWN)),
    ("UNKNOWN alone, in row -1", || reserved(-1, UNKNOWN)),
    ("-- alone, without a row", || reserved(1, NOT_BOUND)),
    ("-- alone, in row 0", || reserved(-1, NOT_BOUND)),
    ("editor, origin in row 256, no word", || in_last_row("")),
    ("editor, origin in row 256, a word", || in_last_row(JA)),
    ("512 secondary edges on a line", || edged(1, 512)),
    ("32 secondary edges on each line", || edged(16, 32)),
    ("phrases with comments", || commented("nicht sicher")),
    ("phrases with long comments", || commented(&long_comment())),
    ("format line, two tables, no row", || NO_ROWS.into()),
    ("the same with lines of 4,096 bytes", wide_lines),
    ("empty lines", empty_lines),
    ("rows alone, as short as can be", short_rows),
];

/// Sentences whose tags are these two in turns; the rows of the tables begin with an id.
fn reserved(first_id: i32, tags: [&str; 2]) -> Vec<u8> {
    let [one, other] = tags.map(|tag| format!("Wort\t{tag}\t{tag}\t{tag}\t500\n"));
    let root = format!("#500\t{0}\t{0}\t--\t0\n", tags[0]);
    let nodes = (one + &other).repeat(9) + &root;
    let ids = first_id..=first_id + ROWS as i32 - 1;
    with_sentences(table_lines(ids, numbered), || (1, nodes.clone()))
}

const JA: &str = "Ja\tT1\t--\t--\t0\n";

/// Sentences of the editor and the origin that stand last in their tables.
fn in_last_row(nodes: &str) -> Vec<u8> {
    with_sentences(rows(numbered), || (ROWS, nodes.to_string()))
}

/// Sentences of so many words, each with so many secondary edges, whose labels are those of
/// all rows in turns, as short as they can be.
fn edged(words: usize, edges: usize) -> Vec<u8> {
    let mut rows_in_turns = (1..=ROWS).cycle();
    with_sentences(rows(shortest), || {
        let mut nodes = String::new();
        for _ in 0..words {
            let labels = rows_in_turns.by_ref().take(edges);
            let pairs: String = labels
                .map(|row| format!("\t{}\t500", shortest(row, 2)))
                .collect();
            nodes += &format!("Wort\taa\taa\taa\t500{pairs}\n");
        }
        (1, nodes + "#500\taa\taa\t--\t0\n")
    })
}

/// Sentences of 500 phrases, each with this comment.
fn commented(comment: &str) -> Vec<u8> {
    let phrase = |number| format!("#{number}\tT1\tT1\tT1\t{}\t%% {comment}\n", number + 1);
    let root = format!("#999\tT1\tT1\t--\t0\t%% {comment}\n");
    let nodes = (500..999).map(phrase).collect::<String>() + &root;
    with_sentences(rows(numbered), || (1, nodes.clone()))
}

/// So long that a phrase's line has 4,096 bytes.
fn long_comment() -> String {
    "x".repeat(LINE - "#500\tT1\tT1\tT1\t501\t%% ".len())
}

/// As few lines as a file may have, filled up with spaces.
fn wide_lines() -> Vec<u8> {
    let wide = |line: &str| line.replace(' ', &" ".repeat(LINE + 1 - line.len())) + "\n";
    NO_ROWS.lines().map(wide).collect::<String>().into()
}

fn empty_lines() -> Vec<u8> {
    (NO_ROWS.to_string() + &"\n".repeat(BYTES)).into()
}

fn rows(tag: Tag) -> String {
    table_lines(1..=ROWS as i32, tag)
}

pub fn rows_alone(tag: Tag) -> Vec<u8> {
    rows(tag).into()
}

/// Rows alone, whose texts are as short as 256 different tags can be.
fn short_rows() -> Vec<u8> {
    let mut file = String::from("#FORMAT 3\n");
    for (name, rest) in [
        ("ORIGIN", ""),
        ("EDITOR", " x"),
        ("WORDTAG", " Y x"),
        ("MORPHTAG", " x"),
        ("NODETAG", " x"),
        ("EDGETAG", " x"),
        ("SECEDGETAG", " x"),
    ] {
        file += &format!("#BOT {name}\n");
        for id in 1..=ROWS {
            file += &format!("{id} {}{rest}\n", shortest(id, 2));
        }
        file += &format!("#EOT {name}\n");
    }
    file.into()
}
