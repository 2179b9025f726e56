//! The tidy text of an accepted file.

use crate::columns::Text;
use crate::reading::Reading;
use crate::sentences::{Node, Sentence};
use crate::tables::{Row, Table, EDITOR, NAMES, ORIGIN, WORDTAG};

pub fn tidy_text(reading: &Reading) -> Vec<u8> {
    let file = reading.file;
    let mut out = b"#FORMAT 3\n".to_vec();
    for table in reading.tables.iter().flatten() {
        write_table(&mut out, file, table);
    }
    let mut sentences: Vec<&Sentence> = reading.sentences.iter().collect();
    sentences.sort_by_key(|sentence| sentence.number);
    for sentence in sentences {
        write_sentence(&mut out, file, sentence);
    }
    out
}

fn write_table(out: &mut Vec<u8>, file: &[u8], table: &Table) {
    let name = NAMES[table.name];
    out.extend_from_slice(format!("#BOT {name}\n").as_bytes());
    let mut rows: Vec<&Row> = table.rows.iter().collect();
    rows.sort_by_key(|row| row.id);
    for row in rows {
        write_row(out, file, table.name, row);
    }
    out.extend_from_slice(format!("#EOT {name}\n").as_bytes());
}

fn write_row(out: &mut Vec<u8>, file: &[u8], table: usize, row: &Row) {
    out.extend_from_slice(row.id.to_string().as_bytes());
    write_column(out, row.first.of(file));
    match table {
        ORIGIN => write_comment(out, file, row.second, b"\t"),
        EDITOR => write_column(out, row.second.of(file)),
        WORDTAG => {
            write_column(out, if row.flag { b"Y" } else { b"N" });
            write_column(out, row.second.of(file));
        }
        _ => write_column(out, row.second.of(file)),
    }
    out.push(b'\n');
}

/// A column behind another one in a row or a node line.
fn write_column(out: &mut Vec<u8>, column: &[u8]) {
    out.push(b'\t');
    out.extend_from_slice(column);
}

fn write_comment(out: &mut Vec<u8>, file: &[u8], comment: Text, white: &[u8]) {
    if comment.is_absent() {
        return;
    }
    out.extend_from_slice(white);
    out.extend_from_slice(b"%%");
    out.extend_from_slice(white);
    out.extend_from_slice(comment.of(file));
}

fn write_sentence(out: &mut Vec<u8>, file: &[u8], sentence: &Sentence) {
    let Sentence {
        number,
        editor,
        date,
        origin,
        ..
    } = sentence;
    out.extend_from_slice(format!("#BOS {number} {editor} {date} {origin}").as_bytes());
    write_comment(out, file, sentence.comment, b" ");
    out.push(b'\n');
    for word in &sentence.words {
        out.extend_from_slice(word.word.of(file));
        write_columns_from_tag(out, file, word);
    }
    let mut phrases: Vec<&Node> = sentence.phrases.iter().collect();
    phrases.sort_by_key(|phrase| phrase.number);
    for phrase in phrases {
        out.extend_from_slice(format!("#{}", phrase.number).as_bytes());
        write_columns_from_tag(out, file, phrase);
    }
    out.extend_from_slice(format!("#EOS {number}\n").as_bytes());
}

fn write_columns_from_tag(out: &mut Vec<u8>, file: &[u8], node: &Node) {
    write_column(out, node.tag.of(file));
    write_column(out, node.morphology.of(file));
    write_column(out, node.edge.of(file));
    write_column(out, node.parent.to_string().as_bytes());
    for edge in &node.secondary_edges {
        write_column(out, edge.label.of(file));
        write_column(out, edge.parent.to_string().as_bytes());
    }
    write_comment(out, file, node.comment, b"\t");
    out.push(b'\n');
}
