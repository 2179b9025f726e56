//! `answers COUNT FILE..`: generated files and given ones, each with all that the plain reader tells of it,
//! for bindings in other languages to be compared with. Bytes are hexadecimal, with a point in front.
//!
//! file BYTES refusal place sentences sound-end
//! row table id name description flag
//! sentence number editor date origin comment
//! node number word tag morphology edge parent comment, and label and parent of secondary edges
//! tidy refusal place BYTES

use std::io::{self, BufWriter, Write};

use plain::{generate, Edge, EDGE_LIST, SEEN_SET, SENTENCE_SHEET, TABLE_SHEET};

const ROWS: usize = 256;
const PHRASES_FROM: usize = 500;

fn hex(bytes: &[u8]) -> String {
    let digits: String = bytes.iter().map(|byte| format!("{byte:02x}")).collect();
    format!(".{digits}")
}

/// The text whose start and length stand at a place of a sheet.
fn text(file: &[u8], sheet: &[u32], at: usize) -> String {
    let (start, length) = (sheet[at] as usize, sheet[at + 1] as usize);
    hex(&file[start..start + length])
}

fn tell_tables(file: &[u8], tables: &[u32], out: &mut impl Write) -> io::Result<()> {
    for table in 0..7 {
        for row in 1..tables[table] as usize {
            let at = 7 + 6 * (ROWS * table + row - 1);
            let (name, description) = (text(file, tables, at + 1), text(file, tables, at + 3));
            let id = i64::from(tables[at]) - 1;
            writeln!(
                out,
                "row {table} {id} {name} {description} {}",
                tables[at + 5]
            )?;
        }
    }
    Ok(())
}

fn tell_sentence(
    file: &[u8],
    sheet: &[u32],
    edges: &[Edge],
    out: &mut impl Write,
) -> io::Result<()> {
    let editor = i64::from(sheet[1]) - 1;
    let comment = text(file, sheet, 4);
    writeln!(
        out,
        "sentence {} {editor} {} {} {comment}",
        sheet[0], sheet[2], sheet[3]
    )?;
    let (words, phrases) = (sheet[6] as usize, sheet[7] as usize);
    for node in (0..words).chain(PHRASES_FROM..PHRASES_FROM + phrases) {
        let at = 9 + 11 * node;
        let [word, tag, morphology, edge] = [0, 2, 4, 6].map(|field| text(file, sheet, at + field));
        let (parent, comment) = (sheet[at + 8], text(file, sheet, at + 9));
        write!(
            out,
            "node {node} {word} {tag} {morphology} {edge} {parent} {comment}"
        )?;
        for edge in edges[..sheet[8] as usize]
            .iter()
            .filter(|edge| edge.child as usize == node)
        {
            let (start, length) = (edge.label_start as usize, edge.label_length as usize);
            write!(
                out,
                " {} {}",
                hex(&file[start..start + length]),
                edge.parent
            )?;
        }
        writeln!(out)?;
    }
    Ok(())
}

fn tell(file: &[u8], out: &mut impl Write) -> io::Result<()> {
    let (mut tables, mut seen) = (vec![0; TABLE_SHEET], vec![0; SEEN_SET]);
    let told = plain::survey(file, &mut tables, &mut seen);
    let bytes = hex(file);
    writeln!(
        out,
        "file {bytes} {} {} {} {}",
        told.refusal, told.place, told.sentences, told.sound_end
    )?;
    tell_tables(file, &tables, out)?;
    let (mut sheet, mut edges) = (vec![0; SENTENCE_SHEET], vec![Edge::default(); EDGE_LIST]);
    let numbers: Vec<usize> = (0..8 * SEEN_SET)
        .filter(|n| seen[n / 8] >> (n % 8) & 1 == 1)
        .collect();
    for number in numbers {
        plain::open(
            file,
            number as u32,
            &mut tables,
            &mut seen,
            &mut sheet,
            &mut edges,
        );
        tell_sentence(file, &sheet, &edges, out)?;
    }
    let (written, text) = plain::tidied(file);
    let tidy = hex(&text);
    writeln!(out, "tidy {} {} {tidy}", written.refusal, written.place)
}

fn main() -> io::Result<()> {
    let mut arguments = std::env::args().skip(1);
    let count = arguments.next().and_then(|count| count.parse().ok());
    let mut out = BufWriter::new(io::stdout().lock());
    for seed in 0..count.expect("how many") {
        tell(&generate::small(seed), &mut out)?;
        tell(&generate::accepted(seed, 1), &mut out)?;
        tell(&generate::damaged(seed, 1), &mut out)?;
        for seed in 3 * seed..3 * (seed + 1) {
            tell(
                &generate::damaged_columns(seed, 1 + (seed % 6) as usize),
                &mut out,
            )?;
        }
    }
    for path in arguments {
        tell(&std::fs::read(path)?, &mut out)?;
    }
    out.flush()
}
