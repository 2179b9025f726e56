//! How fast the compiled library is, beside the independent reader and a plain count of
//! newlines; whether the time of a byte stays flat while a file grows; what openings and
//! writings cost beside a survey; and whether a kind of file is slow.

mod clock;
mod corners;
mod files;
mod tags;
mod timing;
mod work;

use std::env;

use corners::{rows_alone, CORNERS, ROWS};
use plain::generate::corpus;
use tags::TAGS;
use timing::best_times;
use work::{
    clear_for_all, count_newlines, index, index_plainly, open_all, open_all_plainly, open_one,
    open_one_plainly, survey, survey_plainly, write, write_exactly, write_plainly, Work,
};

const CORPUS: usize = 50_000;
/// Sentences of the corpus that a corner is compared with.
const BESIDE_CORNERS: usize = 10_000;

type Make = fn(usize) -> Vec<u8>;

const SENTENCES: [usize; 4] = [6_250, 12_500, 25_000, 50_000];
const ROW_COUNTS: [usize; 4] = [32, 64, 128, 256];
const LENGTHS: [usize; 4] = [512, 1_024, 2_048, 4_096];

/// What the compiled library does with the corpus, and the independent reader doing the same.
const DONE: [(&str, Work, Work); 5] = [
    ("survey", survey, survey_plainly),
    ("one opening", open_one, open_one_plainly),
    ("index", index, index_plainly),
    ("index, all openings", open_all, open_all_plainly),
    ("writing", write, write_plainly),
];

/// What grows, its sizes, and the file of a size.
const GROWTHS: [(&str, [usize; 4], Make); 7] = [
    ("sentences", SENTENCES, corpus),
    ("rows, tables alone", ROW_COUNTS, files::tables),
    ("rows, with sentences", ROW_COUNTS, files::with_rows),
    ("lines, by a word", LENGTHS, files::with_long_words),
    ("lines, by a comment", LENGTHS, files::with_long_comments),
    ("lines, by edges", LENGTHS, files::with_many_edges),
    ("lines, ignored", LENGTHS, files::with_ignored_lines),
];

/// What grows in the files whose sentences are opened.
const OPENED: [(&str, [usize; 4], Make); 3] = [
    ("sentences", SENTENCES, corpus),
    ("words of a sentence", [8, 32, 128, 500], files::with_words),
    ("edges of a sentence", [8, 32, 128, 512], files::with_edges),
];

const OPENINGS: [Work; 5] = [survey, open_one, index, open_all, clear_for_all];

/// What grows in the files that are written; the rest is what grows in those surveyed.
const WRITTEN: [(&str, [usize; 4], Make); 3] = [
    ("sentences, shuffled", SENTENCES, files::shuffled_corpus),
    ("words of a sentence", [8, 32, 128, 500], files::with_words),
    ("edges of a sentence", [8, 32, 128, 512], files::with_edges),
];

/// The parts, by the argument that asks for one alone.
const PARTS: [(&str, fn()); 5] = [
    ("corpus", print_corpus),
    ("surveys", print_surveys),
    ("openings", print_all_openings),
    ("writings", print_all_writings),
    ("corners", print_corners),
];

fn main() {
    let asked = env::args().nth(1);
    let wanted = |name: &str| asked.as_deref().is_none_or(|asked| asked == name);
    for (name, print) in PARTS {
        if wanted(name) {
            print();
            println!();
        }
    }
    if !PARTS.iter().any(|(name, _)| wanted(name)) {
        eprintln!("bench: the parts are {:?}", PARTS.map(|(name, _)| name));
        std::process::exit(2);
    }
}

fn print_corpus() {
    let file = corpus(CORPUS);
    println!("A corpus of {CORPUS} sentences, {} bytes\n", file.len());
    println!("| | ns/byte | newlines counted, ns/byte | times the count | independent reader, ns/byte | times as fast as it |");
    println!("|---|--:|--:|--:|--:|--:|");
    for (what, compiled, plainly) in DONE {
        print_beside(what, [compiled, plainly], &file);
    }
    let untabled = files::without_tag_tables(&file);
    print_beside(
        "survey, no tables of tags",
        [survey, survey_plainly],
        &untabled,
    );
}

/// A line for a work of the compiled library, and the same of the independent reader.
fn print_beside(what: &str, [compiled, plainly]: [Work; 2], file: &[u8]) {
    let works: [Work; 3] = [count_newlines, compiled, plainly];
    let [count, time, plain] = best_times(works.map(|work| (work, file)));
    let (slower, faster) = (time / count, plain / time);
    println!("| {what} | {time:.2} | {count:.2} | {slower:.1} | {plain:.2} | {faster:.1} |");
}

fn print_surveys() {
    println!("| What grows | size | bytes | ns/byte | to the first |");
    println!("|---|--:|--:|--:|--:|");
    for (what, sizes, make) in GROWTHS {
        print_growth(what, sizes, make);
    }
}

/// A line for 1, 2, 4 and 8 times the size.
fn print_growth(what: &str, sizes: [usize; 4], make: Make) {
    let files = sizes.map(make);
    let times = best_times(files.each_ref().map(|file| (survey as Work, &file[..])));
    for ((size, file), time) in sizes.iter().zip(&files).zip(times) {
        let (bytes, ratio) = (file.len(), time / times[0]);
        println!("| {what} | {size} | {bytes} | {time:.2} | {ratio:.2} |");
    }
}

fn print_all_openings() {
    println!(
        "| What grows | size | bytes | survey, ns/byte | one opening | index | all by index | cleared for all |"
    );
    println!("|---|--:|--:|--:|--:|--:|--:|--:|");
    for (what, sizes, make) in OPENED {
        print_openings(what, sizes, make);
    }
}

/// A line for each size: the survey's time, and how often that time the openings take.
fn print_openings(what: &str, sizes: [usize; 4], make: Make) {
    for (size, file) in sizes.map(|size| (size, make(size))) {
        let times = best_times(OPENINGS.map(|work| (work, &file[..])));
        let [survey, one, index, all, cleared] = times;
        let [one, index, all, cleared] = [one, index, all, cleared].map(|time| time / survey);
        let bytes = file.len();
        println!("| {what} | {size} | {bytes} | {survey:.2} | {one:.2} | {index:.2} | {all:.2} | {cleared:.2} |");
    }
}

fn print_all_writings() {
    println!("| What grows | size | bytes | survey, ns/byte | writing, ns/byte | surveys | surveys, measured |");
    println!("|---|--:|--:|--:|--:|--:|--:|");
    for (what, sizes, make) in GROWTHS.into_iter().chain(WRITTEN) {
        print_writings(what, sizes, make);
    }
}

/// A line for each size: the times of survey and writing, and how many surveys a writing takes,
/// with room for every text and with just enough for this one.
fn print_writings(what: &str, sizes: [usize; 4], make: Make) {
    for (size, file) in sizes.map(|size| (size, make(size))) {
        let works: [Work; 3] = [survey, write, write_exactly];
        let [survey, writing, measured] = best_times(works.map(|work| (work, &file[..])));
        let (bytes, ratio, measured) = (file.len(), writing / survey, measured / survey);
        println!("| {what} | {size} | {bytes} | {survey:.2} | {writing:.2} | {ratio:.2} | {measured:.2} |");
    }
}

fn print_corners() {
    println!("| The file has | bytes | µs | ns/byte | to the corpus | times as fast as the independent reader |");
    println!("|---|--:|--:|--:|--:|--:|");
    let corpus = corpus(BESIDE_CORNERS);
    for (what, make) in CORNERS {
        print_corner(what, &make(), &corpus);
    }
    for (what, tag) in TAGS {
        let citing = files::citing(ROWS, tag);
        print_corner(&format!("256 rows, all cited, {what}"), &citing, &corpus);
        print_corner(&format!("rows alone, {what}"), &rows_alone(tag), &corpus);
    }
}

/// A line for the survey of a file, which takes turns with the survey of the corpus.
fn print_corner(what: &str, file: &[u8], corpus: &[u8]) {
    let works: [(Work, &[u8]); 3] = [(survey, corpus), (survey, file), (survey_plainly, file)];
    let [usual, time, plain] = best_times(works);
    let (bytes, whole) = (file.len(), time * file.len() as f64 / 1_000.0);
    let (slower, faster) = (time / usual, plain / time);
    println!("| {what} | {bytes} | {whole:.1} | {time:.2} | {slower:.2} | {faster:.1} |");
}
