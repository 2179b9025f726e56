//! `soak COUNT FIRST`: the files of so many seeds, each given to the compiled library and to the independent reader.
//! Survey, index, openings and tidy text must agree, and the buffers of the first three in every entry.

mod mutation;

use std::process::ExitCode;
use std::time::Instant;
use std::{env, thread};

use compiled::beside::{agreed, Call};
use compiled::openings::{headings, numbers_given, numbers_to_ask, openings_agree};
use hraunlik::Corpus;

/// The independent reader's tidy text, or its refusal.
fn plain_tidy(file: &[u8]) -> Result<Vec<u8>, u32> {
    match plain::tidied(file) {
        (written, text) if written.refusal == 0 => Ok(text),
        (written, _) => Err(written.refusal),
    }
}

/// Compares all that is told of a seed's file; whether it is accepted, and how many of its sentences were opened.
fn compared(seed: u64) -> (bool, usize) {
    let file = mutation::file_of(seed);
    let case = format_args!("soak seed {seed}");
    let (answer, _) = agreed(case, Call::Survey, &file, seed);
    let numbers = numbers_to_ask(numbers_given(&file));
    let (_, openings) = openings_agree(case, &file, &numbers, &headings(&file), seed);
    assert!(
        Corpus::new(&file).tidy() == plain_tidy(&file),
        "{case}: the tidy texts differ"
    );
    (answer.refusal == 0, openings.granted)
}

/// How many of these seeds' files are accepted, and how many sentences were opened.
fn compare_all(seeds: impl Iterator<Item = u64>) -> (usize, usize) {
    seeds
        .map(compared)
        .fold((0, 0), |(files, sentences), (accepted, granted)| {
            (files + usize::from(accepted), sentences + granted)
        })
}

fn main() -> ExitCode {
    let mut words = env::args().skip(1).map(|word| word.parse::<u64>());
    let (Some(Ok(count)), Some(Ok(first)), None) = (words.next(), words.next(), words.next())
    else {
        eprintln!("usage: soak COUNT FIRST");
        return ExitCode::from(2);
    };
    let (began, threads) = (
        Instant::now(),
        thread::available_parallelism().map_or(1, usize::from),
    );
    let every_so_many =
        |start: u64| move || compare_all((first + start..first + count).step_by(threads));
    let running: Vec<_> = (0..threads as u64)
        .map(|start| thread::spawn(every_so_many(start)))
        .collect();
    let ended: Result<Vec<_>, _> = running.into_iter().map(|one| one.join()).collect();
    let Ok(told) = ended else {
        return ExitCode::FAILURE;
    };
    let (accepted, sentences) = told
        .into_iter()
        .fold((0, 0), |(a, s), (files, granted)| (a + files, s + granted));
    let seconds = began.elapsed().as_secs();
    println!("{count} files from seed {first}, {accepted} accepted, {sentences} sentences opened: no difference, {seconds} s");
    ExitCode::SUCCESS
}
