//! The files that documents 000 and 01 print.

use compiled::beside::{agreed, Call};
use compiled::openings::{headings, numbers_given, numbers_to_ask, openings_agree};
use plain::documents::{cases_run_only, example, starred_cases};

#[test]
fn cases_of_document_01() {
    let cases = [starred_cases(), cases_run_only()].concat();
    for (case, (file, answer)) in cases.iter().enumerate() {
        let name = format_args!("case {case} of document 01");
        let (surveyed, _) = agreed(name, Call::Survey, file, case as u64);
        assert_eq!(surveyed, *answer, "{name}");
        let numbers = numbers_to_ask(numbers_given(file));
        openings_agree(name, file, &numbers, &headings(file), case as u64);
    }
}

#[test]
fn the_example_of_document_000() {
    let file = example();
    let name = format_args!("the example of document 000");
    let numbers = numbers_to_ask(numbers_given(&file));
    let (answer, openings) = openings_agree(name, &file, &numbers, &headings(&file), 0);
    assert_eq!(
        (openings.granted, openings.granted_beside_the_index),
        (1, 0)
    );
    let length = file.len() as u32;
    let found = (
        answer.refusal,
        answer.place,
        answer.sentences,
        answer.sound_end,
    );
    assert_eq!(found, (0, length, 1, length));
}
