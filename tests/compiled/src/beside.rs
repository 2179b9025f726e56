//! Both readers get the same file and buffers full of the same noise; the answers and
//! every entry of all buffers must agree.

use std::fmt::Arguments;
use std::fs;

use hraunlik::calls;
use plain::{Edge, Survey};

use crate::lent::{Lent, Sizes, INDEX_SIZES, OPEN_AT_SIZES, OPEN_SIZES, SURVEY_SIZES};

const DIFFERENCES: &str = concat!(env!("CARGO_MANIFEST_DIR"), "/../../target/differences");

/// What is asked: a survey, an index, the sentence with a number, the one at a place.
#[derive(Clone, Copy, Debug)]
pub enum Call {
    Survey,
    Index,
    Open(u32),
    OpenAt(u32),
}

impl Call {
    pub fn sizes(self) -> Sizes {
        match self {
            Call::Survey => SURVEY_SIZES,
            Call::Index => INDEX_SIZES,
            Call::Open(_) => OPEN_SIZES,
            Call::OpenAt(_) => OPEN_AT_SIZES,
        }
    }

    fn compiled(self, file: &[u8], lent: &mut Lent) -> Survey {
        let (tables, seen) = (lent.tables.lent(), lent.seen.lent());
        let (sheet, edges) = (lent.sheet.lent(), lent.edges.lent());
        match self {
            Call::Survey => same_words(calls::survey(file, tables, seen)),
            Call::Index => same_words(calls::index(file, tables, seen, lent.places.lent())),
            Call::Open(number) => alone(calls::open(file, number, tables, seen, sheet, edges)),
            Call::OpenAt(place) => alone(calls::open_at(file, place, sheet, edges)),
        }
    }

    fn plain(self, file: &[u8], lent: &mut Lent) -> Survey {
        let (tables, seen) = (lent.tables.lent(), lent.seen.lent());
        let (sheet, edges) = (lent.sheet.lent(), lent.edges.lent());
        match self {
            Call::Survey => plain::survey(file, tables, seen),
            Call::Index => plain::index(file, tables, seen, lent.places.lent()),
            Call::Open(number) => alone(as_records(edges, |edges| {
                plain::open(file, number, tables, seen, sheet, edges)
            })),
            Call::OpenAt(place) => alone(as_records(edges, |edges| {
                plain::open_at(file, place, sheet, edges)
            })),
        }
    }
}

/// The library's answer as the independent reader says it.
pub fn same_words(answer: hraunlik::Survey) -> Survey {
    Survey {
        refusal: answer.refusal,
        place: answer.place,
        sentences: answer.sentences,
        sound_end: answer.sound_end,
    }
}

/// An opening answers with a refusal alone.
fn alone(refusal: u32) -> Survey {
    Survey {
        refusal,
        place: 0,
        sentences: 0,
        sound_end: 0,
    }
}

/// Lends the list as records; numbers that make no whole records are lent as no list.
pub fn as_records<A>(numbers: &mut [u32], call: impl FnOnce(&mut [Edge]) -> A) -> A {
    if numbers.len() % 4 != 0 {
        return call(&mut []);
    }
    let record = |numbers: &[u32]| Edge {
        child: numbers[0],
        label_start: numbers[1],
        label_length: numbers[2],
        parent: numbers[3],
    };
    let mut records: Vec<Edge> = numbers.chunks_exact(4).map(record).collect();
    let answer = call(&mut records);
    for (room, edge) in numbers.chunks_exact_mut(4).zip(records) {
        room.copy_from_slice(&[edge.child, edge.label_start, edge.label_length, edge.parent]);
    }
    answer
}

/// The answer to a file lent with buffers of noise, and the buffers afterwards.
pub fn agreed(case: Arguments, call: Call, file: &[u8], noise: u64) -> (Survey, Lent) {
    agreed_with(case, call, file, &Lent::noise(noise, call.sizes()))
}

pub fn agreed_with(case: Arguments, call: Call, file: &[u8], lent: &Lent) -> (Survey, Lent) {
    let (mut compiled, mut plain) = (lent.clone(), lent.clone());
    let answer = call.compiled(file, &mut compiled);
    let expected = call.plain(file, &mut plain);
    if answer != expected || compiled != plain {
        let differences = compiled.differences(&plain);
        let kept = keep(case, file);
        panic!("{case}, {call:?}: compiled {answer:?}, plain {expected:?}{differences}; {kept}");
    }
    (answer, compiled)
}

/// Leaves the file where it can be looked at.
pub fn keep(case: Arguments, file: &[u8]) -> String {
    let name = format!("{DIFFERENCES}/{}", case.to_string().replace(' ', "-"));
    let left = fs::create_dir_all(DIFFERENCES).and_then(|()| fs::write(&name, file));
    match left {
        Ok(()) => format!("the file is {name}"),
        Err(error) => format!("the file couldn't be left in {name}: {error}"),
    }
}
