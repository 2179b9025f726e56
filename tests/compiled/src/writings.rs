//! Writings of the compiled library beside those of the independent reader, into outputs of
//! several lengths.

use std::fmt::Arguments;

use hraunlik::calls;
use hraunlik::layout::TIDY_ROOM;
use plain::{Survey, Written};

use crate::beside::{agreed, as_records, keep, Call};
use crate::lent::{Lent, Room, Sizes, OPEN_SIZES};

/// The buffers of fixed size that a writing is lent, and its output.
#[derive(Clone, PartialEq, Eq)]
pub struct LentToWrite {
    pub buffers: Lent,
    pub output: Room<u8>,
}

impl LentToWrite {
    pub fn noise(seed: u64, sizes: Sizes, output: usize) -> LentToWrite {
        LentToWrite {
            buffers: Lent::noise(seed, sizes),
            output: noise(seed, output),
        }
    }

    pub fn write_compiled(&mut self, file: &[u8]) -> Written {
        let lent = &mut self.buffers;
        let (tables, seen) = (lent.tables.lent(), lent.seen.lent());
        let (sheet, edges) = (lent.sheet.lent(), lent.edges.lent());
        let told = calls::write(file, self.output.lent(), tables, seen, sheet, edges);
        Written {
            refusal: told.refusal,
            place: told.place,
            length: told.length,
        }
    }

    fn write_plainly(&mut self, file: &[u8]) -> Written {
        let lent = &mut self.buffers;
        let (tables, seen) = (lent.tables.lent(), lent.seen.lent());
        let (sheet, output) = (lent.sheet.lent(), self.output.lent());
        as_records(lent.edges.lent(), |edges| {
            plain::write(file, tables, seen, sheet, edges, output)
        })
    }
}

/// No byte is like the one beside it.
fn noise(seed: u64, length: usize) -> Room<u8> {
    let first = seed.wrapping_mul(41) as u8;
    Room::filled(length, |entry| {
        first.wrapping_add((entry as u8).wrapping_mul(151))
    })
}

/// The answer to a file, and what was lent as it is afterwards.
pub fn agreed_writing(case: Arguments, file: &[u8], lent: &LentToWrite) -> (Written, LentToWrite) {
    let (mut compiled, mut plain) = (lent.clone(), lent.clone());
    let answer = compiled.write_compiled(file);
    let expected = plain.write_plainly(file);
    if answer != expected || compiled != plain {
        let buffers = compiled.buffers.differences(&plain.buffers);
        let output = compiled.output.first_difference("output", &plain.output);
        let (room, kept) = (lent.output.entries().len(), keep(case, file));
        panic!(
            "{case}, output of {room}: compiled {answer:?}, plain {expected:?}{buffers}{output}; {kept}"
        );
    }
    (answer, compiled)
}

/// The answer to a file with an output that is surely long enough, and the text written. With
/// outputs of no byte, of one byte less than the text, of as many and of one more, the
/// answers agree too.
pub fn writings_agree(case: Arguments, file: &[u8], seed: u64) -> (Written, Vec<u8>) {
    let ample = LentToWrite::noise(seed, OPEN_SIZES, file.len() + TIDY_ROOM + 1);
    let (answer, after) = agreed_writing(case, file, &ample);
    let length = answer.length as usize;
    let text = after.output.entries()[..length].to_vec();
    let (buffers, accepted) = (ample.buffers, answer.refusal == 0);
    let rooms = if accepted {
        vec![0, length - 1, length, length + 1]
    } else {
        vec![0]
    };
    for room in rooms {
        let lent = LentToWrite {
            buffers: buffers.clone(),
            output: noise(seed, room),
        };
        let (there, _) = agreed_writing(case, file, &lent);
        let expected = if accepted && room < length {
            25
        } else {
            answer.refusal
        };
        assert_eq!(there.refusal, expected, "{case}, output of {room}");
    }
    (answer, text)
}

/// A text that was written is accepted, has the tables and the sentences that its file has, by
/// their counts and numbers, and is tidy.
pub fn assert_read_back(case: Arguments, file: &[u8], text: &[u8], seed: u64) {
    let (of_file, from_file) = agreed(case, Call::Survey, file, seed);
    let (of_text, from_text) = agreed(case, Call::Survey, text, seed);
    let length = text.len() as u32;
    let accepted = Survey {
        refusal: 0,
        place: length,
        sentences: of_file.sentences,
        sound_end: if of_file.sentences > 0 { length } else { 0 },
    };
    assert_eq!(of_text, accepted, "{case}");
    let counts = |lent: &Lent| lent.tables.entries()[..7].to_vec();
    assert_eq!(counts(&from_text), counts(&from_file), "{case}");
    assert!(from_text.seen == from_file.seen, "{case}");
    let lent = LentToWrite::noise(seed, OPEN_SIZES, text.len());
    let (again, after) = agreed_writing(case, text, &lent);
    assert_eq!((again.refusal, again.length), (0, length), "{case}");
    assert!(after.output.entries() == text, "{case}");
}
