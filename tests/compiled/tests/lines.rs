//! Lines at the limit of 4,096 bytes, whatever columns they have, and every byte value at
//! every place of a small file: what one pass along a line takes, and what it doubts.

use compiled::beside::{agreed, Call};
use plain::generate::Dice;

const LIMIT: usize = 4_096;

const FRONT: &[u8] = b"#FORMAT 3\n#BOT ORIGIN\n1 lab\n#EOT ORIGIN\n#BOT EDITOR\n\
    2 kim Kim\n#EOT EDITOR\n#BOS 7 2 0 1\n";
const BACK: &[u8] = b"#500 S -- -- 0\n#EOS 7\n";

/// Fillings of a node line behind its fifth column: one long column, columns of one byte,
/// pairs of label and parent, white bytes alone.
const FILLINGS: [&[u8]; 6] = [b"x", b"a ", b"%% x ", b" SB 500", b" \t", b"\t%%"];

fn survey_agrees(what: std::fmt::Arguments, file: &[u8], dice: &mut Dice) {
    agreed(what, Call::Survey, file, dice.roll());
}

#[test]
fn lines_at_the_limit() {
    let mut dice = Dice::new(11);
    for filling in FILLINGS {
        for begin in [&b"Ja ITJ -- -- 500 "[..], b"%% ", b"", b"a "] {
            for length in LIMIT - 9..=LIMIT + 9 {
                let more = filling.iter().cycle().take(length - begin.len());
                let line: Vec<u8> = begin.iter().chain(more).copied().collect();
                let whole = [FRONT, &line, b"\n", BACK].concat();
                let what = format_args!("{length} bytes of {filling:?} behind {begin:?}");
                survey_agrees(what, &whole, &mut dice);
                survey_agrees(what, &whole[..FRONT.len() + length], &mut dice);
            }
        }
    }
}

#[test]
fn every_byte_at_every_place() {
    let mut dice = Dice::new(12);
    let file = [FRONT, b"Ja\t\tITJ  -- --\t500 %% so\n%% x\n \t\n", BACK].concat();
    for place in 0..file.len() {
        for byte in 0..=u8::MAX {
            let mut changed = file.clone();
            changed[place] = byte;
            survey_agrees(format_args!("byte {byte} at {place}"), &changed, &mut dice);
        }
    }
}

/// Comments, odd spacing and pairs mixed in at every line, and an end within eight bytes.
#[test]
fn ordinary_and_odd_lines_in_turns() {
    let mut dice = Dice::new(13);
    let words: [&[u8]; 6] = [
        b"Ja\tITJ\t--\t--\t500\n",
        b"so   ADV \t -- --  500 \n",
        b"a b c -- 500 SB 500 OA 500\n",
        b"# X -- -- 500 %% a comment\n",
        b"%% ignored\n",
        b" \n",
    ];
    for _ in 0..2_000 {
        let mut file = FRONT.to_vec();
        for _ in 0..dice.between(1, 9) {
            file.extend_from_slice(*dice.pick(&words));
        }
        file.extend_from_slice(BACK);
        for end in file.len() - 9..=file.len() {
            survey_agrees(format_args!("an end at {end}"), &file[..end], &mut dice);
        }
    }
}
