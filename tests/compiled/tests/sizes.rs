//! Refusals 1 and 2: nothing may change in any buffer.

use compiled::beside::{agreed_with, Call};
use compiled::lent::{choices_of_sizes, Lent};
use compiled::openings::{headings, numbers_given};
use plain::generate::small;
use plain::{Survey, FILE_LIMIT};

fn assert_unread(case: std::fmt::Arguments, call: Call, file: &[u8], lent: &Lent, refusal: u32) {
    let unread = Survey {
        refusal,
        place: 0,
        sentences: 0,
        sound_end: 0,
    };
    let (answer, after) = agreed_with(case, call, file, lent);
    assert_eq!(answer, unread, "{case}, {call:?}");
    assert!(after == *lent, "{case}, {call:?}");
}

fn assert_wrong_sizes_refused(call: Call, file: &[u8], seed: u64) {
    for sizes in &choices_of_sizes(call.sizes())[1..] {
        let case = format_args!("seed {seed}, buffers of {sizes:?}");
        assert_unread(case, call, file, &Lent::noise(seed, *sizes), 1);
    }
}

#[test]
fn a_survey_without_a_fixed_size() {
    for seed in 0..500 {
        assert_wrong_sizes_refused(Call::Survey, &small(seed), seed);
    }
}

#[test]
fn an_index_without_a_fixed_size() {
    for seed in 0..50 {
        assert_wrong_sizes_refused(Call::Index, &small(seed), seed);
    }
}

#[test]
fn an_opening_without_a_fixed_size() {
    for seed in 0..50 {
        let file = small(seed);
        let number = numbers_given(&file).first().copied().unwrap_or(0);
        let place = headings(&file).first().copied().unwrap_or(0);
        assert_wrong_sizes_refused(Call::Open(number), &file, seed);
        assert_wrong_sizes_refused(Call::OpenAt(place as u32), &file, seed);
    }
}

const SENTENCE: &[u8] = b"\n#BOS 7 2 0 1\nJa ITJ -- -- 500 SB 500\n#500 S -- -- 0\n#EOS 7\n";

/// A sentence stands at the end of the longest file; with one byte more it isn't looked at.
#[test]
fn the_longest_file_and_one_byte_more() {
    let mut file = vec![0; FILE_LIMIT + 1];
    let start = FILE_LIMIT - SENTENCE.len();
    file[start..FILE_LIMIT].copy_from_slice(SENTENCE);
    let place = start as u32 + 1;
    for call in [
        Call::Survey,
        Call::Index,
        Call::Open(7),
        Call::OpenAt(place),
    ] {
        let lent = Lent::noise(0, call.sizes());
        assert_unread(format_args!("one byte more"), call, &file, &lent, 2);
        for sizes in &choices_of_sizes(call.sizes())[1..] {
            let case = format_args!("one byte more, buffers of {sizes:?}");
            assert_unread(case, call, &file, &Lent::noise(0, *sizes), 1);
        }
    }
    file.pop();
    let answers = [
        Call::Survey,
        Call::Index,
        Call::Open(7),
        Call::OpenAt(place),
    ]
    .map(|call| {
        let lent = Lent::noise(0, call.sizes());
        let (answer, _) = agreed_with(format_args!("the longest file"), call, &file, &lent);
        (answer.refusal, answer.place)
    });
    assert_eq!(answers, [(4, 0), (4, 0), (24, 0), (0, 0)]);
}
