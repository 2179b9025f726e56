//! The sound ends of files made by dice, cut at every byte or damaged.

mod common;

use common::*;
use plain::generate::*;
use plain::Survey;

/// A file cut short hands out the sentences that end before the cut, and the sound
/// end of any file is where an accepted file with the same sentences ends.
#[test]
fn cuts_at_every_byte() {
    let mut handed_out = 0;
    for seed in 0..300 {
        let file = small_accepted(seed);
        let mut lent = Lent::with_old_contents();
        let ends = sentence_ends(&file);
        for cut in 0..=file.len() {
            let answer = lent.survey(&file[..cut]);
            let whole: Vec<usize> = ends.iter().copied().filter(|&end| end <= cut).collect();
            assert_eq!(
                answer.sentences as usize,
                whole.len(),
                "seed {seed} cut {cut}"
            );
            assert_eq!(
                answer.sound_end as usize,
                whole.last().copied().unwrap_or(0)
            );
            let newline_before = cut == 0 || file[cut - 1] == b'\n';
            assert_eq!(
                answer.refusal == 3,
                !newline_before,
                "seed {seed} cut {cut}"
            );
            assert!([0, 3, 9, 13, 23].contains(&answer.refusal));
            check_sound_end(&file[..cut], &answer);
            handed_out += whole.len();
        }
    }
    assert!(handed_out > 5_000, "{handed_out}");
}

/// The places behind the `#EOS` lines of an accepted file.
fn sentence_ends(file: &[u8]) -> Vec<usize> {
    let mut ends = Vec::new();
    let mut place = 0;
    for line in file.split_inclusive(|&byte| byte == b'\n') {
        place += line.len();
        if line.starts_with(b"#EOS") {
            ends.push(place);
        }
    }
    ends
}

fn check_sound_end(file: &[u8], answer: &Survey) {
    if answer.sound_end > 0 {
        let sound = &file[..answer.sound_end as usize];
        let expected = Survey {
            refusal: 0,
            place: answer.sound_end,
            ..*answer
        };
        assert_eq!(survey_of(sound), expected);
    }
}

#[test]
fn sound_ends_of_damaged_files() {
    let mut sound = 0;
    for seed in 0..5_000 {
        let file = damaged(seed, size_of(seed));
        let answer = survey_of(&file);
        check_sound_end(&file, &answer);
        sound += usize::from(answer.sound_end > 0);
    }
    assert!(sound > 500, "{sound}");
}
