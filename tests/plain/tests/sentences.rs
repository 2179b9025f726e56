//! The cases document 01 settles of the first and the last line of a sentence.

mod common;

use common::*;

const SENTENCE_BEGINNINGS: &[(&str, u32)] = &[
    ("#BOS 7 2 0 1", 0),
    ("#BOS\t7  2 0\t1 \t", 0),
    ("#BOS 7 2 0 1 %%", 0),
    ("#BOS 7 2 0 1 %% x %% y", 0),
    ("#BOS 7 -1 4294967295 1", 0),
    ("#BOS 7 0 0 1", 0),
    ("#BOS", 7),
    ("#BOS 7 2 0", 7),
    ("#BOS x 2 0", 7),
    ("#BOS 7 2 %%", 7),
    ("#BOS 7 2 0 1 x", 7),
    ("#BOS 7 2 0 1 %%x", 7),
    ("#BOS 7 2 0 1 x %% y", 7),
    ("#BOS 7 %% 2 0 1", 7),
    ("#BOS 7 2 0 ^%%", 8),
    ("#BOS 7 2 0 %% 1", 7),
    ("#BOS 7 2 0 ^1%%x", 8),
    ("#BOS 7 2 0 ^1%%", 8),
    ("#BOS ^0 2 0 1", 8),
    ("#BOS ^65536 2 0 1", 8),
    ("#BOS ^-1 2 0 1", 8),
    ("#BOS ^07 2 0 1", 8),
    ("#BOS 7 ^-2 0 1", 8),
    ("#BOS 7 ^65536 0 1", 8),
    ("#BOS 7 2 ^-1 1", 8),
    ("#BOS 7 2 ^4294967296 1", 8),
    ("#BOS 7 2 ^99999999999999999999999 1", 8),
    ("#BOS 7 2 0 ^0", 8),
    ("#BOS 7 2 0 ^65536", 8),
    ("#BOS 7 3 ^x 1", 8),
    ("#BOS 7 ^3 0 1", 15),
    ("#BOS 7 ^1 0 1", 15),
    ("#BOS 7 2 0 ^2", 15),
    ("#BOS7 2 0 1", 6),
    ("#bos 7 2 0 1", 6),
];

#[test]
fn sentence_beginnings() {
    judge_all(TABLES, EOS, SENTENCE_BEGINNINGS);
    let missing = "#FORMAT 3\n#BOT ORIGIN\n1 lab\n#EOT ORIGIN\n";
    let no_origins = "#FORMAT 3\n#BOT ORIGIN\n#EOT ORIGIN\n#BOT EDITOR\n#EOT EDITOR\n";
    judge_all(
        no_origins,
        EOS,
        &[("#BOS 7 0 0 ^1", 15), ("#BOS 7 -1 0 ^1", 15)],
    );
    let cases = [
        ("#BOS 7 2 0 1", 13),
        ("#BOS 7 2 0 ^x", 8),
        ("#BOS 7 2 0", 7),
        ("#BOS 7 9 0 9", 13),
    ];
    judge_all(missing, EOS, &cases);
    judge_all("#FORMAT 3\n", EOS, &cases);
}

const SENTENCE_ENDS: &[(&str, u32)] = &[
    ("#EOS 7", 0),
    ("#EOS\t 7\t", 0),
    ("#EOS", 7),
    ("#EOS 7 7", 7),
    ("#EOS 7 %%", 7),
    ("#EOS 8 %%", 7),
    ("#EOS ^0", 8),
    ("#EOS ^65536", 8),
    ("#EOS ^-1", 8),
    ("#EOS ^x", 8),
    ("#EOS ^07", 8),
    ("#EOS ^%%", 8),
    ("#EOS 8", 20),
    ("#EOS 65535", 20),
    ("#EOS7", 6),
    ("#eos 7", 6),
    ("#EOT", 6),
    ("#EOT ORIGIN", 6),
    ("#BOT", 6),
    ("#BOT WORDTAG", 6),
    ("#BOS", 6),
    ("#BOS 8 2 0 1", 6),
    ("#FORMAT 3", 6),
];

#[test]
fn sentence_ends() {
    let before = [TABLES, BOS].concat();
    judge_all(&before, "", SENTENCE_ENDS);
    let gap = [before.as_str(), "Ja ITJ -- -- 500\n#501 S -- -- 0\n"].concat();
    judge_all(
        &gap,
        "",
        &[("#EOS 8", 20), ("#EOS 7", 21), ("#EOS ^x", 8), ("#EOS", 7)],
    );
    let absent = [before.as_str(), "Ja ITJ -- -- 0 SB 501\n#500 S -- -- 0\n"].concat();
    judge_all(&absent, "", &[("#EOS 8", 20), ("#EOS 7", 22)]);
    let above = [before.as_str(), "#500 S -- -- 501\n"].concat();
    judge_all(&above, "", &[("#EOS 7", 22)]);
    let other_gap = [before.as_str(), "#500 S -- -- 0\n#502 S -- -- 0\n"].concat();
    judge(&other_gap, "#EOS 7", "", 21);
    judge(&other_gap, "#501 S -- -- 502", EOS, 0);
}
