//! The cases document 01 settles outside tables and sentences: the format line, the lines
//! that may follow, the file's end.

mod common;

use common::*;
use plain::documents::A;

const FORMAT_LINES: &[(&str, u32)] = &[
    ("#FORMAT 3", 0),
    ("#FORMAT\t 3 \t", 0),
    ("#FORMAT", 7),
    ("#FORMAT ", 7),
    ("#FORMAT 3 3", 7),
    ("#FORMAT 3 %%", 7),
    ("#FORMAT 4 %%", 7),
    ("#FORMAT x y", 7),
    ("#FORMAT ^%%", 8),
    ("#FORMAT ^65536", 8),
    ("#FORMAT ^03", 8),
    ("#FORMAT ^-1", 8),
    ("#FORMAT ^+3", 8),
    ("#FORMAT ^x", 8),
    ("#FORMAT ^3%%", 8),
    ("#FORMAT ^99999999999999999999", 8),
    ("#FORMAT 0", 9),
    ("#FORMAT 4", 9),
    ("#FORMAT 65535", 9),
    ("#FORMAT3", 6),
    ("#format 3", 6),
    (" #FORMAT 3", 6),
    ("#BOT ORIGIN", 6),
    ("#BOS 7 2 0 1", 6),
    ("Ja", 6),
    ("#", 6),
    ("#500", 6),
    ("1", 6),
];

#[test]
fn format_line() {
    let rest = TABLES.strip_prefix("#FORMAT 3\n").unwrap();
    judge_all("", rest, FORMAT_LINES);
    judge_all("\n%% x\n \t\n", rest, FORMAT_LINES);
}

#[test]
fn no_format_line() {
    for file in ["", "\n", "%%\n", "\n\n \n%% #FORMAT 3\n"] {
        assert_eq!(survey_of(file.as_bytes()), survey(9, file.len(), 0, 0));
    }
}

#[test]
fn file_ends() {
    let cases = [
        ("#FORMAT 3\n", 13),
        ("#FORMAT 3\n#BOT ORIGIN\n", 23),
        ("#FORMAT 3\n#BOT ORIGIN\n1 lab\n", 23),
        ("#FORMAT 3\n#BOT ORIGIN\n#EOT ORIGIN\n", 13),
        ("#FORMAT 3\n#BOT EDITOR\n#EOT EDITOR\n", 13),
        ("#FORMAT 3\n#BOT WORDTAG\n", 23),
        (
            "#FORMAT 3\n#BOT EDITOR\n#EOT EDITOR\n#BOT ORIGIN\n#EOT ORIGIN\n",
            0,
        ),
        (
            "#FORMAT 3\n#BOT EDITOR\n#EOT EDITOR\n#BOT ORIGIN\n#EOT ORIGIN\n%%\n\n",
            0,
        ),
    ];
    for (file, refusal) in cases {
        assert_eq!(
            survey_of(file.as_bytes()),
            survey(refusal, file.len(), 0, 0),
            "{file}"
        );
    }
    for line in [
        BOS,
        "#BOS 7 2 0 1\nJa ITJ -- -- 500\n",
        "#BOS 7 2 0 1\n#500 S -- -- 0\n\n",
    ] {
        let file = [TABLES, line].concat();
        assert_eq!(
            survey_of(file.as_bytes()),
            survey(23, file.len(), 0, 0),
            "{file}"
        );
    }
}

const LINES_OUTSIDE: &[(&str, u32)] = &[
    ("#BOT WORDTAG", 0),
    ("#BOT  WORDTAG\t", 0),
    ("#BOT", 7),
    ("#BOT ", 7),
    ("#BOT WORDTAG x", 7),
    ("#BOT WORDTAG %%", 7),
    ("#BOT %%", 6),
    ("#BOT wordtag", 6),
    ("#BOT ORIGIN", 6),
    ("#BOT EDITOR x", 6),
    ("#BOT TAG x", 6),
    ("#BOTWORDTAG", 6),
    ("#Bot WORDTAG", 6),
    ("#EOT WORDTAG", 6),
    ("#EOT", 6),
    ("#EOS 7", 6),
    ("#EOS", 6),
    ("#FORMAT 3", 6),
    ("#FORMAT", 6),
    ("#500 S -- -- 0", 6),
    ("#499", 6),
    ("#x", 6),
    ("#", 6),
    ("# ITJ -- -- 0", 6),
    ("Ja ITJ -- -- 0", 6),
    ("1 lab", 6),
    ("%x", 6),
    (" #BOT WORDTAG", 6),
];

#[test]
fn lines_outside() {
    judge_all(TABLES, "#EOT WORDTAG\n", LINES_OUTSIDE);
}

#[test]
fn lines_after_a_sentence() {
    let before = std::str::from_utf8(A).unwrap();
    let cases = [
        ("#BOT WORDTAG", 6),
        ("#BOT ORIGIN", 6),
        ("#BOT", 6),
        ("#BOS 8 2 0 1", 0),
        ("#BOS 7 2 0 1", 14),
        ("#BOS 7 3 0 1", 14),
        ("#BOS 8 ^3 0 1", 15),
        ("#BOS 7 3 ^x 1", 8),
        ("#EOS 7", 6),
        ("Ja ITJ -- -- 0", 6),
        ("#500 S -- -- 0", 6),
    ];
    judge_all(before, "#EOS 8\n", &cases);
}
