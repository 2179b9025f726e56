//! The cases document 01 settles of the lines of words and phrases.

mod common;

use common::*;

const WORD_LINES: &[(&str, u32)] = &[
    ("Ja ITJ -- -- 500", 0),
    ("Ja\tITJ\t\t--  SB\t500\t", 0),
    ("Ja ITJ -- -- 0", 0),
    ("# ITJ -- -- 500", 0),
    ("# 500 S -- 0", 0),
    ("# 500 S -- -- 0", 7),
    ("# 500 S -- ^SB", 8),
    ("500 ITJ -- -- 0", 0),
    ("BOS ITJ -- -- 0", 0),
    ("-1 -1 -1 -- 0", 0),
    ("%x ITJ -- -- 0", 0),
    ("x# ITJ -- -- 0", 0),
    ("Ja %%x %%x %%x 500 %%x 500", 0),
    ("Ja ITJ -- -- 0 %% 500", 0),
    ("Ja ITJ -- -- 0 %%", 0),
    ("Ja ITJ -- -- 0 SB 500 SB 500 HD 500", 0),
    ("Ja ITJ -- SB 500 SB 500 %% SB", 0),
    ("Ja ITJ -- -- 0 SB %% 500", 7),
    ("Ja %% -- -- 0", 7),
    ("Ja ITJ -- %% 0", 7),
    ("Ja ITJ -- -- %%", 7),
    ("Ja ITJ -- --", 7),
    ("Ja", 7),
    ("#", 7),
    ("Ja ITJ -- -- 0 SB", 7),
    ("Ja ITJ -- -- x SB", 7),
    ("Ja ITJ -- -- 0 %%x", 7),
    ("Ja ITJ -- -- 0 SB 500 SB", 7),
    ("Ja ITJ -- -- ^x", 8),
    ("Ja ITJ -- -- ^1", 8),
    ("Ja ITJ -- -- ^499", 8),
    ("Ja ITJ -- -- ^1000", 8),
    ("Ja ITJ -- -- ^-1", 8),
    ("Ja ITJ -- -- ^0500", 8),
    ("Ja ITJ -- -- ^00", 8),
    ("Ja ITJ -- -- ^500%%", 8),
    ("Ja ITJ -- SB 500 HD ^0", 8),
    ("Ja ITJ -- SB 500 HD ^499", 8),
    ("Ja ITJ -- SB 500 HD ^1000", 8),
    ("Ja ITJ -- SB 0 HD ^x", 8),
    ("Ja ^ITJ12345678 -- -- 0", 10),
    ("Ja ITJ1234567 -- -- 0", 0),
    ("Ja ITJ -- ^SB345678901 500", 10),
    ("Ja ITJ -- ^SB345678901 0", 10),
    ("Ja ITJ -- SB34567890 500", 0),
    ("Ja ITJ -- -- 0 ^SB345678901 500", 10),
    ("Ja ITJ -- -- 0 SB34567890 500", 0),
    ("Ja ITJ12345678 -- -- ^x", 8),
    ("Ja ITJ 12345678901234567890123456789012 -- 0", 0),
    ("Ja ITJ ^123456789012345678901234567890123 -- 0", 10),
    ("Ja ITJ -- SB ^0", 19),
    ("Ja ITJ -- UNKNOWN ^0", 19),
    ("Ja ITJ -- UNKNOWN 500", 0),
    ("#x", 6),
    ("#-1", 6),
    ("#500x S -- -- 0", 6),
    ("## S -- -- 0", 6),
    ("#%% S -- -- 0", 6),
    (" Ja ITJ -- -- 0", 6),
    ("\tJa", 6),
];

#[test]
fn word_lines() {
    let before = [TABLES, BOS].concat();
    let after = ["#500 S -- -- 0\n", EOS].concat();
    judge_all(&before, &after, WORD_LINES);
    let absent = [before.as_str(), "Ja ITJ -- -- 501\n#500 S -- -- 0\n"].concat();
    judge(&absent, "#EOS 7", "", 22);
}

const PHRASE_LINES: &[(&str, u32)] = &[
    ("#501 S -- -- 0", 0),
    ("#501\tS -- SB 502 SB 502 SB 503\t%% x", 0),
    ("#501", 7),
    ("#499", 7),
    ("#0500", 7),
    ("#501 %% S -- -- 0", 7),
    ("#501 S -- -- 0 SB", 7),
    ("#500 S -- -- 0 SB", 7),
    ("#499 S -- -- 0", 8),
    ("#0 S -- -- 0", 8),
    ("#0501 S -- -- 0", 8),
    ("#1000 S -- -- 0", 8),
    ("#5000000000000 S -- -- 0", 8),
    ("#50000000000000000000000000000000000000000 S -- -- 0", 8),
    ("#501 S -- -- ^1", 8),
    ("#501 S -- SB 502 SB ^0", 8),
    ("#500 S -- SB ^x", 8),
    ("#501 ^S1234567890 -- -- 0", 10),
    ("#500 ^S1234567890 -- -- 0", 10),
    ("#500 S -- -- 0", 17),
    ("#500 S -- SB 0", 17),
    ("#501 S -- -- ^501", 19),
    ("#501 S -- -- ^500", 19),
    ("#501 S -- SB ^0", 19),
    ("#501 S -- -- 0 SB ^501", 19),
    ("#501 S -- -- 0 SB 502 SB ^501", 19),
    ("#501 S -- -- 0 SB ^501 SB 504", 19),
    ("#501 S -- -- ^500 SB 500", 19),
    ("#501 S -- -- 0 SB 500", 0),
    ("#501 S -- -- 0 SB 502 SB 500 SB 503", 0),
    ("#501 S -- SB 502 SB 500 SB 500", 0),
    ("Ja ITJ -- -- 500", 6),
    ("Ja", 6),
    ("#", 6),
    ("# ITJ -- -- 500", 6),
    ("#501x S -- -- 0", 6),
    ("#-1", 6),
    ("#x", 6),
];

#[test]
fn phrase_lines() {
    let before = [TABLES, BOS, "Ja ITJ -- -- 500\n#500 NP -- SB 503\n"].concat();
    let after = ["#503 S -- -- 0\n#502 S -- -- 0\n", EOS].concat();
    judge_all(&before, &after, PHRASE_LINES);
}

/// A file with a tag in each table, up to the first word.
fn one_tag_in_each_table() -> String {
    let table = |name: &str, rows: &str| format!("#BOT {name}\n{rows}#EOT {name}\n");
    [
        TABLES,
        &table("SECEDGETAG", "1 SE d\n"),
        &table("WORDTAG", "1 W Y d\n"),
        &table("MORPHTAG", "1 M d\n"),
        &table("NODETAG", "-1 UNKNOWN d\n1 N d\n"),
        &table("EDGETAG", "1 E d\n"),
        BOS,
    ]
    .concat()
}

#[test]
fn tags_of_words_in_their_tables() {
    let after = ["#500 N M -- 0\n", EOS].concat();
    let cases = [
        ("Ja W M E 500 SE 500", 0),
        ("Ja -- UNKNOWN -- 500 UNKNOWN 500", 0),
        ("Ja UNKNOWN -- UNKNOWN 500 -- 500", 0),
        ("Ja ^N M E 500", 18),
        ("Ja W ^W E 500", 18),
        ("Ja W M ^M 500", 18),
        ("Ja W M E 500 ^E 500", 18),
        ("Ja ^w M E 500", 18),
        ("Ja W M ^SB 0", 18),
        ("Ja W M E ^0", 19),
        ("Ja W M ^x1234567890 0", 10),
        ("Ja N M E ^x", 8),
    ];
    judge_all(&one_tag_in_each_table(), &after, &cases);
}

#[test]
fn tags_of_phrases_in_their_tables() {
    let after = ["#501 N M -- 0\n", EOS].concat();
    let cases = [
        ("#500 N M E 501", 0),
        ("#500 UNKNOWN -- -- 0", 0),
        ("#500 ^W M E 501", 18),
        ("#500 N ^N E 501", 18),
        ("#500 N M E 501 ^E 501", 18),
        ("#500 N M ^x 500", 18),
        ("#500 N M E ^500", 19),
    ];
    judge_all(&one_tag_in_each_table(), &after, &cases);
}

#[test]
fn too_many_words_phrases_and_edges() {
    let mut words = [TABLES, BOS].concat();
    words += &"Ja ITJ -- -- 0\n".repeat(500);
    judge(&words, "%%", EOS, 0);
    let cases = [
        ("Ja ITJ -- -- 0", 16),
        ("Ja ITJ -- SB 0", 16),
        ("Ja ^ITJ123456789 -- SB 0", 10),
        ("Ja ITJ -- -- ^x", 8),
        ("Ja", 7),
        ("#500 S -- -- 0", 0),
    ];
    judge_all(&words, EOS, &cases);
    for number in 500..1000 {
        words += &format!("#{number} S -- -- 0\n");
    }
    judge_all(
        &words,
        EOS,
        &[
            ("", 0),
            ("#999 S -- -- 0", 17),
            ("#1000 S -- -- 0", 8),
            ("x", 6),
        ],
    );
    let mut edges = [TABLES, BOS].concat();
    edges += &("Ja ITJ -- -- 0".to_string() + &" SB 501".repeat(511) + "\n");
    let after = ["#501 S -- -- 0\n", EOS].concat();
    let phrase = "#500 S -- -- 0 SB 501";
    judge(&edges, phrase, &after, 0);
    judge(&edges, &(phrase.to_string() + " SB 501"), &after, 16);
    judge(&edges, &(phrase.to_string() + " SB 500"), &after, 16);
    let full = [edges.as_str(), phrase, "\n"].concat();
    judge_all(
        &full,
        EOS,
        &[("#501 S -- -- 0 SB 502", 16), ("#500 S -- -- 0 SB 502", 16)],
    );
}
