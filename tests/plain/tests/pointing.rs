//! The refusals 8, 10, 15, 18 and 19 point at a column, all others at the line.

mod common;

use common::*;
use plain::documents::A;

/// Up to the first word of a sentence, with one tag in each table.
fn tables_and_sentence() -> String {
    let table = |name: &str, row: &str| format!("#BOT {name}\n{row}\n#EOT {name}\n");
    [
        TABLES,
        &table("WORDTAG", "1 W Y d"),
        &table("MORPHTAG", "1 M d"),
        &table("NODETAG", "1 N d"),
        &table("EDGETAG", "1 E d"),
        &table("SECEDGETAG", "1 S d"),
        BOS,
    ]
    .concat()
}

/// The same up to the third phrase.
fn phrases() -> String {
    [&tables_and_sentence(), "#500 N -- -- 0\n#501 N -- -- 0\n"].concat()
}

#[test]
fn the_leftmost_of_equal_numbers() {
    let words = [
        ("Ja W M E ^x S y S z", 8),
        ("Ja W M E 500 S ^0 S y", 8),
        ("Ja W M E ^499 S 499", 8),
        ("Ja ^x1234567890 M x1234567890 500", 10),
        ("Ja W M ^x1234567890 500 x1234567890 500", 10),
        ("Ja W M E 500 ^x1234567890 500 x1234567890 500", 10),
        ("Ja ^Q Q Q 500 Q 500", 18),
        ("Ja W ^Q Q 500 Q 500", 18),
        ("Ja W M ^Q 500 Q 500", 18),
        ("Ja W M E 500 ^Q 500 Q 500", 18),
        ("Ja W M E 500 S 500 ^Q 500", 18),
    ];
    judge_all(&tables_and_sentence(), EOS, &words);
    let lines = [
        ("#499 N M E x S y", 8),
        ("#502 N M E ^x S y", 8),
        ("#502 N M E ^502 S 502", 19),
        ("#502 N M E ^0 S 502", 19),
        ("#502 N M -- 0 S ^502 S 502", 19),
        ("#502 N M -- 0 S 500 S ^502 S 501 S 502", 19),
    ];
    judge_all(&phrases(), EOS, &lines);
    let beginnings = [
        ("#BOS ^0 -2 -1 0", 8),
        ("#BOS 7 ^-2 -1 0", 8),
        ("#BOS 7 2 ^-1 0", 8),
        ("#BOS 7 ^3 0 2", 15),
        ("#BOS 7 ^3 0 2 %% 3", 15),
    ];
    judge_all(TABLES, EOS, &beginnings);
}

#[test]
fn the_leftmost_of_long_texts() {
    let (long, longer) = ("x".repeat(41), "y".repeat(161));
    let editors = "#FORMAT 3\n#BOT ORIGIN\n#EOT ORIGIN\n#BOT EDITOR\n";
    judge(editors, &format!("1 ^{long} {long}"), "", 10);
    let origins = "#FORMAT 3\n#BOT ORIGIN\n";
    judge(origins, &format!("1 ^{longer} %% {longer}"), "", 10);
    judge(origins, &format!("1 ^{longer}%%{longer}"), "", 10);
    judge(origins, &format!("1 lab%%^{longer}%%{longer}"), "", 10);
    let words = [TABLES, "#BOT WORDTAG\n"].concat();
    judge(&words, &format!("1 ^{long} y {longer}"), "", 10);
    judge(&words, &format!("1 ^%% y {longer}"), "", 10);
    judge(&words, &format!("1 NN ^y {longer}"), "", 10);
    judge(&words, &format!("1 NN Y ^{longer}"), "", 10);
    let morphology = [TABLES, "#BOT MORPHTAG\n"].concat();
    judge(&morphology, &format!("1 ^{long} {longer}"), "", 10);
    judge(&morphology, &format!("1 M ^{longer}"), "", 10);
}

/// First the smallest number, then the leftmost column.
#[test]
fn a_smaller_number_further_right() {
    let words = [
        ("Ja x1234567890 Q E 0 Q ^x", 8),
        ("Ja Q M E ^x", 8),
        ("Ja Q Q Q 0 ^x1234567890 500", 10),
        ("Ja W M E 0 ^Q 500", 18),
        ("Ja W M E 0 S 500 ^Q 500", 18),
        ("Ja W M E ^0 S 500", 19),
    ];
    judge_all(&tables_and_sentence(), EOS, &words);
    let lines = [
        ("#502 Q M E 502 S ^499", 8),
        ("#502 N M E 502 ^x1234567890 502", 10),
        ("#502 N M E 502 ^Q 502", 18),
    ];
    judge_all(&phrases(), EOS, &lines);
    judge(TABLES, "#BOS 7 3 0 ^x", EOS, 8);
    let words = [TABLES, "#BOT WORDTAG\n"].concat();
    judge(&words, "2 NN ^y noun", "", 10);
}

#[test]
fn other_numbers_keep_the_lines_first_byte() {
    let lines = [
        ("#502 Q M E x S", 7),
        ("#501 Q M E 500 S 501", 17),
        ("#500 N M E 0", 17),
    ];
    judge_all(&phrases(), EOS, &lines);
    let second = [std::str::from_utf8(A).unwrap(), "\n"].concat();
    judge_all(
        &second,
        "",
        &[
            ("#BOS 7 3 0 2", 14),
            ("#BOS ^x 3 0 2", 8),
            ("#BOS 8 ^3 0 2", 15),
        ],
    );
    let edges = format!("Ja W M E 500{}\n", " S 500".repeat(512));
    let full = [&tables_and_sentence(), edges.as_str()].concat();
    judge(&full, "Ja Q Q Q 0 Q 500", EOS, 16);
    judge(&full, "Ja W M E 500 S ^x", EOS, 8);
    judge("", "#FORMAT 4", "", 9);
    let words = [TABLES, "#BOT WORDTAG\n"].concat();
    judge(&words, "2 NN Y noun", "", 11);
    let missing = "#FORMAT 3\n#BOT ORIGIN\n1 lab\n#EOT ORIGIN\n";
    judge(missing, "#BOS 7 3 0 2", "", 13);
}

/// A text's place is its first byte, behind `%%` and white.
#[test]
fn a_text_counts_from_its_first_byte() {
    let spaced = "a \t b".repeat(40);
    let origins = "#FORMAT 3\n#BOT ORIGIN\n";
    for row in [
        format!("1 \t ^{spaced}"),
        format!("1 ^{spaced}%% c"),
        format!("1 lab %% \t^{spaced} \t"),
        format!("1 lab%%^{spaced}"),
        format!("1 lab %%^{spaced}"),
        format!("1 lab%%^%{spaced}"),
        format!("1 l%b%%^%%{spaced}"),
        format!("1 a b  c%%   ^{spaced}"),
    ] {
        judge(origins, &row, "", 10);
    }
    let editors = "#FORMAT 3\n#BOT ORIGIN\n#EOT ORIGIN\n#BOT EDITOR\n";
    judge(editors, &format!("1  kim\t ^{spaced} "), "", 10);
    judge(editors, &format!("1 kim ^%% {spaced}"), "", 10);
    let words = [TABLES, "#BOT WORDTAG\n"].concat();
    judge(&words, &format!("1  NN \tN \t ^{spaced}"), "", 10);
    judge(&words, &format!("1 NN N ^%% {spaced}"), "", 10);
    let edges = [TABLES, "#BOT EDGETAG\n"].concat();
    judge(&edges, &format!("1 E  ^{spaced}"), "", 10);
}

#[test]
fn white_between_columns() {
    let words = [
        ("Ja\t\tW  M \t E\t\t^x", 8),
        ("Ja W\tM  E 500 \t^Q\t500", 18),
        ("Ja W M E  ^0  %% 0 Q x", 19),
    ];
    judge_all(&tables_and_sentence(), EOS, &words);
    judge(&phrases(), "#502  N\tM -- 0\tS\t\t^502 ", EOS, 19);
    judge(TABLES, "#BOS\t 7   2\t0\t \t^2\t%% x", EOS, 15);
    judge(TABLES, "#BOS  ^65536 2 0 1", EOS, 8);
}

/// The rest of the answer stays with the lines.
#[test]
fn sentences_and_sound_end_stay() {
    let file = [A, b"\n#BOS 8 3 0 1\n"].concat();
    assert_eq!(survey_of(&file), survey(15, 134, 1, 126));
    let mut out = vec![0; 200];
    let written = Lent::with_old_contents().write(&file, &mut out);
    assert_eq!(
        (written.refusal, written.place, written.length),
        (15, 134, 0)
    );
}
