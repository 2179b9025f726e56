//! The cases document 01 settles of the rows of the five tag tables.

mod common;

use common::*;

#[test]
fn word_tag_rows() {
    let rows = [
        ("1 NN Y noun".to_string(), 0),
        ("1 NN N %% noun".to_string(), 0),
        ("-1 UNKNOWN N unknown".to_string(), 0),
        ("0 -- N not bound".to_string(), 0),
        (format!("1 {} Y {}", long(10), long(80)), 0),
        ("1 %%x Y noun".to_string(), 0),
        ("1 NN noun".to_string(), 7),
        ("1 NN Y".to_string(), 7),
        ("1 NN".to_string(), 7),
        ("1".to_string(), 7),
        ("1 %%".to_string(), 7),
        ("x NN noun".to_string(), 7),
        ("x NN a noun".to_string(), 8),
        ("-2 NN Y noun".to_string(), 8),
        ("65536 NN Y noun".to_string(), 8),
        ("1 NN ^a noun".to_string(), 10),
        ("1 NN ^y noun".to_string(), 10),
        ("2 NN ^y noun".to_string(), 10),
        ("1 NN ^YN noun".to_string(), 10),
        ("1 ^%% Y noun".to_string(), 10),
        (format!("1 ^{} Y noun", long(11)), 10),
        (format!("1 NN Y ^{}", long(81)), 10),
        ("2 NN Y noun".to_string(), 11),
        ("65535 NN Y noun".to_string(), 11),
        ("1 -- Y noun".to_string(), 11),
        ("1 UNKNOWN Y noun".to_string(), 11),
        ("0 NN Y noun".to_string(), 11),
        ("-1 NN Y noun".to_string(), 11),
        ("-1 -- N noun".to_string(), 11),
        ("0 UNKNOWN N noun".to_string(), 11),
    ];
    let before = [TABLES, "#BOT WORDTAG\n"].concat();
    for (row, refusal) in rows {
        judge(&before, &row, "#EOT WORDTAG\n", refusal);
    }
}

#[test]
fn tag_rows_in_order() {
    let cases = [
        ("-1 UNKNOWN d\n", "1 a d", 0),
        ("-1 UNKNOWN d\n", "0 -- d", 0),
        ("-1 UNKNOWN d\n", "-1 UNKNOWN d", 11),
        ("0 -- d\n", "1 a d", 0),
        ("0 -- d\n", "-1 UNKNOWN d", 11),
        ("0 -- d\n", "0 -- d", 11),
        ("1 a d\n", "0 -- d", 11),
        ("1 a d\n", "1 b d", 11),
        ("1 a d\n", "2 a d", 11),
        ("1 a d\n", "2 b d", 0),
        ("1 a d\n", "3 b d", 11),
        ("-1 UNKNOWN d\n0 -- d\n", "2 b d", 11),
        ("-1 UNKNOWN d\n0 -- d\n", "1 b d", 0),
        ("1 a d\n", "2 A d", 0),
    ];
    for name in ["MORPHTAG", "NODETAG", "EDGETAG", "SECEDGETAG"] {
        for (rows, row, refusal) in cases {
            let before = format!("{TABLES}#BOT {name}\n{rows}");
            judge(&before, row, &format!("#EOT {name}\n"), refusal);
        }
    }
}

#[test]
fn tag_lengths() {
    for (name, limit) in [
        ("MORPHTAG", 32),
        ("NODETAG", 10),
        ("EDGETAG", 10),
        ("SECEDGETAG", 10),
    ] {
        let before = format!("{TABLES}#BOT {name}\n");
        let after = format!("#EOT {name}\n");
        judge(&before, &format!("1 {} d", long(limit)), &after, 0);
        judge(&before, &format!("1 ^{} d", long(limit + 1)), &after, 10);
        judge(&before, &format!("1 a \t{}\t", long(80)), &after, 0);
        judge(&before, &format!("1 a ^{}", long(81)), &after, 10);
        judge(&before, "1 a", &after, 7);
        judge(&before, "1 ^%% d", &after, 10);
        judge(&before, "1 a Y", &after, 0);
    }
}
