//! The cases document 01 settles of any line: its bytes and length, ignored lines, the rest
//! without a newline.

mod common;

use common::*;
use plain::documents::A;

#[test]
fn ignored_lines() {
    let cases = [
        ("", 0),
        (" ", 0),
        ("\t \t", 0),
        ("%%", 0),
        ("%%#BOS", 0),
        (" %%", 6),
        ("\t%% x", 6),
        ("%", 6),
        ("% %", 6),
        ("%%\0", 4),
        ("\0", 4),
        ("%%\r", 4),
        ("\u{7f}", 6),
    ];
    judge_all("", TABLES, &cases);
    judge_all(TABLES, "", &cases);
    let mut inside = cases;
    for case in &mut inside {
        // In a table a line that begins with neither `#` nor white is a row, in a sentence a word.
        case.1 = if ["%", "% %", "\u{7f}"].contains(&case.0) {
            7
        } else {
            case.1
        };
    }
    let tables_without_end = TABLES.strip_suffix("#EOT EDITOR\n").unwrap();
    judge_all(tables_without_end, "#EOT EDITOR\n", &inside);
    judge_all(&[TABLES, BOS].concat(), EOS, &inside);
}

#[test]
fn line_lengths() {
    judge(TABLES, &" ".repeat(4_096), "", 0);
    judge(TABLES, &" ".repeat(4_097), "", 5);
    judge(TABLES, &(" ".repeat(4_097) + "\0"), "", 4);
    judge(TABLES, &("\0".to_string() + &" ".repeat(5_000)), "", 4);
    judge(TABLES, &long(4_097), "", 5);
    judge(TABLES, &long(4_096), "", 6);
    let sentence = [TABLES, BOS].concat();
    judge(
        &sentence,
        &("Ja ITJ -- -- 0".to_string() + &" ".repeat(4_082)),
        EOS,
        0,
    );
    judge(
        &sentence,
        &("Ja ITJ -- -- 0".to_string() + &" ".repeat(4_083)),
        EOS,
        5,
    );
    judge(&sentence, &(long(4_084) + " I - -- 0 %%"), EOS, 0);
    judge(&sentence, &(long(4_085) + " I - -- 0 %%"), EOS, 5);
}

#[test]
fn each_byte_in_an_ignored_line() {
    for byte in 0..=255u8 {
        let legal = byte == 9 || (32..=127).contains(&byte) || byte >= 160;
        let line = [b'%', b'%', byte, b'\n'];
        let file = [TABLES.as_bytes(), &line].concat();
        let refusal = match byte {
            10 => 0,
            _ if legal => 0,
            _ => 4,
        };
        assert_judged(&file, TABLES.len(), refusal, &byte.to_string());
    }
}

#[test]
fn byte_order_mark() {
    let file = [&[0xef, 0xbb, 0xbf], A].concat();
    assert_eq!(survey_of(&file), survey(6, 0, 0, 0));
}

#[test]
fn unended_rest() {
    let too_long = long(5_000);
    for rest in [
        "x",
        " ",
        "%%",
        "\0",
        "#EOS 7",
        "#BOS",
        "\r",
        too_long.as_str(),
    ] {
        for before in [
            "",
            TABLES,
            "#FORMAT 3\n",
            "#FORMAT 3\n#BOT ORIGIN\n",
            "\n",
            "%%\n",
        ] {
            let file = [before, rest].concat();
            assert_eq!(
                survey_of(file.as_bytes()),
                survey(3, before.len(), 0, 0),
                "{file}"
            );
        }
        let file = ["#FORMAT 4\n", rest].concat();
        assert_eq!(survey_of(file.as_bytes()), survey(9, 0, 0, 0));
    }
}
