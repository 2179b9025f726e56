//! The cases document 01 settles of the rows of ORIGIN and EDITOR.

mod common;

use common::*;

const ORIGIN_ROWS: &[(&str, u32)] = &[
    ("2 x", 0),
    ("65535\tx  y\t", 0),
    ("2 lab%%", 0),
    ("2 lab%%%c", 0),
    ("2 lab %% %%", 0),
    ("2 % %", 0),
    ("2", 7),
    ("x", 7),
    ("2%%", 7),
    ("2 %% lab", 7),
    ("1 %% lab", 7),
    ("2 %%", 7),
    ("x %%", 7),
    ("1%% lab", 8),
    ("2%% lab", 8),
    ("x lab", 8),
    ("0 lab", 8),
    ("-1 lab", 8),
    ("65536 lab", 8),
    ("01 lab", 8),
    ("+2 lab", 8),
    ("-2 lab", 8),
    ("-0 lab", 8),
    ("1 lab", 11),
    ("1 other %% x", 11),
];

#[test]
fn origin_rows() {
    let before = "#FORMAT 3\n#BOT EDITOR\n#EOT EDITOR\n#BOT ORIGIN\n1 lab\n";
    let after = "#EOT ORIGIN\n";
    judge_all(before, after, ORIGIN_ROWS);
    let (name, comment) = (long(128), long(160));
    let rows = [
        (format!("2 {name}"), 0),
        (format!("2  \t{name} %% {comment} \t"), 0),
        (format!("2 {name}%%{comment}"), 0),
        (format!("2 %% {comment}x"), 7),
        (format!("x {name}x"), 8),
        (format!("2 ^{name}x"), 10),
        (format!("1 ^{name}x"), 10),
        (format!("2 {name} %% ^{comment}x"), 10),
    ];
    for (row, refusal) in rows {
        judge(before, &row, after, refusal);
    }
}

fn origin_texts(row: &str) -> (String, String) {
    let file = [
        "#FORMAT 3\n#BOT EDITOR\n#EOT EDITOR\n#BOT ORIGIN\n",
        row,
        "\n#EOT ORIGIN\n",
    ]
    .concat();
    let mut lent = Lent::with_old_contents();
    assert_eq!(lent.survey(file.as_bytes()).refusal, 0, "{row}");
    let text = |place: usize| {
        let (start, length) = (lent.table_sheet[place], lent.table_sheet[place + 1]);
        assert!(length > 0 || start == 0);
        file[start as usize..(start + length) as usize].to_string()
    };
    (text(8), text(10))
}

#[test]
fn names_and_comments_of_origins() {
    let cases = [
        ("1 lab", "lab", ""),
        ("1 lab%%%c", "lab", "%c"),
        ("1 lab%%", "lab", ""),
        ("1 lab %%  \t", "lab", ""),
        ("1 \t a  b\t%% c  %% d ", "a  b", "c  %% d"),
        ("1 lab%%%%", "lab", "%%"),
        ("1 a%b% %% c", "a%b%", "c"),
        ("1 a%b%%% c", "a%b", "% c"),
        ("1 %a %%b", "%a", "b"),
    ];
    for (row, name, comment) in cases {
        assert_eq!(
            origin_texts(row),
            (name.to_string(), comment.to_string()),
            "{row}"
        );
    }
}

#[test]
fn editor_rows() {
    let (login, name) = (long(16), long(40));
    let rows = [
        ("3 lee Lee Ann".to_string(), 0),
        ("-1 -- <automatic>".to_string(), 0),
        ("0 x y".to_string(), 0),
        ("1 %% %% x".to_string(), 0),
        ("65535 a b".to_string(), 0),
        (format!("3 {login} {name}  "), 0),
        ("3".to_string(), 7),
        ("3 lee".to_string(), 7),
        ("3 lee ".to_string(), 7),
        ("x lee".to_string(), 7),
        (format!("3 {login}x"), 7),
        ("x lee Lee".to_string(), 8),
        ("-2 lee Lee".to_string(), 8),
        ("65536 lee Lee".to_string(), 8),
        (format!("3 ^{login}x Lee"), 10),
        (format!("3 lee ^{name}x"), 10),
        (format!("2 lee ^{name}x"), 10),
        ("2 lee Lee".to_string(), 11),
    ];
    let before = "#FORMAT 3\n#BOT ORIGIN\n#EOT ORIGIN\n#BOT EDITOR\n2 kim Kim\n";
    for (row, refusal) in rows {
        judge(before, &row, "#EOT EDITOR\n", refusal);
    }
    judge(before, "0 a b", "-1 c d\n1 e f\n#EOT EDITOR\n", 0);
}
