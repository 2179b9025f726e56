//! The cases document 01 settles of tables as a whole: their ends, too many rows, none.

mod common;

use common::*;

#[test]
fn table_ends() {
    let before = "#FORMAT 3\n#BOT EDITOR\n#EOT EDITOR\n#BOT ORIGIN\n1 lab\n";
    let cases = [
        ("#EOT ORIGIN", 0),
        ("#EOT\tORIGIN ", 0),
        ("#EOT", 7),
        ("#EOT ORIGIN x", 7),
        ("#EOT ORIGIN %%", 7),
        ("#EOT %%", 6),
        ("#EOT EDITOR", 6),
        ("#EOT EDITOR x", 6),
        ("#EOT origin", 6),
        ("#EOTORIGIN", 6),
        ("#eot ORIGIN", 6),
        ("#BOT", 6),
        ("#BOT WORDTAG", 6),
        ("#BOS 7 2 0 1", 6),
        ("#FORMAT 3", 6),
        ("#", 6),
        ("#500", 6),
        ("# 2 x", 6),
        (" 2 x", 6),
    ];
    judge_all(before, "", &cases);
    let mut lent = Lent::with_old_contents();
    let file = [before, "#EOT ORIGIN x\n"].concat();
    assert_eq!(lent.survey(file.as_bytes()).refusal, 7);
    assert_eq!(lent.table_sheet[0], 0, "a faulty end closes nothing");
    assert_eq!(lent.table_sheet[1], 1);
}

#[test]
fn too_many_rows() {
    let mut before = [TABLES, "#BOT EDGETAG\n-1 UNKNOWN d\n0 -- d\n"].concat();
    for id in 1..=254 {
        before += &format!("{id} t{id} d\n");
    }
    judge(&before, "%% 257th", "#EOT EDGETAG\n", 0);
    judge(&before, "255 x d", "", 12);
    judge(&before, "256 x d", "", 11);
    judge(&before, "255 t1 d", "", 11);
    judge(&before, "255 ^%% d", "", 10);
    judge(&before, "x x d", "", 8);
    judge(&before, "255 x", "", 7);
    let mut origins = "#FORMAT 3\n#BOT EDITOR\n#EOT EDITOR\n#BOT ORIGIN\n".to_string();
    for id in (1..=256).rev() {
        origins += &format!("{id} lab\n");
    }
    judge(&origins, "%%", "#EOT ORIGIN\n", 0);
    judge(&origins, "257 lab", "", 12);
    judge(&origins, "256 lab", "", 11);
}

#[test]
fn an_empty_table_is_present() {
    let table = [TABLES, "#BOT WORDTAG\n#EOT WORDTAG\n"].concat();
    let before = [table.as_str(), BOS].concat();
    let cases = [
        ("Ja ^ITJ -- -- 0", 18),
        ("Ja -- x -- 0", 0),
        ("Ja UNKNOWN x -- 0", 0),
        ("Ja ^unknown x -- 0", 18),
    ];
    judge_all(&before, EOS, &cases);
    let mut lent = Lent::with_old_contents();
    assert_eq!(lent.survey(table.as_bytes()).refusal, 0);
    assert_eq!(lent.table_sheet[..7], [2, 2, 1, 0, 0, 0, 0]);
}
