//! What the sheets, the edge list and the tidy text hold of some small files.

mod common;

use common::*;
use plain::documents::A;

#[test]
fn a_later_fault_leaves_the_sentences_before() {
    let file = [A, b"\n%%\n", b"#BOS 9 2 0 1\n#EOS 9\n\n", b"#BOS 9 2 0 1\n"].concat();
    let mut lent = Lent::with_old_contents();
    let end = 126 + 4 + 20;
    assert_eq!(lent.survey(&file), survey(14, end + 1, 2, end));
    assert_eq!(lent.numbers_seen(), [7, 9]);
    assert_eq!(lent.open(&file, 9), 0);
    assert_eq!(lent.sentence_sheet[..9], [9, 3, 0, 1, 0, 0, 0, 0, 0]);
    for number in [0, 1, 8, 65_535, 65_536, u32::MAX] {
        assert_eq!(lent.open(&file, number), 24);
        assert!(lent.sentence_is_zero());
        assert_eq!(lent.numbers_seen(), [7, 9]);
        assert_eq!(lent.table_sheet[..7], [2, 2, 0, 0, 0, 0, 0]);
    }
}

fn comments(lines: &str) -> Vec<(u32, String)> {
    let file = [TABLES, lines, EOS].concat();
    let mut lent = Lent::with_old_contents();
    assert_eq!(lent.open(file.as_bytes(), 7), 0, "{lines}");
    let sheet = &lent.sentence_sheet;
    let text = |place: usize| {
        let (start, length) = (sheet[place], sheet[place + 1]);
        (
            start,
            file[start as usize..(start + length) as usize].to_string(),
        )
    };
    vec![text(4), text(9 + 9), text(9 + 500 * 11 + 9)]
}

#[test]
fn comments_are_trimmed() {
    let found =
        comments("#BOS 7 2 0 1 %% \t a  b \nJa ITJ -- -- 0 %%\tc %% d\n#500 S -- -- 0 %% \t\n");
    let texts: Vec<&str> = found.iter().map(|(_, text)| text.as_str()).collect();
    assert_eq!(texts, ["a  b", "c %% d", ""]);
    assert_eq!(found[2].0, 0);
}

#[test]
fn edge_list_in_file_order() {
    let sentence = "#BOS 7 2 0 1\nJa ITJ -- -- 0 a 502 b 500\n#502 S -- -- 0\n#501 S -- -- 0 c 502\n#500 S -- -- 0 d 502 e 501\n#EOS 7\n";
    let file = [TABLES, sentence].concat();
    let mut lent = Lent::with_old_contents();
    assert_eq!(lent.open(file.as_bytes(), 7), 0);
    let list: Vec<(u32, &str, u32)> = lent.edges[..5]
        .iter()
        .map(|edge| {
            (
                edge.child,
                &file[edge.label_start as usize..][..edge.label_length as usize],
                edge.parent,
            )
        })
        .collect();
    assert_eq!(
        list,
        [
            (0, "a", 502),
            (0, "b", 500),
            (501, "c", 502),
            (500, "d", 502),
            (500, "e", 501)
        ]
    );
    assert!(lent.edges[5..]
        .iter()
        .all(|edge| *edge == plain::Edge::default()));
    assert_eq!(lent.sentence_sheet[8], 5);
}

#[test]
fn tidy_text_in_order() {
    let file = "%% x\n#FORMAT  3\n#BOT EDITOR\n3 b  B  C\n-1 a A\n#EOT EDITOR\n#BOT WORDTAG \n-1 UNKNOWN N u\n1 W Y w  w\n#EOT WORDTAG\n\n#BOT ORIGIN\n5 n%%c\n4 m %%\n#EOT ORIGIN\n#BOS 9 0 4294967295 5 %%  x  y\n#501 S -- -- 0\n#500 S M -- 501 x 501\t%%\tz \n#EOS 9\n#BOS 8 3 0 4 %%\nJa W -- -- 0 %%\n#EOS 8\n";
    let tidy = "#FORMAT 3\n#BOT ORIGIN\n4\tm\n5\tn\t%%\tc\n#EOT ORIGIN\n#BOT EDITOR\n-1\ta\tA\n3\tb\tB  C\n#EOT EDITOR\n#BOT WORDTAG\n-1\tUNKNOWN\tN\tu\n1\tW\tY\tw  w\n#EOT WORDTAG\n#BOS 8 3 0 4\nJa\tW\t--\t--\t0\n#EOS 8\n#BOS 9 0 4294967295 5 %% x  y\n#500\tS\tM\t--\t501\tx\t501\t%%\tz\n#501\tS\t--\t--\t0\n#EOS 9\n";
    assert_eq!(String::from_utf8(tidy_of(file.as_bytes())).unwrap(), tidy);
}
