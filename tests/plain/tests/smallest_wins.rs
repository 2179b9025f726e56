//! Several faults in one line: for every set of them the smallest number is given, at its
//! column.

mod common;

use common::*;

/// Tries every subset of `refusals`; some of them are given at a column. `make` gives, for
/// a subset, what stands before the line, the line, and what makes the file whole if there
/// is no fault.
fn every_subset(
    refusals: &[u32],
    columns: &[(u32, usize)],
    make: impl Fn(&dyn Fn(u32) -> bool) -> (String, Vec<u8>, String),
) {
    for subset in 0..1usize << refusals.len() {
        let chosen: Vec<u32> = (0..refusals.len())
            .filter(|index| subset >> index & 1 == 1)
            .map(|index| refusals[index])
            .collect();
        let (before, line, after) = make(&|refusal| chosen.contains(&refusal));
        let file = [before.as_bytes(), &line, b"\n", after.as_bytes()].concat();
        let refusal = chosen.iter().min().copied().unwrap_or(0);
        let mut pointing = columns.iter().filter(|(number, _)| *number == refusal);
        let column = pointing.next().map_or(0, |&(_, index)| start(&line, index));
        let place = before.len() + column;
        assert_judged(&file, place, refusal, &format!("{chosen:?}"));
    }
}

/// Where a column of a line begins.
fn start(line: &[u8], index: usize) -> usize {
    let white = |place: usize| b" \t".contains(&line[place]);
    let begins = |&place: &usize| !white(place) && (place == 0 || white(place - 1));
    (0..line.len()).filter(begins).nth(index).unwrap()
}

/// Puts white first for 6, a NUL last for 4, white up to 4,097 bytes or more for 5.
fn finish(line: String, has: &dyn Fn(u32) -> bool) -> Vec<u8> {
    let mut bytes = line.into_bytes();
    if has(6) {
        bytes.insert(0, b'\t');
    }
    if has(5) {
        bytes.resize(4_097, b' ');
    }
    if has(4) {
        bytes.push(0);
    }
    bytes
}

fn choose<'t>(faulty: bool, bad: &'t str, good: &'t str) -> &'t str {
    if faulty {
        bad
    } else {
        good
    }
}

#[test]
fn in_a_phrase_line() {
    let columns = [(8, 6), (10, 1), (18, 2), (19, 4)];
    every_subset(&[4, 5, 6, 7, 8, 10, 16, 17, 18, 19], &columns, |has| {
        let edges = " SB 501".repeat(if has(16) { 512 } else { 511 });
        let before = [
            TABLES,
            "#BOT MORPHTAG\n1 M d\n#EOT MORPHTAG\n#BOS 7 2 0 1\n",
            &format!("Ja x M -- 0{edges}\n#500 S M -- 0\n"),
        ]
        .concat();
        let line = [
            choose(has(17), "#500", "#501"),
            choose(has(10), "12345678901", "S"),
            choose(has(18), "Q", "M"),
            choose(has(19), "SB", "--"),
            "0",
            "SE",
            choose(has(8), "x", "502"),
            choose(has(7), "SE", ""),
        ]
        .join("\t");
        (
            before,
            finish(line, has),
            "#502 S M -- 0\n#EOS 7\n".to_string(),
        )
    });
}

#[test]
fn in_a_word_line() {
    let columns = [(8, 6), (10, 2), (18, 1), (19, 4)];
    every_subset(&[4, 5, 6, 7, 8, 10, 16, 18, 19], &columns, |has| {
        let words = "Ja -- -- -- 500\n".repeat(if has(16) { 500 } else { 499 });
        let table = "#BOT WORDTAG\n#EOT WORDTAG\n#BOS 7 2 0 1\n";
        let line = [
            "Ja",
            choose(has(18), "Q", "UNKNOWN"),
            choose(has(10), "123456789012345678901234567890123", "M"),
            choose(has(19), "SB", "--"),
            "0",
            choose(has(8), "SE 0", "SE 500"),
            choose(has(7), "SE", "%% SE"),
        ]
        .join(" ");
        let after = "#500 S M -- 0\n#EOS 7\n".to_string();
        ([TABLES, table, &words].concat(), finish(line, has), after)
    });
}

#[test]
fn in_a_tag_row() {
    every_subset(&[4, 5, 6, 7, 8, 10, 11, 12], &[(10, 2)], |has| {
        let rows = if has(12) { 256 } else { 255 };
        let rows: String = (1..=rows).map(|id| format!("{id} t{id} Y d\n")).collect();
        let next = if has(12) { "257" } else { "256" };
        let flag = choose(has(10), "y", "Y");
        let line = [
            choose(has(8), "x", next),
            choose(has(11), "t1", "new"),
            flag,
            choose(has(7), "", "description"),
        ]
        .join(" ");
        let before = [TABLES, "#BOT WORDTAG\n", &rows].concat();
        (before, finish(line, has), "#EOT WORDTAG\n".to_string())
    });
}

#[test]
fn in_an_origin_row() {
    every_subset(&[4, 5, 6, 7, 8, 10, 11, 12], &[(10, 3)], |has| {
        let rows = if has(12) { 256 } else { 255 };
        let rows: String = (1..=rows).map(|id| format!("{id} lab\n")).collect();
        let id = choose(has(11), "1", "300");
        let comment = "c".repeat(if has(10) { 161 } else { 160 });
        let line = format!(
            "{}{id} {} %% {comment}",
            choose(has(8), "0", ""),
            choose(has(7), "", "name")
        );
        let before = ["#FORMAT 3\n#BOT EDITOR\n#EOT EDITOR\n#BOT ORIGIN\n", &rows].concat();
        (before, finish(line, has), "#EOT ORIGIN\n".to_string())
    });
}

#[test]
fn in_a_sentence_begin() {
    let line = |has: &dyn Fn(u32) -> bool| {
        let columns = [
            "#BOS 7 2",
            choose(has(8), "x", "0"),
            choose(has(15), "2", "1"),
            choose(has(7), "%%x", "%% x"),
        ];
        finish(columns.join(" "), has)
    };
    let columns = [(8, 3), (15, 4)];
    every_subset(&[4, 5, 6, 7, 8, 14, 15], &columns, |has| {
        let sentence = choose(has(14), "#BOS 7 2 0 1\n#EOS 7\n", "#BOS 8 2 0 1\n#EOS 8\n");
        (
            [TABLES, sentence].concat(),
            line(has),
            "#EOS 7\n".to_string(),
        )
    });
    every_subset(&[4, 5, 6, 7, 8, 13, 15], &columns, |has| {
        let editors = choose(has(13), "", "#BOT EDITOR\n2 kim Kim\n#EOT EDITOR\n");
        let before = ["#FORMAT 3\n#BOT ORIGIN\n1 lab\n#EOT ORIGIN\n", editors].concat();
        (before, line(has), "#EOS 7\n".to_string())
    });
}

#[test]
fn in_a_sentence_end() {
    every_subset(&[4, 5, 6, 7, 20, 21, 22], &[], |has| {
        let word = choose(has(22), "Ja x -- -- 999\n", "Ja x -- -- 0\n");
        let phrase = choose(has(21), "#501 S -- -- 0\n", "#500 S -- -- 0\n");
        let line = ["#EOS", choose(has(20), "8", "7"), choose(has(7), "%%", "")].join(" ");
        let before = [TABLES, "#BOS 7 2 0 1\n", word, phrase].concat();
        (before, finish(line, has), String::new())
    });
}

#[test]
fn in_a_format_line() {
    every_subset(&[4, 5, 6, 7, 9], &[], |has| {
        let line = ["#FORMAT", choose(has(9), "4", "3"), choose(has(7), "x", "")].join(" ");
        let after = TABLES.strip_prefix("#FORMAT 3\n").unwrap().to_string();
        (String::new(), finish(line, has), after)
    });
}
