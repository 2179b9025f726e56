//! Ordinary lines, which take the quick way: files of nothing else, each byte of them changed,
//! tags of every length and their neighbours, tables whose tags share their hints, and cuts
//! and openings of all these.

use compiled::beside::{agreed, Call};
use plain::generate::Dice;

const TABLES: [(&str, usize); 5] = [
    ("WORDTAG", 10),
    ("MORPHTAG", 32),
    ("NODETAG", 10),
    ("EDGETAG", 10),
    ("SECEDGETAG", 10),
];

/// The seven tables, whose tags these give for each table's longest.
fn front(tags: impl Fn(usize) -> Vec<String>) -> String {
    let mut file = String::from(
        "#FORMAT 3\n#BOT ORIGIN\n1 lab\n#EOT ORIGIN\n#BOT EDITOR\n2 kim Kim\n#EOT EDITOR\n",
    );
    for (name, longest) in TABLES {
        let flag = if name == "WORDTAG" { " Y" } else { "" };
        file += &format!("#BOT {name}\n");
        for (id, tag) in tags(longest).iter().enumerate() {
            file += &format!("{} {tag}{flag} said\n", id + 1);
        }
        file += &format!("#EOT {name}\n");
    }
    file
}

/// A survey and an opening agree, both of the file and of its sentence's place.
fn both_agree(what: std::fmt::Arguments, file: &[u8], dice: &mut Dice) -> u32 {
    let (answer, _) = agreed(what, Call::Survey, file, dice.roll());
    let begins = file.windows(5).position(|bytes| bytes == b"#BOS ");
    if let Some(place) = begins {
        agreed(what, Call::OpenAt(place as u32), file, dice.roll());
    }
    answer.refusal
}

fn ordinary_file() -> Vec<u8> {
    let file = front(|_| ["N", "VVFIN", "APPRART"].map(String::from).to_vec());
    let sentence = "#BOS 7 2 0 1\nJa\tN\t--\tN\t500\nso\tVVFIN\tAPPRART\tVVFIN\t501\n\
        #500\tN\tVVFIN\tN\t501\n#501\tAPPRART\t--\t--\t0\n#EOS 7\n";
    (file + sentence).into_bytes()
}

#[test]
fn every_byte_of_ordinary_lines() {
    let (mut dice, file) = (Dice::new(21), ordinary_file());
    assert_eq!(both_agree(format_args!("as it is"), &file, &mut dice), 0);
    let begins = file.len() - 125;
    for place in begins..file.len() {
        for byte in 0..=u8::MAX {
            let mut changed = file.clone();
            changed[place] = byte;
            both_agree(format_args!("byte {byte} at {place}"), &changed, &mut dice);
        }
    }
}

#[test]
fn every_cut_and_every_gap_of_ordinary_lines() {
    let (mut dice, file) = (Dice::new(22), ordinary_file());
    for place in 0..=file.len() {
        both_agree(format_args!("cut at {place}"), &file[..place], &mut dice);
        for put in [&b" "[..], b"\t", b"%%", b"\n", b"5", b"#"] {
            let longer = [&file[..place], put, &file[place..]].concat();
            both_agree(format_args!("{put:?} put at {place}"), &longer, &mut dice);
        }
        if place < file.len() {
            let shorter = [&file[..place], &file[place + 1..]].concat();
            both_agree(format_args!("without {place}"), &shorter, &mut dice);
        }
    }
}

/// A line whose tag, morphology and edge are these, as a word and as a phrase.
fn with_tags(tables: &str, [tag, morphology, edge]: [&str; 3]) -> [Vec<u8>; 2] {
    let word = format!("a {tag} {morphology} {edge} 500\n#500 -- -- -- 0\n");
    let phrase = format!("a -- -- -- 0\n#500 {tag} {morphology} {edge} 501\n#501 -- -- -- 0\n");
    [word, phrase].map(|lines| format!("{tables}#BOS 7 2 0 1\n{lines}#EOS 7\n").into_bytes())
}

/// The tag with another byte at a place, without it, and with one more there.
fn neighbours(tag: &str) -> Vec<String> {
    (0..tag.len())
        .flat_map(|place| {
            let (before, behind) = (&tag[..place], &tag[place + 1..]);
            [
                format!("{before}y{behind}"),
                format!("{before}{behind}"),
                format!("{before}y{}", &tag[place..]),
            ]
        })
        .filter(|neighbour| !neighbour.is_empty())
        .collect()
}

#[test]
fn tags_of_every_length_and_their_neighbours() {
    let mut dice = Dice::new(23);
    let of_length = |length: usize| "abcdefghijklmnopqrstuvwxyzABCDEF"[..length].to_string();
    let tables = front(|longest| (1..=longest).map(of_length).collect());
    let mut granted = 0;
    for length in 1..=32 {
        let (own, short) = (of_length(length), of_length(length.min(10)));
        for other in neighbours(&own)
            .iter()
            .chain([&own, &"UNKNOWN".to_string()])
        {
            let few = if other.len() <= 10 { other } else { &short };
            for tags in [
                [few, &own, &short],
                [&short, other, &short],
                [&short, &own, few],
            ] {
                let tags = tags.map(|tag| &tag[..]);
                for file in with_tags(&tables, tags) {
                    let refusal = both_agree(format_args!("tags {tags:?}"), &file, &mut dice);
                    granted += usize::from(refusal == 0);
                }
            }
        }
    }
    assert!(granted > 32 * 6, "{granted} files are accepted");
}

/// Rows that differ in two letters at one place, or are the same letters in another order.
#[test]
fn tables_whose_tags_share_their_hints() {
    let mut dice = Dice::new(24);
    let letter = |digit: usize| char::from(b'a' + digit as u8);
    for place in [0, 2, 4, 8] {
        let tag = |row: usize, longest: usize| {
            let (high, low) = (letter(row / 16), letter(row % 16));
            let behind = "T".repeat(longest - place - 2);
            format!("{}{high}{low}{behind}", "T".repeat(place))
        };
        let tables = front(|longest| (0..256).map(|row| tag(row, longest)).collect());
        for row in 0..256 {
            let own = [tag(row, 10), tag(row, 32)];
            for file in with_tags(&tables, [&own[0], &own[1], &own[0]]) {
                let what = format_args!("row {row}, place {place}");
                assert_eq!(both_agree(what, &file, &mut dice), 0, "{what}");
            }
        }
        for missing in [tag(0, 10).replace('a', "q"), "T".repeat(10)] {
            for file in with_tags(&tables, [&missing, "--", "--"]) {
                let what = format_args!("no row {missing}");
                assert_eq!(both_agree(what, &file, &mut dice), 18, "{what}");
            }
        }
    }
}
