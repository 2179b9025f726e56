//! A corpus like those people have, for measuring time.

use super::dice::Dice;
use crate::tables::{EDGETAG, MORPHTAG, NAMES, NODETAG, SECEDGETAG, WORDTAG};

const SYLLABLES: [&str; 24] = [
    "der", "be", "ge", "ver", "ein", "ung", "lich", "keit", "sch", "auf", "an", "stra", "haus",
    "zeit", "en", "er", "te", "st", "a", "o", "um", "ver", "kon", "tion",
];

/// How many tags a table has, and how these begin; a tag ends with its row's id.
struct TagTable {
    table: usize,
    tags: usize,
    beginnings: [&'static str; 4],
}

const TAG_TABLES: [TagTable; 5] = [
    TagTable {
        table: WORDTAG,
        tags: 55,
        beginnings: ["NN", "VVFIN", "ADJ", "$"],
    },
    TagTable {
        table: MORPHTAG,
        tags: 30,
        beginnings: ["Masc.Nom.Sg.", "3.Akk.Pl.", "Pos.", "3.Sg.Pres.Ind."],
    },
    TagTable {
        table: NODETAG,
        tags: 25,
        beginnings: ["S", "NP", "VP", "CNP"],
    },
    TagTable {
        table: EDGETAG,
        tags: 45,
        beginnings: ["SB", "HD", "NK", "OA"],
    },
    TagTable {
        table: SECEDGETAG,
        tags: 5,
        beginnings: ["SE", "OC", "CJ", "CD"],
    },
];

fn tag(table: usize, id: usize) -> String {
    let beginnings = TAG_TABLES[table - WORDTAG].beginnings;
    format!("{}{id}", beginnings[id % beginnings.len()])
}

fn any_tag(dice: &mut Dice, table: usize) -> String {
    tag(table, dice.between(1, TAG_TABLES[table - WORDTAG].tags))
}

/// A corpus of at most 65,535 sentences, about a kilobyte each, in ascending order.
pub fn corpus(sentences: usize) -> Vec<u8> {
    assert!(sentences <= 65_535);
    let mut dice = Dice::new(1997);
    let mut file = String::from("%% A corpus made by dice\n#FORMAT 3\n");
    write_origins_and_editors(&mut file);
    for TagTable { table, tags, .. } in TAG_TABLES {
        write_tag_table(&mut file, table, tags);
    }
    for number in 1..=sentences {
        write_sentence(&mut file, &mut dice, number);
    }
    file.into_bytes()
}

fn write_origins_and_editors(file: &mut String) {
    *file += "#BOT ORIGIN\n";
    for id in 1..=20 {
        *file += &format!("{id}\tpart{id}.txt\t%% newspaper text, part {id}\n");
    }
    *file += "#EOT ORIGIN\n#BOT EDITOR\n-1\t--\t<automatic>\n0\t--\t<not named>\n";
    for id in 1..=12 {
        *file += &format!("{id}\tlogin{id}\tEditor Number {id}\n");
    }
    *file += "#EOT EDITOR\n";
}

fn write_tag_table(file: &mut String, table: usize, tags: usize) {
    let name = NAMES[table];
    let flag = |letter: &str| {
        if table == WORDTAG {
            format!("{letter}\t")
        } else {
            String::new()
        }
    };
    *file += &format!(
        "#BOT {name}\n-1\tUNKNOWN\t{}unknown tag, error\n",
        flag("N")
    );
    *file += &format!("0\t--\t{}not bound\n", flag("N"));
    for index in 1..=tags {
        let tag = tag(table, index);
        *file += &format!(
            "{index}\t{tag}\t{}the use of {tag} in the {name} table\n",
            flag("Y")
        );
    }
    *file += &format!("#EOT {name}\n");
}

fn write_sentence(file: &mut String, dice: &mut Dice, number: usize) {
    let words = dice.between(5, 29);
    let phrases = (words / 2).max(1);
    let date = 847_000_000 + dice.below(60_000_000);
    *file += &format!(
        "#BOS {number} {} {date} {}",
        dice.between(1, 12),
        dice.between(1, 20)
    );
    *file += if dice.one_in(20) {
        " %% to be looked at again\n"
    } else {
        "\n"
    };
    for _ in 1..words {
        let word = any_word(dice);
        let parent = dice.between(500, 499 + phrases);
        write_node(file, dice, &word, WORDTAG, parent);
    }
    write_node(file, dice, ".", WORDTAG, 0);
    for phrase in 500..500 + phrases {
        let last = phrase == 499 + phrases;
        let parent = if last {
            0
        } else {
            dice.between(phrase + 1, 499 + phrases)
        };
        write_node(file, dice, &format!("#{phrase}"), NODETAG, parent);
    }
    *file += &format!("#EOS {number}\n");
}

fn any_word(dice: &mut Dice) -> String {
    let mut word = String::new();
    for _ in 0..*dice.pick(&[1, 1, 2, 2, 2, 3, 3, 5]) {
        word += *dice.pick(&SYLLABLES);
    }
    word
}

fn write_node(file: &mut String, dice: &mut Dice, first: &str, table: usize, parent: usize) {
    let tag = any_tag(dice, table);
    let morphology = if dice.one_in(3) {
        "--".to_string()
    } else {
        any_tag(dice, MORPHTAG)
    };
    let edge = if parent == 0 {
        "--".to_string()
    } else {
        any_tag(dice, EDGETAG)
    };
    *file += &format!("{first}{}{tag}{}", tabs(first, 24), tabs(&tag, 16));
    *file += &format!("{morphology}{}{edge}\t{parent}", tabs(&morphology, 16));
    if parent > 0 && dice.one_in(60) {
        *file += &format!("\t{}\t{parent}", any_tag(dice, SECEDGETAG));
    }
    *file += "\n";
}

/// The tabs that bring a column up to a width, at least one.
fn tabs(column: &str, width: usize) -> String {
    let missing = width.saturating_sub(column.len());
    "\t".repeat(missing.div_ceil(8).max(1))
}
