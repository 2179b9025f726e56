//! Questions about a tag made by dice, answered once more from the table sheets.

mod common;

use common::explaining::*;
use common::{survey_of, Lent};
use plain::documents::A;
use plain::generate::{explained, Question};
use plain::{Explained, OF_FILE, OF_LIST};

/// What the table sheets of two surveys say of the question.
fn by_the_sheets((file, list, table, tag): &Question) -> Explained {
    for one in [file, list] {
        let refusal = survey_of(one).refusal;
        if refusal != 0 {
            return refused(refusal);
        }
    }
    if !(3..=7).contains(table) {
        return refused(26);
    }
    for (of, one) in [(OF_FILE, file), (OF_LIST, list)] {
        let mut lent = Lent::with_old_contents();
        lent.survey(one);
        let name = *table as usize - 1;
        if lent.table_sheet[name] > 0 {
            let rows = &lent.table_sheet[7 + name * 256 * 6..][..256 * 6];
            return by_the_rows(of, one, rows, lent.table_sheet[name] - 1, tag);
        }
    }
    refused(26)
}

fn by_the_rows(of: u32, file: &[u8], rows: &[u32], count: u32, tag: &[u8]) -> Explained {
    for row in rows.chunks(6).take(count as usize) {
        if &file[row[1] as usize..][..row[2] as usize] == tag {
            return Explained {
                refusal: 0,
                of,
                start: row[3],
                length: row[4],
            };
        }
    }
    if tag == b"--" || tag == b"UNKNOWN" {
        granted_empty(of)
    } else {
        refused(26)
    }
}

#[test]
fn generated_questions_meet_every_answer() {
    // Described and empty, of the file and of the list; 26; other refusals of each.
    let mut found = [0; 7];
    for seed in 0..20_000 {
        let question = explained(seed);
        let (file, list, table, tag) = &question;
        let told = answer(file, list, *table, tag);
        assert_eq!(told, by_the_sheets(&question), "seed {seed}");
        let outcome = match (told.refusal, told.of, told.length) {
            (0, OF_FILE, 1..) => 0,
            (0, OF_LIST, 1..) => 1,
            (0, OF_FILE, 0) => 2,
            (0, _, _) => 3,
            (26, _, _) => 4,
            _ if survey_of(file).refusal != 0 => 5,
            _ => 6,
        };
        found[outcome] += 1;
    }
    println!("{found:?}");
    assert!(found.iter().all(|&count| count >= 300), "{found:?}");
}

#[test]
fn generated_questions_ask_of_every_kind() {
    let mut tables = std::collections::BTreeMap::new();
    let mut kinds = [0; 8];
    let mut hidden = 0;
    for seed in 0..10_000 {
        let question = explained(seed);
        let (file, list, table, tag) = &question;
        *tables.entry((*table).min(10)).or_insert(0) += 1;
        let marks = [
            tag == b"--",
            tag == b"UNKNOWN",
            tag.is_empty(),
            tag == b"%%",
            tag.len() > 10,
            tag.len() > 32,
            tag.iter().any(|byte| b" \t".contains(byte)),
            tag.len() <= 10 && *table == 4,
        ];
        for (count, mark) in kinds.iter_mut().zip(marks) {
            *count += usize::from(mark);
        }
        let told = answer(file, list, *table, tag);
        let by_list = answer(A, list, *table, tag);
        hidden += usize::from(told.refusal == 26 && by_list.refusal == 0);
        assert_eq!(explained(seed), question);
    }
    assert_eq!(tables.len(), 11);
    assert!(tables.values().all(|&count| count >= 50), "{tables:?}");
    assert!(kinds.iter().all(|&count| count >= 50), "{kinds:?}");
    assert!(hidden >= 75, "{hidden}");
}
