//! Tags explained, of pairs of files made by dice: from the file, from the list, by neither.

use compiled::explainings::{agreed_explaining, Asked};
use compiled::lent::{choices_of_sizes, Lent, SURVEY_SIZES};
use plain::documents::{example, A};
use plain::generate::explained;
use plain::{Explained, FILE_LIMIT, OF_FILE, OF_LIST, SEEN_SET, TABLE_SHEET};

const QUESTIONS: u64 = 24_000;
const PAIRS_FOR_EACH_TABLE: u64 = 2_000;

/// Each kind of answer and each table's number is met this often.
const OFTEN_ENOUGH: usize = 200;

/// The questions have other seeds than those of the independent reader's own tests.
const FIRST_SEED: u64 = 1_000_000;

/// Numbers of tables, of tag tables and of others, and numbers around them.
const TABLES: [u32; 12] = [0, 1, 2, 3, 4, 5, 6, 7, 8, 259, 65_539, u32::MAX];

fn refused(refusal: u32) -> Explained {
    Explained {
        refusal,
        of: 0,
        start: 0,
        length: 0,
    }
}

fn is_refused(file: &[u8]) -> bool {
    let (mut tables, mut seen) = (vec![0; TABLE_SHEET], vec![0; SEEN_SET]);
    plain::survey(file, &mut tables, &mut seen).refusal != 0
}

/// Described and empty, of the file and of the list; 26; refused, the file and the list.
fn kind_of(told: Explained, file: &[u8]) -> usize {
    match (told.refusal, told.of, told.length) {
        (0, OF_FILE, 1..) => 0,
        (0, OF_LIST, 1..) => 1,
        (0, OF_FILE, 0) => 2,
        (0, _, _) => 3,
        (26, _, _) => 4,
        _ if is_refused(file) => 5,
        _ => 6,
    }
}

#[test]
fn of_generated_questions() {
    let (mut met, mut tables) = ([0; 7], [0; 9]);
    for seed in FIRST_SEED..FIRST_SEED + QUESTIONS {
        let (file, list, table, tag) = &explained(seed);
        let (table, case) = (*table, format_args!("explaining, seed {seed}"));
        let asked = Asked {
            file,
            list,
            table,
            tag,
        };
        let (told, after) = agreed_explaining(case, asked, &Lent::noise(seed, SURVEY_SIZES));
        assert!(after.tables.entries().iter().all(|&number| number == 0));
        assert!(after.seen.entries().iter().all(|&byte| byte == 0));
        met[kind_of(told, file)] += 1;
        tables[table.min(8) as usize] += 1;
    }
    println!("answers {met:?}, tables {tables:?}");
    let often = |&count: &usize| count >= OFTEN_ENOUGH;
    assert!(met.iter().chain(&tables).all(often), "{met:?}, {tables:?}");
}

/// Granted, 26, refused for a file or a list.
fn fate_of(told: Explained) -> usize {
    match told.refusal {
        0 => 0,
        26 => 1,
        _ => 2,
    }
}

/// Only tag tables are granted, and each fate that a table's number can have is met.
fn assert_fates(table: u32, fates: [usize; 3]) {
    let [granted, others @ ..] = fates;
    let granted_rightly = match table {
        3..=7 => granted >= OFTEN_ENOUGH,
        _ => granted == 0,
    };
    let others_met = others.iter().all(|&count| count >= OFTEN_ENOUGH);
    assert!(granted_rightly && others_met, "{table}: {fates:?}");
}

#[test]
fn of_each_table() {
    let mut fates = [[0; 3]; TABLES.len()];
    for seed in FIRST_SEED..FIRST_SEED + PAIRS_FOR_EACH_TABLE {
        let (file, list, _, tag) = &explained(seed);
        let lent = Lent::noise(seed, SURVEY_SIZES);
        for (table, fates) in TABLES.into_iter().zip(&mut fates) {
            let asked = Asked {
                file,
                list,
                table,
                tag,
            };
            let case = format_args!("explaining in table {table}, seed {seed}");
            let (told, _) = agreed_explaining(case, asked, &lent);
            fates[fate_of(told)] += 1;
        }
    }
    println!("granted, 26, refused: {fates:?}");
    for (table, fates) in TABLES.into_iter().zip(fates) {
        assert_fates(table, fates);
    }
}

fn assert_unread(case: std::fmt::Arguments, asked: Asked, lent: &Lent, refusal: u32) {
    let (told, after) = agreed_explaining(case, asked, lent);
    assert_eq!(told, refused(refusal), "{case}");
    assert!(after == *lent, "{case}");
}

#[test]
fn without_a_fixed_size() {
    for seed in 0..200 {
        let (file, list, table, tag) = &explained(seed);
        let asked = Asked {
            file,
            list,
            table: *table,
            tag,
        };
        for sizes in &choices_of_sizes(SURVEY_SIZES)[1..] {
            let case = format_args!("explaining, seed {seed}, buffers of {sizes:?}");
            assert_unread(case, asked, &Lent::noise(seed, *sizes), 1);
        }
    }
}

fn asked_of<'a>(file: &'a [u8], list: &'a [u8]) -> Asked<'a> {
    Asked {
        file,
        list,
        table: 3,
        tag: b"ADJD",
    }
}

/// 2 for either comes before all that is said of the other.
#[test]
fn the_longest_file_and_one_byte_more() {
    let (mut zeros, example) = (vec![0; FILE_LIMIT + 1], example());
    let lent = Lent::noise(0, SURVEY_SIZES);
    for other in [&example[..], A, b"x", &zeros[..]] {
        for asked in [asked_of(&zeros, other), asked_of(other, &zeros)] {
            assert_unread(format_args!("one byte more"), asked, &lent, 2);
            for sizes in &choices_of_sizes(SURVEY_SIZES)[1..] {
                let case = format_args!("one byte more, buffers of {sizes:?}");
                assert_unread(case, asked, &Lent::noise(0, *sizes), 1);
            }
        }
    }
    zeros.pop();
    let case = format_args!("the longest file");
    for asked in [asked_of(&zeros, &example), asked_of(&example, &zeros)] {
        let (told, _) = agreed_explaining(case, asked, &lent);
        assert_eq!(told, refused(3));
    }
}
