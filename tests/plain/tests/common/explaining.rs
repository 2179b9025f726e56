//! Files with a tag table, and what `explain` must say of them.

use super::{Lent, TABLES};
use plain::{explain, Explained, OF_FILE, OF_NEITHER};

/// The tag tables: the third to the seventh in document 01's order.
const TAG_TABLES: [&str; 5] = ["WORDTAG", "MORPHTAG", "NODETAG", "EDGETAG", "SECEDGETAG"];
pub const WORDTAG: u32 = 3;
pub const NODETAG: u32 = 5;

/// An accepted file with one tag table.
pub fn with_table(table: u32, rows: &str) -> Vec<u8> {
    let name = TAG_TABLES[table as usize - 3];
    format!("{TABLES}#BOT {name}\n{rows}#EOT {name}\n").into_bytes()
}

/// The answer; after all refusals but 1 and 2 the sheet and the set must be zero.
pub fn answer(file: &[u8], list: &[u8], table: u32, tag: &[u8]) -> Explained {
    let mut lent = Lent::with_old_contents();
    let before = lent.clone();
    let answer = explain(
        file,
        list,
        table,
        tag,
        &mut lent.table_sheet,
        &mut lent.seen,
    );
    if [1, 2].contains(&answer.refusal) {
        assert!(lent == before);
    } else {
        assert!(lent.table_sheet.iter().all(|&number| number == 0));
        assert!(lent.seen.iter().all(|&byte| byte == 0));
    }
    answer
}

pub fn refused(refusal: u32) -> Explained {
    Explained {
        refusal,
        of: OF_NEITHER,
        start: 0,
        length: 0,
    }
}

pub fn granted_empty(of: u32) -> Explained {
    Explained {
        refusal: 0,
        of,
        start: 0,
        length: 0,
    }
}

/// The description must be this text, as a part of the file or of the list.
pub fn assert_described(file: &[u8], list: &[u8], table: u32, tag: &[u8], of: u32, text: &str) {
    let answer = answer(file, list, table, tag);
    assert_eq!((answer.refusal, answer.of), (0, of));
    let holder = if of == OF_FILE { file } else { list };
    let part = &holder[answer.start as usize..][..answer.length as usize];
    assert_eq!(String::from_utf8_lossy(part), text);
}
