//! Tags explained by the compiled library beside the independent reader.

use std::fmt::Arguments;

use hraunlik::calls;
use plain::Explained;

use crate::beside::keep;
use crate::lent::Lent;

/// A file, a list, a table's number and a tag.
#[derive(Clone, Copy)]
pub struct Asked<'a> {
    pub file: &'a [u8],
    pub list: &'a [u8],
    pub table: u32,
    pub tag: &'a [u8],
}

impl Asked<'_> {
    fn compiled(self, lent: &mut Lent) -> Explained {
        let (tables, seen) = (lent.tables.lent(), lent.seen.lent());
        let told = calls::explain(self.file, self.list, self.table, self.tag, tables, seen);
        Explained {
            refusal: told.refusal,
            of: told.of,
            start: told.start,
            length: told.length,
        }
    }

    fn plain(self, lent: &mut Lent) -> Explained {
        let (tables, seen) = (lent.tables.lent(), lent.seen.lent());
        plain::explain(self.file, self.list, self.table, self.tag, tables, seen)
    }
}

/// An empty part stands at 0; where the reader's own does means nothing.
fn meant(told: Explained) -> Explained {
    Explained {
        start: if told.length > 0 { told.start } else { 0 },
        ..told
    }
}

/// The answer to a question, and the buffers afterwards.
pub fn agreed_explaining(case: Arguments, asked: Asked, lent: &Lent) -> (Explained, Lent) {
    let (mut compiled, mut plain) = (lent.clone(), lent.clone());
    let answer = asked.compiled(&mut compiled);
    let expected = meant(asked.plain(&mut plain));
    if answer != expected || compiled != plain {
        let differences = compiled.differences(&plain);
        let file = keep(format_args!("{case}, file"), asked.file);
        let list = keep(format_args!("{case}, list"), asked.list);
        let (table, tag) = (asked.table, asked.tag.escape_ascii());
        panic!(
            "{case}, table {table}, tag {tag}: compiled {answer:?}, plain {expected:?}{differences}; {file}; {list}"
        );
    }
    (answer, compiled)
}
