//! The numbers of refusal, and the faults collected for one line.

pub const BUFFER_SIZE: u32 = 1;
pub const FILE_TOO_LONG: u32 = 2;
pub const UNENDED_REST: u32 = 3;
pub const ILLEGAL_BYTE: u32 = 4;
pub const LINE_TOO_LONG: u32 = 5;
pub const WRONG_KIND: u32 = 6;
pub const COLUMNS: u32 = 7;
pub const NUMBER: u32 = 8;
pub const FORMAT: u32 = 9;
pub const TEXT: u32 = 10;
pub const ROW: u32 = 11;
pub const TOO_MANY_ROWS: u32 = 12;
pub const TABLE_MISSING: u32 = 13;
pub const SENTENCE_TWICE: u32 = 14;
pub const EDITOR_OR_ORIGIN: u32 = 15;
pub const TOO_MANY_NODES: u32 = 16;
pub const PHRASE_TWICE: u32 = 17;
pub const TAG_UNKNOWN: u32 = 18;
pub const PARENT: u32 = 19;
pub const OTHER_NUMBER: u32 = 20;
pub const GAP: u32 = 21;
pub const PARENT_ABSENT: u32 = 22;
pub const ENDS_INSIDE: u32 = 23;
pub const NOT_HANDED_OUT: u32 = 24;
pub const TIDY_TOO_LONG: u32 = 25;
pub const NOT_EXPLAINED: u32 = 26;

/// A fault of a line. Those with the numbers 8, 10, 15, 18 and 19 point at a column.
#[derive(Clone, Copy, PartialEq, Eq, PartialOrd, Ord, Debug)]
pub struct Fault {
    pub refusal: u32,
    /// The first byte of the column at fault; none if the line's first byte is told.
    pub column: Option<u32>,
}

impl Fault {
    pub fn of_line(refusal: u32) -> Fault {
        let column = None;
        Fault { refusal, column }
    }
}

/// All faults of one line. They may be added in any order: the smallest number decides,
/// and the leftmost of the columns that have it.
#[derive(Default)]
pub struct Faults {
    faults: Vec<Fault>,
}

impl Faults {
    pub fn add(&mut self, refusal: u32) {
        self.faults.push(Fault::of_line(refusal));
    }

    pub fn add_if(&mut self, faulty: bool, refusal: u32) {
        if faulty {
            self.add(refusal);
        }
    }

    /// A fault of the column or text that begins at a place. Of a column that isn't
    /// there the place never shows: its absence has a smaller number.
    pub fn add_at_if(&mut self, faulty: bool, place: u32, refusal: u32) {
        if faulty {
            let column = Some(place);
            self.faults.push(Fault { refusal, column });
        }
    }

    /// `value` if the line has no fault, else the fault that decides.
    pub fn judge<T>(self, value: T) -> Result<T, Fault> {
        match self.faults.into_iter().min() {
            None => Ok(value),
            Some(decisive) => Err(decisive),
        }
    }
}
