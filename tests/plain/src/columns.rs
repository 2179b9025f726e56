//! Texts of the file and the columns of a line.

use crate::lines::{is_white, Line};
use crate::numbers::number_within;
use crate::refusals::{Faults, COLUMNS, NUMBER, TEXT};

/// A text of the file by its place; 0, 0 if there is none.
#[derive(Clone, Copy, Default, PartialEq, Eq, Debug)]
pub struct Text {
    pub start: u32,
    pub length: u32,
}

impl Text {
    pub fn between(start: usize, end: usize) -> Text {
        if start == end {
            return Text::default();
        }
        Text {
            start: start as u32,
            length: (end - start) as u32,
        }
    }

    pub fn is_absent(&self) -> bool {
        self.length == 0
    }

    pub fn end(&self) -> usize {
        self.start as usize + self.length as usize
    }

    pub fn of<'f>(&self, file: &'f [u8]) -> &'f [u8] {
        &file[self.start as usize..self.end()]
    }
}

/// The text between two places without the white bytes at both ends.
pub fn trimmed(file: &[u8], start: usize, end: usize) -> Text {
    let bytes = &file[start..end];
    let white_before = bytes.iter().take_while(|&&byte| is_white(byte)).count();
    let rest = &bytes[white_before..];
    let white_behind = rest
        .iter()
        .rev()
        .take_while(|&&byte| is_white(byte))
        .count();
    Text::between(start + white_before, end - white_behind)
}

/// The columns of one line, in their order.
pub struct Columns<'f> {
    pub file: &'f [u8],
    line_end: usize,
    texts: Vec<Text>,
}

impl<'f> Columns<'f> {
    pub fn of(line: Line<'f>) -> Columns<'f> {
        let mut texts = Vec::new();
        let mut place = line.start;
        for column in line.bytes().split(|&byte| is_white(byte)) {
            let end = place + column.len();
            if !column.is_empty() {
                texts.push(Text::between(place, end));
            }
            place = end + 1;
        }
        Columns {
            file: line.file,
            line_end: line.end,
            texts,
        }
    }

    pub fn count(&self) -> usize {
        self.texts.len()
    }

    pub fn text(&self, index: usize) -> Text {
        self.texts.get(index).copied().unwrap_or_default()
    }

    /// The bytes of a column, none if the line has no such column.
    pub fn bytes(&self, index: usize) -> &'f [u8] {
        self.text(index).of(self.file)
    }

    /// What stands behind a column, up to the line's end, trimmed.
    pub fn text_behind(&self, index: usize) -> Text {
        if index >= self.count() {
            return Text::default();
        }
        trimmed(self.file, self.text(index).end(), self.line_end)
    }

    /// The place of the first column that is exactly `%%`, or the count of columns.
    pub fn count_before_comment(&self) -> usize {
        let sign = (0..self.count()).find(|&index| self.bytes(index) == b"%%");
        sign.unwrap_or(self.count())
    }

    /// The number in a column. After a fault the answer is 0, and whatever is
    /// concluded from it has a larger number of refusal and so never shows.
    pub fn number(&self, index: usize, lowest: i64, highest: i64, faults: &mut Faults) -> i64 {
        if index >= self.count() {
            faults.add(COLUMNS);
            return 0;
        }
        let number = number_within(self.bytes(index), lowest, highest);
        faults.add_at_if(number.is_none(), self.text(index).start, NUMBER);
        number.unwrap_or(0)
    }
}

/// A text that must be there and has a limit.
pub fn check_text(text: Text, limit: u32, faults: &mut Faults) {
    faults.add_if(text.is_absent(), COLUMNS);
    faults.add_at_if(text.length > limit, text.start, TEXT);
}
