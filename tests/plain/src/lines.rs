//! Lines: where they end, which bytes they may hold, which of them are ignored.

use crate::refusals::{Fault, Faults, ILLEGAL_BYTE, LINE_TOO_LONG};

pub const LONGEST_LINE: usize = 4_096;

/// A line of the file without its newline: the bytes from `start` to `end`.
#[derive(Clone, Copy)]
pub struct Line<'f> {
    pub file: &'f [u8],
    pub start: usize,
    pub end: usize,
}

/// What stands at a place of the file that begins a line.
pub enum Next<'f> {
    Line(Line<'f>),
    UnendedRest,
    FileEnd,
}

pub fn next_line(file: &[u8], start: usize) -> Next<'_> {
    if start == file.len() {
        return Next::FileEnd;
    }
    match file[start..].iter().position(|&byte| byte == b'\n') {
        Some(length) => Next::Line(Line {
            file,
            start,
            end: start + length,
        }),
        None => Next::UnendedRest,
    }
}

pub fn is_white(byte: u8) -> bool {
    byte == 9 || byte == 32
}

/// May the byte stand in a line? The newline ends one, so it is not asked about.
pub fn is_legal(byte: u8) -> bool {
    matches!(byte, 9 | 32..=127 | 160..=255)
}

impl<'f> Line<'f> {
    pub fn bytes(&self) -> &'f [u8] {
        &self.file[self.start..self.end]
    }

    /// The faults every line can have, the ignored ones too.
    pub fn check_bytes(&self) -> Result<(), Fault> {
        let bytes = self.bytes();
        let mut faults = Faults::default();
        faults.add_if(bytes.iter().any(|&byte| !is_legal(byte)), ILLEGAL_BYTE);
        faults.add_if(bytes.len() > LONGEST_LINE, LINE_TOO_LONG);
        faults.judge(())
    }

    pub fn is_ignored(&self) -> bool {
        let bytes = self.bytes();
        bytes.starts_with(b"%%") || bytes.iter().all(|&byte| is_white(byte))
    }

    pub fn begins_white(&self) -> bool {
        self.bytes().first().is_some_and(|&byte| is_white(byte))
    }
}
