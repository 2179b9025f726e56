//! The file from top to bottom: each line is judged until one is refused.

use crate::columns::Columns;
use crate::lines::{next_line, Line, Next};
use crate::numbers::FORMAT_NUMBERS;
use crate::refusals::*;
use crate::sentences::{begin_sentence, OpenSentence, Sentence};
use crate::tables::{table_named, Table, Tables, EDITOR, ORIGIN};

const SENTENCE_NUMBERS_IN_ALL: usize = 65_536;

/// What a file holds: the tables closed and the sentences ended before the first
/// fault, if there is one.
pub struct Reading<'f> {
    pub file: &'f [u8],
    pub tables: Tables,
    pub sentences: Vec<Sentence>,
    pub sound_end: usize,
    pub refusal: u32,
    pub place: usize,
    format_seen: bool,
    open_table: Option<Table>,
    open_sentence: Option<OpenSentence>,
    number_used: Vec<bool>,
}

pub fn read(file: &[u8]) -> Reading<'_> {
    let mut reading = Reading {
        file,
        tables: Tables::default(),
        sentences: Vec::new(),
        sound_end: 0,
        refusal: 0,
        place: 0,
        format_seen: false,
        open_table: None,
        open_sentence: None,
        number_used: vec![false; SENTENCE_NUMBERS_IN_ALL],
    };
    reading.refusal = reading.take_lines();
    reading
}

impl Reading<'_> {
    /// Takes line after line; `place` stays at the first byte of the line judged, or
    /// goes on to the column at fault.
    fn take_lines(&mut self) -> u32 {
        loop {
            match next_line(self.file, self.place) {
                Next::FileEnd => return self.refusal_at_file_end(),
                Next::UnendedRest => return UNENDED_REST,
                Next::Line(line) => match self.take_line(line) {
                    Err(fault) => {
                        self.place = fault.column.map_or(self.place, |column| column as usize);
                        return fault.refusal;
                    }
                    Ok(()) => self.place = line.end + 1,
                },
            }
        }
    }

    fn refusal_at_file_end(&self) -> u32 {
        if !self.format_seen {
            FORMAT
        } else if self.open_table.is_some() || self.open_sentence.is_some() {
            ENDS_INSIDE
        } else if self.tables[ORIGIN].is_none() || self.tables[EDITOR].is_none() {
            TABLE_MISSING
        } else {
            0
        }
    }

    fn take_line(&mut self, line: Line) -> Result<(), Fault> {
        line.check_bytes()?;
        if line.is_ignored() {
            return Ok(());
        }
        if line.begins_white() {
            return Err(Fault::of_line(WRONG_KIND));
        }
        let columns = Columns::of(line);
        if !self.format_seen {
            self.take_format_line(&columns)
        } else if self.open_table.is_some() {
            self.take_line_in_table(&columns)
        } else if self.open_sentence.is_some() {
            self.take_line_in_sentence(line, &columns)
        } else {
            self.take_line_outside(&columns)
        }
    }

    fn take_format_line(&mut self, columns: &Columns) -> Result<(), Fault> {
        if columns.bytes(0) != b"#FORMAT" {
            return Err(Fault::of_line(WRONG_KIND));
        }
        let mut faults = Faults::default();
        let format = columns.number(1, FORMAT_NUMBERS.0, FORMAT_NUMBERS.1, &mut faults);
        faults.add_if(columns.count() > 2, COLUMNS);
        faults.add_if(format != 3, FORMAT);
        faults.judge(())?;
        self.format_seen = true;
        Ok(())
    }

    /// Outside tables and sentences a table or a sentence may begin, nothing else.
    fn take_line_outside(&mut self, columns: &Columns) -> Result<(), Fault> {
        match columns.bytes(0) {
            b"#BOT" if self.sentences.is_empty() => self.begin_table(columns),
            b"#BOS" => {
                let sentence = begin_sentence(columns, &self.tables, &self.number_used)?;
                self.open_sentence = Some(sentence);
                Ok(())
            }
            _ => Err(Fault::of_line(WRONG_KIND)),
        }
    }

    fn begin_table(&mut self, columns: &Columns) -> Result<(), Fault> {
        let mut faults = Faults::default();
        faults.add_if(columns.count() != 2, COLUMNS);
        let name = table_named(columns.bytes(1)).filter(|&name| self.tables[name].is_none());
        faults.add_if(columns.count() > 1 && name.is_none(), WRONG_KIND);
        faults.judge(())?;
        self.open_table = name.map(|name| Table {
            name,
            rows: Vec::new(),
        });
        Ok(())
    }

    fn take_line_in_table(&mut self, columns: &Columns) -> Result<(), Fault> {
        if columns.bytes(0) == b"#EOT" {
            return self.end_table(columns);
        }
        if columns.bytes(0).starts_with(b"#") {
            return Err(Fault::of_line(WRONG_KIND));
        }
        match &mut self.open_table {
            Some(table) => table.take_row(columns),
            None => Ok(()),
        }
    }

    fn end_table(&mut self, columns: &Columns) -> Result<(), Fault> {
        let open = self.open_table.as_ref().map(|table| table.name);
        let mut faults = Faults::default();
        faults.add_if(columns.count() != 2, COLUMNS);
        let other_name = table_named(columns.bytes(1)) != open;
        faults.add_if(columns.count() > 1 && other_name, WRONG_KIND);
        faults.judge(())?;
        if let Some(table) = self.open_table.take() {
            let name = table.name;
            self.tables[name] = Some(table);
        }
        Ok(())
    }

    fn take_line_in_sentence(&mut self, line: Line, columns: &Columns) -> Result<(), Fault> {
        let Some(open) = &mut self.open_sentence else {
            return Ok(());
        };
        if columns.bytes(0) != b"#EOS" {
            return open.take_node(columns, &self.tables);
        }
        open.check_end(columns)?;
        self.hand_out(line.end + 1);
        Ok(())
    }

    fn hand_out(&mut self, end: usize) {
        if let Some(open) = self.open_sentence.take() {
            self.number_used[open.sentence.number as usize] = true;
            self.sentences.push(open.sentence);
            self.sound_end = end;
        }
    }
}
