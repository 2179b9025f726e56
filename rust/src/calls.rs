//! The library's functions as they are, over slices of any length. Each answers with a
//! refusal, 0 if granted; a buffer that hasn't its size is refused with 1, and nothing changes.

use crate::{Explained, Survey, Written};

extern "C" {
    fn hraunlik_survey(
        file: *const u8,
        file_length: usize,
        tables: *mut u32,
        tables_length: usize,
        seen: *mut u8,
        seen_length: usize,
        place: *mut u32,
        sentences: *mut u32,
        sound_end: *mut u32,
    ) -> u32;
    fn hraunlik_index(
        file: *const u8,
        file_length: usize,
        tables: *mut u32,
        tables_length: usize,
        seen: *mut u8,
        seen_length: usize,
        places: *mut u32,
        places_length: usize,
        place: *mut u32,
        sentences: *mut u32,
        sound_end: *mut u32,
    ) -> u32;
    fn hraunlik_open(
        file: *const u8,
        file_length: usize,
        number: u32,
        tables: *mut u32,
        tables_length: usize,
        seen: *mut u8,
        seen_length: usize,
        sheet: *mut u32,
        sheet_length: usize,
        edges: *mut u32,
        edges_length: usize,
    ) -> u32;
    fn hraunlik_open_at(
        file: *const u8,
        file_length: usize,
        place: u32,
        sheet: *mut u32,
        sheet_length: usize,
        edges: *mut u32,
        edges_length: usize,
    ) -> u32;
    fn hraunlik_write(
        file: *const u8,
        file_length: usize,
        output: *mut u8,
        output_length: usize,
        tables: *mut u32,
        tables_length: usize,
        seen: *mut u8,
        seen_length: usize,
        sheet: *mut u32,
        sheet_length: usize,
        edges: *mut u32,
        edges_length: usize,
        place: *mut u32,
        length: *mut u32,
    ) -> u32;
    fn hraunlik_explain(
        file: *const u8,
        file_length: usize,
        list: *const u8,
        list_length: usize,
        table: u32,
        tag: *const u8,
        tag_length: usize,
        tables: *mut u32,
        tables_length: usize,
        seen: *mut u8,
        seen_length: usize,
        of: *mut u32,
        start: *mut u32,
        length: *mut u32,
    ) -> u32;
}

// SAFETY, of each call below: every slice is lent with its own length, those that are filled
// by `&mut`, so they overlap nothing; the numbers answered are locals. That the functions touch
// nothing else, whatever the bytes and the lengths are, is proved of them, and no pointer
// outlives its call.

/// The answer of a call that puts three numbers where it is told to.
fn surveyed(call: impl FnOnce(&mut u32, &mut u32, &mut u32) -> u32) -> Survey {
    let [mut place, mut sentences, mut sound_end] = [u32::MAX; 3];
    let refusal = call(&mut place, &mut sentences, &mut sound_end);
    Survey {
        refusal,
        place,
        sentences,
        sound_end,
    }
}

/// Checks the file and fills the table sheet and the seen set.
pub fn survey(file: &[u8], tables: &mut [u32], seen: &mut [u8]) -> Survey {
    surveyed(|place, sentences, sound_end| unsafe {
        hraunlik_survey(
            file.as_ptr(),
            file.len(),
            tables.as_mut_ptr(),
            tables.len(),
            seen.as_mut_ptr(),
            seen.len(),
            place,
            sentences,
            sound_end,
        )
    })
}

/// A survey that also fills the list of places: entry n is one more than the place of
/// sentence n if it is handed out, else 0.
pub fn index(file: &[u8], tables: &mut [u32], seen: &mut [u8], places: &mut [u32]) -> Survey {
    surveyed(|place, sentences, sound_end| unsafe {
        hraunlik_index(
            file.as_ptr(),
            file.len(),
            tables.as_mut_ptr(),
            tables.len(),
            seen.as_mut_ptr(),
            seen.len(),
            places.as_mut_ptr(),
            places.len(),
            place,
            sentences,
            sound_end,
        )
    })
}

/// Opens the sentence with a number: 0, or 24 if no such sentence is handed out. It surveys
/// the file, and fills the table sheet and the seen set too.
pub fn open(
    file: &[u8],
    number: u32,
    tables: &mut [u32],
    seen: &mut [u8],
    sheet: &mut [u32],
    edges: &mut [u32],
) -> u32 {
    unsafe {
        hraunlik_open(
            file.as_ptr(),
            file.len(),
            number,
            tables.as_mut_ptr(),
            tables.len(),
            seen.as_mut_ptr(),
            seen.len(),
            sheet.as_mut_ptr(),
            sheet.len(),
            edges.as_mut_ptr(),
            edges.len(),
        )
    }
}

/// Opens the sentence that begins at a place, reading it alone: 0, or 24 if none does.
pub fn open_at(file: &[u8], place: u32, sheet: &mut [u32], edges: &mut [u32]) -> u32 {
    unsafe {
        hraunlik_open_at(
            file.as_ptr(),
            file.len(),
            place,
            sheet.as_mut_ptr(),
            sheet.len(),
            edges.as_mut_ptr(),
            edges.len(),
        )
    }
}

/// Writes the tidy text of an accepted file to the beginning of the output.
pub fn write(
    file: &[u8],
    output: &mut [u8],
    tables: &mut [u32],
    seen: &mut [u8],
    sheet: &mut [u32],
    edges: &mut [u32],
) -> Written {
    let [mut place, mut length] = [u32::MAX; 2];
    let refusal = unsafe {
        hraunlik_write(
            file.as_ptr(),
            file.len(),
            output.as_mut_ptr(),
            output.len(),
            tables.as_mut_ptr(),
            tables.len(),
            seen.as_mut_ptr(),
            seen.len(),
            sheet.as_mut_ptr(),
            sheet.len(),
            edges.as_mut_ptr(),
            edges.len(),
            &mut place,
            &mut length,
        )
    };
    Written {
        refusal,
        place,
        length,
    }
}

/// The description of a tag of a table, named by its place from 1 on: of the file if it has the
/// table, else of the list. The table sheet and the seen set end as zeros.
pub fn explain(
    file: &[u8],
    list: &[u8],
    table: u32,
    tag: &[u8],
    tables: &mut [u32],
    seen: &mut [u8],
) -> Explained {
    let [mut of, mut start, mut length] = [u32::MAX; 3];
    let refusal = unsafe {
        hraunlik_explain(
            file.as_ptr(),
            file.len(),
            list.as_ptr(),
            list.len(),
            table,
            tag.as_ptr(),
            tag.len(),
            tables.as_mut_ptr(),
            tables.len(),
            seen.as_mut_ptr(),
            seen.len(),
            &mut of,
            &mut start,
            &mut length,
        )
    };
    Explained {
        refusal,
        of,
        start,
        length,
    }
}
