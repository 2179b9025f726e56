//! A tidy file of the largest size.

use crate::FILE_LIMIT;

/// A tidy file as long as a file may be: its tables, then lines as long as lines may be.
pub fn longest_tidy(tables: &[u8]) -> Vec<u8> {
    let mut file = Vec::with_capacity(FILE_LIMIT);
    file.extend(tables);
    let ending = b"\tx\tx\t--\t0\n";
    let mut number = 0;
    while file.len() < FILE_LIMIT {
        number += 1;
        file.extend(format!("#BOS {number} 0 0 1\n").as_bytes());
        let end = format!("#EOS {number}\n").into_bytes();
        for _ in 0..500 {
            let room = FILE_LIMIT - file.len() - end.len();
            // What is left at last must hold another sentence or nothing.
            let length = if room < 4_097 {
                room
            } else {
                4_097.min(room - 100)
            };
            if length < 20 {
                break;
            }
            file.extend(std::iter::repeat_n(b'w', length - ending.len()));
            file.extend(ending);
        }
        file.extend(end);
    }
    file
}
