//! The tags of a table's rows, which differ in one way or another.

use std::sync::OnceLock;

/// The tag of a row, counted from 1 to 256, in a table whose tags have at most so many bytes.
pub type Tag = fn(row: usize, longest: usize) -> String;

/// What the tags of a table of 256 rows have in common.
pub const TAGS: [(&str, Tag); 10] = [
    ("numbered tags", numbered),
    ("tags of two bytes", shortest),
    ("tags alike to the hints", alike_to_the_hints),
    ("tags unlike in the first two bytes", unlike_in_front),
    ("tags unlike in two bytes inside", unlike_inside),
    ("tags unlike in the last two bytes", unlike_at_the_end),
    ("tags that are anagrams", anagrams),
    ("anagrams with the same ends", anagrams_inside),
    (
        "tags of one outline, unlike at the end",
        outlined_at_the_end,
    ),
    ("tags of one outline, unlike inside", outlined_inside),
];

pub fn numbered(row: usize, _: usize) -> String {
    format!("T{row}")
}

/// Two letters, of which no two rows have the same.
pub fn shortest(row: usize, _: usize) -> String {
    lettered(row, 2, 0)
}

fn unlike_in_front(row: usize, longest: usize) -> String {
    lettered(row, longest, 0)
}

/// Tags that all have the first of the 512 places for hints, as `table_sheet::hints` makes it of
/// a tag of eight bytes or more.
fn alike_to_the_hints(row: usize, longest: usize) -> String {
    static FOUND: [OnceLock<Vec<String>>; 2] = [OnceLock::new(), OnceLock::new()];
    let found = &FOUND[usize::from(longest > 10)];
    found.get_or_init(|| found_alike(longest))[row - 1].clone()
}

/// Found by trying: one of some 512 has that place.
fn found_alike(longest: usize) -> Vec<String> {
    let tags = (0..).map(|rank| spelled(rank, longest));
    let alike = tags.filter(|tag| hint_place(tag.as_bytes()) == 0);
    alike.take(256).collect()
}

fn hint_place(tag: &[u8]) -> u64 {
    let number = |bytes: &[u8]| u64::from_le_bytes(bytes.try_into().expect("eight bytes"));
    let (front, back) = (number(&tag[..8]), number(&tag[tag.len() - 8..]));
    let number = front ^ (back << 3);
    let folded = (number ^ (number >> 32)) & 0xffff_ffff;
    (folded * 1_150_506_051 / 8_388_608) % 512
}

/// A rank in letters, in front of others.
fn spelled(mut rank: usize, length: usize) -> String {
    let letters = (0..length).map(|_| {
        let letter = char::from(b'a' + (rank % 26) as u8);
        rank /= 26;
        letter
    });
    letters.collect()
}

fn unlike_inside(row: usize, longest: usize) -> String {
    lettered(row, longest, longest / 2 - 1)
}

fn unlike_at_the_end(row: usize, longest: usize) -> String {
    lettered(row, longest, longest - 2)
}

/// The same bytes in another order for each row.
fn anagrams(row: usize, longest: usize) -> String {
    centred(&permuted("ABCDEFGHIJ", row * 14_173), longest)
}

/// Anagrams whose first two and last two bytes are the same too.
fn anagrams_inside(row: usize, longest: usize) -> String {
    centred(&permuted("ABCDEF", row * 2), longest)
}

/// Tags that begin alike and have the first of the 1,024 outlines of `table_sheet::outlines`, so
/// that a new row's tag is compared with those of all rows before it.
fn outlined_at_the_end(row: usize, longest: usize) -> String {
    static FOUND: [OnceLock<Vec<String>>; 2] = [OnceLock::new(), OnceLock::new()];
    let found = &FOUND[usize::from(longest > 10)];
    found.get_or_init(|| found_outlined(longest, longest - 3))[row - 1].clone()
}

/// The same, but that they end alike too.
fn outlined_inside(row: usize, longest: usize) -> String {
    static FOUND: [OnceLock<Vec<String>>; 2] = [OnceLock::new(), OnceLock::new()];
    let found = &FOUND[usize::from(longest > 10)];
    found.get_or_init(|| found_outlined(longest, longest / 2 - 1))[row - 1].clone()
}

/// Found by trying: one of some 1,024 has that outline.
fn found_outlined(longest: usize, place: usize) -> Vec<String> {
    let tags = (0..).map(|rank| in_three(rank, longest, place));
    let alike = tags.filter(|tag| outline(tag.as_bytes()) == 0);
    alike.take(256).collect()
}

fn outline(tag: &[u8]) -> usize {
    let more = |outline, &byte: &u8| (37 * outline + usize::from(byte)) % 1_024;
    tag.iter().fold(0, more)
}

/// A rank in three bytes at a place, each one of eighty; all others are alike.
fn in_three(rank: usize, length: usize, place: usize) -> String {
    let byte = |digit: usize| char::from(b'(' + (digit % 80) as u8);
    let three: String = [rank / 6_400, rank / 80, rank].map(byte).iter().collect();
    let (before, behind) = ("T".repeat(place), "T".repeat(length - place - 3));
    format!("{before}{three}{behind}")
}

/// As many bytes as a tag may have, all alike but two at a place, which tell the row.
fn lettered(row: usize, length: usize, place: usize) -> String {
    let letter = |digit: usize| char::from(b'a' + digit as u8);
    let (high, low) = (letter((row - 1) / 16), letter((row - 1) % 16));
    let (before, behind) = ("T".repeat(place), "T".repeat(length - place - 2));
    format!("{before}{high}{low}{behind}")
}

fn centred(letters: &str, length: usize) -> String {
    let before = (length - letters.len()) / 2;
    let (before, behind) = ("T".repeat(before), length - before - letters.len());
    format!("{before}{letters}{}", "T".repeat(behind))
}

/// The order of these letters that has a rank among all their orders; ranks begin anew behind
/// the last.
fn permuted(letters: &str, mut rank: usize) -> String {
    let mut left: Vec<char> = letters.chars().collect();
    let mut order = String::new();
    while !left.is_empty() {
        order.push(left.remove(rank % left.len()));
        rank /= left.len() + 1;
    }
    order
}
