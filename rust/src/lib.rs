//! Treebank files in the NeGra export format, version 3, read by a proved library. All judging
//! is the library's; here its answers get types.
//!
//! ```
//! let file = std::fs::read("../examples/schade.export")?;
//! let corpus = hraunlik::Corpus::new(&file);
//! for sentence in &corpus {
//!     let words: Vec<&[u8]> = sentence.words().filter_map(|word| word.word()).collect();
//!     assert_eq!((sentence.number(), words[4]), (12, &b"Arzt"[..]));
//! }
//! # Ok::<(), std::io::Error>(())
//! ```
//!
//! Texts are bytes as in the file, mostly Latin-1. `tools/staticlib hraunlik` makes the library
//! that this crate links.

#![deny(missing_docs, unsafe_code)]

#[allow(unsafe_code)]
pub mod calls;
mod corpus;
mod explain;
pub mod layout;
mod sentence;
mod tables;
mod tidy;

pub use corpus::{Corpus, Sentences, Survey};
pub use explain::Explained;
pub use sentence::{Edge, Node, Sentence};
pub use tables::{Row, Table};
pub use tidy::Written;

use layout::Place;

/// The text at a place, `None` if it is absent.
fn text(file: &[u8], [start, length]: Place) -> Option<&[u8]> {
    let (start, length) = (start as usize, length as usize);
    (length > 0).then(|| &file[start..start + length])
}
