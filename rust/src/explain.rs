//! The description of a tag.

use crate::layout::{OF_LIST, SEEN, TABLES};
use crate::{calls, Corpus, Table};

/// What an explaining answers.
#[derive(Clone, Copy, PartialEq, Eq, Debug)]
pub struct Explained {
    /// 0 if the tag is explained, else the file's refusal, the list's, or 26.
    pub refusal: u32,
    /// Of which the description is a part: `layout::OF_FILE`, `OF_LIST`, or 0 if it is refused.
    pub of: u32,
    /// Where it begins.
    pub start: u32,
    /// Its length.
    pub length: u32,
}

impl<'f> Corpus<'f> {
    /// The description of a tag, as a part of the file if it has the table, else of the list; or the
    /// refusal: the file's, the list's, or 26 if nothing explains the tag.
    ///
    /// ```
    /// use hraunlik::{Corpus, Table};
    /// let file = std::fs::read("../examples/ja.export")?;
    /// let list = std::fs::read("../examples/schade.export")?;
    /// let corpus = Corpus::new(&file);
    /// assert_eq!(corpus.explain(Table::WordTag, b"ADJD", &list), Ok(&b"Attributives Adjektiv"[..]));
    /// assert_eq!(corpus.explain(Table::WordTag, b"ADJD", &file), Err(26));
    /// # Ok::<(), std::io::Error>(())
    /// ```
    pub fn explain<'a>(&self, table: Table, tag: &[u8], list: &'a [u8]) -> Result<&'a [u8], u32>
    where
        'f: 'a,
    {
        let (mut tables, mut seen) = (vec![0; TABLES], vec![0; SEEN]);
        let place = table as u32 + 1;
        let told = calls::explain(self.file(), list, place, tag, &mut tables, &mut seen);
        let whole: &'a [u8] = if told.of == OF_LIST {
            list
        } else {
            self.file()
        };
        match told.refusal {
            0 => Ok(&whole[told.start as usize..][..told.length as usize]),
            refusal => Err(refusal),
        }
    }
}
