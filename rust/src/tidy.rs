//! The tidy text of a file.

use crate::layout::{EDGES, SEEN, SHEET, TABLES, TIDY_ROOM};
use crate::{calls, Corpus};

/// What a writing answers.
#[derive(Clone, Copy, PartialEq, Eq, Debug)]
pub struct Written {
    /// 0 if the text is written, else the survey's refusal, or 25 if it has no room.
    pub refusal: u32,
    /// The survey's place.
    pub place: u32,
    /// The length of the text, 0 if it isn't written.
    pub length: u32,
}

impl Corpus<'_> {
    /// The tidy text, or the refusal: the file's, or 25 if the text would pass the file limit.
    ///
    /// ```
    /// let file = std::fs::read("../examples/ja.export")?;
    /// let tidy = hraunlik::Corpus::new(&file).tidy().expect("accepted");
    /// assert!(tidy.ends_with(b"\nJa\tITJ\t--\t--\t500\n#500\tS\t--\t--\t0\n#EOS 7\n"));
    /// assert_eq!(hraunlik::Corpus::new(&file[..119]).tidy(), Err(23));
    /// # Ok::<(), std::io::Error>(())
    /// ```
    pub fn tidy(&self) -> Result<Vec<u8>, u32> {
        if !self.survey().is_accepted() {
            return Err(self.survey().refusal);
        }
        let mut output = vec![0; self.file().len() + TIDY_ROOM];
        let (mut tables, mut seen) = (vec![0; TABLES], vec![0; SEEN]);
        let (mut sheet, mut edges) = (vec![0; SHEET], vec![0; EDGES]);
        let written = calls::write(
            self.file(),
            &mut output,
            &mut tables,
            &mut seen,
            &mut sheet,
            &mut edges,
        );
        output.truncate(written.length as usize);
        match written.refusal {
            0 => Ok(output),
            refusal => Err(refusal),
        }
    }
}
