//! A file, surveyed once, and its sentences.

use crate::layout::{SentenceRecord, EDGES, PLACES, SEEN, SHEET, TABLES};
use crate::{calls, tables, Row, Sentence, Table};

/// What a survey answers.
#[derive(Clone, Copy, PartialEq, Eq, Debug)]
pub struct Survey {
    /// 0 if the file is accepted, else a number that `docs/REFUSALS.md` explains.
    pub refusal: u32,
    /// Where the line at fault begins, or for 8, 10, 15, 18 and 19 its column at fault; the file's
    /// length if it is accepted, or if its end is at fault.
    pub place: u32,
    /// How many sentences are handed out: all that end in front of the fault.
    pub sentences: u32,
    /// Where the last of them ends, or 0.
    pub sound_end: u32,
}

impl Survey {
    /// Whether the file keeps all rules.
    pub fn is_accepted(&self) -> bool {
        self.refusal == 0
    }
}

/// A file and what its survey found. The file is borrowed, not copied.
pub struct Corpus<'f> {
    file: &'f [u8],
    survey: Survey,
    tables: Vec<u32>,
    places: Vec<u32>,
    numbers: Vec<u32>,
}

impl<'f> Corpus<'f> {
    /// Surveys a file, in one pass. A file that is refused has the sentences in front of the fault.
    ///
    /// ```
    /// let corpus = hraunlik::Corpus::new(b"#FORMAT 4\n");
    /// assert_eq!((corpus.survey().refusal, corpus.survey().place), (9, 0));
    /// let corpus = hraunlik::Corpus::new(b"#FORMAT three\n");
    /// assert_eq!((corpus.survey().refusal, corpus.survey().place), (8, 8));
    /// ```
    pub fn new(file: &'f [u8]) -> Corpus<'f> {
        let (mut tables, mut seen) = (vec![0; TABLES], vec![0; SEEN]);
        let mut places = vec![0; PLACES];
        let survey = calls::index(file, &mut tables, &mut seen, &mut places);
        let mut numbers: Vec<u32> = (0..).take(PLACES).collect();
        numbers.retain(|&number| places[number as usize] > 0);
        numbers.sort_unstable_by_key(|&number| places[number as usize]);
        Corpus {
            file,
            survey,
            tables,
            places,
            numbers,
        }
    }

    /// The file, as it was lent.
    pub fn file(&self) -> &'f [u8] {
        self.file
    }

    /// The survey's answer.
    pub fn survey(&self) -> Survey {
        self.survey
    }

    /// The file up to its sound end: unless empty, it is accepted by itself.
    ///
    /// ```
    /// let file = std::fs::read("../examples/ja.export")?;
    /// let cut = [&file[..], b"#BOS 8 2"].concat();
    /// let corpus = hraunlik::Corpus::new(&cut);
    /// assert_eq!((corpus.survey().refusal, corpus.sound_part()), (3, &file[..]));
    /// # Ok::<(), std::io::Error>(())
    /// ```
    pub fn sound_part(&self) -> &'f [u8] {
        &self.file[..self.survey.sound_end as usize]
    }

    /// The numbers of the sentences handed out, in the file's order.
    ///
    /// ```
    /// let file = std::fs::read("../examples/gallery/untidy.export")?;
    /// let corpus = hraunlik::Corpus::new(&file);
    /// assert_eq!(corpus.numbers().collect::<Vec<_>>(), [2, 1]);
    /// assert!(corpus.sentences().map(|sentence| sentence.number()).eq(corpus.numbers()));
    /// # Ok::<(), std::io::Error>(())
    /// ```
    pub fn numbers(&self) -> impl Iterator<Item = u32> + '_ {
        self.numbers.iter().copied()
    }

    /// The sentence with a number, if it is handed out. It is read alone.
    ///
    /// ```
    /// let file = std::fs::read("../examples/ja.export")?;
    /// let corpus = hraunlik::Corpus::new(&file);
    /// let sentence = corpus.sentence(7).expect("handed out");
    /// let ja = sentence.node(0).expect("the first word");
    /// assert_eq!((ja.word(), ja.tag()), (Some(&b"Ja"[..]), &b"ITJ"[..]));
    /// assert!(corpus.sentence(8).is_none());
    /// # Ok::<(), std::io::Error>(())
    /// ```
    pub fn sentence(&self, number: u32) -> Option<Sentence<'f>> {
        Room::new().open(self, number)
    }

    /// All sentences handed out, in the file's order, in time linear in the file.
    pub fn sentences(&self) -> Sentences<'_, 'f> {
        Sentences {
            corpus: self,
            numbers: self.numbers.iter(),
            room: Room::new(),
        }
    }

    /// The rows of a table in the file's order, `None` if the table isn't there or has no `#EOT`
    /// in front of the fault.
    ///
    /// ```
    /// use hraunlik::{Corpus, Table};
    /// let file = std::fs::read("../examples/ja.export")?;
    /// let corpus = Corpus::new(&file);
    /// let editors = corpus.table(Table::Editor).expect("there");
    /// assert_eq!((editors[0].id, editors[0].first, editors[0].second), (2, &b"kim"[..], Some(&b"Kim"[..])));
    /// assert!(corpus.table(Table::WordTag).is_none());
    /// # Ok::<(), std::io::Error>(())
    /// ```
    pub fn table(&self, table: Table) -> Option<Vec<Row<'f>>> {
        tables::rows(self.file, &self.tables, table)
    }
}

impl<'c, 'f> IntoIterator for &'c Corpus<'f> {
    type Item = Sentence<'f>;
    type IntoIter = Sentences<'c, 'f>;

    fn into_iter(self) -> Sentences<'c, 'f> {
        self.sentences()
    }
}

/// All sentences of a corpus.
pub struct Sentences<'c, 'f> {
    corpus: &'c Corpus<'f>,
    numbers: std::slice::Iter<'c, u32>,
    room: Room,
}

impl<'f> Iterator for Sentences<'_, 'f> {
    type Item = Sentence<'f>;

    fn next(&mut self) -> Option<Sentence<'f>> {
        let number = *self.numbers.next()?;
        self.room.open(self.corpus, number)
    }
}

/// The buffers that an opening fills.
struct Room {
    sheet: Vec<u32>,
    edges: Vec<u32>,
}

impl Room {
    fn new() -> Room {
        Room {
            sheet: vec![0; SHEET],
            edges: vec![0; EDGES],
        }
    }

    fn open<'f>(&mut self, corpus: &Corpus<'f>, number: u32) -> Option<Sentence<'f>> {
        let place = corpus.places.get(number as usize)?.checked_sub(1)?;
        let refusal = calls::open_at(corpus.file, place, &mut self.sheet, &mut self.edges);
        assert_eq!(refusal, 0, "a sentence begins at each place of the index");
        let record = SentenceRecord::copied(&self.sheet, &self.edges);
        Some(Sentence::new(corpus.file, record))
    }
}
