//! A sentence and views of its nodes and edges.

use std::fmt;

use crate::layout::{NodeRecord, SentenceRecord, FIRST_PHRASE};
use crate::text;

/// A sentence that was opened. Its texts are the file's own bytes.
#[derive(Clone, PartialEq, Eq)]
pub struct Sentence<'f> {
    file: &'f [u8],
    record: SentenceRecord,
}

impl<'f> Sentence<'f> {
    pub(crate) fn new(file: &'f [u8], record: SentenceRecord) -> Sentence<'f> {
        Sentence { file, record }
    }

    /// The number on its `#BOS` line.
    pub fn number(&self) -> u32 {
        self.record.number()
    }

    /// The editor's id, from -1.
    pub fn editor(&self) -> i32 {
        self.record.editor()
    }

    /// The date, in seconds as written.
    pub fn date(&self) -> u32 {
        self.record.date()
    }

    /// The origin's id.
    pub fn origin(&self) -> u32 {
        self.record.origin()
    }

    /// The comment on its `#BOS` line.
    pub fn comment(&self) -> Option<&'f [u8]> {
        text(self.file, self.record.comment())
    }

    /// The words, as they follow each other.
    pub fn words(&self) -> impl Iterator<Item = Node<'_, 'f>> {
        (0..self.record.words()).map(|number| Node::new(self, number))
    }

    /// The phrases, by number.
    pub fn phrases(&self) -> impl Iterator<Item = Node<'_, 'f>> {
        let end = FIRST_PHRASE + self.record.phrases();
        (FIRST_PHRASE..end).map(|number| Node::new(self, number))
    }

    /// The words, then the phrases.
    pub fn nodes(&self) -> impl Iterator<Item = Node<'_, 'f>> {
        self.words().chain(self.phrases())
    }

    /// The node with a number: words count from 0, phrases from 500.
    pub fn node(&self, number: u32) -> Option<Node<'_, 'f>> {
        let there = match number.checked_sub(FIRST_PHRASE) {
            None => number < self.record.words(),
            Some(phrase) => phrase < self.record.phrases(),
        };
        there.then(|| Node::new(self, number))
    }

    /// The secondary edges, in the file's order.
    pub fn edges(&self) -> impl Iterator<Item = Edge<'f>> + '_ {
        self.record.edges().map(|(child, label, parent)| Edge {
            child,
            label: text(self.file, label).unwrap_or_default(),
            parent,
        })
    }
}

/// Its number, and its nodes as lines are written.
///
/// ```
/// let file = std::fs::read("../examples/ja.export")?;
/// let sentence = hraunlik::Corpus::new(&file).sentence(7).expect("handed out");
/// assert_eq!(format!("{sentence:?}"), "Sentence(7, [Ja ITJ -- -- 500, #500 S -- -- 0])");
/// # Ok::<(), std::io::Error>(())
/// ```
impl fmt::Debug for Sentence<'_> {
    fn fmt(&self, out: &mut fmt::Formatter<'_>) -> fmt::Result {
        let nodes: Vec<Node> = self.nodes().collect();
        write!(out, "Sentence({}, {nodes:?})", self.number())
    }
}

impl fmt::Debug for Node<'_, '_> {
    fn fmt(&self, out: &mut fmt::Formatter<'_>) -> fmt::Result {
        match self.word() {
            Some(word) => write!(out, "{}", word.escape_ascii())?,
            None => write!(out, "#{}", self.number)?,
        }
        for column in [self.tag(), self.morphology(), self.edge()] {
            write!(out, " {}", column.escape_ascii())?;
        }
        write!(out, " {}", self.record().parent())
    }
}

/// A secondary edge.
#[derive(Clone, Copy, PartialEq, Eq, Debug)]
pub struct Edge<'f> {
    /// The number of the node that has it.
    pub child: u32,
    /// Its label.
    pub label: &'f [u8],
    /// The number of the phrase that it leads to: any but the node itself, so edges may form a circle.
    pub parent: u32,
}

/// A word or a phrase of a sentence.
#[derive(Clone, Copy)]
pub struct Node<'s, 'f> {
    sentence: &'s Sentence<'f>,
    number: u32,
}

impl<'s, 'f> Node<'s, 'f> {
    fn new(sentence: &'s Sentence<'f>, number: u32) -> Node<'s, 'f> {
        Node { sentence, number }
    }

    fn record(&self) -> NodeRecord<'s> {
        self.sentence.record.node(self.number)
    }

    /// Its number: a word's from 0, a phrase's from 500.
    pub fn number(&self) -> u32 {
        self.number
    }

    /// Whether it is a phrase.
    pub fn is_phrase(&self) -> bool {
        self.number >= FIRST_PHRASE
    }

    /// The word; a phrase has none.
    pub fn word(&self) -> Option<&'f [u8]> {
        text(self.sentence.file, self.record().word())
    }

    /// The part of speech, or the phrase's tag.
    pub fn tag(&self) -> &'f [u8] {
        text(self.sentence.file, self.record().tag()).unwrap_or_default()
    }

    /// The morphology.
    pub fn morphology(&self) -> &'f [u8] {
        text(self.sentence.file, self.record().morphology()).unwrap_or_default()
    }

    /// The label of the edge to the parent.
    pub fn edge(&self) -> &'f [u8] {
        text(self.sentence.file, self.record().edge()).unwrap_or_default()
    }

    /// The comment on its line.
    pub fn comment(&self) -> Option<&'f [u8]> {
        text(self.sentence.file, self.record().comment())
    }

    /// The phrase above; a node whose parent is 0 has none. It is always there, and going up ends.
    ///
    /// ```
    /// let file = std::fs::read("../examples/schade.export")?;
    /// let sentence = hraunlik::Corpus::new(&file).sentence(12).expect("handed out");
    /// let arzt = sentence.node(4).expect("the fifth word");
    /// let above = std::iter::successors(arzt.parent(), |phrase| phrase.parent());
    /// assert_eq!(above.map(|phrase| phrase.number()).collect::<Vec<_>>(), [501, 502, 503]);
    /// # Ok::<(), std::io::Error>(())
    /// ```
    pub fn parent(&self) -> Option<Node<'s, 'f>> {
        match self.record().parent() {
            0 => None,
            number => Some(Node::new(self.sentence, number)),
        }
    }

    /// The nodes right under a phrase, words first.
    pub fn children(&self) -> impl Iterator<Item = Node<'s, 'f>> {
        let (number, is_phrase) = (self.number, self.is_phrase());
        let under = move |node: &Node| is_phrase && node.record().parent() == number;
        self.sentence.nodes().filter(under)
    }

    /// The secondary edges to other phrases.
    pub fn secondary(&self) -> impl Iterator<Item = Edge<'f>> + 's {
        let number = self.number;
        self.sentence
            .edges()
            .filter(move |edge| edge.child == number)
    }
}
