//! The sentences: `#BOS`, words, phrases, `#EOS`.

use crate::columns::{Columns, Text};
use crate::numbers::{
    number_within, DATES, EDITOR_IDS, ORIGIN_IDS, PHRASE_NUMBERS, SENTENCE_NUMBERS,
};
use crate::refusals::*;
use crate::tables::{
    longest_tag, tag_is_known, Tables, EDGETAG, EDITOR, MORPHTAG, NODETAG, NOT_BOUND, ORIGIN,
    SECEDGETAG, WORDTAG,
};

pub const MOST_WORDS: usize = 500;
pub const MOST_PHRASES: usize = 500;
pub const MOST_SECONDARY_EDGES: usize = 512;
pub const FIRST_PHRASE: u32 = 500;

/// A secondary edge as its node line gives it.
pub struct SecondaryEdge {
    pub label: Text,
    pub parent: u32,
}

/// A word or a phrase; `word` is absent for a phrase.
pub struct Node {
    pub number: u32,
    pub word: Text,
    pub tag: Text,
    pub morphology: Text,
    pub edge: Text,
    pub parent: u32,
    pub secondary_edges: Vec<SecondaryEdge>,
    pub comment: Text,
}

pub struct Sentence {
    /// Where its `#BOS` line begins.
    pub place: u32,
    pub number: u32,
    pub editor: i64,
    pub date: u32,
    pub origin: u32,
    pub comment: Text,
    pub words: Vec<Node>,
    /// The phrases in file order.
    pub phrases: Vec<Node>,
    pub secondary_edges: usize,
}

/// A sentence before its `#EOS`, with the phrases given so far.
pub struct OpenSentence {
    pub sentence: Sentence,
    phrase_given: [bool; MOST_PHRASES],
}

impl Sentence {
    /// All nodes in file order.
    pub fn nodes(&self) -> impl Iterator<Item = &Node> {
        self.words.iter().chain(&self.phrases)
    }
}

/// Judges a `#BOS` line that can stand where it does.
pub fn begin_sentence(
    columns: &Columns,
    tables: &Tables,
    number_used: &[bool],
) -> Result<OpenSentence, Fault> {
    let mut faults = Faults::default();
    let sentence = read_heading(columns, &mut faults);
    faults.add_if(
        tables[ORIGIN].is_none() || tables[EDITOR].is_none(),
        TABLE_MISSING,
    );
    faults.add_if(number_used[sentence.number as usize], SENTENCE_TWICE);
    let editor = sentence.editor;
    let editor_known = editor == -1 || editor == 0 || id_stands_in(tables, EDITOR, editor);
    faults.add_at_if(!editor_known, columns.text(2).start, EDITOR_OR_ORIGIN);
    let origin_known = id_stands_in(tables, ORIGIN, i64::from(sentence.origin));
    faults.add_at_if(!origin_known, columns.text(4).start, EDITOR_OR_ORIGIN);
    faults.judge(OpenSentence::empty(sentence))
}

/// Judges a `#BOS` line by what stands in it, whatever the tables and the other
/// sentences are.
pub fn begin_sentence_alone(columns: &Columns) -> Result<OpenSentence, Fault> {
    let mut faults = Faults::default();
    let sentence = read_heading(columns, &mut faults);
    faults.judge(OpenSentence::empty(sentence))
}

fn read_heading(columns: &Columns, faults: &mut Faults) -> Sentence {
    let number = columns.number(1, SENTENCE_NUMBERS.0, SENTENCE_NUMBERS.1, faults);
    let editor = columns.number(2, EDITOR_IDS.0, EDITOR_IDS.1, faults);
    let date = columns.number(3, DATES.0, DATES.1, faults);
    let origin = columns.number(4, ORIGIN_IDS.0, ORIGIN_IDS.1, faults);
    faults.add_if(columns.count() > 5 && columns.bytes(5) != b"%%", COLUMNS);
    Sentence {
        place: columns.text(0).start,
        number: number as u32,
        editor,
        date: date as u32,
        origin: origin as u32,
        comment: columns.text_behind(5),
        words: Vec::new(),
        phrases: Vec::new(),
        secondary_edges: 0,
    }
}

fn id_stands_in(tables: &Tables, name: usize, id: i64) -> bool {
    tables[name].as_ref().is_some_and(|table| table.has_id(id))
}

/// `#` and digits only, however many.
fn has_phrase_form(column: &[u8]) -> bool {
    column.len() > 1 && column[0] == b'#' && column[1..].iter().all(u8::is_ascii_digit)
}

impl OpenSentence {
    fn empty(sentence: Sentence) -> OpenSentence {
        OpenSentence {
            sentence,
            phrase_given: [false; MOST_PHRASES],
        }
    }

    /// Adds the word or phrase that the line holds, or tells the line's fault.
    pub fn take_node(&mut self, columns: &Columns, tables: &Tables) -> Result<(), Fault> {
        let first = columns.bytes(0);
        if has_phrase_form(first) {
            return self.take_phrase(columns, tables);
        }
        let is_word = first == b"#" || first[0] != b'#';
        if !is_word || !self.sentence.phrases.is_empty() {
            return Err(Fault::of_line(WRONG_KIND));
        }
        self.take_word(columns, tables)
    }

    fn take_word(&mut self, columns: &Columns, tables: &Tables) -> Result<(), Fault> {
        let mut faults = Faults::default();
        let mut node = self.read_node(columns, &mut faults);
        node.number = self.sentence.words.len() as u32;
        node.word = columns.text(0);
        check_tags(&node, WORDTAG, columns.file, tables, &mut faults);
        faults.add_if(self.sentence.words.len() >= MOST_WORDS, TOO_MANY_NODES);
        let node = faults.judge(node)?;
        self.sentence.secondary_edges += node.secondary_edges.len();
        self.sentence.words.push(node);
        Ok(())
    }

    fn take_phrase(&mut self, columns: &Columns, tables: &Tables) -> Result<(), Fault> {
        let mut faults = Faults::default();
        let mut node = self.read_node(columns, &mut faults);
        node.number = phrase_number(columns, &mut faults);
        check_tags(&node, NODETAG, columns.file, tables, &mut faults);
        faults.add_if(self.has_phrase(node.number), PHRASE_TWICE);
        let too_small = node.parent != 0 && node.parent <= node.number;
        faults.add_at_if(too_small, columns.text(4).start, PARENT);
        for (index, edge) in (6..).step_by(2).zip(&node.secondary_edges) {
            let itself = edge.parent == node.number;
            faults.add_at_if(itself, columns.text(index).start, PARENT);
        }
        let node = faults.judge(node)?;
        self.phrase_given[(node.number - FIRST_PHRASE) as usize] = true;
        self.sentence.secondary_edges += node.secondary_edges.len();
        self.sentence.phrases.push(node);
        Ok(())
    }

    /// What words and phrases have in common: the columns from the tag on.
    fn read_node(&self, columns: &Columns, faults: &mut Faults) -> Node {
        let count = columns.count_before_comment();
        // Five columns and then pairs: an odd count.
        faults.add_if(count < 5 || count % 2 != 1, COLUMNS);
        let parent = parent_number(columns, 4, faults);
        let edge = columns.text(3);
        let bound = edge.of(columns.file) != NOT_BOUND;
        faults.add_at_if(parent == 0 && bound, columns.text(4).start, PARENT);
        let secondary_edges = read_secondary_edges(columns, count, faults);
        let edges_so_far = self.sentence.secondary_edges + secondary_edges.len();
        faults.add_if(edges_so_far > MOST_SECONDARY_EDGES, TOO_MANY_NODES);
        Node {
            number: 0,
            word: Text::default(),
            tag: columns.text(1),
            morphology: columns.text(2),
            edge,
            parent,
            secondary_edges,
            comment: columns.text_behind(count),
        }
    }

    fn has_phrase(&self, number: u32) -> bool {
        let (lowest, highest) = PHRASE_NUMBERS;
        (lowest..=highest).contains(&i64::from(number))
            && self.phrase_given[(number - FIRST_PHRASE) as usize]
    }

    /// Judges an `#EOS` line in this sentence.
    pub fn check_end(&self, columns: &Columns) -> Result<(), Fault> {
        let mut faults = Faults::default();
        let number = columns.number(1, SENTENCE_NUMBERS.0, SENTENCE_NUMBERS.1, &mut faults);
        faults.add_if(columns.count() > 2, COLUMNS);
        faults.add_if(number != i64::from(self.sentence.number), OTHER_NUMBER);
        let phrases = self.sentence.phrases.len();
        let no_gap = self.phrase_given[..phrases].iter().all(|&given| given);
        faults.add_if(!no_gap, GAP);
        faults.add_if(
            !self.sentence.nodes().all(|node| self.parents_given(node)),
            PARENT_ABSENT,
        );
        faults.judge(())
    }

    fn parents_given(&self, node: &Node) -> bool {
        let parent_given = node.parent == 0 || self.has_phrase(node.parent);
        parent_given
            && node
                .secondary_edges
                .iter()
                .all(|edge| self.has_phrase(edge.parent))
    }
}

/// The number behind the `#` that begins the first column.
fn phrase_number(columns: &Columns, faults: &mut Faults) -> u32 {
    let digits = &columns.bytes(0)[1..];
    let number = number_within(digits, PHRASE_NUMBERS.0, PHRASE_NUMBERS.1);
    faults.add_at_if(number.is_none(), columns.text(0).start, NUMBER);
    number.unwrap_or(0) as u32
}

/// A parent is 0 or a phrase number.
fn parent_number(columns: &Columns, index: usize, faults: &mut Faults) -> u32 {
    let number = columns.number(index, 0, PHRASE_NUMBERS.1, faults);
    let below = (1..PHRASE_NUMBERS.0).contains(&number);
    faults.add_at_if(below, columns.text(index).start, NUMBER);
    number as u32
}

/// The pairs of label and parent in the columns from the sixth up to the comment.
fn read_secondary_edges(
    columns: &Columns,
    count: usize,
    faults: &mut Faults,
) -> Vec<SecondaryEdge> {
    let mut edges = Vec::new();
    for index in (5..count).step_by(2) {
        let label = columns.text(index);
        let parent = columns.number(index + 1, PHRASE_NUMBERS.0, PHRASE_NUMBERS.1, faults);
        edges.push(SecondaryEdge {
            label,
            parent: parent as u32,
        });
    }
    edges
}

/// Length and table of each of the node's tags.
fn check_tags(node: &Node, tag_table: usize, file: &[u8], tables: &Tables, faults: &mut Faults) {
    let mut check = |text: Text, table: usize| {
        faults.add_at_if(text.length > longest_tag(table), text.start, TEXT);
        let known = tag_is_known(tables, table, file, text.of(file));
        faults.add_at_if(!known, text.start, TAG_UNKNOWN);
    };
    check(node.tag, tag_table);
    check(node.morphology, MORPHTAG);
    check(node.edge, EDGETAG);
    for edge in &node.secondary_edges {
        check(edge.label, SECEDGETAG);
    }
}
