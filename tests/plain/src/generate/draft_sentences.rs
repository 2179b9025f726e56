//! The sentences of a draft.

use super::dice::Dice;
use super::draft::{Draft, Measure, Role};
use super::draft_tables::{any_tag, Known};
use super::texts::{column, joined, number, text, white};
use crate::lines::LONGEST_LINE;
use crate::sentences::{FIRST_PHRASE, MOST_PHRASES, MOST_SECONDARY_EDGES, MOST_WORDS};
use crate::tables::*;

const ODD_WORDS: [&[u8]; 16] = [
    b"#",
    b"500",
    b"BOS",
    b"EOS",
    b"FORMAT",
    b"-1",
    b"0",
    b"--",
    b"UNKNOWN",
    b"%",
    b"%x",
    b"x#",
    b"x%%",
    b"\xa0",
    b"\x7f",
    b"Stra\xdfe",
];

/// How a sentence is made: its counts, and the phrases there are to cite.
struct Plan {
    words: usize,
    phrases: usize,
    edges_left: usize,
    many_edges: bool,
    /// Has each phrase a secondary edge to the next one, and the last to the first?
    circle: bool,
}

pub fn draft_sentences(
    dice: &mut Dice,
    measure: &Measure,
    count: usize,
    known: &Known,
    draft: &mut Draft,
) {
    let mut numbers: Vec<usize> = Vec::new();
    while numbers.len() < count {
        let number = match dice.below(4) {
            0 => *dice.pick(&[1, 2, 7, 8, 65_535]),
            1 => dice.between(1, 40),
            _ => dice.between(1, 65_535),
        };
        if !numbers.contains(&number) {
            numbers.push(number);
        }
    }
    for sentence in numbers {
        draft_sentence(dice, measure, sentence, known, draft);
    }
}

fn draft_sentence(
    dice: &mut Dice,
    measure: &Measure,
    sentence: usize,
    known: &Known,
    draft: &mut Draft,
) {
    let line = begin_line(dice, measure, sentence, known);
    draft.add(dice, measure, Role::SentenceBegin, line);
    let mut plan = plan_sentence(dice, measure);
    for _ in 0..plan.words {
        let word = any_word(dice, measure);
        let line = node_line(dice, measure, word, None, &mut plan, known);
        draft.add(dice, measure, Role::Word, line);
    }
    for phrase in phrase_order(dice, plan.phrases) {
        let first = format!("#{phrase}").into_bytes();
        let line = node_line(dice, measure, first, Some(phrase), &mut plan, known);
        draft.add(dice, measure, Role::Phrase, line);
    }
    let line = joined(dice, &[b"#EOS".to_vec(), number(sentence)]);
    draft.add(dice, measure, Role::SentenceEnd, line);
}

fn begin_line(dice: &mut Dice, measure: &Measure, sentence: usize, known: &Known) -> Vec<u8> {
    let editor = *dice.pick(&known.editors);
    let origin = *dice.pick(&known.origins);
    let date = match dice.below(3) {
        0 => *dice.pick(&[0, 1, 847_184_076, 4_294_967_295]),
        _ => dice.below(1 << 32),
    };
    let columns = [
        b"#BOS".to_vec(),
        number(sentence),
        number(editor),
        number(date),
        number(origin),
    ];
    let mut line = joined(dice, &columns);
    line.extend(maybe_comment(dice, measure, 400));
    line
}

fn maybe_comment(dice: &mut Dice, measure: &Measure, limit: usize) -> Vec<u8> {
    let before = [white(dice), b"%%".to_vec()].concat();
    match dice.below(12) {
        0 => before,
        1 => [before, white(dice)].concat(),
        2 | 3 => [
            before,
            white(dice),
            text(dice, measure.ordinary_text, limit),
        ]
        .concat(),
        _ => Vec::new(),
    }
}

fn plan_sentence(dice: &mut Dice, measure: &Measure) -> Plan {
    let mut plan = Plan {
        words: dice.between(0, measure.nodes),
        phrases: dice.between(0, measure.nodes),
        edges_left: MOST_SECONDARY_EDGES,
        many_edges: false,
        circle: dice.one_in(8),
    };
    if measure.to_the_limits && dice.one_in(90) {
        match dice.below(3) {
            0 => plan.words = MOST_WORDS,
            1 => plan.phrases = MOST_PHRASES,
            _ => plan.many_edges = true,
        }
    }
    if plan.many_edges {
        plan.words += dice.between(1, 20);
        plan.phrases += 1;
    }
    plan
}

/// The phrase numbers in any order.
fn phrase_order(dice: &mut Dice, count: usize) -> Vec<u32> {
    let mut numbers: Vec<u32> = (FIRST_PHRASE..).take(count).collect();
    match dice.below(4) {
        0 => numbers.reverse(),
        1 => dice.shuffle(&mut numbers),
        _ => (),
    }
    numbers
}

/// A word: a lone `#`, or else neither begun with `#` nor with two percent signs.
fn any_word(dice: &mut Dice, measure: &Measure) -> Vec<u8> {
    if dice.one_in(6) {
        return dice.pick(&ODD_WORDS).to_vec();
    }
    let limit = if measure.to_the_limits { 300 } else { 40 };
    let mut word = column(dice, measure.ordinary_text, limit);
    if word != b"#" && (word[0] == b'#' || word.starts_with(b"%%")) {
        word[0] = b'W';
    }
    word
}

/// A phrase the node may have as a parent, if there is one.
fn any_parent(dice: &mut Dice, phrase: Option<u32>, phrases: usize) -> Option<u32> {
    let lowest = phrase.map_or(FIRST_PHRASE, |number| number + 1) as usize;
    let highest = FIRST_PHRASE as usize + phrases;
    (lowest < highest).then(|| dice.between(lowest, highest - 1) as u32)
}

/// A phrase the node may have as a secondary parent, if there is one: any but itself.
fn any_secondary_parent(dice: &mut Dice, phrase: Option<u32>, phrases: usize) -> Option<u32> {
    let others = phrases - usize::from(phrase.is_some());
    if others == 0 {
        return None;
    }
    let parent = FIRST_PHRASE + dice.below(others) as u32;
    let behind_itself = phrase.is_some_and(|number| parent >= number);
    Some(parent + u32::from(behind_itself))
}

/// The next phrase of the circle, if there is another one.
fn next_in_circle(phrase: u32, phrases: usize) -> Option<u32> {
    let next = FIRST_PHRASE + (phrase + 1 - FIRST_PHRASE) % phrases as u32;
    (next != phrase).then_some(next)
}

fn node_line(
    dice: &mut Dice,
    measure: &Measure,
    first: Vec<u8>,
    phrase: Option<u32>,
    plan: &mut Plan,
    known: &Known,
) -> Vec<u8> {
    let tag_table = if phrase.is_some() { NODETAG } else { WORDTAG };
    let parent = any_parent(dice, phrase, plan.phrases).filter(|_| !dice.one_in(5));
    let edge = match parent {
        None => NOT_BOUND.to_vec(),
        Some(_) => known_tag(dice, measure, EDGETAG, known),
    };
    let tag = known_tag(dice, measure, tag_table, known);
    let morphology = known_tag(dice, measure, MORPHTAG, known);
    let mut columns = vec![first, tag, morphology, edge, number(parent.unwrap_or(0))];
    if plan.many_edges && phrase.is_none() && dice.one_in(10) {
        return line_of_many_edges(plan, &columns);
    }
    columns.extend(secondary_edges(dice, measure, phrase, plan, known));
    let mut line = joined(dice, &columns);
    line.extend(maybe_comment(dice, measure, 400));
    if measure.to_the_limits && dice.one_in(400) {
        line = fill_line(line, phrase.is_none());
    }
    line
}

/// All secondary edges that are left, in one line, shortly written.
fn line_of_many_edges(plan: &mut Plan, columns: &[Vec<u8>]) -> Vec<u8> {
    let mut line = columns.join(&b'\t');
    let room = (LONGEST_LINE - 10 - line.len()) / b"\t--\t500".len();
    for _ in 0..room.min(plan.edges_left) {
        line.extend(b"\t--\t500");
    }
    plan.edges_left -= room.min(plan.edges_left);
    line
}

fn secondary_edges(
    dice: &mut Dice,
    measure: &Measure,
    phrase: Option<u32>,
    plan: &mut Plan,
    known: &Known,
) -> Vec<Vec<u8>> {
    let wanted = match dice.below(6) {
        _ if plan.many_edges => dice.between(0, 60),
        0 => dice.between(1, 3),
        _ => 0,
    };
    let mut parents: Vec<u32> = (0..wanted)
        .filter_map(|_| any_secondary_parent(dice, phrase, plan.phrases))
        .collect();
    if plan.circle {
        parents.extend(phrase.and_then(|phrase| next_in_circle(phrase, plan.phrases)));
    }
    parents.truncate(plan.edges_left);
    plan.edges_left -= parents.len();
    let mut columns = Vec::new();
    for parent in parents {
        columns.push(known_tag(dice, measure, SECEDGETAG, known));
        columns.push(number(parent));
    }
    columns
}

/// A tag the node may use in a column of this table.
fn known_tag(dice: &mut Dice, measure: &Measure, table: usize, known: &Known) -> Vec<u8> {
    if dice.one_in(6) {
        return dice.pick(&[NOT_BOUND, UNKNOWN]).to_vec();
    }
    match &known.tags[table] {
        None => any_tag(dice, measure, table),
        Some(tags) if tags.is_empty() => NOT_BOUND.to_vec(),
        Some(tags) => dice.pick(tags).clone(),
    }
}

/// The line made as long as a line may be: by its word, or by a comment.
fn fill_line(line: Vec<u8>, is_word: bool) -> Vec<u8> {
    let room = LONGEST_LINE - line.len();
    if is_word && line[0] != b'#' {
        return [vec![b'w'; room], line].concat();
    }
    [line, b" %% ".to_vec(), vec![b'c'; room - 4]].concat()
}
