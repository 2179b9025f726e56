//! Accepted files made by dice: that they are accepted, and how much of the rules they use.

mod common;

use common::*;
use plain::generate::*;
use plain::Edge;

const ACCEPTED_SEEDS: u64 = 20_000;

#[test]
fn accepted_files_are_accepted() {
    let mut lent = Lent::with_old_contents();
    let mut in_all = 0;
    for seed in 0..ACCEPTED_SEEDS {
        let (file, sentences) = accepted_with_count(seed, size_of(seed));
        let answer = lent.survey(&file);
        let found = (
            answer.refusal,
            answer.place as usize,
            answer.sentences as usize,
        );
        assert_eq!(found, (0, file.len(), sentences), "seed {seed}");
        assert_eq!(lent.count_seen(), sentences, "seed {seed}");
        in_all += sentences;
    }
    assert!(in_all > 25_000, "{in_all}");
}

/// The freedoms of the rules are used, each often enough.
#[test]
fn accepted_files_use_every_freedom() {
    let mut found = [0; 14];
    let mut lent = Lent::with_old_contents();
    for seed in 0..6_000 {
        let file = accepted(seed, size_of(seed));
        lent.survey(&file);
        let newlines_off = &file[..file.len() - 1];
        let lines: Vec<&[u8]> = newlines_off.split(|&byte| byte == b'\n').collect();
        let tables = &lent.table_sheet;
        let has = |part: &[u8]| file.windows(part.len()).any(|window| window == part);
        let marks = [
            tables[..7].contains(&257),
            tables[..7].contains(&1),
            tables[2..7].contains(&0),
            lent.has_seen(65_535),
            lent.has_seen(1),
            lines.iter().any(|line| line.len() == 4_096),
            lines
                .iter()
                .any(|line| line.starts_with(b"# ") || line.starts_with(b"#\t")),
            file.contains(&127),
            file.contains(&160),
            has(b"4294967295"),
            has(b"%%x"),
            has(b"\n#999"),
            lines.iter().any(|line| line.is_empty()),
            lines.iter().any(|line| line.starts_with(b"%%")),
        ];
        for (count, mark) in found.iter_mut().zip(marks) {
            *count += usize::from(mark);
        }
    }
    assert!(found.iter().all(|&count| count >= 20), "{found:?}");
}

/// Sentences at the limits: 500 words, 500 phrases, 512 secondary edges; texts too.
#[test]
fn accepted_files_go_to_the_limits() {
    let mut full = [0; 3];
    let mut lengths = std::collections::BTreeMap::new();
    let mut lent = Lent::with_old_contents();
    for seed in 0..4_000 {
        let file = accepted(seed, 6);
        lent.survey(&file);
        for row in lent.table_sheet[7..].chunks(6) {
            *lengths.entry(row[2]).or_insert(0) += 1;
            *lengths.entry(row[4]).or_insert(0) += 1;
        }
        for number in lent.numbers_seen() {
            assert_eq!(lent.open(&file, number), 0);
            for (count, (at, limit)) in full.iter_mut().zip([(6, 500), (7, 500), (8, 512)]) {
                *count += usize::from(lent.sentence_sheet[at] == limit);
            }
        }
    }
    assert!(full.iter().all(|&count| count >= 5), "{full:?}");
    for limit in [10, 16, 32, 40, 80, 128, 160] {
        assert!(lengths[&limit] >= 100, "{limit}");
    }
}

/// Do the secondary edges of phrases lead from some phrase back to itself? Phrases
/// without an edge that goes on are left out until none or only circles are left.
fn has_circle(edges: &[Edge]) -> bool {
    let mut left: Vec<&Edge> = edges.iter().filter(|edge| edge.child >= 500).collect();
    loop {
        let before = left.clone();
        left.retain(|edge| before.iter().any(|next| next.child == edge.parent));
        if left.len() == before.len() {
            return !left.is_empty();
        }
    }
}

#[test]
fn secondary_edges_point_up_and_down_and_in_circles() {
    let (mut up, mut down, mut circles) = (0, 0, 0);
    let mut lent = Lent::with_old_contents();
    for seed in 0..3_000 {
        let file = accepted(seed, size_of(seed));
        lent.survey(&file);
        for number in lent.numbers_seen() {
            assert_eq!(lent.open(&file, number), 0);
            let edges = &lent.edges[..lent.sentence_sheet[8] as usize];
            let phrases = edges.iter().filter(|edge| edge.child >= 500);
            for edge in phrases {
                up += usize::from(edge.parent > edge.child);
                down += usize::from(edge.parent < edge.child);
            }
            circles += usize::from(has_circle(edges));
        }
    }
    let found = (up, down, circles);
    assert!(up > 2_000 && down > 2_000 && circles > 500, "{found:?}");
}

#[test]
fn the_corpus_is_accepted() {
    let sentences = 2_000;
    let file = corpus(sentences);
    let answer = survey_of(&file);
    let expected = survey(0, file.len(), sentences as u32, file.len());
    assert_eq!(answer, expected);
    assert!(
        (800..1_200).contains(&(file.len() / sentences)),
        "{}",
        file.len()
    );
    let tidy = tidy_of(&file);
    assert_eq!(survey_of(&tidy).sentences, sentences as u32);
}
