//! Secondary edges point up, down and in circles, but never at their own node.

mod common;

use common::*;
use plain::{open_at, Edge};

/// A's tables and a sentence of these node lines.
fn sentence(nodes: &str) -> Vec<u8> {
    [TABLES, "#BOS 7 2 0 1\n", nodes, "#EOS 7\n"]
        .concat()
        .into_bytes()
}

/// Child and parent of each secondary edge of a sentence that must be accepted. It is the
/// same sentence when opened at its place.
fn edges_of(nodes: &str) -> Vec<(u32, u32)> {
    let file = sentence(nodes);
    let mut lent = Lent::with_old_contents();
    assert_eq!(lent.survey(&file), survey(0, file.len(), 1, file.len()));
    assert_eq!(lent.open(&file, 7), 0);
    let mut there = Lent::with_old_contents();
    let refusal = open_at(
        &file,
        HEAD as u32,
        &mut there.sentence_sheet,
        &mut there.edges,
    );
    assert_eq!(refusal, 0);
    assert!(lent.sentence_sheet == there.sentence_sheet && lent.edges == there.edges);
    let (filled, room) = lent.edges.split_at(lent.sentence_sheet[8] as usize);
    assert!(room.iter().all(|edge| *edge == Edge::default()));
    filled
        .iter()
        .map(|edge| (edge.child, edge.parent))
        .collect()
}

/// The refusal and the line it is given at, counted from the first node line.
fn refused_at(nodes: &str) -> (u32, usize) {
    let file = sentence(nodes);
    let answer = survey_of(&file);
    let first = HEAD + "#BOS 7 2 0 1\n".len();
    let before = &file[first..answer.place as usize];
    assert_eq!((answer.sentences, answer.sound_end), (0, 0));
    let lines = before.iter().filter(|&&byte| byte == b'\n').count();
    (answer.refusal, lines)
}

/// The higher clause has a secondary edge to a lower one.
#[test]
fn an_edge_points_down() {
    let nodes = "Ja ITJ -- SB 500\n#500 S -- CJ 502\n#501 S -- CJ 502 SB 500\n#502 CS -- -- 0\n";
    assert_eq!(edges_of(nodes), [(501, 500)]);
}

#[test]
fn an_edge_points_down_to_a_child() {
    assert_eq!(
        edges_of("#500 NP -- SB 501\n#501 S -- -- 0 SB 500\n"),
        [(501, 500)]
    );
}

#[test]
fn a_parent_below_may_come_later_in_the_file() {
    let nodes = "#502 S -- -- 0 a 500 b 501\n#501 S -- -- 0 c 500\n#500 S -- -- 0\n";
    assert_eq!(edges_of(nodes), [(502, 500), (502, 501), (501, 500)]);
}

#[test]
fn edges_form_circles() {
    let two = "#500 S -- -- 0 a 501\n#501 S -- -- 0 b 500\n";
    assert_eq!(edges_of(two), [(500, 501), (501, 500)]);
    let three = "#500 S -- -- 0 a 501\n#501 S -- -- 0 b 502\n#502 S -- -- 0 c 500 d 500\n";
    assert_eq!(
        edges_of(three),
        [(500, 501), (501, 502), (502, 500), (502, 500)]
    );
}

#[test]
fn a_circle_goes_by_primary_parents_too() {
    let nodes = "#500 S -- SB 501\n#501 S -- SB 502\n#502 S -- -- 0 SE 500\n";
    assert_eq!(edges_of(nodes), [(502, 500)]);
}

#[test]
fn a_word_has_any_phrase() {
    let nodes =
        "Ja ITJ -- -- 501 a 500 b 501 c 502\n#500 S -- -- 0\n#501 S -- -- 0\n#502 S -- -- 0\n";
    assert_eq!(edges_of(nodes), [(0, 500), (0, 501), (0, 502)]);
}

#[test]
fn the_highest_phrase_has_the_lowest() {
    let mut nodes = String::new();
    for phrase in 500..999 {
        nodes += &format!("#{phrase} S -- -- 0\n");
    }
    nodes += "#999 S -- -- 0 a 500 b 998\n";
    assert_eq!(edges_of(&nodes), [(999, 500), (999, 998)]);
}

#[test]
fn a_phrase_is_not_its_own_secondary_parent() {
    let others = "#500 S -- -- 0\n#501 S -- -- 0\n";
    for line in [
        "#502 S -- -- 0 SB 502",
        "#502 S -- -- 0 SB 500 SB 502",
        "#502 S -- -- 0 SB 502 SB 500",
        "#502 S -- -- 0 -- 502",
        "#502 S -- -- 999 SB 502",
        "#502 S -- -- 0 SB 999 SB 502",
    ] {
        assert_eq!(
            refused_at(&[others, line, "\n"].concat()),
            (19, 2),
            "{line}"
        );
    }
}

#[test]
fn an_absent_secondary_parent_shows_at_the_end() {
    for nodes in [
        "Ja ITJ -- -- 0 SB 501\n#500 S -- -- 0\n",
        "Ja ITJ -- -- 500 SB 500 SB 999\n#500 S -- -- 0\n",
        "Ja ITJ -- -- 0\n#500 S -- -- 0 SB 501\n",
    ] {
        assert_eq!(refused_at(nodes), (22, 2), "{nodes}");
    }
    assert_eq!(refused_at("Ja ITJ -- -- 0 SB 500\n"), (22, 1));
    assert_eq!(
        refused_at("#501 S -- -- 0 SB 500\n"),
        (21, 1),
        "a gap first"
    );
}

#[test]
fn primary_parents_keep_their_rule() {
    let others = "#500 S -- -- 0\n#502 S -- -- 0\n";
    for line in [
        "#501 S -- SB 500",
        "#501 S -- SB 501",
        "#501 S -- SB 500 SB 502",
        "#501 S -- SB 0 SB 500",
    ] {
        assert_eq!(
            refused_at(&[others, line, "\n"].concat()),
            (19, 2),
            "{line}"
        );
    }
    assert_eq!(
        edges_of(&[others, "#501 S -- SB 502 SB 500\n"].concat()),
        [(501, 500)]
    );
}

#[test]
fn tidy_text_keeps_edges_that_point_down() {
    let file = sentence("#501 S -- -- 0 a  500 b 502\n#502 S -- -- 0 c 501\n#500 S -- -- 0\n");
    let tidy = String::from_utf8(tidy_of(&file)).unwrap();
    let phrases =
        "#500\tS\t--\t--\t0\n#501\tS\t--\t--\t0\ta\t500\tb\t502\n#502\tS\t--\t--\t0\tc\t501\n";
    assert!(tidy.ends_with(&[phrases, "#EOS 7\n"].concat()), "{tidy}");
}
