//! Lines whose pairs are easily got wrong. Each is written down with its plan, its pairs and the
//! wrong readings that give the same pairs; all others are seen to give other ones.

mod orders;
mod within;

use super::wrong::Wrong;
use crate::first::known::{Known, plan};
use crate::sheet::due::records;
use independent::plan::Plan;
use independent::write::{CardText, tomato, tomato_with_rows};

pub struct Edge {
    pub known: Known,
    /// The wrong readings that give the same pairs, in the order of their list. Each other one
    /// gives others.
    pub same: Vec<Wrong>,
}

pub struct KnownSheet {
    pub card: Vec<u8>,
    pub sheet: Vec<u8>,
    pub records: Vec<[u8; 3]>,
}

pub fn all() -> Vec<Edge> {
    by_card().into_iter().flatten().collect()
}

/// The lines under each card as one sheet, and a sheet that is written down.
pub fn sheets() -> Vec<KnownSheet> {
    let of_edges = by_card().into_iter().map(|edges| sheet_of(&edges));
    of_edges.chain([morning()]).collect()
}

/// Each list is of lines under one card.
fn by_card() -> Vec<Vec<Edge>> {
    let mut lists = vec![tomatoes(), numbered_rows(), orders::of_one_give()];
    lists.extend(orders::of_two_gives());
    lists.extend(within::all());
    lists
}

fn sheet_of(edges: &[Edge]) -> KnownSheet {
    let lines: Vec<&[u8]> = edges
        .iter()
        .map(|edge| edge.known.line.as_slice())
        .collect();
    let records = (0..)
        .zip(edges)
        .flat_map(|(line, edge)| records(line, &edge.known.pairs));
    KnownSheet {
        card: edges[0].known.card.clone(),
        sheet: lines.join(&b'\n'),
        records: records.collect(),
    }
}

fn edge(card: &CardText, line: &str, plan: Plan, pairs: &[[u8; 2]], same: &[Wrong]) -> Edge {
    let known = Known {
        card: card.bytes(),
        line: line.as_bytes().to_vec(),
        plan,
        pairs: pairs.to_vec(),
    };
    Edge {
        known,
        same: same.to_vec(),
    }
}

/// Where all sides have one word, the first of each is the last.
const SHORT: [Wrong; 3] = [Wrong::FirstWords, Wrong::FirstOfGive, Wrong::FirstOfTake];

/// The lines of document 01 that are read.
fn tomatoes() -> Vec<Edge> {
    let edge = |line, steps, pairs: &[[u8; 2]]| edge(&tomato(), line, plan(steps), pairs, &SHORT);
    vec![
        edge(
            "coir takes mild",
            "7 0 1 3, 0 0 1 1, 9 1 2 3, 2 1 2 2, 3 2 3 3",
            &[[0, 2]],
        ),
        edge(
            "coir wool takes mild rich",
            "5 0 1 5, 0 0 1 1, 8 1 2 5, 1 1 2 2, 10 2 4 5, 9 2 3 4, 2 2 3 3, 3 3 4 4, 4 4 5 5",
            &[[0, 3], [1, 4]],
        ),
        edge(
            "coir coir takes mild mild",
            "5 0 1 5, 0 0 1 1, 7 1 2 5, 0 1 2 2, 9 2 4 5, 9 2 3 4, 2 2 3 3, 3 3 4 4, 3 4 5 5",
            &[[0, 3], [1, 4]],
        ),
    ]
}

/// Rows with a number or without one, feeds with extras or without them, and up to three gives, one
/// within the other.
fn numbered_rows() -> Vec<Edge> {
    let edge = |line, steps, pairs: &[[u8; 2]], same: &[Wrong]| {
        edge(&tomato_with_rows(), line, plan(steps), pairs, same)
    };
    vec![
        edge(
            "coir 14 takes mild",
            "7 0 2 4, 15 0 1 2, 11 0 1 1, 13 1 2 2, 9 2 3 4, 2 2 3 3, 3 3 4 4",
            &[[1, 3]],
            &[Wrong::FirstOfTake],
        ),
        edge(
            "coir 14 takes extra mild",
            "7 0 2 5, 15 0 1 2, 11 0 1 1, 13 1 2 2, \
             9 2 3 5, 2 2 3 3, 18 3 4 5, 17 3 4 4, 3 4 5 5",
            &[[1, 4]],
            &[],
        ),
        edge(
            "coir takes mild",
            "7 0 1 3, 0 0 1 1, 9 1 2 3, 2 1 2 2, 3 2 3 3",
            &[[0, 2]],
            &SHORT,
        ),
        edge(
            "coir takes extra mild",
            "7 0 1 4, 0 0 1 1, 9 1 2 4, 2 1 2 2, 18 2 3 4, 17 2 3 3, 3 3 4 4",
            &[[0, 3]],
            &[Wrong::FirstOfGive],
        ),
        edge(
            "wool 15 takes rich",
            "8 0 2 4, 16 0 1 2, 12 0 1 1, 14 1 2 2, 10 2 3 4, 2 2 3 3, 4 3 4 4",
            &[[1, 3]],
            &[Wrong::FirstOfTake],
        ),
        edge(
            "coir 14 wool 15 takes extra mild rich",
            "5 0 2 8, 15 0 1 2, 11 0 1 1, 13 1 2 2, 8 2 4 8, 16 2 3 4, 12 2 3 3, 14 3 4 4, \
             10 4 7 8, 9 4 5 7, 2 4 5 5, 18 5 6 7, 17 5 6 6, 3 6 7 7, 4 7 8 8",
            &[[1, 6], [3, 7]],
            &[],
        ),
        edge(
            "coir 14 coir wool 15 takes extra extra mild mild extra rich",
            "5 0 2 12, 15 0 1 2, 11 0 1 1, 13 1 2 2, 5 2 3 12, 0 2 3 3, \
             8 3 5 12, 16 3 4 5, 12 3 4 4, 14 4 5 5, 10 5 10 12, 9 5 9 10, 9 5 6 9, 2 5 6 6, \
             18 6 7 9, 17 6 7 7, 18 7 8 9, 17 7 8 8, 3 8 9 9, 3 9 10 10, \
             19 10 11 12, 17 10 11 11, 4 11 12 12",
            &[[1, 8], [2, 9], [4, 11]],
            &[],
        ),
    ]
}

/// Lines of that card as a leader writes them.
fn morning() -> KnownSheet {
    let lines = [
        "coir 14 takes mild",
        "coir takes mild",
        "coir 14 wool 15 takes extra mild rich",
        "wool 15 takes extra extra rich",
        "coir 14 takes extra mild",
    ];
    let records = [
        [0, 1, 3],
        [1, 0, 2],
        [2, 1, 6],
        [2, 3, 7],
        [3, 1, 5],
        [4, 1, 4],
    ];
    KnownSheet {
        card: tomato_with_rows().bytes(),
        sheet: [&lines.join("\n"), "\n"].concat().into_bytes(),
        records: records.to_vec(),
    }
}
