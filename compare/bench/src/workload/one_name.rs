//! Dense cards with one name. Every stretch is read in every way, so that the items can be counted
//! beforehand.

use super::{FULL_ROOM, PLAN_ROOM, Workload};
use independent::chart;
use independent::random::Random;
use independent::write::CardText;

const MOST_PRODUCTIONS: usize = 64;

/// The greatest charts of this kind that a room holds.
pub fn all() -> [Workload; 2] {
    [of(4, 2, 24), of(8, 3, 20)]
}

/// So many indices, some of which are taken with the dependent first alone, and 64 productions:
/// each is there several times.
fn of(indices: u8, dependent_first: u8, words: usize) -> Workload {
    let text = CardText {
        nonterminals: 1,
        indices,
        words: vec!["coir".to_string()],
        productions: productions(indices, dependent_first),
    };
    let (card, line) = (text.bytes(), text.line(&vec![0; words]));
    let items = items(indices.into(), dependent_first.into(), words);
    let name = format!("dense, 1 name and {indices} indices, {items} items");
    let answer = chart::read(&card, &line, &mut vec![0; FULL_ROOM], &mut [0; PLAN_ROOM]);
    assert_eq!((answer.number, answer.items.into()), (0, items), "{name}");
    Workload::new(name, card, line, words)
}

/// A stretch has an item with an empty stack, and with an index one for each stretch inside it. If
/// the index is taken with the dependent first alone, the one inside ends before the other.
fn items(indices: usize, dependent_first: usize, words: usize) -> usize {
    let four_of = |places: usize| places * (places - 1) * (places - 2) * (places - 3) / 24;
    let stretches = words * (words + 1) / 2;
    let [either, first] = [four_of(words + 3) - stretches, four_of(words + 2)];
    stretches + (indices - dependent_first) * either + dependent_first * first
}

fn productions(indices: u8, dependent_first: u8) -> Vec<[u8; 6]> {
    let mut rows = vec![[0; 6], [3, 0, 0, 0, 0, 0], [4, 0, 0, 0, 0, 0]];
    for index in 1..=indices {
        let kinds: &[u8] = if index <= dependent_first {
            &[2, 5, 6]
        } else {
            &[1, 2, 5, 6]
        };
        rows.extend(kinds.iter().map(|&kind| [kind, 0, 0, 0, index, 0]));
    }
    let mut rows: Vec<[u8; 6]> = rows.into_iter().cycle().take(MOST_PRODUCTIONS).collect();
    Random::new(indices.into()).shuffle(&mut rows);
    rows
}
