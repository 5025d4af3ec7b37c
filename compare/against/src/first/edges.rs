//! Lines whose first plan is easily got wrong. Each is written down with its plan and its pairs,
//! and with orders that would make another plan the first, which are tried too.

use super::filling::Otherwise;
use super::known::{Known, plan};
use super::wrong::Wrong;
use independent::write::{CardText, tomato, tomato_with_twins};

pub struct Edge {
    pub known: Known,
    /// Wrong orders that show on the line.
    pub shown: Vec<Wrong>,
}

pub fn all() -> Vec<Edge> {
    let lists = [
        without_stacks(),
        productions_alike(),
        words_alike(),
        splits_of_pairs(),
        feet(),
        continuations(),
        tomatoes(),
    ];
    lists.into_iter().flatten().collect()
}

/// The start, and the other names that these cards have.
const S: u8 = 0;
const L: u8 = 1;
const D: u8 = 2;
const T: u8 = 3;
const U: u8 = 4;

const DEPENDENTS_BACK: Wrong = Wrong::Filled(Otherwise::DependentsFromTheBack);
const DEPENDENTS_BY_FOOT: Wrong = Wrong::Filled(Otherwise::DependentsByFoot);
const CONTINUATIONS_BACK: Wrong = Wrong::Filled(Otherwise::ContinuationsFromTheBack);
const CONTINUATIONS_BY_FOOT: Wrong = Wrong::Filled(Otherwise::ContinuationsByFoot);
const LAST_STAYS: Wrong = Wrong::Filled(Otherwise::LastStays);
const BARE_IN_FRONT: Wrong = Wrong::Filled(Otherwise::BareInFront);

/// The only word of most of these cards is "row".
const fn word(head: u8) -> [u8; 6] {
    [0, head, 0, 0, 0, 0]
}

/// A line of as many words as its plan has.
fn edge(productions: &[[u8; 6]], steps: &str, pairs: &[[u8; 2]], shown: &[Wrong]) -> Edge {
    let text = CardText {
        nonterminals: 5,
        indices: 2,
        words: vec![String::from("row")],
        productions: productions.to_vec(),
    };
    let plan = plan(steps);
    let known = Known {
        card: text.bytes(),
        line: text.line(&vec![0; plan.len().div_ceil(2)]),
        plan,
        pairs: pairs.to_vec(),
    };
    Edge {
        known,
        shown: shown.to_vec(),
    }
}

/// Splits and productions against each other.
fn without_stacks() -> Vec<Edge> {
    let [join, join_first] = [[3, S, S, S, 0, 0], [4, S, S, S, 0, 0]];
    let least_split = "1 0 1 3, 0 0 1 1, 1 1 2 3, 0 1 2 2, 0 2 3 3";
    let not_least = [Wrong::SplitsFalling, Wrong::FromTheRight, LAST_STAYS];
    vec![
        // S → row | S S: the least split, whether the dependent is the second or the first.
        edge(&[word(S), join], least_split, &[], &not_least),
        edge(&[word(S), join_first], least_split, &[], &not_least),
        // With the numbers exchanged, the productions 0 0 1 1 1 would come before 0 1 0 1 1. But
        // the split of the first step decides.
        edge(
            &[join, word(S)],
            "0 0 1 3, 1 0 1 1, 0 1 2 3, 1 1 2 2, 1 2 3 3",
            &[],
            &[Wrong::SplitsFalling, Wrong::SplitsLast, LAST_STAYS],
        ),
        // S → D L | L D: the first production has the greater split.
        edge(
            &[
                [4, S, D, L, 0, 0],
                [3, S, L, D, 0, 0],
                [3, D, L, L, 0, 0],
                word(L),
            ],
            "0 0 2 3, 2 0 1 2, 3 0 1 1, 3 1 2 2, 3 2 3 3",
            &[],
            &[Wrong::SplitsFirst, Wrong::ProductionsFalling],
        ),
        // S → L D | L L: the last step has the greater production.
        edge(
            &[[3, S, L, D, 0, 0], [3, S, L, L, 0, 0], word(L), word(D)],
            "0 0 1 2, 2 0 1 1, 3 1 2 2",
            &[],
            &[Wrong::FromTheRight, Wrong::ProductionsFalling],
        ),
    ]
}

/// Productions that are equal, or that differ in the side alone.
fn productions_alike() -> Vec<Edge> {
    vec![
        // Every production twice.
        edge(
            &[[4, S, L, L, 0, 0], [4, S, L, L, 0, 0], word(L), word(L)],
            "0 0 1 2, 2 0 1 1, 2 1 2 2",
            &[],
            &[Wrong::ProductionsFalling, LAST_STAYS],
        ),
        // S → T D | L D: the side of the first comes to two words, that of the second to one.
        edge(
            &[
                [3, S, T, D, 0, 0],
                [3, S, L, D, 0, 0],
                [3, T, L, L, 0, 0],
                [4, D, D, L, 0, 0],
                word(D),
                word(L),
            ],
            "0 0 2 4, 2 0 1 2, 5 0 1 1, 5 1 2 2, 3 2 3 4, 4 2 3 3, 5 3 4 4",
            &[],
            &[Wrong::SplitsFirst, LAST_STAYS],
        ),
        // S → L D[..1], and two takes of D to one foot: D[..1] → T L[..] | L L[..].
        edge(
            &[
                [5, S, L, D, 1, 0],
                [1, D, T, L, 1, 0],
                [1, D, L, L, 1, 0],
                word(L),
                word(T),
            ],
            "0 0 1 3, 3 0 1 1, 1 1 2 3, 4 1 2 2, 3 2 3 3",
            &[[0, 1]],
            &[Wrong::ProductionsFalling, Wrong::FromTheRight, LAST_STAYS],
        ),
    ]
}

/// Several words of one spelling: the first production counts, not the first word.
fn words_alike() -> Vec<Edge> {
    let text = CardText {
        nonterminals: 1,
        indices: 0,
        words: ["mild", "rich", "mild", "mild"].map(String::from).to_vec(),
        productions: vec![
            [0, S, 1, 0, 0, 0],
            [0, S, 3, 0, 0, 0],
            [0, S, 0, 0, 0, 0],
            [0, S, 2, 0, 0, 0],
            [3, S, S, S, 0, 0],
        ],
    };
    let edge = |words: &[u8], steps: &str| Edge {
        known: Known {
            card: text.bytes(),
            line: text.line(words),
            plan: plan(steps),
            pairs: Vec::new(),
        },
        shown: vec![Wrong::ByWord, LAST_STAYS],
    };
    vec![
        edge(&[0], "1 0 1 1"),
        edge(&[1, 2], "4 0 1 2, 0 0 1 1, 1 1 2 2"),
    ]
}

/// Takes and gives that apply at several splits. The pairs depend on these, but for a side that ends
/// the line, which does so at every split. D → D D | row.
fn splits_of_pairs() -> Vec<Edge> {
    let edge = |give, take, steps, pair| {
        let card = [give, take, [4, D, D, D, 0, 0], word(D), word(L)];
        edge(&card, steps, &[pair], &[Wrong::SplitsFalling, LAST_STAYS])
    };
    let [take, take_first] = [[1, T, D, D, 1, 0], [2, T, D, D, 1, 0]];
    let after_a_row = "0 0 1 4, 4 0 1 1, 1 1 2 4, 3 1 2 2, 2 2 3 4, 3 2 3 3, 3 3 4 4";
    let before_all = "0 0 2 4, 1 0 1 2, 3 0 1 1, 3 1 2 2, 2 2 3 4, 3 2 3 3, 3 3 4 4";
    vec![
        // S → L T[..1].
        edge([5, S, L, T, 1, 0], take, after_a_row, [0, 1]),
        edge([5, S, L, T, 1, 0], take_first, after_a_row, [0, 3]),
        // S → T[..1] D.
        edge([6, S, T, D, 1, 0], take, before_all, [3, 0]),
        edge([6, S, T, D, 1, 0], take_first, before_all, [3, 1]),
    ]
}

/// An index that can be taken at two places, on which the pairs depend: S → L D[..1], and
/// D[..1] → L[..] L | L L[..] in either order.
fn feet() -> Vec<Edge> {
    let give = [5, S, L, D, 1, 0];
    let [take_first, take] = [[2, D, L, L, 1, 0], [1, D, L, L, 1, 0]];
    let steps = "0 0 1 3, 3 0 1 1, 1 1 2 3, 3 1 2 2, 3 2 3 3";
    vec![
        edge(
            &[give, take_first, take, word(L)],
            steps,
            &[[0, 2]],
            &[DEPENDENTS_BACK],
        ),
        edge(
            &[give, take, take_first, word(L)],
            steps,
            &[[0, 1]],
            &[DEPENDENTS_BACK, DEPENDENTS_BY_FOOT],
        ),
        // D → L L: the two items with the index stand beside one with an empty stack.
        edge(
            &[give, take_first, take, word(L), [3, D, L, L, 0, 0]],
            steps,
            &[[0, 2]],
            &[DEPENDENTS_BACK, BARE_IN_FRONT],
        ),
    ]
}

/// S → L D[..1] and D → L T[..2]: T takes index 2 at one place, and after that U takes index 1,
/// which was under it, at one of two places.
fn continuations() -> Vec<Edge> {
    let start = [[5, S, L, D, 1, 0], [5, D, L, T, 2, 0], [1, T, L, U, 2, 0]];
    let [take_first, take] = [[2, U, L, L, 1, 0], [1, U, L, L, 1, 0]];
    let card = |takes: [[u8; 6]; 2]| [&start[..], &takes, &[word(L)]].concat();
    let steps = "0 0 1 5, 5 0 1 1, 1 1 2 5, 5 1 2 2, 2 2 3 5, 5 2 3 3, 3 3 4 5, 5 3 4 4, 5 4 5 5";
    vec![
        edge(
            &card([take_first, take]),
            steps,
            &[[0, 4], [1, 2]],
            &[CONTINUATIONS_BACK],
        ),
        edge(
            &card([take, take_first]),
            steps,
            &[[0, 3], [1, 2]],
            &[CONTINUATIONS_BACK, CONTINUATIONS_BY_FOOT],
        ),
    ]
}

/// The line that document 01 prints, alone and with a twin for each word.
fn tomatoes() -> Vec<Edge> {
    let edge = |card: CardText, shown: &[Wrong]| Edge {
        known: Known {
            card: card.bytes(),
            line: b"coir takes mild".to_vec(),
            plan: plan("7 0 1 3, 0 0 1 1, 9 1 2 3, 2 1 2 2, 3 2 3 3"),
            pairs: vec![[0, 2]],
        },
        shown: shown.to_vec(),
    };
    vec![
        edge(tomato(), &[]),
        edge(
            tomato_with_twins(),
            &[Wrong::ProductionsFalling, LAST_STAYS],
        ),
    ]
}
