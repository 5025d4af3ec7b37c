//! Orders within orders: a side is an order itself, with a give and a take of its own.

use super::{Edge, edge};
use crate::first::known::plan;
use independent::write::CardText;

/// The names of these cards.
const S: u8 = 0;
const THEN: u8 = 1;
const ORDER: u8 = 2;
const USE: u8 = 3;
const MATERIAL: u8 = 4;
const STRENGTH: u8 = 5;

/// A give and a take. The give's side stands before the dependent, or after it.
type GiveAndTake = [[u8; 6]; 2];

const OUTER: GiveAndTake = [[5, S, ORDER, THEN, 2, 0], [2, THEN, THEN, ORDER, 2, 0]];
const OUTER_AFTER: GiveAndTake = [[6, S, THEN, ORDER, 2, 0], [1, THEN, ORDER, THEN, 2, 0]];
const INNER: GiveAndTake = [
    [5, ORDER, MATERIAL, USE, 1, 0],
    [2, USE, USE, STRENGTH, 1, 0],
];
const INNER_AFTER: GiveAndTake = [
    [6, ORDER, USE, MATERIAL, 1, 0],
    [1, USE, STRENGTH, USE, 1, 0],
];

/// The sides of the outer give and take are orders. Those of the inner ones are words, and may be
/// orders too.
fn card([give, take]: GiveAndTake, [inner_give, inner_take]: GiveAndTake) -> CardText {
    CardText {
        nonterminals: 6,
        indices: 2,
        words: ["coir", "takes", "mild", "then"].map(String::from).to_vec(),
        productions: vec![
            give,
            take,
            [0, THEN, 3, 0, 0, 0],
            inner_give,
            inner_take,
            [0, USE, 1, 0, 0, 0],
            [0, MATERIAL, 0, 0, 0, 0],
            [0, STRENGTH, 2, 0, 0, 0],
            [5, ORDER, ORDER, USE, 1, 0],
            [2, USE, USE, ORDER, 1, 0],
        ],
    }
}

/// The lines of each list are under one card. All wrong readings give other pairs.
pub fn all() -> [Vec<Edge>; 3] {
    let edge = |outer, inner, line, steps, pairs: &[[u8; 2]]| {
        edge(&card(outer, inner), line, plan(steps), pairs, &[])
    };
    let two_orders = "coir takes mild then coir takes mild";
    [
        vec![
            edge(
                OUTER,
                INNER,
                two_orders,
                "0 0 3 7, 3 0 1 3, 6 0 1 1, 4 1 2 3, 5 1 2 2, 7 2 3 3, \
                 1 3 4 7, 2 3 4 4, 3 4 5 7, 6 4 5 5, 4 5 6 7, 5 5 6 6, 7 6 7 7",
                &[[2, 6], [0, 2], [4, 6]],
            ),
            edge(
                OUTER,
                INNER,
                "coir takes mild takes mild then coir takes coir takes mild",
                "0 0 5 11, 8 0 3 5, 3 0 1 3, 6 0 1 1, 4 1 2 3, 5 1 2 2, 7 2 3 3, \
                 4 3 4 5, 5 3 4 4, 7 4 5 5, 1 5 6 11, 2 5 6 6, 3 6 7 11, 6 6 7 7, 9 7 8 11, \
                 5 7 8 8, 3 8 9 11, 6 8 9 9, 4 9 10 11, 5 9 10 10, 7 10 11 11",
                &[[4, 10], [2, 4], [0, 2], [6, 10], [8, 10]],
            ),
        ],
        vec![edge(
            OUTER_AFTER,
            INNER,
            two_orders,
            "0 0 4 7, 1 0 3 4, 3 0 1 3, 6 0 1 1, 4 1 2 3, 5 1 2 2, 7 2 3 3, 2 3 4 4, \
             3 4 5 7, 6 4 5 5, 4 5 6 7, 5 5 6 6, 7 6 7 7",
            &[[6, 2], [0, 2], [4, 6]],
        )],
        vec![edge(
            OUTER_AFTER,
            INNER_AFTER,
            "mild takes coir then mild takes coir",
            "0 0 4 7, 1 0 3 4, 3 0 2 3, 4 0 1 2, 7 0 1 1, 5 1 2 2, 6 2 3 3, 2 3 4 4, \
             3 4 6 7, 4 4 5 6, 7 4 5 5, 5 5 6 6, 6 6 7 7",
            &[[6, 2], [2, 0], [6, 4]],
        )],
    ]
}
