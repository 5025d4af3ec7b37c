//! All cards with few productions, passing or with dead names. The card check is tried on each, and
//! where it is 42, the other calls, and whether the productions with a dead name ever apply.

use crate::enumerate::lists;
use against::compare::{Comparison, Outcome, blame};
use against::edges::Edge;
use against::expected::Input;
use against::verify;
use independent::write::CardText;

/// How many nonterminals, and up to how many productions. There is one word and one index.
pub const SIZES: [(u8, usize); 3] = [(1, 3), (2, 3), (3, 2)];

/// Cards tried, and those among them that get 42.
#[derive(Debug, Default, PartialEq)]
pub struct Tried {
    pub all: u64,
    pub dead: u64,
}

/// Known beforehand, by counting lists of left and right sides.
pub const KNOWN: Tried = Tried {
    all: 155_339,
    dead: 55_224,
};

pub fn try_all(comparison: &mut Comparison, tried: &mut Tried) -> Outcome {
    for (nonterminals, most) in SIZES {
        let productions = every_production(nonterminals);
        for length in 1..=most {
            for numbers in lists(productions.len(), length) {
                let list = numbers.iter().map(|&number| productions[number]).collect();
                try_one(comparison, nonterminals, list, tried)?;
            }
        }
    }
    Ok(())
}

fn every_production(nonterminals: u8) -> Vec<[u8; 6]> {
    let mut list: Vec<[u8; 6]> = (0..nonterminals).map(|a| [0, a, 0, 0, 0, 0]).collect();
    for names in lists(nonterminals.into(), 3) {
        let [a, b, c] = [0, 1, 2].map(|at| names[at] as u8);
        for kind in 1..=6 {
            let index = u8::from(!matches!(kind, 3 | 4));
            list.push([kind, a, b, c, index, 0]);
        }
    }
    list
}

fn try_one(
    comparison: &mut Comparison,
    nonterminals: u8,
    productions: Vec<[u8; 6]>,
    tried: &mut Tried,
) -> Outcome {
    let text = CardText {
        nonterminals,
        indices: 1,
        words: vec![String::from("a")],
        productions,
    };
    let card = text.bytes();
    let input = Input::new(&card, b"a a a");
    for &calls in comparison.who {
        let verdict = verify::card_check(calls, &input);
        blame(calls, &input, &[], [None; 3], verdict)?;
    }
    tried.all += 1;
    if input.card.as_ref().err() != Some(&42) {
        return Ok(());
    }
    tried.dead += 1;
    comparison.never_applied(&input)?;
    comparison.six_calls(&Edge {
        number: 42,
        items: 0,
        line: input.line_bytes.to_vec(),
        card,
    })
}
