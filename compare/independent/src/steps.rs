//! The deduction steps, one function each. The naive closure is made of these, and so is the
//! test of a single record.

use crate::card::{Action, PairProduction, Place, Production};
use crate::item::{Gone, Item};
use crate::line::Spelled;

/// word: the item over place i, if the production's word is one of those spelled as that place is.
pub fn word(production: &Production, line: &[Spelled], i: usize) -> Option<Item> {
    match *production {
        Production::Word { head, word } if line.get(i)?.words.contains(&word) => Some(Item {
            nonterminal: head,
            index: 0,
            i: i as u8,
            j: i as u8 + 1,
            gone: None,
        }),
        _ => None,
    }
}

/// The side and the dependent as nonterminals.
fn parts(production: &PairProduction) -> (u8, u8) {
    match production.dependent {
        Place::First => (production.second, production.first),
        Place::Second => (production.first, production.second),
    }
}

/// Whether the items are of the production's elements, over stretches that meet; the stretch of
/// both together.
fn joined(production: &PairProduction, side: &Item, dependent: &Item) -> Option<(u8, u8)> {
    let fits = side.index == 0 && (side.nonterminal, dependent.nonterminal) == parts(production);
    let (first, second) = match production.dependent {
        Place::First => (dependent, side),
        Place::Second => (side, dependent),
    };
    (fits && first.j == second.i).then_some((first.i, second.j))
}

/// take and keep: what they make of a side and a dependent.
pub fn take_or_keep(production: &PairProduction, side: &Item, dependent: &Item) -> Option<Item> {
    let (i, j) = joined(production, side, dependent)?;
    let (index, gone) = match production.action {
        Action::Take(g) => {
            let gone = Gone {
                nonterminal: dependent.nonterminal,
                p: dependent.i,
                q: dependent.j,
            };
            (g, Some(gone))
        }
        Action::Keep => (dependent.index, dependent.gone),
        Action::Give(_) => return None,
    };
    Some(Item {
        nonterminal: production.head,
        index,
        i,
        j,
        gone,
    })
}

/// give, before its continuation is known: the stretch of the result, and where the continuation
/// has to be.
pub fn half_give(
    production: &PairProduction,
    side: &Item,
    dependent: &Item,
) -> Option<((u8, u8), Gone)> {
    let stretch = joined(production, side, dependent)?;
    match production.action {
        Action::Give(g) if dependent.index == g => Some((stretch, dependent.gone?)),
        _ => None,
    }
}

/// give: what it makes of a side, a dependent and a continuation.
pub fn give(
    production: &PairProduction,
    side: &Item,
    dependent: &Item,
    continuation: &Item,
) -> Option<Item> {
    let ((i, j), gone) = half_give(production, side, dependent)?;
    let place = Gone {
        nonterminal: continuation.nonterminal,
        p: continuation.i,
        q: continuation.j,
    };
    (gone == place).then_some(Item {
        nonterminal: production.head,
        index: continuation.index,
        i,
        j,
        gone: continuation.gone,
    })
}
