//! The set of derivable items, as plainly as can be: rounds of all steps over all items, until a
//! round adds nothing. An item that several words of one place give is in the set once.

use crate::card::{Card, Production};
use crate::item::Item;
use crate::line::Spelled;
use crate::steps;
use std::collections::HashSet;

/// None if more than `most` items turn up.
pub fn derivable(card: &Card, line: &[Spelled], most: usize) -> Option<HashSet<Item>> {
    let mut items = HashSet::new();
    loop {
        let found = round(card, line, &items);
        let before = items.len();
        items.extend(found);
        if items.len() > most {
            return None;
        }
        if items.len() == before {
            return Some(items);
        }
    }
}

fn round(card: &Card, line: &[Spelled], items: &HashSet<Item>) -> Vec<Item> {
    let mut found = Vec::new();
    for production in &card.productions {
        found.extend((0..line.len()).filter_map(|i| steps::word(production, line, i)));
        let Production::Pair(production) = production else {
            continue;
        };
        for side in items.iter().filter(|item| item.index == 0) {
            for dependent in items {
                found.extend(steps::take_or_keep(production, side, dependent));
                if steps::half_give(production, side, dependent).is_some() {
                    let whole = |last| steps::give(production, side, dependent, last);
                    found.extend(items.iter().filter_map(whole));
                }
            }
        }
    }
    found
}
