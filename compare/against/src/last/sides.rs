//! The two steps of a pair, and the words that their parts come to.

use independent::card::{Card, Place, Production};
use independent::plan::Step;
use independent::replay::Replayed;

/// A pair as it is due, and the stretches of its two steps.
#[derive(Clone, Copy)]
pub struct Sides {
    pub pair: [u8; 2],
    pub give: Parts,
    pub take: Parts,
}

/// The stretches of a give step or of a take step.
#[derive(Clone, Copy)]
pub struct Parts {
    pub whole: Stretch,
    pub side: Stretch,
    pub dependent: Stretch,
}

/// Its first word and its last, which may be one word.
#[derive(Clone, Copy, PartialEq, Eq)]
pub struct Stretch {
    pub first: u8,
    pub last: u8,
}

impl Stretch {
    fn between(i: u8, j: u8) -> Self {
        Stretch {
            first: i,
            last: j - 1,
        }
    }

    pub fn words(self) -> usize {
        usize::from(self.last - self.first) + 1
    }
}

impl Parts {
    /// Of a step that is not for a word.
    fn of(card: &Card, &[production, i, k, j]: &Step) -> Option<Self> {
        let Production::Pair(pair) = card.productions[usize::from(production)] else {
            return None;
        };
        let [first, second] = [Stretch::between(i, k), Stretch::between(k, j)];
        let (side, dependent) = match pair.dependent {
            Place::First => (second, first),
            Place::Second => (first, second),
        };
        Some(Parts {
            whole: Stretch::between(i, j),
            side,
            dependent,
        })
    }

    /// Whether the side is the first element, as in kinds 1 and 5, or the second, as in 2 and 6.
    pub fn begins_with_side(&self) -> bool {
        self.side.first == self.whole.first
    }

    pub fn first_element(&self) -> Stretch {
        if self.begins_with_side() {
            self.side
        } else {
            self.dependent
        }
    }
}

/// The pairs of a plan that was replayed.
pub fn of_plan(card: &Card, plan: &[u8], replayed: &Replayed) -> Vec<Sides> {
    let steps = plan.as_chunks::<4>().0;
    let pairs = replayed.pairs.iter().zip(&replayed.links);
    let sides = |(&pair, &link): (&[u8; 2], &[usize; 2])| {
        let [give, take] = link.map(|step| Parts::of(card, &steps[step]));
        Some(Sides {
            pair,
            give: give?,
            take: take?,
        })
    };
    pairs.filter_map(sides).collect()
}
