//! Orders that are not document 02's, and the plans that they make the first.

use super::filling::{self, Otherwise};
use independent::card::{Card, Production};
use independent::line::Spelled;
use independent::plan::{Plan, Step};
use std::cmp::Ordering;

#[derive(Clone, Copy, Debug, PartialEq, Eq)]
pub enum Wrong {
    /// By production, then by split, the greatest split first.
    SplitsFalling,
    /// The greatest production first.
    ProductionsFalling,
    /// By split, then by production.
    SplitsFirst,
    /// By the productions of all steps, then by their splits.
    SplitsLast,
    /// From the last step to the first.
    FromTheRight,
    /// A word step by the number of its word.
    ByWord,
    /// That of a chart which is filled otherwise.
    Filled(Otherwise),
}

pub const ORDERS: [(Wrong, &str); 12] = [
    (Wrong::SplitsFalling, "splits falling"),
    (Wrong::ProductionsFalling, "productions falling"),
    (Wrong::SplitsFirst, "splits before productions"),
    (Wrong::SplitsLast, "splits after all productions"),
    (Wrong::FromTheRight, "steps from the right"),
    (Wrong::ByWord, "words before productions"),
    (
        Wrong::Filled(Otherwise::DependentsFromTheBack),
        "dependents from the back",
    ),
    (
        Wrong::Filled(Otherwise::DependentsByFoot),
        "dependents by foot",
    ),
    (
        Wrong::Filled(Otherwise::ContinuationsFromTheBack),
        "continuations from the back",
    ),
    (
        Wrong::Filled(Otherwise::ContinuationsByFoot),
        "continuations by foot",
    ),
    (Wrong::Filled(Otherwise::LastStays), "the last one staying"),
    (
        Wrong::Filled(Otherwise::BareInFront),
        "empty stacks in front",
    ),
];

impl Wrong {
    /// The plan that comes first in this order, for a line with a reading; none if that takes all
    /// plans and they are not known.
    pub fn plan(self, card: &Card, line: &[Spelled], plans: Option<&[Plan]>) -> Option<Plan> {
        match self {
            Wrong::Filled(otherwise) => filling::plan(card, line, Some(otherwise)),
            _ => {
                let order = |one: &&Plan, other: &&Plan| self.order(card, one, other);
                plans?.iter().min_by(order).cloned()
            }
        }
    }

    fn order(self, card: &Card, one: &[Step], other: &[Step]) -> Ordering {
        let [one, other] = [one, other].map(|plan| {
            let mut keys: Vec<(u8, u8)> = plan.iter().map(|step| self.key(card, step)).collect();
            match self {
                Wrong::FromTheRight => keys.reverse(),
                Wrong::SplitsLast => keys.extend(plan.iter().map(|&[_, _, k, _]| (k, 0))),
                _ => {}
            }
            keys
        });
        one.cmp(&other)
    }

    /// What is compared of a step.
    fn key(self, card: &Card, &[production, _, k, _]: &Step) -> (u8, u8) {
        match (self, card.productions[usize::from(production)]) {
            (Wrong::SplitsFalling, _) => (production, u8::MAX - k),
            (Wrong::ProductionsFalling, _) => (u8::MAX - production, k),
            (Wrong::SplitsFirst, _) => (k, production),
            (Wrong::SplitsLast, _) => (production, 0),
            (Wrong::ByWord, Production::Word { word, .. }) => (word, production),
            _ => (production, k),
        }
    }
}
