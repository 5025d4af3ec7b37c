//! Plans as lists of steps, and the order among the plans of one line.

use std::cmp::Ordering;

/// Production, i, k, j.
pub type Step = [u8; 4];

pub type Plan = Vec<Step>;

/// Step by step from the left, by production number, then by split.
pub fn order(one: &[Step], other: &[Step]) -> Ordering {
    let compared = |&[production, _, k, _]: &Step| (production, k);
    one.iter().map(compared).cmp(other.iter().map(compared))
}

/// How many steps two plans of one line have in common before they part.
pub fn parting(one: &[Step], other: &[Step]) -> usize {
    let steps = one.iter().zip(other);
    steps.take_while(|(step, other)| step == other).count()
}
