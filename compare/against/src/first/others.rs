//! What the other plans of a line show.

use super::Found;
use super::filling;
use super::kinds::{self, Kind};
use super::wrong::ORDERS;
use crate::calls::ChartParser;
use crate::compare::{Comparison, Outcome, blame};
use crate::expected::Input;
use crate::verify;
use independent::plan::Step;

/// Most items of a chart that is filled in several orders.
const MOST_ITEMS: usize = 150;

impl Comparison<'_> {
    /// Counts a line, of so many items, by its plans.
    pub fn other_plans(
        &mut self,
        input: &Input,
        items: usize,
        first: &[u8],
        found: &Found,
    ) -> Outcome {
        let Ok(card) = &input.card else {
            return Ok(());
        };
        let others = found.others();
        let first = first.as_chunks::<4>().0;
        let kinds = kinds::of_line(card, first, &others);
        self.tally.plans.line(found.readings(), &kinds);
        if others.is_empty() {
            return Ok(());
        }
        // Where no dependents compete, most of the orders cannot show.
        let wanted = kinds.contains(&Kind::Feet) || self.random.once_in(self.effort.lines_a_trial);
        if wanted && items <= MOST_ITEMS {
            self.other_orders(input, first, found)?;
        }
        let other = *self.random.pick(&others);
        self.another_plan(input, other.as_flattened())
    }

    /// Another plan is a leftmost derivation too: it passes, and has its own pairs.
    fn another_plan(&mut self, input: &Input, plan: &[u8]) -> Outcome {
        let passes = verify::demand("another plan does not pass", input.replayed(plan).is_ok());
        blame(&ChartParser, input, plan, [None; 3], passes)?;
        for &calls in self.who {
            let verdict = verify::check(calls, input, plan, 0);
            blame(calls, input, plan, [None; 3], verdict)?;
        }
        self.tally.plans.another_passes();
        self.plan(input, plan)
    }

    /// A chart filled in the right order holds the first plan. In which wrong orders another plan
    /// comes first is counted.
    fn other_orders(&mut self, input: &Input, first: &[Step], found: &Found) -> Outcome {
        let Some((card, line)) = input.accepted() else {
            return Ok(());
        };
        let filled = filling::plan(card, line, None);
        let verdict = verify::expect("plan of a chart", filled.as_deref(), Some(first));
        blame(&ChartParser, input, &[], [None; 3], verdict)?;
        for (wrong, _) in ORDERS {
            let plan = wrong.plan(card, line, found.all());
            if plan.is_some_and(|plan| plan != first) {
                self.tally.plans.shown(wrong);
            }
        }
        Ok(())
    }
}
