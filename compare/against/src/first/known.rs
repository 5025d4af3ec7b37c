//! Lines whose first plan, and its pairs, are known beforehand.

use super::edges::Edge;
use super::{Found, filling};
use crate::calls::ChartParser;
use crate::compare::{Comparison, Outcome, blame};
use crate::disagreement::Disagreement;
use crate::expected::{Input, Items};
use crate::sheet::due::records;
use crate::verify::{self, Verdict};
use independent::plan::Plan;

pub struct Known {
    pub card: Vec<u8>,
    pub line: Vec<u8>,
    pub plan: Plan,
    pub pairs: Vec<[u8; 2]>,
}

/// Production, i, k and j of each step.
pub fn plan(text: &str) -> Plan {
    let number = |field: &str| field.parse().expect("a number");
    let numbers: Vec<u8> = text
        .split([' ', ','])
        .filter(|field| !field.is_empty())
        .map(number)
        .collect();
    numbers.as_chunks::<4>().0.to_vec()
}

impl Comparison<'_> {
    /// An order that shows on the line gives another plan, which passes too.
    pub fn first_known(&mut self, edge: &Edge) -> Outcome {
        let input = Input::new(&edge.known.card, &edge.known.line);
        let plans = self.known_plan(&input, &edge.known)?;
        self.wrong_orders(&input, edge, &plans)
    }

    /// Both ways find the plan, a chart filled in the right order holds it, and the records of a
    /// sheet are its pairs. All plans of the line.
    pub fn known_plan(
        &mut self,
        input: &Input,
        known: &Known,
    ) -> Result<Vec<Plan>, Box<Disagreement>> {
        self.run(&known.card, &known.line)?;
        let mut items = Items::of(input, self.scratch);
        let found = self.first_plan(input, &mut items)?;
        let plans = found.as_ref().and_then(Found::all_by_both);
        let verdict = verify::demand("a way gave up", plans.is_some())
            .and_then(|()| is_the_plan(input, &items, known));
        blame(&ChartParser, input, &[], [None; 3], verdict)?;
        let records = records(0, &known.pairs).collect();
        self.known_records(&known.card, &known.line, records)?;
        Ok(plans.unwrap_or_default().to_vec())
    }

    fn wrong_orders(&mut self, input: &Input, edge: &Edge, plans: &[Plan]) -> Outcome {
        let Some((card, line)) = input.accepted() else {
            return Ok(());
        };
        for wrong in &edge.shown {
            let plan = wrong.plan(card, line, Some(plans)).unwrap_or_default();
            let another = !plan.is_empty() && plan != edge.known.plan;
            let passes = another && input.replayed(plan.as_flattened()).is_ok();
            let verdict = verify::demand(&format!("{wrong:?} does not show"), passes);
            blame(&ChartParser, input, plan.as_flattened(), [None; 3], verdict)?;
            self.tally.plans.shown(*wrong);
            self.plan(input, plan.as_flattened())?;
        }
        Ok(())
    }
}

fn is_the_plan(input: &Input, items: &Items, known: &Known) -> Verdict {
    let (card, line) = input.accepted().ok_or("input is refused")?;
    let plan = known.plan.as_flattened();
    verify::expect("first plan", items.plan(), Some(plan))?;
    let filled = filling::plan(card, line, None);
    verify::expect("plan of a chart", filled.as_ref(), Some(&known.plan))?;
    let pairs = input.replayed(plan).map(|replayed| replayed.pairs);
    verify::expect("pairs", pairs.as_ref(), Ok(&known.pairs))
}
