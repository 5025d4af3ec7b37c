//! Lines whose pairs are known beforehand.

use super::edges::{Edge, KnownSheet};
use super::wrong::{self, Wrong};
use crate::calls::ChartParser;
use crate::compare::{Comparison, Outcome, blame};
use crate::expected::Input;
use crate::verify;

/// How many bytes more than enough the longest pair room has.
const BYTES_MORE: usize = 4;

impl Comparison<'_> {
    /// The pairs in room of every length up to some bytes more than enough, and as records. A wrong
    /// reading gives other pairs, but for those that are known to give the same.
    pub fn last_known(&mut self, edge: &Edge) -> Outcome {
        let input = Input::new(&edge.known.card, &edge.known.line);
        self.known_plan(&input, &edge.known)?;
        let plan = edge.known.plan.as_flattened();
        let due = Ok(edge.known.pairs.clone());
        let enough = 2 * edge.known.pairs.len();
        self.pairs_in(&input, plan, &due, 0..=enough + BYTES_MORE)?;
        let sides = input.sides(plan);
        let same: Vec<Wrong> = wrong::all().filter(|wrong| !wrong.shows(&sides)).collect();
        let verdict = verify::expect("wrong readings with the same pairs", &same, &edge.same);
        blame(&ChartParser, &input, plan, [None; 3], verdict)
    }

    /// The records of several lines, and whatever else a sheet is compared by.
    pub fn last_known_sheet(&mut self, known: &KnownSheet) -> Outcome {
        self.known_records(&known.card, &known.sheet, known.records.clone())?;
        self.sheet(&known.card, &known.sheet)
    }
}
