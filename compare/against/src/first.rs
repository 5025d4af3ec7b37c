//! The first plan of a line, found in the two ways that make no chart, and the other plans that it
//! is told from.

pub mod edges;
mod filling;
pub mod kinds;
pub mod known;
mod others;
pub mod wrong;

use crate::calls::ChartParser;
use crate::compare::{Comparison, Effort};
use crate::disagreement::Disagreement;
use crate::expected::{Input, Items};
use crate::tally::plans::Readings;
use crate::verify::{self, Verdict};
use independent::card::Card;
use independent::enumeration::{self, Enumerated};
use independent::first::{Others, Search};
use independent::line::Spelled;
use independent::plan::{Plan, Step, order};
use std::cmp::Ordering;

/// What both ways have found about a line that has a reading.
pub struct Found {
    enumerated: Enumerated,
    /// The first plan and where others leave it; none if the search was given up.
    searched: Option<(Plan, Others)>,
}

impl Found {
    fn of(card: &Card, line: &[Spelled], effort: &Effort) -> Result<Self, String> {
        let enumerated = enumeration::all(card, line, effort.enumeration);
        let mut search = Search::new(card, line, effort.search_work);
        let searched = match search.first() {
            Err(_) => None,
            Ok(None) => return Err("the search finds no plan".to_string()),
            Ok(Some(plan)) => {
                let others = search.others(&plan);
                Some((plan, others))
            }
        };
        Ok(Found {
            enumerated,
            searched,
        })
    }

    fn first(&self) -> Option<&Plan> {
        match &self.searched {
            Some((first, _)) => Some(first),
            None if self.enumerated.complete => self.enumerated.plans.first(),
            None => None,
        }
    }

    /// All plans, if they are known.
    fn all(&self) -> Option<&[Plan]> {
        let Enumerated { plans, complete } = &self.enumerated;
        complete.then_some(plans)
    }

    /// All plans, if both ways have come to their end.
    fn all_by_both(&self) -> Option<&[Plan]> {
        self.searched.as_ref().and_then(|_| self.all())
    }

    /// Where other plans leave the first one, as far as that is known.
    pub fn others(&self) -> Vec<&Plan> {
        match &self.searched {
            Some((_, others)) if others.complete || !self.enumerated.complete => {
                others.plans.iter().collect()
            }
            _ => self.enumerated.others(),
        }
    }

    fn readings(&self) -> Readings {
        let by_search = self.searched.as_ref();
        let all = self.enumerated.complete || by_search.is_some_and(|(_, others)| others.complete);
        let other = self.enumerated.plans.len() > 1 || !self.others().is_empty();
        Readings {
            by_enumeration: self.enumerated.complete,
            by_search: by_search.is_some(),
            several: (all || other).then_some(other),
        }
    }

    /// Whether the two ways have found the same, as far as both went. `due` is the plan that counts
    /// as the first; nothing that was found may come before it.
    fn agree(&self, due: &[Step]) -> Verdict {
        let plans = &self.enumerated.plans;
        let before = |plan: &&Plan| order(plan, due) == Ordering::Less;
        if let Some(plan) = plans.iter().find(before) {
            return Err(format!("the plan {plan:?} comes before {due:?}"));
        }
        if !self.enumerated.complete {
            return Ok(());
        }
        verify::expect("first of all plans", plans.first(), Some(&due.to_vec()))?;
        let Some((_, others)) = &self.searched else {
            return Ok(());
        };
        let mut expected = self.enumerated.others();
        if !others.complete {
            expected.truncate(others.plans.len());
        }
        let found: Vec<&Plan> = others.plans.iter().collect();
        verify::expect("plans that leave the first", found, expected)
    }
}

impl Comparison<'_> {
    /// Finds the first plan of a line that has a reading, so that it is what Read has to write.
    pub fn first_plan(
        &mut self,
        input: &Input,
        items: &mut Items,
    ) -> Result<Option<Found>, Box<Disagreement>> {
        let (Some((card, line)), Some(held)) = (input.accepted(), &mut items.held) else {
            return Ok(None);
        };
        let Some(plan) = &mut held.plan else {
            return Ok(None);
        };
        let report =
            |plan: &[u8], what| Disagreement::on_line(&ChartParser, input, plan, [None; 3], what);
        let found = Found::of(card, line, self.effort).map_err(|what| report(plan, what))?;
        if let Some(first) = found.first() {
            *plan = first.as_flattened().to_vec();
        }
        let due = plan.as_chunks::<4>().0;
        found.agree(due).map_err(|what| report(plan, what))?;
        Ok(Some(found))
    }
}
