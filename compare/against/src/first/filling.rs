//! A chart filled as plainly as can be, in an order of one's choice, and the plan that unfolding it
//! writes. In the right order that is the first plan. In another one it need not be.

use independent::card::{Action, Card, PairProduction, Place, Production};
use independent::item::{Item, Record};
use independent::line::Spelled;
use independent::plan::Plan;
use independent::steps;
use std::collections::HashMap;

/// What is done otherwise than by production, split, dependent and continuation, all rising, the
/// first step found being the one that is recorded.
#[derive(Clone, Copy, Debug, PartialEq, Eq)]
pub enum Otherwise {
    DependentsFromTheBack,
    /// By index, nonterminal and stretch of the place where the index goes.
    DependentsByFoot,
    ContinuationsFromTheBack,
    ContinuationsByFoot,
    /// A later step of an item takes the place of an earlier one.
    LastStays,
    /// The item with an empty stack is exchanged with the first of its nonterminal and stretch.
    BareInFront,
}

/// The plan of a chart filled in this way; none if the line has no reading.
pub fn plan(card: &Card, line: &[Spelled], otherwise: Option<Otherwise>) -> Option<Plan> {
    let mut chart = Chart {
        card,
        line,
        otherwise,
        records: Vec::new(),
        cells: HashMap::new(),
    };
    for length in 1..=line.len() {
        for i in 0..=line.len() - length {
            for nonterminal in 0..card.nonterminals {
                chart.fill((nonterminal, i as u8, (i + length) as u8));
            }
        }
    }
    let whole_line = chart.bare((0, 0, line.len() as u8))?;
    let mut plan = Vec::new();
    chart.unfold_side(whole_line, &mut plan);
    Some(plan)
}

/// A nonterminal and a stretch.
type Cell = (u8, u8, u8);

struct Chart<'a> {
    card: &'a Card,
    line: &'a [Spelled],
    otherwise: Option<Otherwise>,
    records: Vec<Record>,
    /// Positions, in the order in which they are gone through.
    cells: HashMap<Cell, Vec<usize>>,
}

impl Chart<'_> {
    fn fill(&mut self, cell: Cell) {
        let (nonterminal, i, j) = cell;
        let card = self.card;
        for (number, production) in card.productions.iter().enumerate() {
            if production.left() != nonterminal {
                continue;
            }
            let number = number as u8;
            match production {
                Production::Word { .. } if j - i == 1 => {
                    let item = steps::word(production, self.line, i.into());
                    self.offer(item, number, [None; 3]);
                }
                Production::Word { .. } => {}
                Production::Pair(pair) => (i + 1..j).for_each(|k| self.join(number, pair, i, k, j)),
            }
        }
        if let (Some(Otherwise::BareInFront), Some(bare)) = (self.otherwise, self.bare(cell)) {
            let positions = self.cells.entry(cell).or_default();
            let at = positions.iter().position(|&position| position == bare);
            positions.swap(0, at.unwrap_or(0));
        }
    }

    /// All steps of a production at a split.
    fn join(&mut self, number: u8, pair: &PairProduction, i: u8, k: u8, j: u8) {
        let (side, dependent) = match pair.dependent {
            Place::First => ((pair.second, k, j), (pair.first, i, k)),
            Place::Second => ((pair.first, i, k), (pair.second, k, j)),
        };
        let Some(side) = self.bare(side) else {
            return;
        };
        for at in self.dependents(dependent) {
            let [first, second] = [side, at].map(|position| self.records[position].item);
            if !matches!(pair.action, Action::Give(_)) {
                let item = steps::take_or_keep(pair, &first, &second);
                self.offer(item, number, [Some(side), Some(at), None]);
                continue;
            }
            let Some((_, foot)) = steps::half_give(pair, &first, &second) else {
                continue;
            };
            for last in self.continuations((foot.nonterminal, foot.p, foot.q)) {
                let item = steps::give(pair, &first, &second, &self.records[last].item);
                self.offer(item, number, [Some(side), Some(at), Some(last)]);
            }
        }
    }

    fn bare(&self, cell: Cell) -> Option<usize> {
        let is_bare = |&position: &usize| self.records[position].item.index == 0;
        self.positions(cell).into_iter().find(is_bare)
    }

    fn positions(&self, cell: Cell) -> Vec<usize> {
        self.cells.get(&cell).cloned().unwrap_or_default()
    }

    fn dependents(&self, cell: Cell) -> Vec<usize> {
        let mut list = self.positions(cell);
        match self.otherwise {
            Some(Otherwise::DependentsFromTheBack) => list.reverse(),
            Some(Otherwise::DependentsByFoot) => self.sort_by_foot(&mut list),
            _ => {}
        }
        list
    }

    fn continuations(&self, cell: Cell) -> Vec<usize> {
        let mut list = self.positions(cell);
        match self.otherwise {
            Some(Otherwise::ContinuationsFromTheBack) => list.reverse(),
            Some(Otherwise::ContinuationsByFoot) => self.sort_by_foot(&mut list),
            _ => {}
        }
        list
    }

    fn sort_by_foot(&self, positions: &mut [usize]) {
        let foot = |position: &usize| {
            let Item { index, gone, .. } = self.records[*position].item;
            (index, gone)
        };
        positions.sort_by_key(foot);
    }

    /// Records the item unless it is there.
    fn offer(&mut self, item: Option<Item>, production: u8, antecedents: [Option<usize>; 3]) {
        let Some(item) = item else {
            return;
        };
        let [side, dependent, continuation] = antecedents;
        let record = Record {
            item,
            production,
            side,
            dependent,
            continuation,
        };
        let cell = (item.nonterminal, item.i, item.j);
        let equal = |&position: &usize| self.records[position].item == item;
        match self.positions(cell).into_iter().find(equal) {
            Some(position) if self.otherwise == Some(Otherwise::LastStays) => {
                self.records[position] = record;
            }
            Some(_) => {}
            None => {
                let positions = self.cells.entry(cell).or_default();
                positions.push(self.records.len());
                self.records.push(record);
            }
        }
    }

    fn unfold_side(&self, position: usize, plan: &mut Plan) {
        self.unfold_spine(position, Vec::new(), plan);
    }

    /// After a take comes the continuation last pending, not the dependent of the record.
    fn unfold_spine(&self, position: usize, mut pending: Vec<usize>, plan: &mut Plan) {
        let record = self.records[position];
        let Item { i, j, .. } = record.item;
        let Production::Pair(pair) = self.card.productions[usize::from(record.production)] else {
            plan.push([record.production, i, j, j]);
            return;
        };
        let antecedents = (record.side, record.dependent);
        let (Some(side), Some(dependent)) = antecedents else {
            return;
        };
        let next = match pair.action {
            Action::Keep => dependent,
            Action::Take(_) => pending.pop().unwrap_or(dependent),
            Action::Give(_) => {
                pending.extend(record.continuation);
                dependent
            }
        };
        let of_side = self.records[side].item;
        match pair.dependent {
            Place::First => {
                plan.push([record.production, i, of_side.i, j]);
                self.unfold_spine(next, pending, plan);
                self.unfold_side(side, plan);
            }
            Place::Second => {
                plan.push([record.production, i, of_side.j, j]);
                self.unfold_side(side, plan);
                self.unfold_spine(next, pending, plan);
            }
        }
    }
}
