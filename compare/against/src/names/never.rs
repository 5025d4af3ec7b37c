//! What 42 says of a card: a production with a dead name never applies. That is asked of the cards
//! that get 42, decoded all the same, by the ways that are close to the text.

use super::table;
use crate::calls::ChartParser;
use crate::compare::{Comparison, Outcome, blame};
use crate::expected::{Input, PLAN_ROOM};
use crate::verify::{self, Verdict};
use independent::card::{Card, Production};
use independent::line::{self, Spelled};
use independent::replay::replay;
use independent::{chart, closure, rewriting};

/// Most items of a line whose plan is looked for.
const MOST_ITEMS: usize = 600;

impl Comparison<'_> {
    /// The line of a card that gets 42, read under the card as it is and without the productions
    /// that have a dead name on the right.
    pub fn never_applied(&mut self, input: &Input) -> Outcome {
        let Ok(card) = Card::decode(input.card_bytes) else {
            return Ok(());
        };
        let Ok(line) = line::places(&card, input.line_bytes) else {
            return Ok(());
        };
        let verdict = self
            .same_derivations(&card, &line)
            .and_then(|()| self.same_items(&card, &line));
        blame(&ChartParser, input, &[], [None; 3], verdict)
    }

    /// Whether there is one, by the definition of rewriting.
    fn same_derivations(&mut self, card: &Card, line: &[Spelled]) -> Verdict {
        let work = self.effort.recognizer_work;
        let found = [card, &without_dead_names(card)].map(|card| {
            let found = rewriting::derives(card, line, work);
            found.ok().map(|found| found.derives)
        });
        let [Some(with), Some(without)] = found else {
            return Ok(());
        };
        self.tally.names.asked_without(without);
        verify::expect("derivable with dead names", with, without)
    }

    /// The same items, none of them of a dead name, so that no step has made one.
    fn same_items(&mut self, card: &Card, line: &[Spelled]) -> Verdict {
        let most = self.effort.closure_items;
        let derivable = |card: &Card| closure::derivable(card, line, most);
        let with = derivable(card);
        let dead = card.dead_names();
        let of_dead_name = with
            .iter()
            .flatten()
            .any(|item| dead.contains(&item.nonterminal));
        verify::demand("a dead name has an item", !of_dead_name)?;
        let same = with == derivable(&without_dead_names(card));
        verify::demand("a production with a dead name made an item", same)
    }

    /// What 42 comes before: Read's number in these rooms if the productions that never apply were
    /// left out, and a plan that would then pass.
    pub fn hidden(&mut self, input: &Input, [chart, plan]: [usize; 2]) -> Outcome {
        let (living, numbers) = living(input.card_bytes);
        let read =
            |chart: &mut [u8], plan: &mut [u8]| chart::read(&living, input.line_bytes, chart, plan);
        let number = read(&mut vec![0; chart], &mut vec![0; plan]).number;
        self.tally.names.hidden(number);
        let mut plan = vec![0; PLAN_ROOM];
        let answer = read(&mut [0; 16 * MOST_ITEMS], &mut plan);
        if answer.number != 0 {
            return Ok(());
        }
        plan.truncate(4 * usize::from(answer.steps));
        for step in plan.as_chunks_mut::<4>().0 {
            step[0] = numbers[usize::from(step[0])];
        }
        let verdict = verify::demand("no derivation", derives(input, &plan));
        blame(&ChartParser, input, &plan, [None; 3], verdict)?;
        self.tally.names.right_plan();
        self.plan(input, &plan)
    }
}

/// The card once more, without the productions that have a dead name on the right.
fn without_dead_names(card: &Card) -> Card {
    let dead = card.dead_names();
    let lives = |production: &Production| {
        let mut right = production.right().into_iter().flatten();
        !right.any(|name| dead.contains(&name))
    };
    let mut card = card.clone();
    card.productions.retain(lives);
    card
}

/// The bytes of a card that passes but for its dead names, without the productions that never
/// apply, and the numbers that its productions had. It is refused if none is left.
fn living(card: &[u8]) -> (Vec<u8>, Vec<u8>) {
    let rows = table::rows(card);
    let living = table::living(rows);
    let mut numbers = Vec::new();
    for row in &living {
        let after = numbers.last().map_or(0, |&last| usize::from(last) + 1);
        let at = rows[after..].iter().position(|other| other == row);
        numbers.push((after + at.unwrap_or(0)) as u8);
    }
    let mut bytes = card[..card.len() - 6 * rows.len()].to_vec();
    bytes[7] = living.len() as u8;
    bytes.extend(living.as_flattened());
    (bytes, numbers)
}

/// Whether the plan is a derivation under the card, whatever names that has.
fn derives(input: &Input, plan: &[u8]) -> bool {
    let Ok(card) = Card::decode(input.card_bytes) else {
        return false;
    };
    line::places(&card, input.line_bytes).is_ok_and(|line| replay(&card, &line, plan).is_some())
}
