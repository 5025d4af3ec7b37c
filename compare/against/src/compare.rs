//! All comparisons that one card and one line allow.

use crate::calls::{Calls, ChartParser, Who};
use crate::damage;
use crate::disagreement::Disagreement;
use crate::edges::Edge;
use crate::expected::{FULL_ROOM, Input, Items, PLAN_ROOM, Scratch};
use crate::last::sides;
use crate::room::Room;
use crate::tally::Tally;
use crate::verify;
use independent::closure;
use independent::enumeration::Bounds;
use independent::item::Item;
use independent::random::Random;
use independent::rewriting;

/// How much is done for one input.
pub struct Effort {
    /// Room lengths beside the one that suffices.
    pub other_rooms: usize,
    pub damaged_plans: usize,
    /// Trials of a production that the rewriting recognizer may make for a line, over all its lists
    /// of words.
    pub recognizer_work: usize,
    /// How far all plans of a line are enumerated, and how many trials the search for its first
    /// plan may make.
    pub enumeration: Bounds,
    pub search_work: usize,
    /// Other orders are tried for one in so many of the lines with several plans and few items;
    /// where dependents compete, for each.
    pub lines_a_trial: usize,
    /// Most items for which the naive closure is made.
    pub closure_items: usize,
    /// Lengths of chart room for a sheet, and for each of these of output room, beside the ones
    /// that suffice.
    pub sheet_rooms: usize,
}

pub struct Comparison<'a> {
    pub who: Who,
    pub random: &'a mut Random,
    pub scratch: &'a mut Scratch,
    pub tally: &'a mut Tally,
    pub effort: &'a Effort,
}

pub type Outcome = Result<(), Box<Disagreement>>;

/// Puts a verdict together with the bytes it is about.
pub fn blame(
    calls: &dyn Calls,
    input: &Input,
    plan: &[u8],
    rooms: [Option<usize>; 3],
    verdict: verify::Verdict,
) -> Outcome {
    verdict.map_err(|what| Disagreement::on_line(calls, input, plan, rooms, what))
}

impl Comparison<'_> {
    pub fn run(&mut self, card: &[u8], line: &[u8]) -> Outcome {
        let input = Input::new(card, line);
        self.card(&input)?;
        if input.accepted().is_some() {
            self.accepted(&input)
        } else {
            self.refused(&input)
        }
    }

    /// The same, where the number that Read has to answer, and the items, are known beforehand.
    pub fn known(&mut self, edge: &Edge) -> Outcome {
        self.run(&edge.card, &edge.line)?;
        let input = Input::new(&edge.card, &edge.line);
        let found = match &input.line {
            Err(number) => (*number, 0),
            Ok(line) => {
                let items = Items::of(&input, self.scratch);
                let number = items.read_number(line.len(), FULL_ROOM, PLAN_ROOM);
                (number, items.count())
            }
        };
        let verdict = verify::expect("number and items", found, (edge.number, edge.items));
        blame(&ChartParser, &input, &[], [None; 3], verdict)
    }

    /// The card check, and Name for every word and for numbers that no word has.
    fn card(&mut self, input: &Input) -> Outcome {
        let number = input.card.as_ref().err().copied().unwrap_or(0);
        self.tally.names.card(input.card_bytes, number);
        self.tally.number(if number == 0 { 35 } else { number });
        let words = input.card.as_ref().map_or(3, |card| card.words.len());
        let beyond = [
            words,
            words + 1,
            255,
            256,
            1 << 16,
            1 << 32,
            1 << 63,
            usize::MAX,
        ];
        for &calls in self.who {
            let report = |verdict| blame(calls, input, &[], [None; 3], verdict);
            report(verify::card_check(calls, input))?;
            for word in (0..words).chain(beyond) {
                report(verify::name(calls, input, word))?;
            }
        }
        Ok(())
    }

    fn refused(&mut self, input: &Input) -> Outcome {
        let number = input.line.as_ref().err().copied().unwrap_or(0);
        self.tally.number(number);
        self.tally.shared.unknown_words += u64::from(number == 24 && input.shares_spellings());
        let mut chart = Room::new(self.random.below(200), self.random);
        let mut plan = Room::new(self.random.below(200), self.random);
        for &calls in self.who {
            let rooms = [Some(chart.length()), Some(plan.length()), None];
            let verdict = verify::refused_read(calls, input, &mut chart, &mut plan);
            blame(calls, input, &[], rooms, verdict)?;
        }
        if number == 42 {
            self.never_applied(input)?;
            self.hidden(input, [chart.length(), plan.length()])?;
        }
        let random_plan = damage::random_plan(self.random, 5, 3);
        self.plan(input, &random_plan)
    }

    fn accepted(&mut self, input: &Input) -> Outcome {
        let mut items = Items::of(input, self.scratch);
        match &items.held {
            None => self.tally.lines_too_large += 1,
            Some(held) if held.has_reading() => self.tally.lines_read += 1,
            Some(_) => self.tally.lines_not_read += 1,
        }
        self.closure(input, &items)?;
        self.recognizer(input, &items)?;
        let found = self.first_plan(input, &mut items)?;
        self.reads(input, &items)?;
        let plan = items.plan();
        if input.has_several_lists() {
            self.count_lists(input, plan);
        }
        if let (Some(plan), Some(found)) = (plan, found) {
            self.plan(input, plan)?;
            self.other_plans(input, items.count(), plan, &found)?;
            self.other_words(input, plan)?;
        }
        self.damaged_plans(input, plan)
    }

    /// The item set against the naive closure, where that is affordable.
    pub fn closure(&mut self, input: &Input, items: &Items) -> Outcome {
        let (Some((card, line)), Some(held)) = (input.accepted(), &items.held) else {
            return Ok(());
        };
        let most = self.effort.closure_items;
        if held.keys.len() > most {
            return Ok(());
        }
        self.tally.charts_closed += 1;
        let closed = closure::derivable(card, line, most);
        let mut keys: Vec<u64> = closed
            .into_iter()
            .flatten()
            .map(|item| item_key(&item))
            .collect();
        keys.sort_unstable();
        let verdict = if keys == held.keys {
            Ok(())
        } else {
            Err(format!(
                "{} items, the closure has {}",
                held.keys.len(),
                keys.len()
            ))
        };
        blame(&ChartParser, input, &[], [None; 3], verdict)
    }

    /// Reading or no reading against the definition of rewriting, where that is affordable.
    pub fn recognizer(&mut self, input: &Input, items: &Items) -> Outcome {
        let (Some((card, line)), Some(held)) = (input.accepted(), &items.held) else {
            return Ok(());
        };
        let found = rewriting::derives(card, line, self.effort.recognizer_work).ok();
        self.tally.recognizer(found, input.has_several_lists());
        let verdict = match found {
            Some(found) => verify::expect("reading", held.has_reading(), found.derives),
            None => Ok(()),
        };
        blame(&ChartParser, input, &[], [None; 3], verdict)
    }

    /// Read with several room lengths.
    fn reads(&mut self, input: &Input, items: &Items) -> Outcome {
        let words = input.accepted().map_or(1, |(_, line)| line.len());
        let least_plan = 4 * (2 * words - 1);
        let mut lengths = vec![(
            16 * items.count() + self.random.below(34),
            least_plan + self.random.below(10),
        )];
        for _ in 0..self.effort.other_rooms {
            let chart = around(self.random, 16 * items.count(), 16);
            let plan = match self.random.below(3) {
                0 => around(self.random, least_plan, 4),
                _ => least_plan,
            };
            lengths.push((chart, plan));
        }
        self.reads_in(input, items, &lengths)
    }

    /// Read with these lengths of chart and plan room.
    pub fn reads_in(
        &mut self,
        input: &Input,
        items: &Items,
        lengths: &[(usize, usize)],
    ) -> Outcome {
        let words = input.accepted().map_or(1, |(_, line)| line.len());
        for &(chart, plan) in lengths {
            let number = items.read_number(words, chart, plan);
            self.tally.number(number);
            let mut chart = Room::new(chart, self.random);
            let mut plan = Room::new(plan, self.random);
            for &calls in self.who {
                chart.restore();
                plan.restore();
                let rooms = [Some(chart.length()), Some(plan.length()), None];
                let verdict = verify::read(calls, input, items, &mut chart, &mut plan);
                blame(calls, input, plan.now(), rooms, verdict)?;
            }
        }
        Ok(())
    }

    fn damaged_plans(&mut self, input: &Input, plan: Option<&[u8]>) -> Outcome {
        let Some((card, line)) = input.accepted() else {
            return Ok(());
        };
        for _ in 0..self.effort.damaged_plans {
            let damaged = match plan {
                Some(plan) if !self.random.once_in(6) => {
                    damage::plan(plan, self.random, &card.productions, line.len())
                }
                _ => damage::random_plan(self.random, card.productions.len(), line.len()),
            };
            self.plan(input, &damaged)?;
        }
        Ok(())
    }

    /// Check and Pairs on one plan.
    pub fn plan(&mut self, input: &Input, plan: &[u8]) -> Outcome {
        let replayed = input.replayed(plan);
        if let (Ok(card), Ok(replayed)) = (&input.card, &replayed) {
            self.tally.plans_replayed += 1;
            self.tally.pairs.plan(&sides::of_plan(card, plan, replayed));
        }
        let due = replayed.map(|replayed| replayed.pairs);
        let number = due.as_ref().err().copied().unwrap_or(0);
        self.tally.number(number);
        for &calls in self.who {
            let verdict = verify::check(calls, input, plan, number);
            blame(calls, input, plan, [None; 3], verdict)?;
        }
        let length = 2 * due.as_ref().map_or(0, Vec::len);
        let enough = length + self.random.below(4);
        let lengths = [enough, around(self.random, length, 2)];
        self.pairs_in(input, plan, &due, lengths)
    }

    /// Pairs with these lengths of room. Check's number is due, or the pairs are.
    pub fn pairs_in(
        &mut self,
        input: &Input,
        plan: &[u8],
        due: &Result<Vec<[u8; 2]>, u16>,
        lengths: impl IntoIterator<Item = usize>,
    ) -> Outcome {
        for length in lengths {
            if due.as_ref().is_ok_and(|pairs| length < 2 * pairs.len()) {
                self.tally.number(33);
            }
            let mut room = Room::new(length, self.random);
            for &calls in self.who {
                room.restore();
                let verdict = verify::pairs(calls, input, plan, due, &mut room);
                blame(calls, input, plan, [None, None, Some(length)], verdict)?;
            }
        }
        Ok(())
    }
}

/// A length at, just below, just above or far from a threshold.
fn around(random: &mut Random, threshold: usize, unit: usize) -> usize {
    match random.below(10) {
        0 => 0,
        1 => random.below(threshold + 1),
        2 | 3 => threshold.saturating_sub(1),
        4 => threshold.saturating_sub(unit),
        5 => threshold.saturating_sub(random.below(2 * unit)),
        6 => threshold + 1,
        7 => threshold + unit,
        8 => threshold + random.below(3 * unit),
        _ => threshold,
    }
}

/// The item's part of a record, as `expected::key` has it.
pub fn item_key(item: &Item) -> u64 {
    let (b, p, q) = match item.gone {
        Some(gone) => (gone.nonterminal, gone.p, gone.q),
        None => (255, 0, 0),
    };
    u64::from_le_bytes([item.nonterminal, item.index, item.i, item.j, b, p, q, 0])
}
