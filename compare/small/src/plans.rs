//! All plans of the right length with small numbers: Check against the literal replayer.

use crate::enumerate::lists;
use against::calls::{ChartParser, Who};
use against::disagreement::Disagreement;
use against::expected::Input;
use against::verify;
use independent::card::Card;
use independent::line;
use independent::replay::replay;

/// How many plans were tried, and how many of them pass.
#[derive(Default)]
pub struct Tried {
    pub all: u64,
    pub passing: u64,
}

/// Tries every plan whose productions are at most P, and whose places are at most `most_place`.
pub fn try_all(
    who: Who,
    card: &[u8],
    line: &[u8],
    words: usize,
    most_place: usize,
    tried: &mut Tried,
) -> Result<(), Box<Disagreement>> {
    let input = Input::new(card, line);
    let productions = input.card.as_ref().map_or(0, |card| card.productions.len());
    let steps = every_step(productions, most_place);
    let mut plan = vec![[0; 4]; 2 * words - 1];
    for choice in lists(steps.len(), plan.len()) {
        for (step, number) in plan.iter_mut().zip(choice) {
            *step = steps[number];
        }
        tried.all += 1;
        tried.passing += u64::from(passes(who, &input, plan.as_flattened())?);
    }
    Ok(())
}

fn every_step(productions: usize, most_place: usize) -> Vec<[u8; 4]> {
    lists((productions + 1).max(most_place + 1), 4)
        .filter(|fields| fields[0] <= productions && fields[1..].iter().all(|&f| f <= most_place))
        .map(|fields| [0, 1, 2, 3].map(|at| fields[at] as u8))
        .collect()
}

/// Whether the plan passes, if all agree on that.
fn passes(who: Who, input: &Input, plan: &[u8]) -> Result<bool, Box<Disagreement>> {
    let expected = input.replayed(plan).err().unwrap_or(0);
    for &calls in who {
        verify::check(calls, input, plan, expected)
            .map_err(|what| Disagreement::on_line(calls, input, plan, [None; 3], what))?;
    }
    Ok(expected == 0)
}

/// Tries every plan of the card's productions for a line, where the card gets 42 and is decoded all
/// the same.
pub fn try_dead(
    who: Who,
    card: &[u8],
    line: &[u8],
    words: usize,
    tried: &mut Tried,
) -> Result<(), Box<Disagreement>> {
    let input = Input::new(card, line);
    let decoded = Card::decode(card).expect("a card with no fault but dead names");
    let places = line::places(&decoded, line).expect("an accepted line");
    let steps = every_step(decoded.productions.len() - 1, words);
    for choice in lists(steps.len(), 2 * words - 1) {
        let plan: Vec<[u8; 4]> = choice.iter().map(|&number| steps[number]).collect();
        tried.all += 1;
        if replay(&decoded, &places, plan.as_flattened()).is_some() {
            tried.passing += 1;
            derivation(who, &input, &decoded, &plan)?;
        }
    }
    Ok(())
}

/// A derivation has no production with a dead name on its right. It is answered with 42 too.
fn derivation(
    who: Who,
    input: &Input,
    card: &Card,
    plan: &[[u8; 4]],
) -> Result<(), Box<Disagreement>> {
    let dead = card.dead_names();
    let right = |step: &[u8; 4]| card.productions[usize::from(step[0])].right();
    let mut names = plan.iter().filter_map(right).flatten();
    let uses_one = names.any(|name| dead.contains(&name));
    let bytes = plan.as_flattened();
    let report = |calls, what| Disagreement::on_line(calls, input, bytes, [None; 3], what);
    verify::demand("a dead name in a derivation", !uses_one)
        .map_err(|what| report(&ChartParser, what))?;
    for &calls in who {
        verify::check(calls, input, bytes, 42).map_err(|what| report(calls, what))?;
    }
    Ok(())
}
