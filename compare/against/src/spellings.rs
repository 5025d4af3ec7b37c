//! What spellings that several words share allow beside the comparisons of every line.

use crate::compare::{Comparison, Outcome, blame};
use crate::damage;
use crate::expected::Input;
use crate::verify;
use independent::card::Card;
use independent::line::Spelled;
use independent::rewriting;

impl Comparison<'_> {
    /// Counts a line with several lists of words, and by which of its words it was read.
    pub fn count_lists(&mut self, input: &Input, plan: Option<&[u8]>) {
        let Some((card, line)) = input.accepted() else {
            return;
        };
        self.tally.shared.lines += 1;
        let has_32 = line.iter().any(|place| place.words.len() == 32);
        self.tally.shared.places_of_32 += u64::from(has_32);
        let Some(replayed) = plan.and_then(|plan| input.replayed(plan).ok()) else {
            return;
        };
        let read = || replayed.words.iter().zip(line);
        let by_a_later = read().any(|(word, place)| place.words.first() != Some(word));
        self.tally.shared.read_by_a_later_word += u64::from(by_a_later);
        let is_last_of_several = |(word, place): (&u8, &Spelled)| {
            place.words.len() > 1 && place.words.last() == Some(word)
        };
        let needed = read()
            .position(is_last_of_several)
            .is_some_and(|at| self.needs_last_word(card, line, at));
        self.tally.shared.read_by_the_last_word_alone += u64::from(needed);
    }

    /// Whether the recognizer finds that no derivation does without the last word of a place.
    fn needs_last_word(&self, card: &Card, line: &[Spelled], at: usize) -> bool {
        let mut without = line.to_vec();
        without[at].words.pop();
        let found = rewriting::derives(card, &without, self.effort.recognizer_work);
        found.is_ok_and(|found| !found.derives)
    }

    /// A plan that ends in another list of words passes if the spellings are still the line's, and
    /// does not if one is another. Here that is not left to the replayer.
    pub fn other_words(&mut self, input: &Input, plan: &[u8]) -> Outcome {
        let Ok(card) = &input.card else {
            return Ok(());
        };
        for (alike, number) in [(true, 0), (false, 34)] {
            let Some(plan) = damage::other_word(plan, self.random, card, alike) else {
                continue;
            };
            self.tally.shared.plan_with_another_word(alike);
            for &calls in self.who {
                let verdict = verify::check(calls, input, &plan, number);
                blame(calls, input, &plan, [None; 3], verdict)?;
            }
            self.plan(input, &plan)?;
        }
        Ok(())
    }
}
