//! All plans of a line, where these are few: every leftmost derivation is followed to its end, on
//! sentential forms that know nothing of stretches. Which words a step has come to is read off the
//! finished list of steps.
//!
//! A form is given up once it cannot come to the line any more: a word of it is spelled otherwise
//! than the line's, or it has too many symbols. An index counts as one, since the step that takes
//! it puts in a side.

use crate::card::{Action, Card, PairProduction, Place, Production};
use crate::line::Spelled;
use crate::plan::{self, Plan};

/// The plans that were found, in order. All there are, or `complete` is false.
pub struct Enumerated {
    pub plans: Vec<Plan>,
    pub complete: bool,
}

/// How far the enumeration goes.
#[derive(Clone, Copy)]
pub struct Bounds {
    pub plans: usize,
    /// Trials of a production.
    pub work: usize,
}

pub fn all(card: &Card, line: &[Spelled], bounds: Bounds) -> Enumerated {
    let mut enumeration = Enumeration {
        card,
        line,
        open: vec![Open {
            nonterminal: 0,
            stack: Vec::new(),
        }],
        steps: Vec::new(),
        plans: Vec::new(),
        left: bounds,
    };
    let complete = enumeration.go_on(0, 1).is_ok();
    let mut plans = enumeration.plans;
    plans.sort_by(|one, other| plan::order(one, other));
    Enumerated { plans, complete }
}

impl Enumerated {
    /// For each step at which some plan leaves the first one, the last such step first, the first
    /// of the plans that do.
    pub fn others(&self) -> Vec<&Plan> {
        let Some((first, rest)) = self.plans.split_first() else {
            return Vec::new();
        };
        let mut others: Vec<&Plan> = rest.iter().collect();
        others.dedup_by_key(|other| plan::parting(first, other));
        others
    }
}

/// A bound was reached.
struct TooMany;

/// A nonterminal of the form, the top of its stack last.
struct Open {
    nonterminal: u8,
    stack: Vec<u8>,
}

struct Enumeration<'a> {
    card: &'a Card,
    line: &'a [Spelled],
    /// The form behind its words, the leftmost nonterminal last.
    open: Vec<Open>,
    /// The productions of the steps that led to the form.
    steps: Vec<u8>,
    plans: Vec<Plan>,
    left: Bounds,
}

impl Enumeration<'_> {
    /// Follows every way on from the form, which begins with so many words of the line and has at
    /// least so many to come. Leaves the form as it was.
    fn go_on(&mut self, words: usize, least: usize) -> Result<(), TooMany> {
        let Some(leftmost) = self.open.pop() else {
            return match words == self.line.len() {
                true => self.finish(),
                false => Ok(()),
            };
        };
        let card = self.card;
        for (number, production) in card.productions.iter().enumerate() {
            if production.left() != leftmost.nonterminal {
                continue;
            }
            self.left.work = self.left.work.checked_sub(1).ok_or(TooMany)?;
            self.steps.push(number as u8);
            match production {
                Production::Word { word, .. } => {
                    if leftmost.stack.is_empty() && self.spells(words, *word) {
                        self.go_on(words + 1, least - 1)?;
                    }
                }
                Production::Pair(pair) => self.replace(pair, &leftmost.stack, words, least)?,
            }
            self.steps.pop();
        }
        self.open.push(leftmost);
        Ok(())
    }

    fn spells(&self, place: usize, word: u8) -> bool {
        let spelling = &self.card.words[usize::from(word)];
        let wanted = self.line.get(place).map(|place| &place.spelling);
        wanted == Some(spelling)
    }

    /// Goes on with a production's two elements.
    fn replace(
        &mut self,
        pair: &PairProduction,
        stack: &[u8],
        words: usize,
        least: usize,
    ) -> Result<(), TooMany> {
        let mut rest = stack.to_vec();
        // The nonterminal becomes two, and an index may go or come.
        let least = match pair.action {
            Action::Take(g) => {
                if rest.pop() != Some(g) {
                    return Ok(());
                }
                least
            }
            Action::Keep => least + 1,
            Action::Give(g) => {
                rest.push(g);
                least + 2
            }
        };
        if words + least > self.line.len() {
            return Ok(());
        }
        let (first, second) = match pair.dependent {
            Place::First => (rest, Vec::new()),
            Place::Second => (Vec::new(), rest),
        };
        let open = |nonterminal, stack| Open { nonterminal, stack };
        self.open.push(open(pair.second, second));
        self.open.push(open(pair.first, first));
        self.go_on(words, least)?;
        self.open.truncate(self.open.len() - 2);
        Ok(())
    }

    /// The form is the line.
    fn finish(&mut self) -> Result<(), TooMany> {
        self.left.plans = self.left.plans.checked_sub(1).ok_or(TooMany)?;
        self.plans.push(with_stretches(self.card, &self.steps));
        Ok(())
    }
}

/// The steps of a whole derivation with the stretches that they have come to. From the last step
/// back to the first: a word stands where as many words were made before it, and the two elements
/// of a step are those last met that belong to no step yet.
fn with_stretches(card: &Card, productions: &[u8]) -> Plan {
    let mut words_before = productions.len().div_ceil(2);
    let mut lengths: Vec<u8> = Vec::new();
    let mut steps = Vec::new();
    for &production in productions.iter().rev() {
        let (first, second) = match card.productions[usize::from(production)] {
            Production::Word { .. } => {
                words_before -= 1;
                (1, 0)
            }
            Production::Pair(_) => {
                let mut element = || lengths.pop().expect("an element for each place");
                (element(), element())
            }
        };
        let i = words_before as u8;
        steps.push([production, i, i + first, i + first + second]);
        lengths.push(first + second);
    }
    steps.reverse();
    steps
}
