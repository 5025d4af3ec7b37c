//! A recognizer straight from the definition of rewriting: does a nonterminal with a given stack
//! come to a given stretch of words? Answers are remembered; there is no chart and there are no
//! items.
//!
//! A derivation of a line ends in a list of words whose spellings are the line's. So the question
//! is asked anew for one such list after the other, and nothing is carried over: no place ever has
//! more than one word here.
//!
//! Stacks need no depth limit of their own. Each take step splits off a side of at least one
//! word, and after the last one the spine still comes to a word; so a stretch of m words cannot
//! use up a stack of m or more indices, and such a question is answered with no.

use crate::card::{Action, Card, PairProduction, Place, Production};
use crate::line::{Spelled, word_lists};
use crate::memory::Memory;

/// The search was given up.
#[derive(Debug)]
pub struct TooMuchWork;

/// What a search that came to its end has found.
#[derive(Clone, Copy, Debug, PartialEq, Eq)]
pub struct Found {
    pub derives: bool,
    /// The lists of words asked about: all of them, or those up to the first that has a derivation.
    pub lists: usize,
}

/// Whether the line has a derivation, looked for in no more than `work` trials of a list and of a
/// production, those of all lists together.
pub fn derives(card: &Card, line: &[Spelled], mut work: usize) -> Result<Found, TooMuchWork> {
    let mut lists = 0;
    for words in word_lists(line) {
        lists += 1;
        // Without any production a list costs nothing else, and there may be very many.
        work = work.checked_sub(1).ok_or(TooMuchWork)?;
        let mut search = Search {
            card,
            words: &words,
            known: Memory::default(),
            work,
        };
        if search.whole_list()? {
            let derives = true;
            return Ok(Found { derives, lists });
        }
        work = search.work;
    }
    let derives = false;
    Ok(Found { derives, lists })
}

#[derive(Clone, PartialEq, Eq, Hash)]
struct Question {
    nonterminal: u8,
    /// The top is the last.
    stack: Vec<u8>,
    i: usize,
    j: usize,
}

struct Search<'a> {
    card: &'a Card,
    words: &'a [u8],
    known: Memory<Question, bool>,
    work: usize,
}

impl Search<'_> {
    /// Whether the list of words has a derivation.
    fn whole_list(&mut self) -> Result<bool, TooMuchWork> {
        self.comes_to(Question {
            nonterminal: 0,
            stack: Vec::new(),
            i: 0,
            j: self.words.len(),
        })
    }

    fn comes_to(&mut self, question: Question) -> Result<bool, TooMuchWork> {
        if question.stack.len() >= question.j - question.i {
            return Ok(false);
        }
        if let Some(&answer) = self.known.get(&question) {
            return Ok(answer);
        }
        let answer = self.try_productions(&question)?;
        self.known.insert(question, answer);
        Ok(answer)
    }

    fn try_productions(&mut self, question: &Question) -> Result<bool, TooMuchWork> {
        let card = self.card;
        for production in &card.productions {
            self.work = self.work.checked_sub(1).ok_or(TooMuchWork)?;
            let found = match production {
                Production::Word { head, word } => {
                    *head == question.nonterminal
                        && question.stack.is_empty()
                        && self.words[question.i..question.j] == [*word]
                }
                Production::Pair(pair) => {
                    pair.head == question.nonterminal && self.try_splits(pair, question)?
                }
            };
            if found {
                return Ok(true);
            }
        }
        Ok(false)
    }

    fn try_splits(
        &mut self,
        production: &PairProduction,
        question: &Question,
    ) -> Result<bool, TooMuchWork> {
        let Some(rest) = rewritten(production.action, &question.stack) else {
            return Ok(false);
        };
        let (first_stack, second_stack) = match production.dependent {
            Place::First => (rest, Vec::new()),
            Place::Second => (Vec::new(), rest),
        };
        for k in question.i + 1..question.j {
            self.work = self.work.checked_sub(1).ok_or(TooMuchWork)?;
            let first = Question {
                nonterminal: production.first,
                stack: first_stack.clone(),
                i: question.i,
                j: k,
            };
            let second = Question {
                nonterminal: production.second,
                stack: second_stack.clone(),
                i: k,
                j: question.j,
            };
            if self.comes_to(first)? && self.comes_to(second)? {
                return Ok(true);
            }
        }
        Ok(false)
    }
}

/// The dependent's stack; none if the left side does not fit.
fn rewritten(action: Action, stack: &[u8]) -> Option<Vec<u8>> {
    let mut rest = stack.to_vec();
    match action {
        Action::Take(g) => {
            if rest.pop() != Some(g) {
                return None;
            }
        }
        Action::Keep => {}
        Action::Give(g) => rest.push(g),
    }
    Some(rest)
}
