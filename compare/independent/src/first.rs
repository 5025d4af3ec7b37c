//! The first plan of a line by a search of its own: with no chart and no items, and without a list
//! of all plans.
//!
//! A goal is a nonterminal with a stack and the stretch that it has to come to. Once a step's
//! production and split are chosen, its two elements are goals of their own, and how one of them is
//! completed does not touch the other. So the first plan chooses, for the leftmost goal at each
//! step, the least production and then the least split both of whose elements can be completed at
//! all. Which choice that is for a goal is remembered.
//!
//! As in `rewriting`, a stretch of m words cannot use up a stack of m or more indices. Here a place
//! may have several words: a word step fits if its word is spelled as the place is.

use crate::card::{Action, Card, PairProduction, Place, Production};
use crate::line::Spelled;
use crate::memory::Memory;
use crate::plan::{Plan, Step};
use crate::rewriting::TooMuchWork;

pub struct Search<'a> {
    line: &'a [Spelled],
    /// The productions of each nonterminal, rising, with their numbers.
    productions: Vec<Vec<(u8, &'a Production)>>,
    /// For each goal met, its first choice; none if it cannot be completed.
    known: Memory<Goal, Option<Choice>>,
    /// Trials of a production or of a split that are left.
    work: usize,
}

/// For each step at which some plan leaves the first one, the last such step first, the first of
/// the plans that do: up to there it is the first plan, and then it has the next choice. Not all of
/// these if `complete` is false.
pub struct Others {
    pub plans: Vec<Plan>,
    pub complete: bool,
}

#[derive(Clone, Copy, PartialEq, Eq, Hash)]
struct Goal {
    nonterminal: u8,
    stack: Stack,
    i: u8,
    j: u8,
}

/// A step of a goal.
#[derive(Clone, Copy, PartialEq, Eq, PartialOrd, Ord)]
struct Choice {
    production: u8,
    k: u8,
}

impl<'a> Search<'a> {
    /// A search of no more than `work` trials.
    pub fn new(card: &'a Card, line: &'a [Spelled], work: usize) -> Self {
        let mut productions = vec![Vec::new(); card.nonterminals.into()];
        for (number, production) in card.productions.iter().enumerate() {
            let left = usize::from(production.left());
            productions[left].push((number as u8, production));
        }
        Search {
            line,
            productions,
            known: Memory::default(),
            work,
        }
    }

    /// The first plan; none if the line has no derivation.
    pub fn first(&mut self) -> Result<Option<Plan>, TooMuchWork> {
        let goal = self.whole_line();
        match self.first_choice(goal)? {
            None => Ok(None),
            Some(choice) => self.completed(vec![goal], choice).map(Some),
        }
    }

    /// Where other plans leave the first one.
    pub fn others(&mut self, first: &[Step]) -> Others {
        let mut others = Others {
            plans: Vec::new(),
            complete: true,
        };
        for (number, goals) in self.goals_of(first).into_iter().enumerate().rev() {
            match self.parted(goals, first[number]) {
                Ok(None) => {}
                Ok(Some(rest)) => others.plans.push([&first[..number], &rest].concat()),
                Err(TooMuchWork) => {
                    others.complete = false;
                    break;
                }
            }
        }
        others
    }

    /// The goals before each step, the leftmost last.
    fn goals_of(&self, plan: &[Step]) -> Vec<Vec<Goal>> {
        let mut goals = vec![self.whole_line()];
        let mut list = Vec::new();
        for &step in plan {
            list.push(goals.clone());
            let goal = goals.pop().expect("a goal for each step");
            goals.extend(self.elements(goal, step));
        }
        list
    }

    /// The first steps that complete these goals if the leftmost one has a later choice than this
    /// step's.
    fn parted(
        &mut self,
        goals: Vec<Goal>,
        [production, _, k, _]: Step,
    ) -> Result<Option<Plan>, TooMuchWork> {
        let goal = *goals.last().expect("a goal for each step");
        match self.choice_after(goal, Some(Choice { production, k }))? {
            None => Ok(None),
            Some(choice) => self.completed(goals, choice).map(Some),
        }
    }

    fn whole_line(&self) -> Goal {
        Goal {
            nonterminal: 0,
            stack: Stack::default(),
            i: 0,
            j: self.line.len() as u8,
        }
    }

    /// The first steps that complete these goals, the leftmost of which is the last; its own step
    /// is given.
    fn completed(&mut self, mut goals: Vec<Goal>, choice: Choice) -> Result<Plan, TooMuchWork> {
        let mut plan = Vec::new();
        let mut given = Some(choice);
        while let Some(goal) = goals.pop() {
            let choice = match given.take() {
                Some(choice) => choice,
                None => self.first_choice(goal)?.expect("a goal of a choice"),
            };
            let step = [choice.production, goal.i, choice.k, goal.j];
            goals.extend(self.elements(goal, step));
            plan.push(step);
        }
        Ok(plan)
    }

    /// The goals of a step's elements, the first element last.
    fn elements(&self, goal: Goal, [production, _, k, _]: Step) -> Vec<Goal> {
        let of_goal = &self.productions[usize::from(goal.nonterminal)];
        let (_, production) = of_goal
            .iter()
            .find(|(number, _)| *number == production)
            .expect("a production of the goal");
        match production {
            Production::Word { .. } => Vec::new(),
            Production::Pair(pair) => {
                let stack = goal.stack.rewritten(pair.action).expect("a left that fits");
                let [side, dependent] = parts(pair, stack, goal, k);
                match pair.dependent {
                    Place::First => vec![side, dependent],
                    Place::Second => vec![dependent, side],
                }
            }
        }
    }

    fn first_choice(&mut self, goal: Goal) -> Result<Option<Choice>, TooMuchWork> {
        if goal.stack.depth() >= goal.j - goal.i {
            return Ok(None);
        }
        if let Some(&choice) = self.known.get(&goal) {
            return Ok(choice);
        }
        let choice = self.choice_after(goal, None)?;
        self.known.insert(goal, choice);
        Ok(choice)
    }

    /// The least choice, beyond a given one, with which the goal can be completed.
    fn choice_after(
        &mut self,
        goal: Goal,
        after: Option<Choice>,
    ) -> Result<Option<Choice>, TooMuchWork> {
        let of_goal = usize::from(goal.nonterminal);
        for at in 0..self.productions[of_goal].len() {
            self.work = self.work.checked_sub(1).ok_or(TooMuchWork)?;
            let (number, production) = self.productions[of_goal][at];
            let beyond = |k| {
                let choice = Choice {
                    production: number,
                    k,
                };
                (Some(choice) > after).then_some(choice)
            };
            let found = match production {
                Production::Word { word, .. } => {
                    beyond(goal.j).filter(|_| self.is_word(goal, *word))
                }
                Production::Pair(pair) => self.split(pair, goal, beyond)?,
            };
            if found.is_some() {
                return Ok(found);
            }
        }
        Ok(None)
    }

    fn is_word(&self, goal: Goal, word: u8) -> bool {
        let place = &self.line[usize::from(goal.i)];
        goal.j - goal.i == 1 && goal.stack.depth() == 0 && place.words.contains(&word)
    }

    /// The least split, of those that are beyond, at which both elements can be completed.
    fn split(
        &mut self,
        pair: &PairProduction,
        goal: Goal,
        beyond: impl Fn(u8) -> Option<Choice>,
    ) -> Result<Option<Choice>, TooMuchWork> {
        let Some(stack) = goal.stack.rewritten(pair.action) else {
            return Ok(None);
        };
        for choice in (goal.i + 1..goal.j).filter_map(beyond) {
            self.work = self.work.checked_sub(1).ok_or(TooMuchWork)?;
            let [side, dependent] = parts(pair, stack, goal, choice.k);
            // Sides are asked first: with their empty stacks they are few, and known soon.
            if self.first_choice(side)?.is_some() && self.first_choice(dependent)?.is_some() {
                return Ok(Some(choice));
            }
        }
        Ok(None)
    }
}

/// The goals of the side and of the dependent, which has the stack.
fn parts(pair: &PairProduction, stack: Stack, goal: Goal, k: u8) -> [Goal; 2] {
    let empty = Stack::default();
    let element = |nonterminal, i, j, stack| Goal {
        nonterminal,
        stack,
        i,
        j,
    };
    match pair.dependent {
        Place::First => [
            element(pair.second, k, goal.j, empty),
            element(pair.first, goal.i, k, stack),
        ],
        Place::Second => [
            element(pair.first, goal.i, k, empty),
            element(pair.second, k, goal.j, stack),
        ],
    }
}

/// Indices, four bits each, the top lowest. A stack that is less deep than its stretch is long has
/// at most 23 of them.
#[derive(Clone, Copy, Default, PartialEq, Eq, Hash)]
struct Stack(u128);

impl Stack {
    fn depth(self) -> u8 {
        (u128::BITS - self.0.leading_zeros()).div_ceil(4) as u8
    }

    /// The dependent's stack; none if the left side does not fit.
    fn rewritten(self, action: Action) -> Option<Stack> {
        match action {
            Action::Take(g) => (self.0 & 15 == u128::from(g)).then_some(Stack(self.0 >> 4)),
            Action::Keep => Some(self),
            Action::Give(g) => Some(Stack(self.0 << 4 | u128::from(g))),
        }
    }
}
