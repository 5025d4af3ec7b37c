//! What tells the first plan of a line from its other plans.

use independent::card::{Action, Card, Place, Production};
use independent::plan::{Plan, Step, parting};

#[derive(Clone, Copy, Debug, PartialEq, Eq, PartialOrd, Ord)]
pub enum Kind {
    /// The production of a step that is not the first one.
    LaterProduction,
    /// The split of a step, its production being the same.
    Split,
    /// The numbers of two productions that are equal.
    EqualProductions,
    /// The numbers of productions for two words spelled alike.
    Words,
    /// Steps after a give, whose index is taken at another place: dependents with different feet.
    Feet,
    /// The same where another index, given on top of that one, is taken at the same place:
    /// different continuations.
    Continuations,
}

pub const KINDS: [(Kind, &str); 6] = [
    (Kind::LaterProduction, "by the production of a later step"),
    (Kind::Split, "by the split alone"),
    (Kind::EqualProductions, "by equal productions"),
    (Kind::Words, "by words spelled alike"),
    (Kind::Feet, "by dependents with different feet"),
    (Kind::Continuations, "by continuations"),
];

/// The kinds of a line, each once, from its first plan and some others.
pub fn of_line(card: &Card, first: &[Step], others: &[&Plan]) -> Vec<Kind> {
    let mut kinds: Vec<Kind> = others
        .iter()
        .flat_map(|other| of_parting(card, first, other))
        .collect();
    kinds.sort_unstable();
    kinds.dedup();
    kinds
}

fn of_parting(card: &Card, first: &[Step], other: &[Step]) -> Vec<Kind> {
    let at = parting(first, other);
    let [production, instead] = [first, other].map(|plan| plan[at][0]);
    let mut kinds = Vec::new();
    if production == instead {
        kinds.push(Kind::Split);
    } else {
        let [production, instead] =
            [production, instead].map(|number| card.productions[usize::from(number)]);
        if at > 0 {
            kinds.push(Kind::LaterProduction);
        }
        match (production, instead) {
            _ if production == instead => kinds.push(Kind::EqualProductions),
            (Production::Word { .. }, Production::Word { .. }) => kinds.push(Kind::Words),
            _ => {}
        }
    }
    kinds.extend(by_feet(card, first, other, at));
    kinds
}

/// Indices given before the plans part, and taken at different places.
fn by_feet(card: &Card, first: &[Step], other: &[Step], at: usize) -> Vec<Kind> {
    let [one, other] = [first, other].map(|plan| indices(card, plan));
    let common = one.iter().filter(|index| index.given_by < at).count();
    let differs = |number: usize| one[number].foot != other[number].foot;
    let on_top_of_one = |number: usize| {
        let below = one[number].below;
        !differs(number) && below.is_some_and(differs)
    };
    let mut kinds = Vec::new();
    if (0..common).any(differs) {
        kinds.push(Kind::Feet);
    }
    if (0..common).any(on_top_of_one) {
        kinds.push(Kind::Continuations);
    }
    kinds
}

/// One index of a plan.
struct Index {
    given_by: usize,
    /// The index under it, by its number in the list.
    below: Option<usize>,
    /// The dependent of the step that takes it, and its stretch.
    foot: Option<(u8, u8, u8)>,
}

/// The indices of a plan, in the order in which they are given.
fn indices(card: &Card, plan: &[Step]) -> Vec<Index> {
    let mut list: Vec<Index> = Vec::new();
    // The stacks of the nonterminals still to be replaced, the leftmost last.
    let mut stacks: Vec<Vec<usize>> = vec![Vec::new()];
    for (number, &[production, i, k, j]) in plan.iter().enumerate() {
        let mut stack = stacks.pop().unwrap_or_default();
        let Production::Pair(pair) = card.productions[usize::from(production)] else {
            continue;
        };
        match pair.action {
            Action::Keep => {}
            Action::Take(_) => {
                let foot = match pair.dependent {
                    Place::First => (pair.first, i, k),
                    Place::Second => (pair.second, k, j),
                };
                let taken = stack.pop().map(|top| &mut list[top]);
                taken.into_iter().for_each(|index| index.foot = Some(foot));
            }
            Action::Give(_) => {
                list.push(Index {
                    given_by: number,
                    below: stack.last().copied(),
                    foot: None,
                });
                stack.push(list.len() - 1);
            }
        }
        stacks.extend(match pair.dependent {
            Place::First => [Vec::new(), stack],
            Place::Second => [stack, Vec::new()],
        });
    }
    list
}
