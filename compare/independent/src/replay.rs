//! Plans replayed literally: a sentential form is a list of words and of nonterminals with stacks,
//! and each step replaces the leftmost nonterminal. Stretches are not predicted; they are read
//! off the words finally reached.

use crate::card::{Action, Card, PairProduction, Place, Production};
use crate::line::Spelled;

/// The step that gave an index tells it from every other one.
#[derive(Clone, Copy)]
struct Index {
    index: u8,
    given_by: usize,
}

/// The steps between which an index was there.
struct Taken {
    given_by: usize,
    taken_by: usize,
}

#[derive(Clone)]
enum Symbol {
    Word(u8),
    /// The top of the stack is the last.
    Nonterminal(u8, Vec<Index>),
}

/// A symbol, and the elements it descends from.
#[derive(Clone)]
struct Descendant {
    symbol: Symbol,
    ancestors: Vec<Element>,
}

/// The first or second element of the right side that a step put in; a word step has the first
/// alone.
#[derive(Clone, Copy, PartialEq, Eq)]
struct Element {
    step: usize,
    place: Place,
}

/// A plan that was replayed to its end.
pub struct Replayed {
    /// The list of words that the plan ends in. Their spellings are the line's.
    pub words: Vec<u8>,
    /// Both steps of each pair, by number: the give, and the take that removes its index. In the
    /// order of the give steps.
    pub links: Vec<[usize; 2]>,
    /// For each of these the last word of the give's side and the last word of the take's side.
    pub pairs: Vec<[u8; 2]>,
}

/// None if the plan is not a leftmost derivation of the line.
pub fn replay(card: &Card, line: &[Spelled], plan: &[u8]) -> Option<Replayed> {
    let (steps, rest) = plan.as_chunks::<4>();
    if !rest.is_empty() {
        return None;
    }
    let mut form = vec![Descendant {
        symbol: Symbol::Nonterminal(0, Vec::new()),
        ancestors: Vec::new(),
    }];
    let mut taken = Vec::new();
    for (number, &[production, ..]) in steps.iter().enumerate() {
        let production = card.productions.get(usize::from(production))?;
        replace_leftmost(&mut form, number, production, &mut taken)?;
    }
    let words = list_of_words(&form)?;
    if !spells_line(card, &words, line) || !stretches_agree(&form, steps) {
        return None;
    }
    let links = links(card, steps, &taken)?;
    let pair = |&link: &[usize; 2]| {
        let [give, take] = link.map(|step| last_of_side(card, &form, steps, step));
        Some([give?, take?])
    };
    let pairs: Option<Vec<[u8; 2]>> = links.iter().map(pair).collect();
    Some(Replayed {
        words,
        pairs: pairs?,
        links,
    })
}

fn replace_leftmost(
    form: &mut Vec<Descendant>,
    step: usize,
    production: &Production,
    taken: &mut Vec<Taken>,
) -> Option<()> {
    let leftmost = form
        .iter()
        .position(|descendant| matches!(descendant.symbol, Symbol::Nonterminal(..)))?;
    let Descendant { symbol, ancestors } = &form[leftmost];
    let Symbol::Nonterminal(nonterminal, stack) = symbol else {
        return None;
    };
    if production.left() != *nonterminal {
        return None;
    }
    let right_side = match production {
        Production::Word { word, .. } => stack.is_empty().then(|| vec![Symbol::Word(*word)])?,
        Production::Pair(pair) => {
            let rest = rewritten(pair.action, stack.clone(), step, taken)?;
            elements(pair, rest)
        }
    };
    let places = [Place::First, Place::Second];
    let descendants = right_side.into_iter().zip(places).map(|(symbol, place)| {
        let mut ancestors = ancestors.clone();
        ancestors.push(Element { step, place });
        Descendant { symbol, ancestors }
    });
    let descendants: Vec<Descendant> = descendants.collect();
    form.splice(leftmost..=leftmost, descendants);
    Some(())
}

/// The stack of the dependent; none if the left side does not fit.
fn rewritten(
    action: Action,
    mut stack: Vec<Index>,
    step: usize,
    taken: &mut Vec<Taken>,
) -> Option<Vec<Index>> {
    match action {
        Action::Take(g) => {
            let Index { index, given_by } = stack.pop()?;
            if index != g {
                return None;
            }
            let taken_by = step;
            taken.push(Taken { given_by, taken_by });
        }
        Action::Keep => {}
        Action::Give(g) => stack.push(Index {
            index: g,
            given_by: step,
        }),
    }
    Some(stack)
}

fn elements(production: &PairProduction, rest: Vec<Index>) -> Vec<Symbol> {
    let (first, second) = match production.dependent {
        Place::First => (rest, Vec::new()),
        Place::Second => (Vec::new(), rest),
    };
    vec![
        Symbol::Nonterminal(production.first, first),
        Symbol::Nonterminal(production.second, second),
    ]
}

/// The words that the form consists of; none if a nonterminal is left.
fn list_of_words(form: &[Descendant]) -> Option<Vec<u8>> {
    let word = |descendant: &Descendant| match descendant.symbol {
        Symbol::Word(word) => Some(word),
        Symbol::Nonterminal(..) => None,
    };
    form.iter().map(word).collect()
}

/// Whether the words' spellings are the line's. Their numbers are not compared.
fn spells_line(card: &Card, words: &[u8], line: &[Spelled]) -> bool {
    let spelling = |&word: &u8| card.words[usize::from(word)].as_slice();
    let wanted = line.iter().map(|place| place.spelling.as_slice());
    words.iter().map(spelling).eq(wanted)
}

/// First and last-plus-one of the words that descend from what `of` chooses.
fn stretch(form: &[Descendant], of: impl Fn(&Element) -> bool) -> Option<(usize, usize)> {
    let descends = |descendant: &Descendant| descendant.ancestors.iter().any(&of);
    let start = form.iter().position(descends)?;
    let end = form.iter().rposition(descends)? + 1;
    Some((start, end))
}

/// Whether i, k and j of each step are those of the stretches covered in the end.
fn stretches_agree(form: &[Descendant], steps: &[[u8; 4]]) -> bool {
    steps.iter().enumerate().all(|(step, &[_, i, k, j])| {
        let place = Place::First;
        let whole = stretch(form, |element| element.step == step);
        let first = stretch(form, |&element| element == Element { step, place });
        let (Some((start, end)), Some((_, split))) = (whole, first) else {
            return false;
        };
        [i, k, j].map(usize::from) == [start, split, end]
    })
}

/// Each give step with the step that takes its index.
fn links(card: &Card, steps: &[[u8; 4]], taken: &[Taken]) -> Option<Vec<[usize; 2]>> {
    let is_give = |step: &usize| {
        let production = card.productions[usize::from(steps[*step][0])];
        matches!(production, Production::Pair(pair) if matches!(pair.action, Action::Give(_)))
    };
    let link = |give: usize| {
        let taken = taken.iter().find(|taken| taken.given_by == give)?;
        Some([give, taken.taken_by])
    };
    (0..steps.len()).filter(is_give).map(link).collect()
}

/// The last of the words that descend from a step's side.
fn last_of_side(card: &Card, form: &[Descendant], steps: &[[u8; 4]], step: usize) -> Option<u8> {
    let Production::Pair(pair) = card.productions[usize::from(steps[step][0])] else {
        return None;
    };
    let place = match pair.dependent {
        Place::First => Place::Second,
        Place::Second => Place::First,
    };
    let side = Element { step, place };
    let last = form
        .iter()
        .rposition(|word| word.ancestors.contains(&side))?;
    Some(last as u8)
}
