//! Lines drawn at random: derived under the card, derived and then changed, or just words.

use independent::random::Random;
use independent::write::CardText;

/// Word numbers of a line of at most `most` words, as accepted lines have them.
pub fn draw(card: &CardText, random: &mut Random, most: usize) -> Vec<u8> {
    if random.once_in(6) {
        return any_words(card, random, most);
    }
    let mut derivation = Derivation {
        card,
        random,
        fuel: 300,
    };
    for _ in 0..6 {
        let budget = derivation.random.between(1, most);
        if let Some(mut words) = derivation.expand(0, &[], budget) {
            if derivation.random.once_in(2) {
                change(card, derivation.random, &mut words, most);
            }
            return words;
        }
    }
    any_words(card, random, most)
}

fn any_words(card: &CardText, random: &mut Random, most: usize) -> Vec<u8> {
    let count = random.between(1, most);
    (0..count).map(|_| any_word(card, random)).collect()
}

fn any_word(card: &CardText, random: &mut Random) -> u8 {
    random.below(card.words.len()) as u8
}

/// Replaces, swaps, removes or adds a word.
fn change(card: &CardText, random: &mut Random, words: &mut Vec<u8>, most: usize) {
    let at = random.below(words.len());
    match random.below(4) {
        0 => words[at] = any_word(card, random),
        1 => {
            let other = random.below(words.len());
            words.swap(at, other);
        }
        2 if words.len() > 1 => {
            words.remove(at);
        }
        _ if words.len() < most => words.insert(at, any_word(card, random)),
        _ => words[at] = any_word(card, random),
    }
}

/// A search for some derivation, from the start downwards.
struct Derivation<'a> {
    card: &'a CardText,
    random: &'a mut Random,
    /// Nonterminals that may still be tried.
    fuel: usize,
}

impl Derivation<'_> {
    /// Words of at most `budget` that a nonterminal with a stack, top last, comes to.
    fn expand(&mut self, nonterminal: u8, stack: &[u8], budget: usize) -> Option<Vec<u8>> {
        if stack.len() >= budget {
            return None;
        }
        self.fuel = self.fuel.checked_sub(1)?;
        let card = self.card;
        let mut productions: Vec<&[u8; 6]> = card
            .productions
            .iter()
            .filter(|production| production[1] == nonterminal)
            .collect();
        self.random.shuffle(&mut productions);
        if self.random.once_in(budget) {
            productions.sort_by_key(|production| production[0] != 0);
        }
        productions
            .into_iter()
            .find_map(|production| self.apply(production, stack, budget))
    }

    fn apply(&mut self, production: &[u8; 6], stack: &[u8], budget: usize) -> Option<Vec<u8>> {
        let &[kind, _, b, c, g, _] = production;
        let mut rest = stack.to_vec();
        match kind {
            0 => return stack.is_empty().then(|| vec![b]),
            1 | 2 if rest.pop() != Some(g) => return None,
            5 | 6 => rest.push(g),
            _ => {}
        }
        if budget < 2 {
            return None;
        }
        let (side, dependent) = if kind % 2 == 1 { (b, c) } else { (c, b) };
        let side_budget = self.side_budget(budget);
        let side = self.expand(side, &[], side_budget)?;
        let dependent = self.expand(dependent, &rest, budget - side.len())?;
        let (mut first, second) = if kind % 2 == 1 {
            (side, dependent)
        } else {
            (dependent, side)
        };
        first.extend(second);
        Some(first)
    }

    /// Most sides are kept short, so that words are left for the spine.
    fn side_budget(&mut self, budget: usize) -> usize {
        let most = match self.random.below(4) {
            0 => 12,
            _ => 3,
        };
        self.random.between(1, most.min(budget - 1))
    }
}

/// The line's bytes, with spaces at will.
pub fn spell(card: &CardText, random: &mut Random, words: &[u8]) -> Vec<u8> {
    let mut line = spaces(random, 0);
    for (place, &word) in words.iter().enumerate() {
        if place > 0 {
            line.extend(spaces(random, 1));
        }
        line.extend(card.words[usize::from(word)].bytes());
    }
    line.extend(spaces(random, 0));
    line
}

fn spaces(random: &mut Random, least: usize) -> Vec<u8> {
    let count = match random.below(60) {
        0 => random.between(60, 140),
        1..=4 => random.between(1, 9),
        _ => least,
    };
    vec![b' '; count]
}
