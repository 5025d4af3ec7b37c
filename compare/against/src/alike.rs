//! Entries of a card spelled alike, in groups of two and more, and which of a group have word
//! productions.

use independent::random::Random;
use independent::write::CardText;

const MOST_ENTRIES: usize = 32;
const MOST_PRODUCTIONS: usize = 64;

/// Spells some entries of a card with two or more as others are.
pub fn share(card: &mut CardText, random: &mut Random) {
    for group in groups(card.words.len(), random) {
        let spelling = card.words[group[0]].clone();
        for &entry in &group {
            card.words[entry] = spelling.clone();
        }
        word_productions(card, &group, random);
    }
}

/// The most entries that are spelled alike.
pub fn most_alike(card: &CardText) -> usize {
    let alike = |spelling| card.words.iter().filter(|&word| word == spelling).count();
    card.words.iter().map(alike).max().unwrap_or(0)
}

/// How many entries a card is to have that is drawn with so many, and two at least.
pub fn entries(count: usize, random: &mut Random) -> usize {
    match random.below(8) {
        0 => MOST_ENTRIES,
        1 | 2 => random.between(count.max(2), MOST_ENTRIES),
        3..=5 => MOST_ENTRIES.min(count + random.between(1, 3)),
        _ => count.max(2),
    }
}

/// Two entries, several groups, half of the entries, all of them, or one group of any size. The
/// entries of each group are in order.
fn groups(entries: usize, random: &mut Random) -> Vec<Vec<usize>> {
    let mut order: Vec<usize> = (0..entries).collect();
    random.shuffle(&mut order);
    let sizes = match random.below(8) {
        0..=2 => vec![2],
        3 | 4 => return several_groups(&order, random),
        5 => vec![(entries / 2).max(2)],
        6 => vec![entries],
        _ => vec![random.between(2, entries)],
    };
    cut(&order, &sizes)
}

fn several_groups(order: &[usize], random: &mut Random) -> Vec<Vec<usize>> {
    let mut sizes = Vec::new();
    let mut rest = order.len();
    while rest >= 2 && !(sizes.len() >= 2 && random.once_in(3)) {
        let size = random.between(2, rest.min(4));
        sizes.push(size);
        rest -= size;
    }
    cut(order, &sizes)
}

fn cut(mut order: &[usize], sizes: &[usize]) -> Vec<Vec<usize>> {
    let mut groups = Vec::new();
    for &size in sizes {
        let (group, rest) = order.split_at(size);
        let mut group = group.to_vec();
        group.sort_unstable();
        groups.push(group);
        order = rest;
    }
    groups
}

/// Leaves the word productions of a group as they are, or gives some, one, all or none of its
/// entries some.
fn word_productions(card: &mut CardText, group: &[usize], random: &mut Random) {
    let (first, last) = (group[0], group[group.len() - 1]);
    match random.below(10) {
        0 | 1 => move_productions(card, group, |_| Some(last), random),
        2 => move_productions(card, group, |_| Some(first), random),
        3 => {
            let some = &group[random.below(group.len())..];
            move_productions(card, group, |random| Some(*random.pick(some)), random);
        }
        4 => {
            let others: Vec<usize> = (0..card.words.len())
                .filter(|entry| !group.contains(entry))
                .collect();
            let other = |random: &mut Random| (!others.is_empty()).then(|| *random.pick(&others));
            move_productions(card, group, other, random);
        }
        5..=7 => one_for_each(card, group, random),
        _ => {}
    }
}

/// Word productions of the group get the word that `to` names; where it names none they go.
fn move_productions(
    card: &mut CardText,
    group: &[usize],
    to: impl Fn(&mut Random) -> Option<usize>,
    random: &mut Random,
) {
    let mut productions = Vec::new();
    for mut production in card.productions.drain(..) {
        if production[0] == 0 && group.contains(&usize::from(production[2])) {
            let Some(word) = to(random) else {
                continue;
            };
            production[2] = word as u8;
        }
        productions.push(production);
    }
    if productions.is_empty() {
        productions.push([3, 0, 0, 0, 0, 0]);
    }
    card.productions = productions;
}

/// Adds word productions, of one nonterminal or of several, as far as the card's limit goes.
fn one_for_each(card: &mut CardText, group: &[usize], random: &mut Random) {
    let nonterminals = usize::from(card.nonterminals);
    let of_all = random.below(nonterminals);
    let several = random.once_in(2);
    for &entry in group {
        if card.productions.len() == MOST_PRODUCTIONS {
            return;
        }
        let head = if several {
            random.below(nonterminals)
        } else {
            of_all
        };
        let at = random.below(card.productions.len() + 1);
        let production = [0, head as u8, entry as u8, 0, 0, 0];
        card.productions.insert(at, production);
    }
}
