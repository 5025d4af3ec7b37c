//! Damage to cards, lines and plans.

use crate::names;
use independent::card::{Card, Production};
use independent::random::Random;
use independent::write::CardText;

/// One to three faults, or what looks like one: that two entries are equal is none.
pub fn card(card: &mut Vec<u8>, random: &mut Random) {
    for _ in 0..random.between(1, 3) {
        card_fault(card, random);
    }
}

fn card_fault(card: &mut Vec<u8>, random: &mut Random) {
    let words = card.get(5).map_or(0, |&count| usize::from(count)).min(32);
    let productions_at = 12 + 12 * words;
    match random.below(14) {
        0 => card.truncate(random.below(card.len() + 1)),
        1 => card.truncate(card.len().saturating_sub(random.between(1, 13))),
        2 => card.extend((0..random.between(1, 13)).map(|_| random.byte())),
        3 => change_in(card, random, 0, 4),
        4 => set_count(card, random),
        5 => change_in(card, random, 8, 12),
        6 => change_in(card, random, 12, productions_at),
        7 => equal_entries(card, random, words),
        8 => length_byte(card, random, words),
        9 => padding(card, random, words),
        10 | 11 => names::fault::dead_name(card, random),
        _ => production_byte(card, random, productions_at),
    }
}

fn change_in(card: &mut [u8], random: &mut Random, start: usize, end: usize) {
    let end = end.min(card.len());
    if start < end {
        let at = random.between(start, end - 1);
        card[at] = any_other(random, card[at]);
    }
}

/// Another byte: near, one bit off, or any.
fn any_other(random: &mut Random, byte: u8) -> u8 {
    let other = match random.below(4) {
        0 => byte.wrapping_add(1),
        1 => byte.wrapping_sub(1),
        2 => byte ^ 1 << random.below(8),
        _ => random.byte(),
    };
    if other == byte { !byte } else { other }
}

fn set_count(card: &mut [u8], random: &mut Random) {
    if let Some(count) = card.get_mut(4 + random.below(4)) {
        *count = *random.pick(&[0, 1, 8, 9, 16, 17, 32, 33, 64, 65, 128, 255]);
    }
}

fn equal_entries(card: &mut [u8], random: &mut Random, words: usize) {
    if words < 2 || card.len() < 12 + 12 * words {
        return;
    }
    let from = 12 + 12 * random.below(words);
    let to = 12 + 12 * random.below(words);
    card.copy_within(from..from + 12, to);
}

fn length_byte(card: &mut [u8], random: &mut Random, words: usize) {
    if let Some(length) = card.get_mut(12 + 12 * random.below(words.max(1))) {
        *length = *random.pick(&[0, 1, 10, 11, 12, 13, 128, 255]);
    }
}

/// The last byte of an entry, or the one after its spelling.
fn padding(card: &mut [u8], random: &mut Random, words: usize) {
    let entry = 12 + 12 * random.below(words.max(1));
    let length = card.get(entry).map_or(0, |&length| usize::from(length));
    let at = *random.pick(&[entry + 11, entry + 11.min(length + 1)]);
    if let Some(byte) = card.get_mut(at) {
        *byte = *random.pick(b"\0\x01a9 \xFF");
    }
}

fn production_byte(card: &mut [u8], random: &mut Random, productions_at: usize) {
    let count = card.len().saturating_sub(productions_at) / 6;
    if count == 0 {
        return;
    }
    let at = productions_at + 6 * random.below(count) + random.below(6);
    card[at] = match random.below(3) {
        0 => random.below(18) as u8,
        _ => any_other(random, card[at]),
    };
}

/// A line that is refused, or nearly.
pub fn line(line: &mut Vec<u8>, card: &CardText, random: &mut Random) {
    match random.below(8) {
        0 | 1 => bad_byte(line, random),
        2 => *line = vec![b' '; *random.pick(&[0, 0, 1, 2, 63, 64, 65, 200])],
        3 | 4 => unknown_word(line, card, random),
        5 => {
            unknown_word(line, card, random);
            *line = repeated(line, random, card);
        }
        6 => {
            *line = repeated(line, random, card);
            bad_byte(line, random);
        }
        _ => *line = repeated(line, random, card),
    }
}

fn bad_byte(line: &mut Vec<u8>, random: &mut Random) {
    let bad = *random.pick(b"\0\t\n\r.-_/:@AZ[`{|~\x7F\x80\xA0\xE1\xFF\x1F!");
    line.insert(random.below(line.len() + 1), bad);
}

/// A spelling that is nearly on the card, or long.
fn unknown_word(line: &mut Vec<u8>, card: &CardText, random: &mut Random) {
    let mut word = random.pick(&card.words).clone().into_bytes();
    match random.below(5) {
        0 => word.push(b'q'),
        1 => {
            word.pop();
        }
        2 => word[0] = b'q',
        3 => word.extend(vec![b'a'; random.between(1, 100)]),
        _ => word.extend(word.clone()),
    }
    word.push(b' ');
    word.insert(0, b' ');
    let at = random.below(line.len() + 1);
    line.splice(at..at, word);
}

/// Around 24 words, or many more.
fn repeated(line: &[u8], random: &mut Random, card: &CardText) -> Vec<u8> {
    let count = *random.pick(&[23, 24, 24, 25, 25, 26, 48, 49, 300]);
    let mut long = line.to_vec();
    let have = line
        .split(|&byte| byte == b' ')
        .filter(|part| !part.is_empty());
    for _ in have.count()..count {
        long.push(b' ');
        long.extend(random.pick(&card.words).bytes());
    }
    long
}

/// A plan made from a right one by one change, which may be no change in the end.
pub fn plan(plan: &[u8], random: &mut Random, productions: &[Production], words: usize) -> Vec<u8> {
    let mut plan = plan.to_vec();
    let steps = plan.len() / 4;
    match random.below(11) {
        0 => plan.truncate(random.below(plan.len())),
        1 => plan.truncate(4 * random.below(steps)),
        2 => plan.extend((0..random.between(1, 4)).map(|_| random.byte())),
        3 => plan.extend_from_within(4 * (steps - 1)..),
        4 => {
            let (one, other) = (random.below(steps), random.below(steps));
            for byte in 0..4 {
                plan.swap(4 * one + byte, 4 * other + byte);
            }
        }
        5 => {
            let step = random.below(steps);
            plan[4 * step] = random.below(productions.len()) as u8;
        }
        7 | 8 => {
            let step = random.below(steps);
            plan[4 * step] = near(random, productions, plan[4 * step]);
        }
        6 => {
            let at = 4 * random.below(steps) + random.between(1, 3);
            plan[at] = random.below(words + 2) as u8;
        }
        _ => {
            let at = random.below(plan.len());
            plan[at] = any_other(random, plan[at]);
        }
    }
    plan
}

/// A production with the same left and right nonterminals, if there is another.
fn near(random: &mut Random, productions: &[Production], number: u8) -> u8 {
    let nonterminals = |production: &Production| match *production {
        Production::Word { head, .. } => (head, None),
        Production::Pair(pair) => (pair.head, Some((pair.first, pair.second))),
    };
    let wanted = nonterminals(&productions[usize::from(number)]);
    let others: Vec<usize> = (0..productions.len())
        .filter(|&other| other != usize::from(number))
        .filter(|&other| nonterminals(&productions[other]) == wanted)
        .collect();
    if others.is_empty() {
        number
    } else {
        *random.pick(&others) as u8
    }
}

/// A plan made from a right one, in which one word step names another production of the same
/// nonterminal: one for another word, which is spelled alike or is not. None if there is no such
/// step.
pub fn other_word(plan: &[u8], random: &mut Random, card: &Card, alike: bool) -> Option<Vec<u8>> {
    let spelling = |word: u8| &card.words[usize::from(word)];
    let fits = |old: Production, new: Production| match (old, new) {
        (Production::Word { head, word }, Production::Word { head: h, word: w }) => {
            head == h && word != w && (spelling(word) == spelling(w)) == alike
        }
        _ => false,
    };
    let mut choices = Vec::new();
    for at in (0..plan.len()).step_by(4) {
        let old = card.productions[usize::from(plan[at])];
        let others = (0..card.productions.len()).filter(|&new| fits(old, card.productions[new]));
        choices.extend(others.map(|new| (at, new as u8)));
    }
    if choices.is_empty() {
        return None;
    }
    let (at, production) = *random.pick(&choices);
    let mut plan = plan.to_vec();
    plan[at] = production;
    Some(plan)
}

/// A plan of about the right length with small numbers, not made from any derivation.
pub fn random_plan(random: &mut Random, productions: usize, words: usize) -> Vec<u8> {
    let steps = match random.below(4) {
        0 => random.below(50),
        _ => 2 * words - 1,
    };
    (0..steps)
        .flat_map(|_| {
            let production = random.below(productions + 1) as u8;
            let [i, k, j] = [(); 3].map(|()| random.below(words + 2) as u8);
            [production, i, k, j]
        })
        .collect()
}
