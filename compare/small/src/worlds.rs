//! Small cards, always the same ones.

use independent::random::Random;
use independent::write::CardText;

/// Cards with one to three nonterminals, no to two indices and one to three words, `rounds` of
/// each kind.
pub fn cards(rounds: usize) -> Vec<CardText> {
    let mut random = Random::new(1);
    let mut list = Vec::new();
    for round in 0..rounds {
        for nonterminals in 1..=3 {
            for indices in 0..=2 {
                for words in 1..=2 + usize::from(round % 8 == 0) {
                    let spellings = &["a", "ab", "b"][..words];
                    list.push(card(&mut random, nonterminals, indices, spellings));
                }
            }
        }
    }
    list
}

/// The entries of two and of three words of which two at least are spelled alike.
const ALIKE: [&[&str]; 5] = [
    &["a", "a"],
    &["a", "a", "b"],
    &["a", "b", "a"],
    &["b", "a", "a"],
    &["a", "a", "a"],
];

/// The same with words spelled alike.
pub fn cards_alike(rounds: usize) -> Vec<CardText> {
    let mut random = Random::new(2);
    let mut list = Vec::new();
    for _ in 0..rounds {
        for nonterminals in 1..=3 {
            for indices in 0..=2 {
                let card = |spellings| card(&mut random, nonterminals, indices, spellings);
                list.extend(ALIKE.map(card));
            }
        }
    }
    list
}

/// The same with two or three nonterminals, one of which is dead: its left sides are another's now,
/// and it has a place on the right, or many.
pub fn cards_with_a_dead_name(rounds: usize) -> Vec<CardText> {
    let mut random = Random::new(3);
    let mut list = Vec::new();
    for _ in 0..rounds {
        for nonterminals in 2..=3 {
            for indices in 0..=2 {
                for name in 0..nonterminals {
                    let mut text = card(&mut random, nonterminals, indices, &["a", "b"]);
                    make_dead(&mut random, &mut text, name as u8);
                    list.push(text);
                }
            }
        }
    }
    list
}

fn make_dead(random: &mut Random, text: &mut CardText, name: u8) {
    let other = (name + 1) % text.nonterminals;
    let off_the_right = random.once_in(2);
    for production in &mut text.productions {
        let names = match (off_the_right, production[0]) {
            (true, 1..) => &mut production[1..4],
            _ => &mut production[1..2],
        };
        for place in names.iter_mut().filter(|place| **place == name) {
            *place = other;
        }
    }
    let [b, c] = *random.pick(&[[name, other], [other, name], [name, name]]);
    let (kind, index) = match text.indices {
        0 => (*random.pick(&[3, 4]), 0),
        _ => *random.pick(&[(1, 1), (2, 1), (3, 0), (4, 0), (5, 1), (6, 1)]),
    };
    let at = random.below(text.productions.len() + 1);
    text.productions.insert(at, [kind, other, b, c, index, 0]);
}

/// Every nonterminal makes a word; three to ten productions more, half of the time with one of
/// each kind among them.
fn card(random: &mut Random, nonterminals: usize, indices: usize, spellings: &[&str]) -> CardText {
    let words = spellings.len();
    let mut productions: Vec<[u8; 6]> = (0..nonterminals)
        .map(|nonterminal| [0, nonterminal as u8, random.below(words) as u8, 0, 0, 0])
        .collect();
    let kinds: &[u8] = if indices == 0 {
        &[0, 3, 4]
    } else {
        &[0, 1, 2, 3, 4, 5, 6]
    };
    if random.once_in(2) {
        for &kind in kinds {
            productions.push(production(random, kind, nonterminals, indices, words));
        }
    }
    for _ in 0..random.between(3, 10) {
        let kind = *random.pick(kinds);
        productions.push(production(random, kind, nonterminals, indices, words));
    }
    CardText {
        nonterminals: nonterminals as u8,
        indices: indices as u8,
        words: spellings.iter().map(|word| word.to_string()).collect(),
        productions,
    }
}

fn production(
    random: &mut Random,
    kind: u8,
    nonterminals: usize,
    indices: usize,
    words: usize,
) -> [u8; 6] {
    let [a, b, c] = [(); 3].map(|()| random.below(nonterminals) as u8);
    match kind {
        0 => [0, a, random.below(words) as u8, 0, 0, 0],
        3 | 4 => [kind, a, b, c, 0, 0],
        _ => [kind, a, b, c, random.between(1, indices) as u8, 0],
    }
}

/// Cards of two to four productions whose plans are all tried.
pub fn cards_for_plans() -> Vec<CardText> {
    let card_of = |words: &[&str], indices, productions: &[[u8; 6]]| CardText {
        nonterminals: 2,
        indices,
        words: words.iter().map(|word| word.to_string()).collect(),
        productions: productions.to_vec(),
    };
    let card = |indices, productions: &[[u8; 6]]| card_of(&["a", "b"], indices, productions);
    let alike = |productions: &[[u8; 6]]| card_of(&["a", "a"], 0, productions);
    let a_word = [0, 0, 0, 0, 0, 0];
    let b_word = [0, 1, 1, 0, 0, 0];
    vec![
        card(0, &[a_word, [3, 0, 0, 0, 0, 0], [4, 0, 0, 0, 0, 0]]),
        card(0, &[a_word, b_word, [3, 0, 1, 0, 0, 0]]),
        card(0, &[a_word, [0, 1, 0, 0, 0, 0], [4, 0, 1, 0, 0, 0]]),
        card(1, &[a_word, [1, 0, 0, 0, 1, 0], [5, 0, 0, 0, 1, 0]]),
        card(1, &[a_word, [6, 0, 0, 1, 1, 0], b_word]),
        card(1, &[a_word, a_word, [3, 0, 0, 0, 0, 0]]),
        card(1, &[[0, 0, 1, 0, 0, 0], b_word, [4, 0, 0, 1, 0, 0]]),
        alike(&[a_word, [3, 0, 0, 0, 0, 0]]),
        alike(&[[0, 0, 1, 0, 0, 0], [3, 0, 0, 0, 0, 0]]),
        alike(&[a_word, [0, 0, 1, 0, 0, 0], [3, 0, 0, 0, 0, 0]]),
        alike(&[a_word, b_word, [4, 0, 0, 1, 0, 0]]),
        card_of(
            &["a", "b", "a"],
            0,
            &[[0, 0, 2, 0, 0, 0], b_word, [3, 0, 1, 0, 0, 0]],
        ),
    ]
}

/// Cards of three or four productions that get 42, for plans that are tried all the same: a
/// production with the dead name stands first, in the middle or last.
pub fn dead_cards_for_plans() -> Vec<CardText> {
    let card = |productions: &[[u8; 6]]| CardText {
        nonterminals: 2,
        indices: 1,
        words: vec![String::from("a")],
        productions: productions.to_vec(),
    };
    let a_word = [0, 0, 0, 0, 0, 0];
    let [keep, give, take] = [[3, 0, 0, 0, 0, 0], [5, 0, 0, 0, 1, 0], [2, 0, 0, 0, 1, 0]];
    vec![
        card(&[[3, 0, 0, 1, 0, 0], a_word, keep]),
        card(&[a_word, [4, 0, 0, 1, 0, 0], keep]),
        card(&[a_word, keep, [3, 0, 1, 1, 0, 0]]),
        card(&[a_word, give, take, [6, 0, 1, 0, 1, 0]]),
    ]
}

/// Cards whose short sheets are all tried. The first one reads a b b with a pair; the second, on
/// which b is no word, reads a a a with one; the third too, by two words spelled alike. The fourth
/// is the first without the productions that b's nonterminal is on the left of, so that it is dead.
/// Under the last two a pair has sides of one word or of two: the spine ends in b, a side is a or
/// a a, and each kind of give and of take is there, in one order and in the other.
pub fn cards_for_sheets() -> [CardText; 6] {
    let card = |nonterminals, words: &[&str], productions: &[[u8; 6]]| CardText {
        nonterminals,
        indices: 1,
        words: words.iter().map(|word| word.to_string()).collect(),
        productions: productions.to_vec(),
    };
    let a_word = [0, 0, 0, 0, 0, 0];
    let b_word = [0, 1, 1, 0, 0, 0];
    let [give, take] = [[5, 0, 0, 1, 1, 0], [2, 1, 1, 1, 1, 0]];
    let [give_alone, take_alone] = [[5, 0, 0, 0, 1, 0], [2, 0, 0, 0, 1, 0]];
    let [side, longer_side, end] = [[0, 1, 0, 0, 0, 0], [3, 1, 1, 1, 0, 0], [0, 2, 1, 0, 0, 0]];
    let sides_before = [[5, 0, 1, 2, 1, 0], [1, 2, 1, 2, 1, 0]];
    let sides_after = [[6, 0, 2, 1, 1, 0], [2, 2, 2, 1, 1, 0]];
    let with_sides = |gives_and_takes: [[[u8; 6]; 2]; 2]| {
        let [one, other] = gives_and_takes;
        let productions = [&one[..], &other, &[side, longer_side, end]].concat();
        card(3, &["a", "b"], &productions)
    };
    [
        card(2, &["a", "b"], &[a_word, b_word, give, take]),
        card(1, &["a"], &[a_word, give_alone, take_alone]),
        card(2, &["a", "a"], &[a_word, b_word, give, take]),
        card(2, &["a", "b"], &[a_word, give]),
        with_sides([sides_before, sides_after]),
        with_sides([sides_after, sides_before]),
    ]
}
