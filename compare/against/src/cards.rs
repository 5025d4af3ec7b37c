//! Cards drawn at random.

use crate::alike;
use crate::lines;
use crate::names::repair::repair;
use crate::readings;
use crate::rows;
use independent::random::Random;
use independent::write::{CardText, tomato};

/// What is drawn for one card.
struct Counts {
    nonterminals: usize,
    words: usize,
    indices: usize,
    productions: usize,
}

pub struct Drawn {
    pub text: CardText,
    shape: Shape,
    /// The most entries that are spelled alike.
    most_alike: usize,
}

#[derive(Clone, Copy, PartialEq, Eq)]
enum Shape {
    /// Made for many items.
    Crowded,
    /// Made for several readings.
    Several,
    /// Made for sides of several words.
    Rows,
    Other,
}

impl Drawn {
    /// A length for lines, which are kept short more often than not where there are many items.
    /// Where several words have one spelling, most are so short that all their lists of words can
    /// be asked about; under cards made for long sides, which fill the length, all are.
    pub fn most_words(&self, random: &mut Random) -> usize {
        let most = match (self.shape, random.below(30)) {
            (Shape::Crowded, 0) => 24,
            (Shape::Several, 0) => 14,
            (Shape::Crowded | Shape::Several, _) => 8,
            (Shape::Rows | Shape::Other, 0..=9) => 24,
            (Shape::Rows | Shape::Other, _) => 10,
        };
        if random.once_in(5) && self.shape != Shape::Rows {
            return most;
        }
        let short = match self.most_alike {
            1 => 24,
            2 => 7,
            3 => 5,
            4 | 5 => 4,
            6..=8 => 3,
            9..=16 => 2,
            _ => random.between(1, 2),
        };
        most.min(short)
    }

    /// The words of a line of at most so many. Short lines have hardly several readings, and hardly
    /// long sides, so the longest of a few is taken for these.
    pub fn line(&self, random: &mut Random, most_words: usize) -> Vec<u8> {
        let drawn = match self.shape {
            Shape::Several | Shape::Rows => 4,
            Shape::Crowded | Shape::Other => 1,
        };
        let lines = (0..drawn).map(|_| lines::draw(&self.text, random, most_words));
        lines.max_by_key(Vec::len).unwrap_or_default()
    }
}

/// One card in so many keeps the dead names that it was drawn with.
const CARDS_A_DEAD_ONE: usize = 16;

pub fn draw(random: &mut Random) -> Drawn {
    let shape = match random.below(12) {
        0 => Shape::Crowded,
        1..=3 => Shape::Several,
        4 | 5 => Shape::Rows,
        _ => Shape::Other,
    };
    let mut text = match shape {
        Shape::Crowded => crowded(random),
        Shape::Several => several(random),
        Shape::Rows => with_rows(random),
        Shape::Other => other(random),
    };
    if random.once_in(2) {
        let entries = alike::entries(text.words.len(), random);
        text.words = spellings(random, entries);
        alike::share(&mut text, random);
    }
    if !random.once_in(CARDS_A_DEAD_ONE) {
        repair(&mut text, random);
    }
    let most_alike = alike::most_alike(&text);
    Drawn {
        text,
        shape,
        most_alike,
    }
}

fn other(random: &mut Random) -> CardText {
    match random.below(8) {
        0 => scattered(random, any_counts),
        1 => scattered(random, extreme_counts),
        2 => derivable(random, any_counts),
        3 => derivable(random, extreme_counts),
        4 | 5 => derivable(random, small_counts),
        6 => ambiguous(random),
        _ => crossing(random),
    }
}

fn any_counts(random: &mut Random) -> Counts {
    Counts {
        nonterminals: random.between(1, 16),
        words: random.between(1, 32),
        indices: random.between(0, 8),
        productions: random.between(1, 64),
    }
}

/// Each count least, greatest, or one off that.
fn extreme_counts(random: &mut Random) -> Counts {
    Counts {
        nonterminals: *random.pick(&[1, 2, 15, 16, 16]),
        words: *random.pick(&[1, 2, 31, 32, 32]),
        indices: *random.pick(&[0, 1, 7, 8, 8]),
        productions: *random.pick(&[1, 2, 63, 64, 64]),
    }
}

fn small_counts(random: &mut Random) -> Counts {
    Counts {
        nonterminals: random.between(1, 4),
        words: random.between(1, 4),
        indices: random.between(0, 3),
        productions: random.between(6, 30),
    }
}

/// Productions drawn with no plan at all; few lines are read under such a card.
fn scattered(random: &mut Random, counts: fn(&mut Random) -> Counts) -> CardText {
    let counts = counts(random);
    let productions = (0..counts.productions)
        .map(|_| {
            if random.once_in(3) {
                word_production(random, &counts)
            } else {
                pair_production(random, &counts)
            }
        })
        .collect();
    text(random, &counts, productions)
}

/// Every nonterminal makes a word and can take an index, as far as the productions go; the others
/// are drawn. Most derivations that are begun under such a card can be ended.
fn derivable(random: &mut Random, counts: fn(&mut Random) -> Counts) -> CardText {
    let counts = counts(random);
    let mut productions = Vec::new();
    for nonterminal in 0..counts.nonterminals {
        let word = random.below(counts.words);
        productions.push([0, nonterminal as u8, word as u8, 0, 0, 0]);
        if counts.indices > 0 {
            let mut take = indexed_production(random, &counts, 1);
            take[1] = nonterminal as u8;
            productions.push(take);
        }
    }
    while productions.len() < counts.productions {
        productions.push(pair_production(random, &counts));
        if random.once_in(5) {
            productions.push(word_production(random, &counts));
        }
        if random.once_in(4) {
            let twin = twin(random, &productions, &counts);
            productions.push(twin);
        }
    }
    productions.truncate(counts.productions);
    text(random, &counts, productions)
}

/// A production that another one equals, or equals but for the index. Both are allowed.
fn twin(random: &mut Random, productions: &[[u8; 6]], counts: &Counts) -> [u8; 6] {
    let mut twin = *random.pick(productions);
    if twin[4] != 0 {
        twin[4] = random.between(1, counts.indices) as u8;
    }
    twin
}

/// Few nonterminals and productions of all kinds: most stretches are read in many ways.
fn ambiguous(random: &mut Random) -> CardText {
    let counts = Counts {
        nonterminals: random.between(1, 2),
        words: random.between(1, 2),
        indices: random.between(0, 2),
        productions: random.between(8, 24),
    };
    let mut productions = vec![[0, 0, 0, 0, 0, 0]];
    for kind in 1..=6 {
        if counts.indices > 0 || matches!(kind, 3 | 4) {
            productions.push(production_of_kind(random, &counts, kind));
        }
    }
    while productions.len() < counts.productions {
        productions.push(pair_production(random, &counts));
    }
    text(random, &counts, productions)
}

/// Many productions over few nonterminals: many items.
fn crowded(random: &mut Random) -> CardText {
    let counts = Counts {
        nonterminals: random.between(3, 7),
        words: random.between(1, 3),
        indices: random.between(1, 8),
        productions: random.between(48, 64),
    };
    let mut productions: Vec<[u8; 6]> = (0..2 * counts.nonterminals)
        .map(|_| word_production(random, &counts))
        .collect();
    while productions.len() < counts.productions {
        productions.push(pair_production(random, &counts));
    }
    text(random, &counts, productions)
}

/// Lines have several readings, which differ in what is given and taken where.
fn several(random: &mut Random) -> CardText {
    let counts = Counts {
        nonterminals: random.between(1, 3),
        words: random.between(1, 3),
        indices: random.between(0, 3),
        productions: 0,
    };
    let sizes = [counts.nonterminals, counts.words, counts.indices];
    let productions = readings::productions(random, sizes);
    text(random, &counts, productions)
}

/// Sides of gives and takes have several words.
fn with_rows(random: &mut Random) -> CardText {
    let [spine, rows] = [*random.pick(&[1, 1, 2]), random.between(1, 4)];
    let sizes = rows::Sizes {
        spine,
        rows,
        words: random.between(1, spine + rows),
        indices: random.between(1, 3),
    };
    let productions = rows::productions(random, &sizes);
    let counts = Counts {
        nonterminals: sizes.spine + sizes.rows,
        words: sizes.words,
        indices: sizes.indices,
        productions: productions.len(),
    };
    text(random, &counts, productions)
}

/// The tomato card with other spellings and some productions more or fewer.
fn crossing(random: &mut Random) -> CardText {
    let mut card = tomato();
    card.words = spellings(random, card.words.len());
    let counts = Counts {
        nonterminals: 6,
        words: 5,
        indices: 2,
        productions: 11,
    };
    for _ in 0..random.below(4) {
        card.productions.push(pair_production(random, &counts));
    }
    if random.once_in(4) {
        card.productions
            .remove(random.below(card.productions.len()));
    }
    card
}

fn word_production(random: &mut Random, counts: &Counts) -> [u8; 6] {
    let head = random.below(counts.nonterminals) as u8;
    [0, head, random.below(counts.words) as u8, 0, 0, 0]
}

fn pair_production(random: &mut Random, counts: &Counts) -> [u8; 6] {
    let kind = if counts.indices == 0 {
        random.between(3, 4)
    } else {
        random.between(1, 6)
    };
    production_of_kind(random, counts, kind as u8)
}

/// Kind `kind` or the one after it, which need an index.
fn indexed_production(random: &mut Random, counts: &Counts, kind: u8) -> [u8; 6] {
    let mirrored = random.below(2) as u8;
    production_of_kind(random, counts, kind + mirrored)
}

fn production_of_kind(random: &mut Random, counts: &Counts, kind: u8) -> [u8; 6] {
    let index = match kind {
        3 | 4 => 0,
        _ => random.between(1, counts.indices) as u8,
    };
    let [a, b, c] = [(); 3].map(|()| random.below(counts.nonterminals) as u8);
    [kind, a, b, c, index, 0]
}

fn text(random: &mut Random, counts: &Counts, productions: Vec<[u8; 6]>) -> CardText {
    CardText {
        nonterminals: counts.nonterminals as u8,
        indices: counts.indices as u8,
        words: spellings(random, counts.words),
        productions,
    }
}

/// Distinct spellings, many of them the beginning of another.
fn spellings(random: &mut Random, count: usize) -> Vec<String> {
    let letters = *random.pick(&["ab", "abcxyz019", "az09"]);
    let mut list: Vec<String> = Vec::new();
    while list.len() < count {
        let length = *random.pick(&[1, 2, 3, 4, 5, 6, 7, 8, 9, 10, 11, 11]);
        let spelling: String = (0..length)
            .map(|_| char::from(*random.pick(letters.as_bytes())))
            .collect();
        if !list.contains(&spelling) {
            list.push(spelling);
        }
    }
    list
}
