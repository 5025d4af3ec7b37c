//! Cards around dead names, each with the number that is known for it beforehand.

use crate::edges::Edge;
use independent::write::{CardText, tomato};

/// The start, and the two names that most of these cards have beside it.
const S: u8 = 0;
const A: u8 = 1;
const B: u8 = 2;

const WORDS: [&str; 3] = ["start", "first", "second"];

const MOST_PRODUCTIONS: usize = 64;

pub fn all() -> Vec<Edge> {
    let lists = [
        each_kind_and_place(),
        each_name(),
        each_number_of_a_right(),
        each_number_of_a_left(),
        left_of_itself(),
        one_pass(),
        start(),
        no_names(),
        after_16(),
        after_11_to_14(),
        before_the_line(),
    ];
    lists.into_iter().flatten().collect()
}

const fn word(head: u8, word: u8) -> [u8; 6] {
    [0, head, word, 0, 0, 0]
}

/// A production of some kind with index 1 where one is due.
const fn pair(kind: u8, [a, b, c]: [u8; 3]) -> [u8; 6] {
    let index = !matches!(kind, 3 | 4);
    [kind, a, b, c, index as u8, 0]
}

fn text(nonterminals: u8, productions: &[[u8; 6]]) -> CardText {
    CardText {
        nonterminals,
        indices: 8,
        words: WORDS.map(String::from).to_vec(),
        productions: productions.to_vec(),
    }
}

fn edge(card: &CardText, line: &str, number: u16, items: usize) -> Edge {
    Edge {
        card: card.bytes(),
        line: line.as_bytes().to_vec(),
        number,
        items,
    }
}

/// A card that gets 42 whatever the line.
fn dead(nonterminals: u8, productions: &[[u8; 6]]) -> Edge {
    edge(&text(nonterminals, productions), WORDS[0], 42, 0)
}

/// B is dead as the first name, as the second and as both, in each kind. A word production gives
/// it a left side, and so does another.
fn each_kind_and_place() -> Vec<Edge> {
    let mut edges = Vec::new();
    for kind in 1..=6 {
        // A take leaves an index that nothing gave, and to a give no take leads.
        let (number, joined) = match kind {
            1 | 2 => (25, 1),
            3 | 4 => (0, 1),
            _ => (25, 0),
        };
        for (right, of_words, of_others) in [
            ([B, A], "second first", "first first first"),
            ([A, B], "first second", "first first first"),
            ([B, B], "second second", "first first first first"),
        ] {
            let [b, c] = right;
            let rows = [word(S, 0), word(A, 1), pair(kind, [S, b, c])];
            edges.push(dead(3, &rows));
            let with = |left| text(3, &[&rows[..], &[left]].concat());
            edges.push(edge(&with(word(B, 2)), of_words, number, 2 + joined));
            // One item for each place, one of B for each two, and the start's.
            let places = of_others.split(' ').count();
            let items = places + (places - 1) + joined;
            edges.push(edge(&with(pair(3, [B, A, A])), of_others, number, items));
        }
    }
    edges
}

/// Each of sixteen nonterminals is dead, and then has a left side. The only other name is the next.
fn each_name() -> Vec<Edge> {
    let mut edges = Vec::new();
    for name in 0..16 {
        let other = (name + 1) % 16;
        let rows = [word(other, 0), pair(3, [other, other, name])];
        edges.push(dead(16, &rows));
        let living = text(16, &[&rows[..], &[word(name, 1)]].concat());
        let number = if other == S { 0 } else { 25 };
        edges.push(edge(&living, WORDS[0], number, 1));
    }
    edges
}

/// The dead name stands in one of 64 productions: the first, the last, or any other.
fn each_number_of_a_right() -> Vec<Edge> {
    let mut edges = Vec::new();
    for number in 0..MOST_PRODUCTIONS {
        let mut rows = [word(S, 0); MOST_PRODUCTIONS];
        rows[number] = pair(4, [S, S, A]);
        edges.push(dead(2, &rows));
        rows[(number + 1) % MOST_PRODUCTIONS] = word(A, 1);
        edges.push(edge(&text(2, &rows), WORDS[0], 0, 1));
    }
    edges
}

/// The only left side of a name is that of one of 64 productions, for a word or for two elements.
/// Then it is another's.
fn each_number_of_a_left() -> Vec<Edge> {
    let mut edges = Vec::new();
    for number in 0..MOST_PRODUCTIONS {
        let mut rows = [pair(5, [S, A, S]); MOST_PRODUCTIONS];
        rows[(number + 32) % MOST_PRODUCTIONS] = word(S, 0);
        for left in [word(A, 1), pair(2, [A, S, S])] {
            rows[number] = left;
            edges.push(edge(&text(2, &rows), WORDS[0], 0, 1));
            rows[number][1] = S;
            edges.push(dead(2, &rows));
        }
    }
    edges
}

/// A name on the left of productions alone that have it on the right too comes to no words, but is
/// not dead. Two such names that need each other are not, either.
fn left_of_itself() -> Vec<Edge> {
    let uses = pair(3, [S, S, A]);
    let passing = [
        vec![word(S, 0), uses, pair(3, [A, A, S])],
        vec![word(S, 0), uses, pair(6, [A, S, A])],
        vec![word(S, 0), uses, pair(1, [A, A, A])],
        vec![word(S, 0), pair(3, [A, A, S])],
        vec![word(S, 0), uses, pair(3, [A, B, B]), pair(3, [B, A, A])],
    ];
    Vec::from(passing.map(|rows| edge(&text(3, &rows), WORDS[0], 0, 1)))
}

/// A name whose only left side is that of a production with a dead name is not dead itself. The
/// card is refused for the other name, and passes once that has a left side, even one that comes to
/// no words. A dead name that the start does not lead to is dead all the same.
fn one_pass() -> Vec<Edge> {
    let chain = [word(S, 0), pair(3, [S, S, A]), pair(3, [A, B, B])];
    let ended = [&chain[..], &[pair(3, [B, B, B])]].concat();
    let with_words = [&chain[..], &[word(B, 2)]].concat();
    vec![
        dead(3, &chain),
        edge(&text(3, &ended), WORDS[0], 0, 1),
        edge(&text(3, &with_words), "start second second", 0, 5),
        dead(3, &[word(S, 0), word(A, 1), pair(4, [A, A, B])]),
        dead(3, &[word(S, 0), pair(4, [A, A, B])]),
    ]
}

/// The start is a name as any other: dead if it is on a right and on no left. It may stand nowhere.
fn start() -> Vec<Edge> {
    let passing = |rows: &[[u8; 6]]| edge(&text(2, rows), WORDS[1], 25, 1);
    vec![
        dead(2, &[word(A, 1), pair(3, [A, S, A])]),
        dead(2, &[word(A, 1), pair(3, [A, A, S])]),
        dead(2, &[pair(5, [A, S, S])]),
        passing(&[word(A, 1)]),
        passing(&[word(A, 1), pair(3, [A, A, A])]),
        passing(&[word(A, 1), pair(3, [S, A, S])]),
        edge(&text(1, &[pair(3, [S, S, S])]), WORDS[0], 25, 0),
    ]
}

/// Numbers that are no names: a word, the zeros of a word production, an index. Nonterminals that
/// stand nowhere are not dead. The tomato card passes.
fn no_names() -> Vec<Edge> {
    let index_8 = [5, S, S, S, 8, 0];
    vec![
        edge(&tomato(), "coir takes mild", 0, 5),
        edge(&text(1, &[word(S, 0)]), WORDS[0], 0, 1),
        edge(&text(16, &[word(S, 0)]), WORDS[0], 0, 1),
        edge(&text(16, &[word(S, 2)]), WORDS[2], 0, 1),
        edge(&text(16, &[word(15, 0)]), WORDS[0], 25, 1),
        edge(&text(16, &[word(S, 0), index_8]), WORDS[0], 0, 1),
        dead(16, &[word(S, B), pair(3, [S, S, B])]),
        dead(16, &[index_8, pair(3, [S, S, 8])]),
    ]
}

/// Productions that break no table, with A dead.
const DEAD_ROWS: [[u8; 6]; 2] = [word(S, 0), pair(3, [S, S, A])];

/// A production that breaks the table stands before the dead name or after it.
fn after_16() -> Vec<Edge> {
    let broken = [
        [7, S, S, S, 0, 0],
        [255, S, S, S, 0, 0],
        [3, B, S, S, 0, 0],
        [3, S, B, S, 0, 0],
        [3, S, S, B, 0, 0],
        [3, S, S, S, 1, 0],
        [1, S, S, S, 0, 0],
        [6, S, S, S, 9, 0],
        [0, S, 3, 0, 0, 0],
        [0, S, 0, A, 0, 0],
        [0, A, 0, 0, 0, 1],
    ];
    let both_orders = |row| {
        let before = [&[row][..], &DEAD_ROWS].concat();
        let after = [&DEAD_ROWS[..], &[row]].concat();
        [before, after].map(|rows| edge(&text(2, &rows), WORDS[0], 16, 0))
    };
    broken.into_iter().flat_map(both_orders).collect()
}

/// One byte of the card is another: of the mark, a count, an offset, the length of an entry, its
/// letters or the zeros after them. With a count of one nonterminal the dead one is not counted.
fn after_11_to_14() -> Vec<Edge> {
    let faults = [
        (0, b'l', 11),
        (3, b'2', 11),
        (4, 0, 12),
        (4, 17, 12),
        (5, 0, 12),
        (5, 33, 12),
        (6, 9, 12),
        (7, 0, 12),
        (5, 2, 13),
        (7, 1, 13),
        (8, 13, 13),
        (11, 1, 13),
        (12, 0, 14),
        (13, b'S', 14),
        (23, b'x', 14),
        (47, 1, 14),
        (4, 1, 16),
    ];
    let damaged = |(at, byte, number): (usize, u8, u16)| {
        let mut edge = dead(2, &DEAD_ROWS);
        edge.card[at] = byte;
        Edge { number, ..edge }
    };
    Vec::from(faults.map(damaged))
}

/// A card with a dead name, under lines that would be refused or have no reading.
fn before_the_line() -> Vec<Edge> {
    let mut card = tomato();
    // The left side of the production for mild is misspelled.
    card.productions[3][1] = 5;
    let lines = [
        "",
        "   ",
        "coir takes Mild",
        &"coir ".repeat(25),
        "coir gives mild",
        "takes",
        "coir takes mild",
        "wool takes rich",
    ]
    .map(String::from);
    Vec::from(lines.map(|line| edge(&card, &line, 42, 0)))
}
