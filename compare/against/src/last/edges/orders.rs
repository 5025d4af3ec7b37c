//! Orders whose rows and feeds have any number of words: of one word, of several, and of as many as
//! a line has room for.

use super::{Edge, edge};
use crate::last::wrong::{self, Wrong};
use independent::plan::Plan;
use independent::write::CardText;

/// The names of these cards, and their words.
const S: u8 = 0;
const SPINE: u8 = 1;
const ROW: u8 = 2;
const FEED: u8 = 3;
const ROW_WORD: u8 = 4;
const FEED_WORD: u8 = 5;
const INNER: u8 = 6;

const COIR: u8 = 0;
const TAKES: u8 = 1;
const MILD: u8 = 2;

/// Four productions that give and take, 0 to 3. The spine ends in "takes", a row is "coir" any
/// number of times and a feed is "mild" any number of times.
fn card(gives_and_takes: [[u8; 6]; 4]) -> CardText {
    let word = |head, word| [0, head, word, 0, 0, 0];
    let others = [
        word(SPINE, TAKES),
        word(ROW, COIR),
        word(FEED, MILD),
        [3, ROW, ROW_WORD, ROW, 0, 0],
        [4, FEED, FEED, FEED_WORD, 0, 0],
        word(ROW_WORD, COIR),
        word(FEED_WORD, MILD),
    ];
    CardText {
        nonterminals: 7,
        indices: 2,
        words: ["coir", "takes", "mild"].map(String::from).to_vec(),
        productions: [&gives_and_takes[..], &others].concat(),
    }
}

fn end(at: u8) -> Plan {
    vec![[4, at, at + 1, at + 1]]
}

/// A row splits off its first word.
fn row(i: u8, j: u8) -> Plan {
    let split_off = |at| [[7, at, at + 1, j], [9, at, at + 1, at + 1]];
    let last = [5, j - 1, j, j];
    (i..j - 1).flat_map(split_off).chain([last]).collect()
}

/// A feed splits off its last word.
fn feed(i: u8, j: u8) -> Plan {
    let split_off = (i + 1..j).rev().map(|k| [8, i, k, k + 1]);
    let words = (i + 1..j).map(|at| [10, at, at + 1, at + 1]);
    let first = [6, i, i + 1, i + 1];
    split_off.chain([first]).chain(words).collect()
}

/// Each word so many times.
fn line(words: &[(&str, u8)]) -> String {
    let times = words
        .iter()
        .map(|&(word, count)| vec![word; count.into()].join(" "));
    times.collect::<Vec<_>>().join(" ")
}

/// The wrong readings that give the same pairs, for these kinds of give and take, and for rows and
/// feeds of so many words.
fn same(kinds: &[[u8; 2]], rows: &[u8], feeds: &[u8]) -> Vec<Wrong> {
    let one_word = |sides: &[u8]| sides.iter().all(|&words| words == 1);
    let all_are = |kind: [u8; 2]| kinds.iter().all(|&other| other == kind);
    let is_same = |wrong: &Wrong| match wrong {
        Wrong::FirstWords => one_word(rows) && one_word(feeds),
        Wrong::FirstOfGive => one_word(rows),
        Wrong::FirstOfTake => one_word(feeds),
        Wrong::WholeSteps => all_are([6, 2]),
        Wrong::FirstElements => all_are([5, 1]),
        Wrong::WordsAfter | Wrong::Dependents => false,
    };
    wrong::all().filter(is_same).collect()
}

/// Words of the row and of the feed. With the end of the spine they are 24 at most, so that no side
/// has more than 22.
const SIZES: [[u8; 2]; 15] = [
    [1, 1],
    [2, 1],
    [1, 2],
    [2, 2],
    [3, 1],
    [1, 3],
    [3, 2],
    [2, 3],
    [3, 3],
    [12, 1],
    [1, 12],
    [11, 12],
    [12, 11],
    [22, 1],
    [1, 22],
];

/// One give and one take, each with its side on either hand.
pub fn of_one_give() -> Vec<Edge> {
    let kinds = [[5, 1], [5, 2], [6, 1], [6, 2]];
    let of_size = |sizes| kinds.map(|kinds| one_give(kinds, sizes));
    SIZES.into_iter().flat_map(of_size).collect()
}

/// S → ROW SPINE[..1] | SPINE[..1] ROW, and SPINE[..1] → FEED SPINE[..] | SPINE[..] FEED.
fn one_give(kinds: [u8; 2], [m, n]: [u8; 2]) -> Edge {
    let text = card([
        [5, S, ROW, SPINE, 1, 0],
        [6, S, SPINE, ROW, 1, 0],
        [1, SPINE, FEED, SPINE, 1, 0],
        [2, SPINE, SPINE, FEED, 1, 0],
    ]);
    let all = m + n + 1;
    let [coir, takes, mild] = [("coir", m), ("takes", 1), ("mild", n)];
    let (words, steps, pair) = match kinds {
        [5, 1] => (
            [coir, mild, takes],
            [
                vec![[0, 0, m, all]],
                row(0, m),
                vec![[2, m, m + n, all]],
                feed(m, m + n),
                end(m + n),
            ],
            [m - 1, m + n - 1],
        ),
        [5, _] => (
            [coir, takes, mild],
            [
                vec![[0, 0, m, all]],
                row(0, m),
                vec![[3, m, m + 1, all]],
                end(m),
                feed(m + 1, all),
            ],
            [m - 1, m + n],
        ),
        [_, 1] => (
            [mild, takes, coir],
            [
                vec![[1, 0, n + 1, all]],
                vec![[2, 0, n, n + 1]],
                feed(0, n),
                end(n),
                row(n + 1, all),
            ],
            [m + n, n - 1],
        ),
        _ => (
            [takes, mild, coir],
            [
                vec![[1, 0, n + 1, all]],
                vec![[3, 0, 1, n + 1]],
                end(0),
                feed(1, n + 1),
                row(n + 1, all),
            ],
            [m + n, n],
        ),
    };
    let same = same(&[kinds], &[m], &[n]);
    edge(&text, &line(&words), steps.concat(), &[pair], &same)
}

/// Words of the first row, of the feeds before and after the end of the spine, and of the last row.
const SIZES_OF_TWO: [[u8; 4]; 6] = [
    [1, 1, 1, 1],
    [2, 1, 1, 2],
    [1, 2, 3, 1],
    [2, 3, 2, 3],
    [1, 3, 1, 2],
    [5, 6, 7, 5],
];

/// One give within another, of the other kind, and one take within another. The lines of each list
/// are under one card.
pub fn of_two_gives() -> [Vec<Edge>; 2] {
    let both = [[[5, 1], [6, 2]], [[5, 2], [6, 1]]];
    both.map(|kinds| Vec::from(SIZES_OF_TWO.map(|sizes| two_gives(kinds, sizes))))
}

/// S → ROW INNER[..1] and INNER → SPINE[..2] ROW. Index 2 is on top and is taken first, so that its
/// feed is the outer one.
fn two_gives(kinds: [[u8; 2]; 2], [a, x, y, b]: [u8; 4]) -> Edge {
    let [[_, take], _] = kinds;
    let text = card([
        [5, S, ROW, INNER, 1, 0],
        [6, INNER, SPINE, ROW, 2, 0],
        [1, SPINE, FEED, SPINE, take, 0],
        [2, SPINE, SPINE, FEED, 3 - take, 0],
    ]);
    // Where the first feed ends, the second feed begins and ends, and the line ends.
    let [k, p, q, all] = [a + x, a + x + 1, a + x + 1 + y, a + x + 1 + y + b];
    let (takes, pairs) = match take {
        1 => (
            [vec![[3, a, p, q], [2, a, k, p]], feed(a, k), end(k)],
            [[a - 1, k - 1], [all - 1, q - 1]],
        ),
        _ => (
            [
                vec![[2, a, k, q]],
                feed(a, k),
                vec![[3, k, p, q], [4, k, p, p]],
            ],
            [[a - 1, q - 1], [all - 1, k - 1]],
        ),
    };
    let words = [
        ("coir", a),
        ("mild", x),
        ("takes", 1),
        ("mild", y),
        ("coir", b),
    ];
    let gives = [vec![[0, 0, a, all]], row(0, a), vec![[1, a, q, all]]].concat();
    let steps = [gives, takes.concat(), feed(p, q), row(q, all)].concat();
    let same = same(&kinds, &[a, b], &[x, y]);
    edge(&text, &line(&words), steps, &pairs, &same)
}
