//! Inputs at limits that random ones do not meet.

use independent::write::CardText;

/// A card and a line of 24 words with exactly 65,535 derivable items, and with one more.
///
/// A nonterminal that makes every word of a stretch of m words, with two takes for each of x
/// indices and both keeps, has T = m(m + 1)/2 items with an empty stack, and with an index one
/// for each stretch inside another: x · (C(m + 3, 4) − T). Five such nonterminals, over 24, 20,
/// 16, 10 and 4 words, have 52,050 + 8,855 + 3,876 + 715 + 35 = 65,531 items; word productions
/// add the rest one by one.
pub fn greatest_charts() -> [(Vec<u8>, Vec<u8>); 2] {
    let mut card = CardText {
        nonterminals: 7,
        indices: 3,
        words: ["e", "d", "c", "b", "a", "f"].map(String::from).to_vec(),
        productions: Vec::new(),
    };
    for (nonterminal, words, indices) in [(0, 6, 3), (1, 4, 1), (2, 3, 1), (3, 2, 1), (4, 1, 1)] {
        saturate(&mut card, nonterminal, words, indices);
    }
    // The word f stands once in the line, the word a three times.
    card.productions.push([0, 5, 4, 0, 0, 0]);
    card.productions.push([0, 5, 5, 0, 0, 0]);
    let line = card.line(&[
        0, 0, 0, 0, 1, 1, 1, 1, 1, 1, 2, 2, 2, 2, 2, 2, 3, 3, 3, 3, 4, 4, 4, 5,
    ]);
    let mut one_more = card.clone();
    one_more.productions.push([0, 6, 5, 0, 0, 0]);
    [(card.bytes(), line.clone()), (one_more.bytes(), line)]
}

fn saturate(card: &mut CardText, nonterminal: u8, words: u8, indices: u8) {
    let a = nonterminal;
    let word_steps = (0..words).map(|word| [0, a, word, 0, 0, 0]);
    card.productions.extend(word_steps);
    for g in 1..=indices {
        card.productions.push([1, a, a, a, g, 0]);
        card.productions.push([2, a, a, a, g, 0]);
    }
    card.productions.push([3, a, a, a, 0, 0]);
    card.productions.push([4, a, a, a, 0, 0]);
}

/// A card and a line, the number that Read has to answer in rooms that are long enough, and the
/// derivable items.
pub struct Edge {
    pub card: Vec<u8>,
    pub line: Vec<u8>,
    pub number: u16,
    pub items: usize,
}

/// Up to 32 entries spelled alike.
pub fn shared_spellings() -> Vec<Edge> {
    let cards = [one_of_32(), all_of_32(), two_of_a_kind(), far_apart()];
    cards
        .into_iter()
        .flatten()
        .chain(nearly_spelled())
        .collect()
}

/// The productions that join any two stretches of the start.
const JOIN: [[u8; 6]; 2] = [[3, 0, 0, 0, 0, 0], [4, 0, 0, 0, 0, 0]];

const fn word(head: u8, word: u8) -> [u8; 6] {
    [0, head, word, 0, 0, 0]
}

/// A card without indices.
fn card(words: &[&str], productions: &[[u8; 6]]) -> Vec<u8> {
    let text = CardText {
        nonterminals: 16,
        indices: 0,
        words: words.iter().map(|word| word.to_string()).collect(),
        productions: productions.to_vec(),
    };
    text.bytes()
}

fn edge(card: &[u8], line: &str, number: u16, items: usize) -> Edge {
    Edge {
        card: card.to_vec(),
        line: line.as_bytes().to_vec(),
        number,
        items,
    }
}

/// A word so many times.
fn times(word: &str, count: usize) -> String {
    vec![word; count].join(" ")
}

/// All entries are alike, and only the last has a production, only the first, one between them,
/// or none.
fn one_of_32() -> Vec<Edge> {
    let mut edges = Vec::new();
    for count in [1, 2, 3, 24] {
        let line = times("mild", count);
        for only in [31, 0, 16] {
            let card = card(&["mild"; 32], &[&JOIN[..], &[word(0, only)]].concat());
            edges.push(edge(&card, &line, 0, count * (count + 1) / 2));
        }
        edges.push(edge(&card(&["mild"; 32], &JOIN), &line, 25, 0));
    }
    edges
}

/// All entries are alike and have a production: of the start, where each item still counts once,
/// of the sixteen nonterminals in turn, or of the last nonterminal, which starts nothing.
fn all_of_32() -> Vec<Edge> {
    let words = ["mild"; 32];
    let of_start = card(&words, &(0..32).map(|w| word(0, w)).collect::<Vec<_>>());
    let in_turn = card(
        &words,
        &(0..32).map(|w| word(w % 16, w)).collect::<Vec<_>>(),
    );
    let of_last = card(&words, &(0..32).map(|w| word(15, w)).collect::<Vec<_>>());
    vec![
        edge(&of_start, "mild", 0, 1),
        edge(&of_start, "mild mild", 25, 2),
        edge(&in_turn, "mild", 0, 16),
        edge(&in_turn, "mild mild", 25, 32),
        edge(&of_last, "mild", 25, 1),
    ]
}

/// Two entries alike that need each other: a feed before a setting. Where only one of the two has
/// its production, the other is dead, or is made by a word that no line has.
fn two_of_a_kind() -> Vec<Edge> {
    let [feed, setting] = [1, 2];
    let join = [3, 0, feed, setting, 0, 0];
    let both = [join, word(feed, 0), word(setting, 1)];
    let feed_alone = [join, word(feed, 0), word(setting, 2)];
    let setting_alone = [join, word(feed, 2), word(setting, 1)];
    let card_of = |productions: &[[u8; 6]]| card(&["mild", "mild", "rain"], productions);
    vec![
        edge(&card_of(&both), "mild mild", 0, 5),
        edge(&card_of(&both), "mild", 25, 2),
        edge(&card_of(&both), "mild mild mild", 25, 8),
        edge(&card_of(&feed_alone), "mild mild", 25, 2),
        edge(&card_of(&setting_alone), "mild mild", 25, 2),
        edge(&card_of(&both[..2]), "mild mild", 42, 0),
        edge(&card_of(&[join, word(setting, 1)]), "mild mild", 42, 0),
        edge(&card_of(&[word(0, 0)]), "mild", 0, 1),
        edge(&card_of(&[word(0, 1)]), "mild", 0, 1),
        edge(&card_of(&[word(0, 0), word(0, 1)]), "mild", 0, 1),
        edge(&card_of(&[word(1, 0), word(0, 1)]), "mild", 0, 2),
    ]
}

/// The first and the last entry are alike and thirty others stand between them, the only ones with
/// another spelling.
fn far_apart() -> Vec<Edge> {
    let between: Vec<String> = (0..30).map(|number| format!("row{number}")).collect();
    let between = between.iter().map(String::as_str);
    let words: Vec<&str> = ["mild"]
        .into_iter()
        .chain(between)
        .chain(["mild"])
        .collect();
    let card_of = |only| card(&words, &[&JOIN[..], &[word(0, only)]].concat());
    vec![
        edge(&card_of(31), "mild", 0, 1),
        edge(&card_of(31), "mild row29 mild", 25, 2),
        edge(&card_of(0), "mild", 0, 1),
        edge(&card_of(30), "mild", 25, 0),
    ]
}

/// Spellings that a shared one begins with, or that begin with it, are not on the card.
fn nearly_spelled() -> Vec<Edge> {
    let short = card(&["mild"; 32], &[word(0, 31)]);
    let long = card(&["mildforever"; 2], &[word(0, 1)]);
    let on_short = ["m", "mil", "mildm", "mildmild", "mild mil", "ild mild"];
    let on_long = ["mildforeve", "mildforevers", "mildforeverm", "mild"];
    let on_short = on_short.map(|line| edge(&short, line, 24, 0));
    let on_long = on_long.map(|line| edge(&long, line, 24, 0));
    let mut edges: Vec<Edge> = on_short.into_iter().chain(on_long).collect();
    edges.push(edge(&long, "mildforever", 0, 1));
    edges
}
