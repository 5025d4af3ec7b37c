//! Cards and lines to measure with.

mod one_name;

use crate::sheet::SheetWorkload;
use independent::chart;
use independent::random::Random;
use independent::write::{CardText, tomato, tomato_line, tomato_with_twins};

pub struct Workload {
    pub name: String,
    pub card: Vec<u8>,
    pub line: Vec<u8>,
    pub words: usize,
    pub chart_room: usize,
}

/// Room for as many items as a chart can have.
pub const FULL_ROOM: usize = 16 * 65_535;

/// The room for a plan of 24 words, which is also enough for its pairs.
pub const PLAN_ROOM: usize = 4 * (2 * 24 - 1);

impl Workload {
    /// The card has to be accepted: the times of a refused one would say nothing about reading.
    fn new(name: String, card: Vec<u8>, line: Vec<u8>, words: usize) -> Self {
        assert_eq!(chart::card_check(&card), 0, "the card of {name}");
        Workload {
            name,
            card,
            line,
            words,
            chart_room: FULL_ROOM,
        }
    }
}

/// The workloads of the main table.
pub fn all() -> Vec<Workload> {
    let mut overflow = dense(60_000);
    overflow.name += ", room of 4000";
    overflow.chart_room = 16 * 4_000;
    let mut list = vec![
        tomato_of(1),
        tomato_of(4),
        tomato_of(11),
        ambiguous_of(24),
        plain(),
        dense(4_000),
        dense(60_000),
        overflow,
    ];
    list.extend(one_name::all());
    list.extend([
        limits(),
        worst_found(),
        twins_of(1),
        twins_of(4),
        twins_of(11),
    ]);
    list
}

/// The first of them is the one whose time line by line is reported by itself.
pub fn sheets() -> [SheetWorkload; 4] {
    [
        (tomato_of(4), 64),
        (tomato_of(4), 1),
        (tomato_of(11), 64),
        (ambiguous_of(24), 64),
    ]
    .map(|(line, lines)| SheetWorkload { line, lines })
}

/// The cards that the calls on a card alone are measured with.
pub fn cards() -> [(&'static str, CardText); 3] {
    [
        ("tomato", tomato()),
        ("limits", limits_card()),
        ("varied", varied_card()),
    ]
}

/// A tomato line with as many feeds as materials.
pub fn tomato_of(materials: usize) -> Workload {
    let list: Vec<u8> = (0..materials).map(|place| (place % 3 % 2) as u8).collect();
    let words = 2 * materials + 1;
    Workload::new(
        format!("tomato, {words} words"),
        tomato().bytes(),
        tomato_line(&list),
        words,
    )
}

/// The same line under the tomato card with twins: two words at each place, one item of both.
fn twins_of(materials: usize) -> Workload {
    let Workload {
        name, line, words, ..
    } = tomato_of(materials);
    let name = name.replace("tomato", "tomato with twins");
    Workload::new(name, tomato_with_twins().bytes(), line, words)
}

/// One nonterminal and one index, under which every stretch is read in every way.
pub fn ambiguous_of(words: usize) -> Workload {
    let text = CardText {
        nonterminals: 1,
        indices: 1,
        words: vec!["coir".to_string()],
        productions: vec![
            [0, 0, 0, 0, 0, 0],
            [1, 0, 0, 0, 1, 0],
            [2, 0, 0, 0, 1, 0],
            [3, 0, 0, 0, 0, 0],
            [4, 0, 0, 0, 0, 0],
            [5, 0, 0, 0, 1, 0],
            [6, 0, 0, 0, 1, 0],
        ],
    };
    let line = text.line(&vec![0; words]);
    Workload::new(
        format!("ambiguous, {words} words"),
        text.bytes(),
        line,
        words,
    )
}

/// Three nonterminals without any index, each of which is any two of them, and makes both words:
/// every stretch is read in every way.
fn plain() -> Workload {
    let names = [0, 1, 2];
    let mut productions = Vec::new();
    for a in names {
        productions.extend([0, 1].map(|word| [0, a, word, 0, 0, 0]));
        for b in names {
            for c in names {
                productions.extend([3, 4].map(|kind| [kind, a, b, c, 0, 0]));
            }
        }
    }
    let text = CardText {
        nonterminals: 3,
        indices: 0,
        words: ["coir", "wool"].map(String::from).to_vec(),
        productions,
    };
    let line = text.line(&[0, 1].repeat(12));
    Workload::new(String::from("plain, 24 words"), text.bytes(), line, 24)
}

/// A card drawn at random with 64 productions, and a line that is read with about so many items.
/// The number of items is also the seed.
pub fn dense(items: usize) -> Workload {
    let mut random = Random::new(items as u64);
    let mut chart_room = vec![0; FULL_ROOM];
    loop {
        let text = dense_card(&mut random);
        let card = text.bytes();
        for words in 4..=24 {
            let numbers: Vec<u8> = (0..words)
                .map(|_| random.below(text.words.len()) as u8)
                .collect();
            let line = text.line(&numbers);
            let answer = chart::read(&card, &line, &mut chart_room, &mut [0; PLAN_ROOM]);
            if answer.number == 0 && usize::from(answer.items).abs_diff(items) < items / 20 {
                return Workload::new(format!("dense, about {items} items"), card, line, words);
            }
        }
    }
}

/// Eight nonterminals, eight words and four indices; a word is made by two or three nonterminals.
fn dense_card(random: &mut Random) -> CardText {
    let (nonterminals, words, indices) = (8, 8, 4);
    let mut productions: Vec<[u8; 6]> = (0..20)
        .map(|number| [0, random.below(nonterminals) as u8, number % words, 0, 0, 0])
        .collect();
    while productions.len() < 64 {
        let kind = random.between(1, 6) as u8;
        let index = match kind {
            3 | 4 => 0,
            _ => random.between(1, indices) as u8,
        };
        let [a, b, c] = [(); 3].map(|()| random.below(nonterminals) as u8);
        productions.push([kind, a, b, c, index, 0]);
    }
    CardText {
        nonterminals: nonterminals as u8,
        indices: indices as u8,
        words: (0..words).map(|number| format!("word{number}")).collect(),
        productions,
    }
}

/// A card at its limits, and 23 times its last word. With 24, no chart would hold the items.
fn limits() -> Workload {
    let text = limits_card();
    let line = text.line(&[31; 23]);
    Workload::new(String::from("limits, 23 words"), text.bytes(), line, 23)
}

/// Every count is as high as it can be, and words differ only in the last of their eleven letters.
/// Two nonterminals and one index have all 48 pairs, and each of the two makes the last 8 words.
fn limits_card() -> CardText {
    let both = [0, 1];
    let mut productions = Vec::new();
    for (kind, index) in [(1, 1), (2, 1), (3, 0), (4, 0), (5, 1), (6, 1)] {
        for a in both {
            for b in both {
                productions.extend(both.map(|c| [kind, a, b, c, index, 0]));
            }
        }
    }
    for word in 24..32 {
        productions.extend(both.map(|a| [0, a, word, 0, 0, 0]));
    }
    let letters = ('a'..='z').chain('0'..='5');
    CardText {
        nonterminals: 16,
        indices: 8,
        words: letters.map(|last| format!("nurseryrow{last}")).collect(),
        productions,
    }
}

/// As long as a card can be. No two productions are equal, all kinds are there, and words have 1 to
/// 11 letters.
fn varied_card() -> CardText {
    let mut random = Random::new(780);
    let (nonterminals, indices) = (16, 8);
    let mut productions: Vec<[u8; 6]> = (0..nonterminals).map(|a| [0, a, 2 * a, 0, 0, 0]).collect();
    while productions.len() < 64 {
        let kind = 1 + productions.len() as u8 % 6;
        let index = match kind {
            3 | 4 => 0,
            _ => random.between(1, indices) as u8,
        };
        let [a, b, c] = [(); 3].map(|()| random.below(nonterminals.into()) as u8);
        let production = [kind, a, b, c, index, 0];
        if !productions.contains(&production) {
            productions.push(production);
        }
    }
    random.shuffle(&mut productions);
    CardText {
        nonterminals,
        indices: indices as u8,
        words: (0..32)
            .map(|number| spelling(number, &mut random))
            .collect(),
        productions,
    }
}

/// A word of 1 to 11 letters and digits, the first of which tells it from the others.
fn spelling(number: usize, random: &mut Random) -> String {
    let signs = b"abcdefghijklmnopqrstuvwxyz0123456789";
    let others = (0..number % 11).map(|_| *random.pick(signs));
    let bytes = std::iter::once(signs[number]).chain(others);
    bytes.map(char::from).collect()
}

/// The slowest for Read that a search of twenty minutes found, among lines that are read and lines
/// that no chart holds. It is not a bound.
fn worst_found() -> Workload {
    let text = worst_found_card();
    let line = text.line(&[[0; 7].as_slice(), &[1; 17]].concat());
    let name = String::from("worst found, 24 words");
    Workload::new(name, text.bytes(), line, 24)
}

/// Nearly all items are of `full`, which has all eight indices over two or more of the second word.
/// Each of the 41 productions that give goes over them anew, for every place to the left of them.
fn worst_found_card() -> CardText {
    let [any, second, full] = [0, 1, 2];
    let mut productions = vec![
        [0, any, 0, 0, 0, 0],
        [0, any, 1, 0, 0, 0],
        [3, any, any, any, 0, 0],
        [0, second, 1, 0, 0, 0],
        [3, second, second, second, 0, 0],
    ];
    for index in 1..=8 {
        productions.extend([any, second].map(|foot| [1, full, second, foot, index, 0]));
    }
    productions.push([4, full, full, second, 0, 0]);
    productions.push([3, full, second, full, 0, 0]);
    productions.extend((0..41).map(|number| [5, any, any, full, number % 8 + 1, 0]));
    CardText {
        nonterminals: 3,
        indices: 8,
        words: ["coir", "wool"].map(String::from).to_vec(),
        productions,
    }
}
