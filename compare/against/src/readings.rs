//! Cards under which lines have several readings: few names, every way to take and to give an
//! index, and productions that are alike or equal, in any order.

use independent::random::Random;

type Row = [u8; 6];

/// The productions of a card with so many nonterminals, words and indices, one at least of the
/// former two.
pub fn productions(random: &mut Random, [nonterminals, words, indices]: [usize; 3]) -> Vec<Row> {
    let mut rows: Vec<Row> = (0..nonterminals)
        .map(|name| [0, name as u8, random.below(words) as u8, 0, 0, 0])
        .collect();
    let mut add = |kinds: [u8; 2], index: usize, random: &mut Random| {
        let kind = *random.pick(&kinds);
        let [a, b, c] = [(); 3].map(|()| random.below(nonterminals) as u8);
        rows.push([kind, a, b, c, index as u8, 0]);
    };
    for index in 1..=indices {
        for _ in 0..random.between(1, 3) {
            add([1, 2], index, random);
        }
        for _ in 0..random.between(1, 3) {
            add([5, 6], index, random);
        }
    }
    for _ in 0..random.between(usize::from(indices == 0), 3) {
        add([3, 4], 0, random);
    }
    for _ in 0..random.below(4) {
        let alike = alike(random, &rows, nonterminals, words);
        rows.push(alike);
    }
    random.shuffle(&mut rows);
    rows
}

/// A production that equals one of the others, or differs from it in one name or word on the right,
/// or in its orientation.
fn alike(random: &mut Random, rows: &[Row], nonterminals: usize, words: usize) -> Row {
    let mut row = *random.pick(rows);
    let name = random.below(nonterminals) as u8;
    match (row[0], random.below(4)) {
        (0, 0) => row[2] = random.below(words) as u8,
        (0, _) | (_, 0) => {}
        (_, 1) => row[2] = name,
        (_, 2) => row[3] = name,
        (1 | 3 | 5, _) => row[0] += 1,
        _ => row[0] -= 1,
    }
    row
}
