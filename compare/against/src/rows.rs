//! Cards under which gives and takes have sides of several words: names that stand for rows of some
//! words, and a spine of other names, which gives and takes with a row on either hand.

use independent::random::Random;

type Row = [u8; 6];

/// Names, words and indices of a card, one at least of each.
pub struct Sizes {
    /// Nonterminals of the spine, the start among them. Those of rows come after these.
    pub spine: usize,
    pub rows: usize,
    pub words: usize,
    pub indices: usize,
}

impl Sizes {
    fn spine_name(&self, random: &mut Random) -> u8 {
        random.below(self.spine) as u8
    }

    /// One of the first `count` names of rows.
    fn row_name(&self, random: &mut Random, count: usize) -> u8 {
        (self.spine + random.below(count)) as u8
    }

    fn word(&self, name: u8) -> Row {
        [0, name, name % self.words as u8, 0, 0, 0]
    }
}

pub fn productions(random: &mut Random, sizes: &Sizes) -> Vec<Row> {
    let mut list: Vec<Row> = (0..sizes.spine as u8)
        .map(|name| sizes.word(name))
        .collect();
    for number in 0..sizes.rows {
        list.extend(row(random, sizes, number));
    }
    for index in 1..=sizes.indices {
        for kinds in [[1, 2], [5, 6]] {
            for _ in 0..random.between(1, 2) {
                list.push(on_the_spine(random, sizes, kinds, index as u8));
            }
        }
    }
    if random.once_in(3) {
        list.push(on_the_spine(random, sizes, [3, 4], 0));
    }
    random.shuffle(&mut list);
    list
}

/// A row is a word or any number of words. But for the first, it may also be made of two rows before
/// it alone, so that it has several words wherever it stands.
fn row(random: &mut Random, sizes: &Sizes, number: usize) -> Vec<Row> {
    let name = (sizes.spine + number) as u8;
    let joint = |random: &mut Random, b, c| [*random.pick(&[3, 4]), name, b, c, 0, 0];
    if number > 0 && random.once_in(2) {
        let [b, c] = [(); 2].map(|()| sizes.row_name(random, number));
        return vec![joint(random, b, c)];
    }
    let other = sizes.row_name(random, sizes.rows);
    let [b, c] = *random.pick(&[[name, other], [other, name]]);
    vec![sizes.word(name), joint(random, b, c)]
}

/// The dependent is a name of the spine, and so is the side at times, which then has gives and takes
/// of its own.
fn on_the_spine(random: &mut Random, sizes: &Sizes, kinds: [u8; 2], index: u8) -> Row {
    let [head, dependent] = [(); 2].map(|()| sizes.spine_name(random));
    let side = match random.below(6) {
        0 => sizes.spine_name(random),
        _ => sizes.row_name(random, sizes.rows),
    };
    let kind = *random.pick(&kinds);
    let [b, c] = match kind % 2 {
        1 => [side, dependent],
        _ => [dependent, side],
    };
    [kind, head, b, c, index, 0]
}
