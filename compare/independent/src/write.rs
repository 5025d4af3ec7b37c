//! Writing cards and lines, for tests and measurements.

/// A card before it is bytes.
#[derive(Clone, Debug)]
pub struct CardText {
    pub nonterminals: u8,
    pub indices: u8,
    pub words: Vec<String>,
    /// Kind, A, B, C, index, zero.
    pub productions: Vec<[u8; 6]>,
}

impl CardText {
    pub fn bytes(&self) -> Vec<u8> {
        let words = self.words.len();
        let mut card = b"LIG1".to_vec();
        card.extend([
            self.nonterminals,
            words as u8,
            self.indices,
            self.productions.len() as u8,
        ]);
        card.extend(12_u16.to_le_bytes());
        card.extend((12 + 12 * words as u16).to_le_bytes());
        for word in &self.words {
            card.push(word.len() as u8);
            card.extend(word.bytes());
            card.extend(std::iter::repeat_n(0, 11 - word.len()));
        }
        card.extend(self.productions.iter().flatten());
        card
    }

    /// A line of words by number, one space between two.
    pub fn line(&self, words: &[u8]) -> Vec<u8> {
        let spelled: Vec<&str> = words
            .iter()
            .map(|&word| self.words[usize::from(word)].as_str())
            .collect();
        spelled.join(" ").into_bytes()
    }
}

/// The tomato card of document 01.
pub fn tomato() -> CardText {
    let [s, t, r, q, m, h] = [0, 1, 2, 3, 4, 5];
    let (c, w) = (1, 2);
    CardText {
        nonterminals: 6,
        indices: 2,
        words: ["coir", "wool", "takes", "mild", "rich"]
            .map(String::from)
            .to_vec(),
        productions: vec![
            [0, r, 0, 0, 0, 0],
            [0, q, 1, 0, 0, 0],
            [0, t, 2, 0, 0, 0],
            [0, m, 3, 0, 0, 0],
            [0, h, 4, 0, 0, 0],
            [5, s, r, s, c, 0],
            [5, s, q, s, w, 0],
            [5, s, r, t, c, 0],
            [5, s, q, t, w, 0],
            [2, t, t, m, c, 0],
            [2, t, t, h, w, 0],
        ],
    }
}

/// The tomato card with each spelling entered twice, and the same nonterminal for both words.
pub fn tomato_with_twins() -> CardText {
    let mut card = tomato();
    let entered = card.words.len() as u8;
    card.words.extend_from_within(..);
    for number in 0..entered {
        let mut twin = card.productions[usize::from(number)];
        twin[2] += entered;
        card.productions.push(twin);
    }
    card
}

/// The tomato card with numbered rows, such as "coir 14", and with feeds that may have extras, such
/// as "extra mild".
pub fn tomato_with_rows() -> CardText {
    let [r, q, m, h] = [2, 3, 4, 5];
    let [k, l, n, e] = [6, 7, 8, 9];
    let mut card = tomato();
    card.nonterminals = 10;
    card.words.extend(["14", "15", "extra"].map(String::from));
    card.productions.extend([
        [0, k, 0, 0, 0, 0],
        [0, l, 1, 0, 0, 0],
        [0, n, 5, 0, 0, 0],
        [0, n, 6, 0, 0, 0],
        [3, r, k, n, 0, 0],
        [4, q, l, n, 0, 0],
        [0, e, 7, 0, 0, 0],
        [3, m, e, m, 0, 0],
        [3, h, e, h, 0, 0],
    ]);
    card
}

/// A tomato line: materials, "takes", and the feeds of these materials in the same order.
pub fn tomato_line(materials: &[u8]) -> Vec<u8> {
    let feeds = materials.iter().map(|material| material + 3);
    let words: Vec<u8> = materials.iter().copied().chain([2]).chain(feeds).collect();
    tomato().line(&words)
}
