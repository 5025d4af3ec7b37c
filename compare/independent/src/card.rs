//! Checking and decoding a card, straight from the layout.

/// A card as its layout has it, accepted or with dead names.
#[derive(Clone, Debug)]
pub struct Card {
    pub nonterminals: u8,
    pub indices: u8,
    pub words: Vec<Vec<u8>>,
    pub productions: Vec<Production>,
}

#[derive(Clone, Copy, Debug, PartialEq, Eq)]
pub enum Production {
    Word { head: u8, word: u8 },
    Pair(PairProduction),
}

/// A production with two elements, one of which, the dependent, has the rest of the stack.
#[derive(Clone, Copy, Debug, PartialEq, Eq)]
pub struct PairProduction {
    pub head: u8,
    pub first: u8,
    pub second: u8,
    pub dependent: Place,
    pub action: Action,
}

#[derive(Clone, Copy, Debug, PartialEq, Eq)]
pub enum Place {
    First,
    Second,
}

#[derive(Clone, Copy, Debug, PartialEq, Eq)]
pub enum Action {
    Take(u8),
    Keep,
    Give(u8),
}

impl Production {
    pub fn left(&self) -> u8 {
        match self {
            Production::Word { head, .. } => *head,
            Production::Pair(pair) => pair.head,
        }
    }

    /// The nonterminals on the right. A word production has none: its word is a number of another
    /// kind.
    pub fn right(&self) -> Option<[u8; 2]> {
        match self {
            Production::Word { .. } => None,
            Production::Pair(pair) => Some([pair.first, pair.second]),
        }
    }
}

impl Card {
    /// The refusals 11 to 14, 16 and 42, in this order. Entries may be equal: 15 no longer occurs.
    pub fn accept(bytes: &[u8]) -> Result<Self, u16> {
        let card = Card::decode(bytes)?;
        if card.dead_names().is_empty() {
            Ok(card)
        } else {
            Err(42)
        }
    }

    /// The refusals 11 to 14 and 16, in this order. Without them a card can be decoded, whatever
    /// names it has.
    pub fn decode(bytes: &[u8]) -> Result<Self, u16> {
        if bytes.len() < 12 || &bytes[0..4] != b"LIG1" {
            return Err(11);
        }
        let counts = Counts::of(bytes);
        if !counts.within_limits() {
            return Err(12);
        }
        let offset = |at: usize| usize::from(bytes[at]) + 256 * usize::from(bytes[at + 1]);
        let productions_at = 12 + 12 * counts.words;
        let length = productions_at + 6 * counts.productions;
        if offset(8) != 12 || offset(10) != productions_at || bytes.len() != length {
            return Err(13);
        }
        let words: Option<Vec<Vec<u8>>> =
            bytes[12..productions_at].chunks(12).map(spelling).collect();
        let words = words.ok_or(14_u16)?;
        let productions: Option<Vec<Production>> = bytes[productions_at..]
            .chunks(6)
            .map(|bytes| production(bytes, &counts))
            .collect();
        Ok(Card {
            nonterminals: counts.nonterminals as u8,
            indices: counts.indices as u8,
            words,
            productions: productions.ok_or(16_u16)?,
        })
    }

    /// The nonterminals that stand on the right of a production and on the left of none, each as
    /// often as it stands there.
    pub fn dead_names(&self) -> Vec<u8> {
        let has_a_left = |name: &u8| self.productions.iter().any(|other| other.left() == *name);
        let right = self.productions.iter().filter_map(Production::right);
        right.flatten().filter(|name| !has_a_left(name)).collect()
    }

    /// All words with this spelling, by number.
    pub fn spelled(&self, spelling: &[u8]) -> Vec<u8> {
        let is_spelled_so = |number: &u8| self.words[usize::from(*number)] == spelling;
        (0..self.words.len() as u8).filter(is_spelled_so).collect()
    }
}

struct Counts {
    nonterminals: usize,
    words: usize,
    indices: usize,
    productions: usize,
}

impl Counts {
    fn of(bytes: &[u8]) -> Self {
        let [nonterminals, words, indices, productions] =
            [4, 5, 6, 7].map(|at| usize::from(bytes[at]));
        Counts {
            nonterminals,
            words,
            indices,
            productions,
        }
    }

    fn within_limits(&self) -> bool {
        (1..=16).contains(&self.nonterminals)
            && (1..=32).contains(&self.words)
            && (0..=8).contains(&self.indices)
            && (1..=64).contains(&self.productions)
    }
}

pub fn is_word_byte(byte: u8) -> bool {
    byte.is_ascii_lowercase() || byte.is_ascii_digit()
}

fn spelling(entry: &[u8]) -> Option<Vec<u8>> {
    let length = usize::from(entry[0]);
    if !(1..=11).contains(&length) {
        return None;
    }
    let (spelling, rest) = entry[1..].split_at(length);
    let fits =
        spelling.iter().all(|&byte| is_word_byte(byte)) && rest.iter().all(|&byte| byte == 0);
    fits.then(|| spelling.to_vec())
}

fn production(bytes: &[u8], counts: &Counts) -> Option<Production> {
    let [kind, head, first, second, index, zero] = *bytes else {
        return None;
    };
    let is_nonterminal = |number: u8| usize::from(number) < counts.nonterminals;
    if zero != 0 || !is_nonterminal(head) {
        return None;
    }
    if kind == 0 {
        let fits = usize::from(first) < counts.words && second == 0 && index == 0;
        return fits.then_some(Production::Word { head, word: first });
    }
    let is_index = index >= 1 && usize::from(index) <= counts.indices;
    let action = match kind {
        1 | 2 if is_index => Action::Take(index),
        3 | 4 if index == 0 => Action::Keep,
        5 | 6 if is_index => Action::Give(index),
        _ => return None,
    };
    let dependent = match kind {
        1 | 3 | 5 => Place::Second,
        _ => Place::First,
    };
    (is_nonterminal(first) && is_nonterminal(second)).then_some(Production::Pair(PairProduction {
        head,
        first,
        second,
        dependent,
        action,
    }))
}
