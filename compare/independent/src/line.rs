//! Splitting a line into spellings, and looking these up.
//!
//! A derivation of the line ends in a list of words whose spellings are the line's. There may be
//! many such lists, as many as the sets of the places allow.

use crate::card::{Card, is_word_byte};

pub const MOST_WORDS: usize = 24;

/// What stands at one place of a line.
#[derive(Clone, Debug, PartialEq, Eq)]
pub struct Spelled {
    pub spelling: Vec<u8>,
    /// The numbers of all words with this spelling; there is at least one.
    pub words: Vec<u8>,
}

/// The line place by place, or the refusals 22, 21, 23 and 24, in this order.
pub fn places(card: &Card, line: &[u8]) -> Result<Vec<Spelled>, u16> {
    if !line.iter().all(|&byte| is_word_byte(byte) || byte == b' ') {
        return Err(22);
    }
    let spellings: Vec<&[u8]> = line
        .split(|&byte| byte == b' ')
        .filter(|part| !part.is_empty())
        .collect();
    match spellings.len() {
        0 => return Err(21),
        1..=MOST_WORDS => {}
        _ => return Err(23),
    }
    let places: Vec<Spelled> = spellings
        .into_iter()
        .map(|spelling| Spelled {
            spelling: spelling.to_vec(),
            words: card.spelled(spelling),
        })
        .collect();
    if places.iter().any(|place| place.words.is_empty()) {
        return Err(24);
    }
    Ok(places)
}

/// The lists of words whose spellings are the line's, the last place changing fastest.
pub fn word_lists(line: &[Spelled]) -> WordLists<'_> {
    WordLists {
        line,
        next: Some(vec![0; line.len()]),
    }
}

pub struct WordLists<'a> {
    line: &'a [Spelled],
    /// For each place, which of its words comes next.
    next: Option<Vec<usize>>,
}

impl Iterator for WordLists<'_> {
    type Item = Vec<u8>;

    fn next(&mut self) -> Option<Vec<u8>> {
        let mut chosen = self.next.take()?;
        let words = self.line.iter().zip(&chosen);
        let list = words.map(|(place, &at)| place.words[at]).collect();
        for (place, at) in self.line.iter().zip(&mut chosen).rev() {
            *at += 1;
            if *at < place.words.len() {
                self.next = Some(chosen);
                break;
            }
            *at = 0;
        }
        Some(list)
    }
}
