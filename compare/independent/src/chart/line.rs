//! The words of a line, sixty-four bytes at a time, and for each place the set of words spelled so.

use super::bytes::{HIGH, equal_to, gathered, spelled};
use super::spellings::Spellings;

pub const MOST_WORDS: usize = 24;

/// For each place the words with its spelling, as a set of word numbers. A card has at most 32
/// words, so each set is one number. A caller lends the room for them, since moving it costs time.
pub type WordSets = [u32; MOST_WORDS];

/// The places of the line, or the refusals 22, 21, 23 and 24, in this order.
pub fn places<'a>(
    spellings: &Spellings,
    line: &[u8],
    sets: &'a mut WordSets,
) -> Result<&'a [u32], u16> {
    let mut reader = Reader {
        spellings,
        line,
        sets,
        count: 0,
        all_known: true,
        word_start: None,
    };
    let mut before = 0;
    for (number, block) in line.chunks(64).enumerate() {
        let inside = inside_words(block)?;
        reader.edges(inside ^ (inside << 1 | before), 64 * number);
        before = inside >> 63;
    }
    reader.edges(before, line.len());
    let count = reader.finish()?;
    Ok(&sets[..count])
}

/// Words met so far: the sets of the first 24 are kept, all are counted.
struct Reader<'a> {
    spellings: &'a Spellings<'a>,
    line: &'a [u8],
    sets: &'a mut WordSets,
    count: usize,
    all_known: bool,
    word_start: Option<usize>,
}

impl Reader<'_> {
    /// Places where a word starts or ends, in turn.
    fn edges(&mut self, mut places: u64, offset: usize) {
        while places != 0 {
            let at = offset + places.trailing_zeros() as usize;
            places &= places - 1;
            match self.word_start.take() {
                None => self.word_start = Some(at),
                Some(start) => self.word(&self.line[start..at]),
            }
        }
    }

    fn word(&mut self, bytes: &[u8]) {
        if let Some(set) = self.sets.get_mut(self.count) {
            *set = entry(bytes).map_or(0, |entry| self.spellings.words(entry));
            self.all_known &= *set != 0;
        }
        self.count += 1;
    }

    /// How many there are.
    fn finish(&self) -> Result<usize, u16> {
        match self.count {
            0 => Err(21),
            count if count > MOST_WORDS => Err(23),
            _ if !self.all_known => Err(24),
            count => Ok(count),
        }
    }
}

/// A bit for each byte of the block that belongs to a word; 22 if a byte is not allowed.
fn inside_words(block: &[u8]) -> Result<u64, u16> {
    let (eights, rest) = block.as_chunks::<8>();
    let mut inside = 0;
    let mut allowed = HIGH;
    for (number, bytes) in eights.iter().enumerate() {
        let bytes = u64::from_le_bytes(*bytes);
        let letters = spelled(bytes);
        allowed &= letters | equal_to(b' ', bytes);
        inside |= gathered(letters) << (8 * number);
    }
    if !rest.is_empty() {
        let mut padded = [b' '; 8];
        padded[..rest.len()].copy_from_slice(rest);
        let bytes = u64::from_le_bytes(padded);
        let letters = spelled(bytes);
        allowed &= letters | equal_to(b' ', bytes);
        inside |= gathered(letters) << (8 * eights.len());
    }
    if allowed == HIGH { Ok(inside) } else { Err(22) }
}

/// The entry that a card would have for a word; none if it is too long.
/// Overlapping loads agree where they overlap, so they can be joined.
fn entry(word: &[u8]) -> Option<u128> {
    let length = word.len();
    let spelling = match length {
        8..=11 => {
            let [first, last] = [&word[..8], &word[length - 8..]]
                .map(|bytes| u64::from_le_bytes(bytes.try_into().expect("eight bytes")));
            u128::from(first) | u128::from(last) << (8 * (length - 8))
        }
        4..=7 => {
            let [first, last] = [&word[..4], &word[length - 4..]]
                .map(|bytes| u32::from_le_bytes(bytes.try_into().expect("four bytes")));
            u128::from(u64::from(first) | u64::from(last) << (8 * (length - 4)))
        }
        1..=3 => {
            let [first, middle, last] =
                [0, length / 2, length - 1].map(|place| u64::from(word[place]) << (8 * place));
            u128::from(first | middle | last)
        }
        _ => return None,
    };
    Some(spelling << 8 | length as u128)
}
