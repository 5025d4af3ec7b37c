//! The words of a card by spelling.

use super::card::packed;

/// For each word that is the first of its spelling, all words spelled so, as a set. It is made in
/// two steps, empty and then filled, since moving a table that was just written costs time.
pub struct Spellings<'a> {
    words: &'a [[u8; 12]],
    alike: [u32; 32],
}

impl<'a> Spellings<'a> {
    #[inline(always)]
    pub fn empty(words: &'a [[u8; 12]]) -> Self {
        Spellings {
            words,
            alike: [0; 32],
        }
    }

    /// Only words whose mixed bits have been met before are compared with the earlier ones.
    pub fn add_all(&mut self) {
        let mut met = 0_u64;
        for (number, entry) in self.words.iter().enumerate() {
            let entry = packed(entry);
            let bit = 1 << mixed_bits(entry);
            let first = if met & bit != 0 {
                first_of(self.words, entry).unwrap_or(number)
            } else {
                number
            };
            self.alike[first] |= 1 << number;
            met |= bit;
        }
    }

    /// The words whose entries are these twelve bytes, as a set.
    pub fn words(&self, entry: u128) -> u32 {
        first_of(self.words, entry).map_or(0, |first| self.alike[first])
    }
}

#[inline(always)]
fn first_of(words: &[[u8; 12]], entry: u128) -> Option<usize> {
    words.iter().position(|word| packed(word) == entry)
}

/// Six bits that depend on every byte of an entry.
#[inline(always)]
fn mixed_bits(entry: u128) -> u64 {
    let mixed = (entry as u64) ^ ((entry >> 64) as u64).wrapping_mul(0x9E37_79B9_7F4A_7C15);
    mixed.wrapping_mul(0xD6E8_FEB8_6659_FD93) >> 58
}
