//! The card's check.

use super::bytes::{HIGH_BITS, LOW_BYTES, letters_and_digits};

/// An accepted card.
pub struct Card<'a> {
    pub nonterminals: usize,
    pub indices: usize,
    pub words: &'a [[u8; 12]],
    pub productions: &'a [[u8; 6]],
}

impl<'a> Card<'a> {
    /// The refusals 11 to 14, 16 and 42, in this order.
    pub fn accept(card: &'a [u8]) -> Result<Self, u16> {
        let Some((header, tables)) = card.split_first_chunk::<12>() else {
            return Err(11);
        };
        let [m0, m1, m2, m3, n, v, x, p, w0, w1, p0, p1] = *header;
        if [m0, m1, m2, m3] != *b"LIG1" {
            return Err(11);
        }
        if !(1..=16).contains(&n) || !(1..=32).contains(&v) || x > 8 || !(1..=64).contains(&p) {
            return Err(12);
        }
        let words_length = 12 * usize::from(v);
        let offsets = (
            usize::from(u16::from_le_bytes([w0, w1])),
            usize::from(u16::from_le_bytes([p0, p1])),
        );
        if offsets != (12, 12 + words_length) || tables.len() != words_length + 6 * usize::from(p) {
            return Err(13);
        }
        let (words, productions) = tables.split_at(words_length);
        let words = words.as_chunks::<12>().0;
        let productions = productions.as_chunks::<6>().0;
        if !words.iter().all(keeps_layout) {
            return Err(14);
        }
        let Some(names) = Names::of(productions, n, v, x) else {
            return Err(16);
        };
        if names.right & !names.left != 0 {
            return Err(42);
        }
        Ok(Card {
            nonterminals: usize::from(n),
            indices: usize::from(x),
            words,
            productions,
        })
    }
}

/// Twelve bytes of an entry as one number, the length byte lowest.
pub fn packed(entry: &[u8; 12]) -> u128 {
    let [a, b, c, d, e, f, g, h, rest @ ..] = *entry;
    let low = u64::from_le_bytes([a, b, c, d, e, f, g, h]);
    u128::from(low) | u128::from(u32::from_le_bytes(rest)) << 64
}

fn keeps_layout(entry: &[u8; 12]) -> bool {
    let length = usize::from(entry[0]);
    if !(1..=11).contains(&length) {
        return false;
    }
    let spelling = packed(entry) >> 8;
    let used = LOW_BYTES[length];
    letters_and_digits(spelling) == HIGH_BITS & used && spelling & !used == 0
}

/// The nonterminals on the left and on the right of productions, a bit for each.
struct Names {
    left: u32,
    right: u32,
}

impl Names {
    /// None if a production breaks the table. For each kind there are the bound of B, the bound of
    /// C, the least and the greatest index, and all bits if B and C are nonterminals.
    fn of(productions: &[[u8; 6]], n: u8, v: u8, x: u8) -> Option<Self> {
        let word = (v, 1, 0, 0, 0);
        let keep = (n, n, 0, 0, u32::MAX);
        let indexed = (n, n, 1, x, u32::MAX);
        let limits = [word, indexed, indexed, keep, keep, indexed, indexed];
        let [mut left, mut right] = [0; 2];
        for &[kind, a, b, c, g, zero] in productions {
            let &(b_bound, c_bound, least, greatest, names) = limits.get(usize::from(kind))?;
            let in_range = (a < n) & (b < b_bound) & (c < c_bound);
            if !(in_range & (g >= least) & (g <= greatest) & (zero == 0)) {
                return None;
            }
            left |= bit(a);
            right |= (bit(b) | bit(c)) & names;
        }
        Some(Names { left, right })
    }
}

/// Nonterminals are below 16 and words below 32, so that no bit is lost.
fn bit(number: u8) -> u32 {
    1_u32.wrapping_shl(number.into())
}
