//! The builder's tables, on the stack and not cleared, and the numbers of what they are about:
//! stretches, groups and tails.

use super::card::Card;
use super::line::MOST_WORDS;
use super::unset::Unset;

/// Stretches of the longest line.
pub const STRETCHES: usize = stretches(MOST_WORDS);

const fn stretches(words: usize) -> usize {
    words * (words + 1) / 2
}

pub fn stretch_number(i: usize, j: usize) -> usize {
    stretches(j - 1) + i
}

/// How many groups and how many tails there can be for a card and a line.
pub struct Extent {
    pub groups: usize,
    pub tails: usize,
}

impl Extent {
    pub fn of(card: &Card, words: &[u32]) -> Self {
        let groups = card.nonterminals * stretches(words.len());
        Extent {
            groups,
            tails: card.indices * groups + 1,
        }
    }
}

pub struct Tables<const GROUPS: usize, const TAILS: usize> {
    /// Start and end of each group that is not empty.
    pub ranges: Unset<(u16, u16), GROUPS>,
    /// For each group that has one, the item with an empty stack.
    pub bare: Unset<u16, GROUPS>,
    /// For each group, the last one that has all its tails: its number plus one, or 0.
    pub covered_by: Unset<u16, GROUPS>,
    /// For each tail, the last group that has it: its number plus one, or 0.
    pub had_by: Unset<u16, TAILS>,
    /// For each stretch, the productions that it serves as first element, and as second.
    pub served_first: Unset<u64, STRETCHES>,
    pub served_second: Unset<u64, STRETCHES>,
    /// Source positions of one batch.
    pub fresh: Unset<u16, BATCH>,
}

/// How many source items are looked through before new records are written.
pub const BATCH: usize = 128;

impl<const GROUPS: usize, const TAILS: usize> Tables<GROUPS, TAILS> {
    #[inline(always)]
    pub fn new() -> Self {
        Tables {
            ranges: Unset::new(),
            bare: Unset::new(),
            covered_by: Unset::new(),
            had_by: Unset::new(),
            served_first: Unset::new(),
            served_second: Unset::new(),
            fresh: Unset::new(),
        }
    }
}
