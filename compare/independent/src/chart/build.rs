//! The chart builder: which productions apply where, and in which order.
//!
//! Every step rests on shorter stretches only. So stretches are taken in the order of their ends
//! and, for one end, from the shortest, and for one stretch the items of one nonterminal are made
//! together: they form a *group*, a contiguous range of positions.
//!
//! For each stretch there are two sets of productions: those that it serves as first element and
//! those that it serves as second. Their intersection over a split is exactly what applies there.
//!
//! Each record is to name the first step of its item, so that unfolding writes the first plan. The
//! steps of a group are therefore taken by production, then by split, then by the position of the
//! dependent and then of the continuation, all rising, and an item that is there already is passed
//! over. Of two items with one nonterminal, one γ and one stretch the earlier then has the earlier
//! steps too, so that taking dependents and continuations by position compares plans. Nothing may
//! be moved inside a group, and only steps all of whose items are there may be skipped.

use super::card::Card;
use super::line::MOST_WORDS;
use super::record::{NO_POSITION, Record, head, tail};
use super::tables::{Extent, STRETCHES, Tables, stretch_number};
use super::uses::ProductionSets;

/// The derivable items outnumber the room.
pub struct Full;

pub struct Chart {
    pub items: usize,
    /// Position of the start over the whole line with an empty stack.
    pub whole_line: Option<usize>,
}

pub const MOST_ITEMS: usize = 65_535;

const MOST_PRODUCTIONS: usize = 64;

/// Fills the room, which holds no more than `MOST_ITEMS` records. Most lines are given small
/// tables, because a large stack frame costs time even if it is hardly used.
pub fn build(
    card: &Card,
    sets: &ProductionSets,
    words: &[u32],
    room: &mut [[u8; 16]],
) -> Result<Chart, Full> {
    let extent = Extent::of(card, words);
    if extent.groups <= 2048 && extent.tails <= 4096 {
        build_in::<2048, 4096>(card, sets, words, room, extent)
    } else {
        build_in::<{ 16 * STRETCHES }, { 8 * 16 * STRETCHES + 1 }>(card, sets, words, room, extent)
    }
}

#[inline(never)]
fn build_in<const GROUPS: usize, const TAILS: usize>(
    card: &Card,
    sets: &ProductionSets,
    words: &[u32],
    room: &mut [[u8; 16]],
    extent: Extent,
) -> Result<Chart, Full> {
    let mut tables = Tables::<GROUPS, TAILS>::new();
    tables.covered_by.fill_first(extent.groups, 0);
    tables.had_by.fill_first(extent.tails, 0);
    let mut builder = Builder {
        productions: card.productions,
        sets,
        nonterminals: card.nonterminals,
        words: words.len(),
        groups: extent.groups,
        no_tail: extent.tails - 1,
        room,
        count: 0,
        tables: &mut tables,
        ends: [0; MOST_WORDS + 1],
        starts: [0; MOST_WORDS + 1],
        splits: [0; MOST_PRODUCTIONS],
        group: Group::default(),
        whole_line: None,
    };
    for (i, &set) in words.iter().enumerate() {
        builder.word(i, set)?;
        for start in (0..i).rev() {
            builder.stretch(start, i + 1)?;
        }
    }
    Ok(builder.finish())
}

pub(super) struct Builder<'a, const GROUPS: usize, const TAILS: usize> {
    pub productions: &'a [[u8; 6]],
    sets: &'a ProductionSets,
    nonterminals: usize,
    words: usize,
    /// How many groups there can be under this card.
    pub groups: usize,
    /// Tail number of "none".
    pub no_tail: usize,
    pub room: &'a mut [[u8; 16]],
    pub count: usize,
    pub tables: &'a mut Tables<GROUPS, TAILS>,
    /// For each start, the ends with productions served as first element.
    ends: [u32; MOST_WORDS + 1],
    /// For each end, the starts with productions served as second element.
    starts: [u32; MOST_WORDS + 1],
    /// For each production, the splits of the stretch in hand at which it is still to be tried.
    splits: [u32; MOST_PRODUCTIONS],
    pub group: Group,
    whole_line: Option<usize>,
}

/// The group in hand.
#[derive(Default)]
pub(super) struct Group {
    /// Its number plus one.
    pub mark: u16,
    /// The indices met, as a set.
    pub indices: u32,
    /// Position of the item with an empty stack.
    pub bare: Option<usize>,
}

impl<'a, const GROUPS: usize, const TAILS: usize> Builder<'a, GROUPS, TAILS> {
    pub fn group_number(&self, nonterminal: usize, i: usize, j: usize) -> usize {
        stretch_number(i, j) * self.nonterminals + nonterminal
    }

    /// The word steps at place i, where a set of words can stand. A nonterminal's item gets the
    /// first of its productions.
    fn word(&mut self, i: usize, words: u32) -> Result<(), Full> {
        let (mut first, mut second) = (0, 0);
        let mut made = 0_u32;
        let mut rest = self.sets.of_words(words);
        while rest != 0 {
            let production = rest.trailing_zeros() as usize;
            rest &= rest - 1;
            let nonterminal = usize::from(self.productions[production][1]);
            if made >> nonterminal & 1 == 1 {
                continue;
            }
            made |= 1 << nonterminal;
            let start = self.count;
            self.push(Record {
                low: head(nonterminal, i, i + 1, production) | tail(0, 255, 0, 0),
                high: 0x0000_FFFF_FFFF_FFFF | (self.no_tail as u64) << 48,
            })?;
            self.close_group(nonterminal, i, i + 1, start, Some(start));
            let uses = &self.sets.uses[nonterminal];
            first |= uses.first.served(true, 0);
            second |= uses.second.served(true, 0);
        }
        self.set_served(i, i + 1, first, second);
        Ok(())
    }

    pub fn push(&mut self, record: Record) -> Result<(), Full> {
        let place = self.room.get_mut(self.count).ok_or(Full)?;
        *place = record.to_bytes();
        self.count += 1;
        Ok(())
    }

    fn close_group(
        &mut self,
        nonterminal: usize,
        i: usize,
        j: usize,
        start: usize,
        bare: Option<usize>,
    ) {
        let group = self.group_number(nonterminal, i, j);
        let range = (start as u16, self.count as u16);
        // SAFETY: a group's number is below `GROUPS`.
        unsafe { self.tables.ranges.set(group, range) };
        let Some(bare) = bare else {
            return;
        };
        // SAFETY: the same.
        unsafe { self.tables.bare.set(group, bare as u16) };
        if (nonterminal, i, j) == (0, 0, self.words) {
            self.whole_line = Some(bare);
        }
    }

    fn set_served(&mut self, i: usize, j: usize, first: u64, second: u64) {
        let stretch = stretch_number(i, j);
        // SAFETY: a stretch's number is below `STRETCHES`.
        unsafe {
            self.tables.served_first.set(stretch, first);
            self.tables.served_second.set(stretch, second);
        }
        self.ends[i] |= u32::from(first != 0) << j;
        self.starts[j] |= u32::from(second != 0) << i;
    }

    /// All items over a stretch of two words or more.
    fn stretch(&mut self, i: usize, j: usize) -> Result<(), Full> {
        // Ends of stretches from i that are starts of stretches to j.
        let mut rest = self.ends[i] & self.starts[j];
        let mut all = 0;
        while rest != 0 {
            let k = rest.trailing_zeros() as usize;
            rest &= rest - 1;
            // SAFETY: both stretches are in the sets `ends` and `starts`, so both were set.
            let productions = unsafe {
                self.tables.served_first.get(stretch_number(i, k))
                    & self.tables.served_second.get(stretch_number(k, j))
            };
            self.note_split(k, productions);
            all |= productions;
        }
        if all == 0 {
            return Ok(());
        }
        self.groups_over(i, j, all)
    }

    /// Notes the productions that apply at a split, without those that differ from an earlier one
    /// in the side alone: they make the same items there, and make them later.
    fn note_split(&mut self, k: usize, productions: u64) {
        let mut rest = productions;
        while rest != 0 {
            let production = rest.trailing_zeros() as usize;
            rest &= rest - 1;
            if rest != 0 {
                rest &= !self.sets.alike(&self.productions[production]);
            }
            self.splits[production] |= 1 << k;
        }
    }

    fn groups_over(&mut self, i: usize, j: usize, mut productions: u64) -> Result<(), Full> {
        let (mut first, mut second) = (0, 0);
        while productions != 0 {
            let [_, nonterminal, ..] = self.productions[productions.trailing_zeros() as usize];
            let nonterminal = usize::from(nonterminal);
            let uses = self.sets.uses[nonterminal];
            self.group_over(nonterminal, i, j, productions & uses.headed)?;
            productions &= !uses.headed;
            let bare = self.group.bare.is_some();
            let indexed = self.sets.indexed_by(self.group.indices);
            first |= uses.first.served(bare, indexed);
            second |= uses.second.served(bare, indexed);
        }
        self.set_served(i, j, first, second);
        Ok(())
    }

    /// The items of one nonterminal over one stretch.
    fn group_over(
        &mut self,
        nonterminal: usize,
        i: usize,
        j: usize,
        mut productions: u64,
    ) -> Result<(), Full> {
        self.group = Group {
            mark: self.group_number(nonterminal, i, j) as u16 + 1,
            ..Group::default()
        };
        let start = self.count;
        while productions != 0 {
            let production = productions.trailing_zeros() as usize;
            productions &= productions - 1;
            let mut splits = std::mem::take(&mut self.splits[production]);
            while splits != 0 {
                let k = splits.trailing_zeros() as usize;
                splits &= splits - 1;
                self.step(production, i, k, j)?;
            }
        }
        self.close_group(nonterminal, i, j, start, self.group.bare);
        Ok(())
    }

    /// What one production makes at one split, where it is known to apply.
    fn step(&mut self, production: usize, i: usize, k: usize, j: usize) -> Result<(), Full> {
        let [kind, a, b, c, g, _] = self.productions[production];
        let left = self.group_number(b.into(), i, k);
        let right = self.group_number(c.into(), k, j);
        let (side, dependent) = if kind % 2 == 1 {
            (left, right)
        } else {
            (right, left)
        };
        let low = head(a.into(), i, j, production);
        let side = self.bare(side);
        match kind {
            1 => self.take(low, tail(g, c, k, j), side, g, dependent),
            2 => self.take(low, tail(g, b, i, k), side, g, dependent),
            3 | 4 => self.take_over(dependent, low, side | NO_POSITION << 32, 16),
            _ => self.give(low, side, g, dependent),
        }
    }

    /// Zeroes the places that held tail numbers.
    fn finish(self) -> Chart {
        for record in &mut self.room[..self.count] {
            record[14] = 0;
            record[15] = 0;
        }
        Chart {
            items: self.count,
            whole_line: self.whole_line,
        }
    }
}
