//! The items of the group in hand, made from those of earlier groups.
//!
//! γ, B, p and q of an item are its *tail*. Steps make tails in two ways: a take makes the tail
//! (g, C, k, j), and a keep or a give takes over all tails of one earlier group. A tail number is
//! γ's share plus the number of the group (B, p, q), so the group that a give continues with is
//! found by one subtraction. For each tail and for each group a table tells the last group that
//! came to have it; thus nothing needs to be cleared between groups.

use super::build::{Builder, Full};
use super::record::{NO_POSITION, Record, tail_of};
use super::tables::BATCH;

impl<const GROUPS: usize, const TAILS: usize> Builder<'_, GROUPS, TAILS> {
    /// The group's positions. Only asked of groups that are not empty.
    #[inline(always)]
    fn range(&self, group: usize) -> (usize, usize) {
        debug_assert!(group < self.groups);
        // SAFETY: `group` is below `self.groups`; a group's range is set when the group is made,
        // and both served productions and tails come only from groups that have been made.
        let (start, end) = unsafe { self.tables.ranges.get(group) };
        (start.into(), end.into())
    }

    /// Position of the group's item with an empty stack. Only asked of groups that have one.
    #[inline(always)]
    pub fn bare(&self, group: usize) -> u64 {
        debug_assert!(group < self.groups);
        // SAFETY: `group` is below `self.groups`, and productions are served as a side only by
        // groups for which the position was set.
        unsafe { self.tables.bare.get(group) }.into()
    }

    #[inline(always)]
    fn record(&self, position: usize) -> Record {
        debug_assert!(position < self.count);
        // SAFETY: positions come from ranges and are below `self.count`.
        Record::from_bytes(unsafe { self.room.get_unchecked(position) })
    }

    pub fn take(
        &mut self,
        low: u64,
        tail: u64,
        side: u64,
        g: u8,
        dependent: usize,
    ) -> Result<(), Full> {
        let number = (usize::from(g) - 1) * self.groups + dependent;
        if !self.is_new_tail(number) {
            return Ok(());
        }
        self.group.indices |= 1 << g;
        let any = self.range(dependent).0 as u64;
        self.push(Record {
            low: low | tail,
            high: side | any << 16 | NO_POSITION << 32 | (number as u64) << 48,
        })
    }

    pub fn give(&mut self, low: u64, side: u64, g: u8, dependent: usize) -> Result<(), Full> {
        let share = (usize::from(g) - 1) * self.groups;
        let (start, end) = self.range(dependent);
        for position in start..end {
            let group = self.record(position).tail_number().wrapping_sub(share);
            if group < self.groups {
                self.take_over(group, low, side | (position as u64) << 16, 32)?;
            }
        }
        Ok(())
    }

    /// Notes a tail, and tells whether the group in hand lacked it.
    #[inline(always)]
    fn is_new_tail(&mut self, number: usize) -> bool {
        debug_assert!(number <= self.no_tail);
        // SAFETY: all places up to that of `no_tail`, the greatest tail number, were filled.
        unsafe {
            let last = self.tables.had_by.get(number);
            self.tables.had_by.set(number, self.group.mark);
            last != self.group.mark
        }
    }

    /// Notes a group as covered, and tells whether it was known to be: directly, or because the
    /// last group that covered it is covered itself.
    #[inline(always)]
    fn is_covered(&mut self, group: usize) -> bool {
        debug_assert!(group < self.groups);
        // SAFETY: all places below `self.groups` were filled, and a mark is at most that.
        unsafe {
            let last = self.tables.covered_by.get(group);
            if last == self.group.mark {
                return true;
            }
            self.tables.covered_by.set(group, self.group.mark);
            last != 0 && self.tables.covered_by.get(usize::from(last) - 1) == self.group.mark
        }
    }

    /// Items with the tails of an earlier group, each new one with its source at bit `shift` of
    /// the upper half, beside what `high` has.
    #[inline(always)]
    pub fn take_over(
        &mut self,
        source: usize,
        low: u64,
        high: u64,
        shift: u32,
    ) -> Result<(), Full> {
        if self.is_covered(source) {
            return Ok(());
        }
        let (start, end) = self.range(source);
        for batch in (start..end).step_by(BATCH) {
            self.take_over_batch(batch, end.min(batch + BATCH), low, high, shift)?;
        }
        Ok(())
    }

    /// First the new ones are collected, then written: neither loop has a branch that depends on
    /// which are new.
    #[inline(always)]
    fn take_over_batch(
        &mut self,
        start: usize,
        end: usize,
        low: u64,
        high: u64,
        shift: u32,
    ) -> Result<(), Full> {
        let mut count = 0;
        for position in start..end {
            let number = self.record(position).tail_number();
            // SAFETY: a batch has no more than `BATCH` positions.
            unsafe { self.tables.fresh.set(count, position as u16) };
            count += usize::from(self.is_new_tail(number));
        }
        if count > self.room.len() - self.count {
            return Err(Full);
        }
        let mut indices = 0;
        let mut bare = 0;
        for number in 0..count {
            // SAFETY: the places below `count` were set in the first loop.
            let position = unsafe { self.tables.fresh.get(number) };
            let source = self.record(position.into());
            let index = source.index();
            indices |= 1 << index;
            bare = if index == 0 { self.count } else { bare };
            let record = Record {
                low: low | tail_of(source.low),
                high: high | u64::from(position) << shift | (source.tail_number() as u64) << 48,
            };
            // SAFETY: the room was compared with `count` above.
            unsafe { *self.room.get_unchecked_mut(self.count) = record.to_bytes() };
            self.count += 1;
        }
        self.group.indices |= indices & !1;
        if indices & 1 == 1 {
            self.group.bare = Some(bare);
        }
        Ok(())
    }
}
