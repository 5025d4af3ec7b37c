//! From a finished chart to a plan.
//!
//! A tree over m words has 2m − 1 steps, so the place of each step in the plan is known from the
//! splits above it and steps can be written in any order. A spine is followed to its word in one
//! loop, with its pending continuations on a stack; its sides wait and are unfolded afterwards,
//! each as the head of a spine of its own with nothing pending.

use super::line::MOST_WORDS;
use super::record::Record;

/// An item to unfold, and the place of its first step.
#[derive(Clone, Copy, Default)]
struct Waiting {
    position: usize,
    place: usize,
}

/// Writes the steps of the item at `whole_line`; returns how many there are.
pub fn unfold(
    chart: &[[u8; 16]],
    productions: &[[u8; 6]],
    whole_line: usize,
    words: usize,
    plan: &mut [[u8; 4]],
) -> usize {
    let mut sides = Sides::default();
    sides.push(whole_line, 0);
    while let Some(head) = sides.pop() {
        follow_spine(chart, productions, head, &mut sides, plan);
    }
    2 * words - 1
}

/// At most one side waits for each word.
#[derive(Default)]
struct Sides {
    waiting: [Waiting; MOST_WORDS],
    count: usize,
}

impl Sides {
    fn push(&mut self, position: usize, place: usize) {
        self.waiting[self.count] = Waiting { position, place };
        self.count += 1;
    }

    fn pop(&mut self) -> Option<Waiting> {
        self.count = self.count.checked_sub(1)?;
        Some(self.waiting[self.count])
    }
}

fn follow_spine(
    chart: &[[u8; 16]],
    productions: &[[u8; 6]],
    head: Waiting,
    sides: &mut Sides,
    plan: &mut [[u8; 4]],
) {
    let mut pending = [0; MOST_WORDS];
    let mut depth = 0;
    let Waiting {
        mut position,
        mut place,
    } = head;
    loop {
        let record = Record::from_bytes(&chart[position]);
        let [_, _, i, j, ..] = record.to_bytes();
        let production = record.production();
        let kind = productions[production][0];
        if kind == 0 {
            plan[place] = [production as u8, i, j, j];
            return;
        }
        let side = record.side();
        position = match kind {
            1 | 2 => {
                depth -= 1;
                pending[depth]
            }
            3 | 4 => record.dependent(),
            _ => {
                pending[depth] = record.continuation();
                depth += 1;
                record.dependent()
            }
        };
        let [_, _, start, end, ..] = chart[side];
        let (k, side_place) = if kind % 2 == 1 {
            (end, place + 1)
        } else {
            (start, place + 2 * usize::from(start - i))
        };
        plan[place] = [production as u8, i, k, j];
        place = if kind % 2 == 1 {
            place + 2 * usize::from(k - i)
        } else {
            place + 1
        };
        sides.push(side, side_place);
    }
}
