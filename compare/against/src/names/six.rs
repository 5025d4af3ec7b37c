//! The six calls on a card, a line and the numbers that are known beforehand, with nothing between.

use crate::calls::Calls;
use crate::compare::{Comparison, Outcome, blame};
use crate::edges::Edge;
use crate::expected::{Input, PLAN_ROOM};
use crate::verify;

/// Refusals that the nursery can cause.
const CARD_REFUSALS: [u16; 6] = [11, 12, 13, 14, 16, 42];

impl Comparison<'_> {
    /// A refusal of the card is what every call answers. Under a card that passes, the line's
    /// number is Read's and that of a sheet of this line, and a plan of no steps passes for no line.
    pub fn six_calls(&mut self, edge: &Edge) -> Outcome {
        let number = u64::from(edge.number);
        let expected = if CARD_REFUSALS.contains(&edge.number) {
            [number; 6]
        } else {
            [0, 0, number, 34, 34, number]
        };
        for &calls in self.who {
            let verdict =
                verify::expect("numbers of the six calls", numbers(calls, edge), expected);
            let input = Input::new(&edge.card, &edge.line);
            blame(calls, &input, &[], [None; 3], verdict)?;
        }
        Ok(())
    }
}

/// Of card check, Name of word 0, Read, Check, Pairs and Sheet, in rooms that are long enough.
fn numbers(calls: &dyn Calls, edge: &Edge) -> [u64; 6] {
    let Edge { card, line, .. } = edge;
    let mut chart = vec![0; 16 * edge.items];
    let room = &mut [0; PLAN_ROOM];
    [
        calls.card_check(card),
        calls.name(card, 0).0.number.into(),
        calls.read(card, line, &mut chart, room).number.into(),
        calls.check(card, line, &[]),
        calls.pairs(card, line, &[], room).0.number.into(),
        calls.sheet(card, line, &mut chart, room).number.into(),
    ]
}
