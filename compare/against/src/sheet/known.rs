//! Sheets whose records are known beforehand.

use super::compare::is_written;
use super::due::Due;
use crate::compare::{Comparison, Outcome};
use crate::disagreement::Disagreement;
use crate::expected::FULL_ROOM;
use crate::room::Room;
use crate::verify::expect;

/// How many bytes more than enough the longest output room has.
const BYTES_MORE: usize = 4;

impl Comparison<'_> {
    /// In output room that is a byte too short, that is just enough, and that is longer.
    pub fn known_records(&mut self, card: &[u8], sheet: &[u8], records: Vec<[u8; 3]>) -> Outcome {
        let enough = 3 * records.len();
        let due = Due::accepted(records);
        for length in enough.saturating_sub(1)..=enough + BYTES_MORE {
            let expected = due.answer(length);
            let mut output = Room::new(length, self.random);
            for &calls in self.who {
                output.restore();
                let mut chart = vec![0; FULL_ROOM];
                let answer = calls.sheet(card, sheet, &mut chart, output.lend());
                let rooms = [Some(FULL_ROOM), Some(length)];
                expect("sheet", answer, expected)
                    .and_then(|()| is_written(&due, expected, &output))
                    .map_err(|what| Disagreement::on_sheet(calls, card, sheet, rooms, what))?;
            }
        }
        Ok(())
    }
}
