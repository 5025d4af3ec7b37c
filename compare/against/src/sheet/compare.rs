//! All comparisons that one card and one sheet allow.

use super::due::Due;
use super::input::Sheet;
use super::reads;
use crate::calls::Calls;
use crate::compare::{Comparison, Outcome};
use crate::disagreement::Disagreement;
use crate::room::Room;
use crate::verify::{Verdict, demand, expect};
use independent::answers::SheetAnswer;

impl Comparison<'_> {
    /// A sheet with several lengths of both rooms.
    pub fn sheet(&mut self, card: &[u8], sheet: &[u8]) -> Outcome {
        let mut sheet = Sheet::new(card, sheet, self.scratch);
        for line in &mut sheet.different {
            let Some(items) = &mut line.items else {
                continue;
            };
            self.closure(&line.input, items)?;
            self.recognizer(&line.input, items)?;
            if let Some(found) = self.first_plan(&line.input, items)? {
                line.add_pairs(&found);
            }
        }
        for length in self.chart_lengths(&sheet) {
            let chart = Room::new(length, self.random);
            for &calls in self.who {
                self.sheet_in(calls, &sheet, &chart)?;
            }
        }
        Ok(())
    }

    /// One that holds every chart of the sheet, and some at which a line's chart just fits, or
    /// just does not.
    fn chart_lengths(&mut self, sheet: &Sheet) -> Vec<usize> {
        let counts = sheet.item_counts();
        let near = |count: &usize| {
            let length = 16 * count;
            [length.saturating_sub(1), length, length + 15]
        };
        let near = counts.iter().flat_map(near).collect();
        let most = counts.last().copied().unwrap_or(0);
        let enough = 16 * most + self.random.below(34);
        self.some_and(near, enough)
    }

    /// The same for output room.
    fn output_lengths(&mut self, records: usize) -> Vec<usize> {
        let length = 3 * records;
        let mut near: Vec<usize> = (length.saturating_sub(4)..=length + 4).collect();
        near.push(0);
        let enough = length + self.random.below(20);
        self.some_and(near, enough)
    }

    fn some_and(&mut self, mut near: Vec<usize>, enough: usize) -> Vec<usize> {
        self.random.shuffle(&mut near);
        near.truncate(self.effort.sheet_rooms);
        near.push(enough);
        near
    }

    /// A sheet in chart room that is filled already, with several lengths of output room.
    fn sheet_in(&mut self, calls: &dyn Calls, sheet: &Sheet, chart: &Room) -> Outcome {
        let report = |output, what| {
            let rooms = [Some(chart.length()), output];
            Disagreement::on_sheet(calls, sheet.card_bytes, sheet.bytes, rooms, what)
        };
        let due = Due::of(sheet, chart.length());
        let left = reads::left(calls, sheet, chart, self.random);
        let left = left.map_err(|what| report(None, what))?;
        for length in self.output_lengths(due.records.len()) {
            let mut output = Room::new(length, self.random);
            let expected = due.answer(length);
            self.tally.sheet(&expected, sheet.has_several_lists());
            if sheet.has_other_pairs() {
                self.tally.plans.sheet(expected.number);
            }
            if expected.number == 0 {
                self.tally.pairs.sheet(&sheet.sides());
            }
            let mut chart = chart.clone();
            let answer = calls.sheet(sheet.card_bytes, sheet.bytes, chart.lend(), output.lend());
            expect("sheet", answer, expected)
                .and_then(|()| is_written(&due, expected, &output))
                .and_then(|()| is_left(&chart, &left))
                .map_err(|what| report(Some(length), what))?;
        }
        Ok(())
    }
}

pub fn is_written(due: &Due, expected: SheetAnswer, output: &Room) -> Verdict {
    let bytes = match expected.number {
        0 => due.records.as_flattened(),
        _ => &[],
    };
    expect("records", &output.now()[..bytes.len()], bytes)?;
    demand(
        "output room changed past the records",
        output.untouched_after(bytes.len()),
    )
}

fn is_left(chart: &Room, left: &Room) -> Verdict {
    demand(
        "bytes around the chart room changed",
        chart.untouched_after(chart.length()),
    )?;
    same_chart(chart.now(), left.now())
}

fn same_chart(found: &[u8], left: &[u8]) -> Verdict {
    let differs = |place: &usize| found[*place] != left[*place];
    match (0..left.len()).find(differs) {
        None => Ok(()),
        Some(place) => Err(format!(
            "chart room is not as the reads of the lines leave it, from byte {place} on"
        )),
    }
}
