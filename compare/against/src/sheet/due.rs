//! What a sheet has to answer and to write.

use super::input::Sheet;
use independent::answers::SheetAnswer;

/// The same for every length of output room.
pub struct Due {
    /// 0 if all lines are read.
    number: u16,
    /// The line that the number is about, or 0.
    line: u8,
    /// The pairs of the lines' first plans, those before a line that fails included.
    pub records: Vec<[u8; 3]>,
}

impl Due {
    /// Of a sheet whose lines are all read, with these records.
    pub fn accepted(records: Vec<[u8; 3]>) -> Self {
        Due {
            number: 0,
            line: 0,
            records,
        }
    }

    /// With chart room of this length.
    pub fn of(sheet: &Sheet, chart_room: usize) -> Self {
        let mut due = Due::accepted(Vec::new());
        let lines = match sheet.lines() {
            Ok(lines) => lines,
            Err(number) => return Due { number, ..due },
        };
        for (place, line) in (0..).zip(lines) {
            let number = line.number(chart_room);
            if number != 0 {
                return Due {
                    number,
                    line: place,
                    ..due
                };
            }
            due.records.extend(records(place, &line.pairs()));
        }
        due
    }

    /// With output room of this length.
    pub fn answer(&self, output_room: usize) -> SheetAnswer {
        match self.number {
            0 if output_room < 3 * self.records.len() => SheetAnswer::refused(33, 0),
            0 => SheetAnswer {
                records: self.records.len() as u32,
                ..SheetAnswer::default()
            },
            number => SheetAnswer::refused(number, self.line),
        }
    }
}

/// The records of a line.
pub fn records(line: u8, pairs: &[[u8; 2]]) -> impl Iterator<Item = [u8; 3]> {
    pairs.iter().map(move |&[give, take]| [line, give, take])
}
