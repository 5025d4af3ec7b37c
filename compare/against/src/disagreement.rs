//! What is printed where an answer or a room is not as expected.

use crate::calls::Calls;
use crate::expected::Input;
use std::fmt;

pub struct Disagreement {
    pub who: &'static str,
    pub what: String,
    /// The bytes that show it again, each with its name.
    pub inputs: Vec<(&'static str, Vec<u8>)>,
    /// Lengths of the rooms that were lent.
    pub rooms: Vec<(&'static str, usize)>,
}

impl Disagreement {
    /// About a line, perhaps with a plan. The rooms are chart, plan and pair room, where lent.
    pub fn on_line(
        calls: &dyn Calls,
        input: &Input,
        plan: &[u8],
        rooms: [Option<usize>; 3],
        what: String,
    ) -> Box<Self> {
        let inputs = [
            ("card", input.card_bytes),
            ("line", input.line_bytes),
            ("plan", plan),
        ];
        let [chart, plan, pair] = rooms;
        Self::boxed(
            calls,
            what,
            &inputs,
            &[("chart", chart), ("plan", plan), ("pair", pair)],
        )
    }

    /// About a sheet. The rooms are chart and output room, where lent.
    pub fn on_sheet(
        calls: &dyn Calls,
        card: &[u8],
        sheet: &[u8],
        [chart, output]: [Option<usize>; 2],
        what: String,
    ) -> Box<Self> {
        Self::boxed(
            calls,
            what,
            &[("card", card), ("sheet", sheet)],
            &[("chart", chart), ("output", output)],
        )
    }

    fn boxed(
        calls: &dyn Calls,
        what: String,
        inputs: &[(&'static str, &[u8])],
        rooms: &[(&'static str, Option<usize>)],
    ) -> Box<Self> {
        let lent = |&(name, length): &(_, Option<usize>)| Some((name, length?));
        Box::new(Disagreement {
            who: calls.who(),
            what,
            inputs: inputs
                .iter()
                .map(|&(name, bytes)| (name, bytes.to_vec()))
                .collect(),
            rooms: rooms.iter().filter_map(lent).collect(),
        })
    }
}

impl fmt::Display for Disagreement {
    fn fmt(&self, f: &mut fmt::Formatter) -> fmt::Result {
        writeln!(f, "{}: {}", self.who, self.what)?;
        for (name, bytes) in &self.inputs {
            let hex: Vec<String> = bytes.iter().map(|byte| format!("{byte:02x}")).collect();
            writeln!(f, "{name} {}", hex.join(""))?;
        }
        for (name, length) in &self.rooms {
            writeln!(f, "{name} room {length}")?;
        }
        Ok(())
    }
}
