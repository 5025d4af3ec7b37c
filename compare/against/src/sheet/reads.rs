//! The lines of a sheet read one after the other, in one chart room. Each read is verified, and
//! starts with what the one before it left.

use super::input::{Line, Sheet};
use crate::calls::Calls;
use crate::expected::PLAN_ROOM;
use crate::room::Room;
use crate::verify::{self, Verdict};
use independent::random::Random;

/// Rooms that are lent to one line after the other.
struct Lent {
    chart: Room,
    plan: Room,
    pairs: Room,
}

/// The chart room as the reads leave it, up to the first that fails, or what was wrong with one.
pub fn left(
    calls: &dyn Calls,
    sheet: &Sheet,
    chart: &Room,
    random: &mut Random,
) -> Result<Room, String> {
    let mut lent = Lent {
        chart: chart.clone(),
        plan: Room::new(PLAN_ROOM, random),
        pairs: Room::new(PLAN_ROOM, random),
    };
    let lines = sheet.lines().unwrap_or_default();
    for (place, line) in lines.into_iter().enumerate() {
        let verdict = read_line(calls, line, &mut lent);
        verdict.map_err(|what| format!("line {place} alone: {what}"))?;
        lent.chart.keep();
        if line.number(chart.length()) != 0 {
            break;
        }
    }
    Ok(lent.chart)
}

/// Read, and Pairs where there is a plan.
fn read_line(calls: &dyn Calls, line: &Line, lent: &mut Lent) -> Verdict {
    let Lent { chart, plan, pairs } = lent;
    plan.restore();
    pairs.restore();
    let Line { input, items, .. } = line;
    let Some(items) = items else {
        return verify::refused_read(calls, input, chart, plan);
    };
    verify::read(calls, input, items, chart, plan)?;
    match items.plan() {
        Some(plan) if line.number(chart.length()) == 0 => {
            let due = Ok(line.pairs());
            verify::pairs(calls, input, plan, &due, pairs)
        }
        _ => Ok(()),
    }
}
