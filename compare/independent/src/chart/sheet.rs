//! A whole sheet. What its lines share, the card's check and the sets of its productions, is
//! worked out once; the records wait in a table of their own until all lines are read.

use super::card::Card;
use super::cut::{Ends, MOST_LINES};
use super::follow::{Pairs, follow};
use super::line::{MOST_WORDS, places};
use super::read_words;
use super::spellings::Spellings;
use super::unset::Unset;
use super::uses::ProductionSets;
use crate::answers::SheetAnswer;

/// Enough for the plan of any line.
const PLAN_ROOM: usize = 4 * (2 * MOST_WORDS - 1);

/// Each pair has two sides, which no other pair has, and the end of the spine is a word more.
const MOST_PAIRS: usize = (MOST_WORDS - 1) / 2;

/// Records of the lines read so far: line, and the pair.
struct Records {
    at: Unset<[u8; 3], { MOST_LINES * MOST_PAIRS }>,
    count: usize,
}

impl Records {
    fn add(&mut self, line: u8, pairs: &[[u8; 2]]) {
        for &[given, taken] in pairs {
            // SAFETY: of at most 64 lines each adds its pairs once, and at most `MOST_PAIRS`.
            unsafe { self.at.set(self.count, [line, given, taken]) };
            self.count += 1;
        }
    }

    fn bytes(&self) -> &[u8] {
        // SAFETY: `count` places were set, one after the other.
        unsafe { self.at.first(self.count) }.as_flattened()
    }
}

pub fn sheet(card: &[u8], sheet: &[u8], chart: &mut [u8], output: &mut [u8]) -> SheetAnswer {
    let mut records = Records {
        at: Unset::new(),
        count: 0,
    };
    if let Err(refused) = read_lines(card, sheet, chart, &mut records) {
        return refused;
    }
    let bytes = records.bytes();
    let Some(written) = output.get_mut(..bytes.len()) else {
        return SheetAnswer::refused(33, 0);
    };
    written.copy_from_slice(bytes);
    SheetAnswer {
        records: records.count as u32,
        ..SheetAnswer::default()
    }
}

/// Reads on as long as lines are read.
fn read_lines(
    card: &[u8],
    sheet: &[u8],
    chart: &mut [u8],
    records: &mut Records,
) -> Result<(), SheetAnswer> {
    let before_any_line = |number| SheetAnswer::refused(number, 0);
    let card = Card::accept(card).map_err(before_any_line)?;
    let ends = Ends::of(sheet).map_err(before_any_line)?;
    let mut spellings = Spellings::empty(card.words);
    spellings.add_all();
    let mut sets = ProductionSets::empty();
    sets.add_all(&card);
    let mut start = 0;
    for (line, &end) in ends.as_slice().iter().enumerate() {
        let line = line as u8;
        let mut words = [0; MOST_WORDS];
        let pairs = places(&spellings, &sheet[start..end], &mut words)
            .and_then(|words| pairs(&card, &sets, words, chart))
            .map_err(|number| SheetAnswer::refused(number, line))?;
        records.add(line, pairs.as_slice());
        start = end + 1;
    }
    Ok(())
}

/// The pairs of one line, or its refusal.
fn pairs(
    card: &Card,
    sets: &ProductionSets,
    words: &[u32],
    chart: &mut [u8],
) -> Result<Pairs, u16> {
    let mut plan = [0; PLAN_ROOM];
    let answer = read_words(card, sets, words, chart, &mut plan)?;
    if answer.number != 0 {
        return Err(answer.number);
    }
    let plan = &plan[..4 * usize::from(answer.steps)];
    Ok(follow(card, words, plan).expect("what was unfolded can be followed"))
}
