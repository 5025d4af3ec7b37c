//! What each call has to answer, from the slow implementations. Only the number of items, and
//! whether the start is among them, come from the independent chart parser, whose charts are
//! verified in turn. So does the plan of a line that is too much for the slow ways.

use crate::last::sides::{self, Sides};
use independent::card::Card;
use independent::chart;
use independent::line::{self, Spelled};
use independent::replay::{Replayed, replay};

/// Room for every chart that can be held.
pub const FULL_ROOM: usize = 16 * 65_535;

/// Enough for the plan of any line.
pub const PLAN_ROOM: usize = 188;

/// A buffer for charts, kept from case to case.
pub struct Scratch {
    chart: Vec<u8>,
}

impl Default for Scratch {
    fn default() -> Self {
        Scratch {
            chart: vec![0; FULL_ROOM],
        }
    }
}

/// Card and line, or why they are refused.
pub struct Input<'a> {
    pub card_bytes: &'a [u8],
    pub line_bytes: &'a [u8],
    pub card: Result<Card, u16>,
    /// The line place by place, or the refusal of card or line.
    pub line: Result<Vec<Spelled>, u16>,
}

impl<'a> Input<'a> {
    pub fn new(card_bytes: &'a [u8], line_bytes: &'a [u8]) -> Self {
        let card = Card::accept(card_bytes);
        let line = match &card {
            Ok(card) => line::places(card, line_bytes),
            Err(number) => Err(*number),
        };
        Input {
            card_bytes,
            line_bytes,
            card,
            line,
        }
    }

    /// Card and line, where both are accepted.
    pub fn accepted(&self) -> Option<(&Card, &[Spelled])> {
        match (&self.card, &self.line) {
            (Ok(card), Ok(line)) => Some((card, line)),
            _ => None,
        }
    }

    /// Whether both are accepted and a place has several words, so that there are several lists of
    /// words whose spellings are the line's.
    pub fn has_several_lists(&self) -> bool {
        let several = |place: &Spelled| place.words.len() > 1;
        self.line
            .as_ref()
            .is_ok_and(|line| line.iter().any(several))
    }

    /// Whether the card is accepted and two of its words are spelled alike.
    pub fn shares_spellings(&self) -> bool {
        let Ok(card) = &self.card else {
            return false;
        };
        let shared = |spelling: &Vec<u8>| card.spelled(spelling).len() > 1;
        card.words.iter().any(shared)
    }

    /// Check's number, and the replayed plan if that is 0.
    pub fn replayed(&self, plan: &[u8]) -> Result<Replayed, u16> {
        let line = self.line.as_ref().map_err(|number| *number)?;
        let card = self.card.as_ref().map_err(|number| *number)?;
        replay(card, line, plan).ok_or(34)
    }

    /// The pairs of a plan; none if it does not pass.
    pub fn sides(&self, plan: &[u8]) -> Vec<Sides> {
        match (&self.card, self.replayed(plan)) {
            (Ok(card), Ok(replayed)) => sides::of_plan(card, plan, &replayed),
            _ => Vec::new(),
        }
    }
}

/// Derivable items of an accepted input.
pub struct Items {
    /// None if there are more than any room holds.
    pub held: Option<Held>,
}

pub struct Held {
    /// The seven bytes of each item, in order.
    pub keys: Vec<u64>,
    /// The plan that Read has to write, if the line has a reading: the independent chart parser's,
    /// until one of the slow ways has found the first plan.
    pub plan: Option<Vec<u8>>,
}

impl Held {
    pub fn has_reading(&self) -> bool {
        self.plan.is_some()
    }
}

/// The item's part of a record.
pub fn key(record: &[u8; 16]) -> u64 {
    u128::from_le_bytes(*record) as u64 & 0x00FF_FFFF_FFFF_FFFF
}

impl Items {
    pub fn of(input: &Input, scratch: &mut Scratch) -> Self {
        let mut plan = vec![0; PLAN_ROOM];
        let answer = chart::read(
            input.card_bytes,
            input.line_bytes,
            &mut scratch.chart,
            &mut plan,
        );
        if answer.number == 31 {
            return Items { held: None };
        }
        let records = scratch.chart.as_chunks::<16>().0;
        let mut keys: Vec<u64> = records[..usize::from(answer.items)]
            .iter()
            .map(key)
            .collect();
        keys.sort_unstable();
        plan.truncate(4 * usize::from(answer.steps));
        Items {
            held: Some(Held {
                keys,
                plan: (answer.number == 0).then_some(plan),
            }),
        }
    }

    /// The plan that Read has to write where rooms are long enough.
    pub fn plan(&self) -> Option<&[u8]> {
        self.held.as_ref()?.plan.as_deref()
    }

    /// How many there are; one more than any room holds if there are too many.
    pub fn count(&self) -> usize {
        self.held.as_ref().map_or(65_536, |held| held.keys.len())
    }

    /// Read's number for these room lengths.
    pub fn read_number(&self, words: usize, chart_room: usize, plan_room: usize) -> u16 {
        if plan_room < 4 * (2 * words - 1) {
            return 32;
        }
        match &self.held {
            Some(held) if held.keys.len() <= chart_room / 16 => {
                if held.has_reading() {
                    0
                } else {
                    25
                }
            }
            _ => 31,
        }
    }
}
