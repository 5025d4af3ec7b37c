//! A sheet as it has to be read, from the slow implementations.

use crate::expected::{Input, Items, PLAN_ROOM, Scratch};
use crate::first::Found;
use crate::last::sides::Sides;
use independent::card::Card;
use independent::plan::Plan;
use independent::sheet;

pub struct Sheet<'a> {
    pub card_bytes: &'a [u8],
    pub bytes: &'a [u8],
    /// The lines without those that another one equals.
    pub different: Vec<Line<'a>>,
    /// For each line its place in that list, or why no line is read.
    order: Result<Vec<usize>, u16>,
}

pub struct Line<'a> {
    pub input: Input<'a>,
    /// None if the line is refused before its items matter.
    pub items: Option<Items>,
    /// The pairs of its first plan, once that is known, and whether another plan is known to have
    /// others.
    sides: Vec<Sides>,
    other_pairs: bool,
}

impl<'a> Sheet<'a> {
    pub fn new(card_bytes: &'a [u8], bytes: &'a [u8], scratch: &mut Scratch) -> Self {
        let mut different: Vec<Line> = Vec::new();
        let mut place = |line: &'a [u8]| {
            let equal = |other: &Line| other.input.line_bytes == line;
            different.iter().position(equal).unwrap_or_else(|| {
                different.push(Line::new(card_bytes, line, scratch));
                different.len() - 1
            })
        };
        let lines = Card::accept(card_bytes).and_then(|_| sheet::lines(bytes));
        let order = lines.map(|lines| lines.into_iter().map(&mut place).collect());
        Sheet {
            card_bytes,
            bytes,
            different,
            order,
        }
    }

    /// The lines in order, or the refusal of card or sheet.
    pub fn lines(&self) -> Result<Vec<&Line<'a>>, u16> {
        let order = self.order.as_ref().map_err(|number| *number)?;
        Ok(order.iter().map(|&place| &self.different[place]).collect())
    }

    /// Whether some line has several lists of words.
    pub fn has_several_lists(&self) -> bool {
        let several = |line: &Line| line.input.has_several_lists();
        self.different.iter().any(several)
    }

    /// The pairs of all lines, in order, where neither card nor sheet is refused.
    pub fn sides(&self) -> Vec<Sides> {
        let lines = self.lines().unwrap_or_default().into_iter();
        lines.flat_map(|line| line.sides.clone()).collect()
    }

    /// Whether some line has other pairs in another plan.
    pub fn has_other_pairs(&self) -> bool {
        self.different.iter().any(|line| line.other_pairs)
    }

    /// How many items the lines have, each number once, the least first.
    pub fn item_counts(&self) -> Vec<usize> {
        let items = self.different.iter().filter_map(|line| line.items.as_ref());
        let mut counts: Vec<usize> = items.map(Items::count).collect();
        counts.sort_unstable();
        counts.dedup();
        counts
    }
}

impl<'a> Line<'a> {
    fn new(card_bytes: &'a [u8], line_bytes: &'a [u8], scratch: &mut Scratch) -> Self {
        let input = Input::new(card_bytes, line_bytes);
        let items = input.accepted().map(|_| Items::of(&input, scratch));
        Line {
            input,
            items,
            sides: Vec::new(),
            other_pairs: false,
        }
    }

    /// The pairs that the replayer finds in the line's first plan, which is there by now.
    pub fn add_pairs(&mut self, found: &Found) {
        let plan = self.items.as_ref().and_then(Items::plan);
        self.sides = plan.map_or(Vec::new(), |plan| self.input.sides(plan));
        let due = self.pairs();
        let differs = |other: &Plan| {
            let replayed = self.input.replayed(other.as_flattened());
            replayed.is_ok_and(|replayed| replayed.pairs != due)
        };
        self.other_pairs = found.others().into_iter().any(differs);
    }

    /// None before these have been added.
    pub fn pairs(&self) -> Vec<[u8; 2]> {
        self.sides.iter().map(|sides| sides.pair).collect()
    }

    /// Read's number for the line, with chart room of this length and plan room enough.
    pub fn number(&self, chart_room: usize) -> u16 {
        match (&self.input.line, &self.items) {
            (Ok(line), Some(items)) => items.read_number(line.len(), chart_room, PLAN_ROOM),
            (line, _) => line.as_ref().err().copied().unwrap_or(0),
        }
    }
}
