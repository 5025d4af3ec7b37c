//! The six calls of whatever is being compared.

use independent::answers::{NameAnswer, PairsAnswer, ReadAnswer, SheetAnswer};
use independent::chart;

/// Answers that are narrower than 64 bits come with the bits left over, which have to be zero.
pub trait Calls {
    fn who(&self) -> &'static str;
    fn card_check(&self, card: &[u8]) -> u64;
    fn read(&self, card: &[u8], line: &[u8], chart: &mut [u8], plan: &mut [u8]) -> ReadAnswer;
    fn check(&self, card: &[u8], line: &[u8], plan: &[u8]) -> u64;
    fn pairs(
        &self,
        card: &[u8],
        line: &[u8],
        plan: &[u8],
        room: &mut [u8],
    ) -> (PairsAnswer, [u16; 2]);
    fn name(&self, card: &[u8], word: usize) -> (NameAnswer, u16);
    fn sheet(&self, card: &[u8], sheet: &[u8], chart: &mut [u8], output: &mut [u8]) -> SheetAnswer;
}

/// The library under test.
pub struct Library;

impl Calls for Library {
    fn who(&self) -> &'static str {
        "library"
    }

    fn card_check(&self, card: &[u8]) -> u64 {
        linked::card_check(card)
    }

    fn read(&self, card: &[u8], line: &[u8], chart: &mut [u8], plan: &mut [u8]) -> ReadAnswer {
        linked::read(card, line, chart, plan)
    }

    fn check(&self, card: &[u8], line: &[u8], plan: &[u8]) -> u64 {
        linked::check(card, line, plan)
    }

    fn pairs(
        &self,
        card: &[u8],
        line: &[u8],
        plan: &[u8],
        room: &mut [u8],
    ) -> (PairsAnswer, [u16; 2]) {
        linked::pairs(card, line, plan, room)
    }

    fn name(&self, card: &[u8], word: usize) -> (NameAnswer, u16) {
        linked::name(card, word)
    }

    fn sheet(&self, card: &[u8], sheet: &[u8], chart: &mut [u8], output: &mut [u8]) -> SheetAnswer {
        linked::sheet(card, sheet, chart, output)
    }
}

/// The independent chart parser.
pub struct ChartParser;

impl Calls for ChartParser {
    fn who(&self) -> &'static str {
        "independent chart parser"
    }

    fn card_check(&self, card: &[u8]) -> u64 {
        chart::card_check(card).into()
    }

    fn read(&self, card: &[u8], line: &[u8], room: &mut [u8], plan: &mut [u8]) -> ReadAnswer {
        chart::read(card, line, room, plan)
    }

    fn check(&self, card: &[u8], line: &[u8], plan: &[u8]) -> u64 {
        chart::check(card, line, plan).into()
    }

    fn pairs(
        &self,
        card: &[u8],
        line: &[u8],
        plan: &[u8],
        room: &mut [u8],
    ) -> (PairsAnswer, [u16; 2]) {
        (chart::pairs(card, line, plan, room), [0; 2])
    }

    fn name(&self, card: &[u8], word: usize) -> (NameAnswer, u16) {
        (chart::name(card, word), 0)
    }

    fn sheet(&self, card: &[u8], sheet: &[u8], room: &mut [u8], output: &mut [u8]) -> SheetAnswer {
        chart::sheet(card, sheet, room, output)
    }
}

/// Who is compared with the slow implementations.
pub type Who = &'static [&'static dyn Calls];

pub const BOTH: Who = &[&Library, &ChartParser];

/// A comparison of these says nothing about the library.
pub const RIVAL_ONLY: Who = &[&ChartParser];
