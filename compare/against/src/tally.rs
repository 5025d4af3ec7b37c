//! How often each number was expected, and what else was done.

mod names;
mod numbers;
mod pairs;
pub mod plans;
mod shared;

use independent::answers::SheetAnswer;
use independent::rewriting::Found;
use names::Names;
use numbers::Numbers;
use pairs::Pairs;
use plans::Plans;
use shared::{Questions, Shared};
use std::fmt;

#[derive(Default)]
pub struct Tally {
    pub cases: u64,
    /// Of the calls that take a card, a line or a plan.
    numbers: Numbers,
    /// Of sheets, and of those among them where a line had been read before.
    sheets: Numbers,
    sheets_in_the_middle: Numbers,
    sheets_with_records: u64,
    /// Accepted lines with a reading, without one, and with more items than any room holds.
    pub lines_read: u64,
    pub lines_not_read: u64,
    pub lines_too_large: u64,
    pub plans_replayed: u64,
    pub charts_closed: u64,
    /// The rewriting recognizer's questions about lines with one list of words, and with several.
    one_list: Questions,
    several_lists: Questions,
    pub plans: Plans,
    pub pairs: Pairs,
    pub shared: Shared,
    pub names: Names,
}

/// Another number is never expected, so that whoever answers it disagrees.
pub const REFUSALS: [u16; 16] = [
    11, 12, 13, 14, 16, 42, 21, 22, 23, 24, 25, 31, 32, 33, 34, 35,
];

pub const SHEET_REFUSALS: [u16; 14] = [11, 12, 13, 14, 16, 42, 21, 22, 23, 24, 25, 31, 33, 41];

pub const LINE_REFUSALS: [u16; 6] = [21, 22, 23, 24, 25, 31];

impl Tally {
    pub fn number(&mut self, number: u16) {
        self.numbers.add(number);
    }

    /// `several_lists` tells whether a line of the sheet has several lists of words.
    pub fn sheet(&mut self, answer: &SheetAnswer, several_lists: bool) {
        self.sheets.add(answer.number);
        if answer.line > 0 {
            self.sheets_in_the_middle.add(answer.number);
        }
        let has_records = answer.records > 0;
        self.sheets_with_records += u64::from(has_records);
        self.shared.sheets_with_records += u64::from(has_records && several_lists);
    }

    /// What the rewriting recognizer found out about a line, if it did not give up.
    pub fn recognizer(&mut self, found: Option<Found>, several_lists: bool) {
        if !several_lists {
            self.one_list.add(found);
            return;
        }
        self.several_lists.add(found);
        let refuted = found.is_some_and(|found| !found.derives);
        self.shared.lists_all_refuted += u64::from(refuted);
    }

    /// What never occurred: refusals of any call, of sheets, and of lines that are not the first of
    /// a sheet; and what several plans, pairs, shared spellings and dead names should have brought
    /// about.
    pub fn missing(&self) -> Vec<String> {
        let refusals = [
            ("a call", self.numbers.missing(&REFUSALS)),
            ("a sheet", self.sheets.missing(&SHEET_REFUSALS)),
            (
                "a later line of a sheet",
                self.sheets_in_the_middle.missing(&LINE_REFUSALS),
            ),
        ];
        let refusals = refusals.into_iter().flat_map(|(of, numbers)| {
            let named = move |number| format!("{number} of {of}");
            numbers.into_iter().map(named)
        });
        let shared = self.shared.counts();
        let shared = shared.map(|(what, count)| (what.to_string(), count));
        let counts = shared
            .into_iter()
            .chain(self.plans.counts())
            .chain(self.pairs.counts())
            .chain(self.names.counts());
        let never = counts.filter(|(_, count)| *count == 0);
        refusals.chain(never.map(|(what, _)| what)).collect()
    }

    /// Numbers that were expected although they are not in the lists.
    pub fn strays(&self) -> Vec<u16> {
        let sheets = [&self.sheets, &self.sheets_in_the_middle];
        let mut strays = self.numbers.strays(&REFUSALS);
        strays.extend(
            sheets
                .map(|numbers| numbers.strays(&SHEET_REFUSALS))
                .concat(),
        );
        strays
    }

    /// Whether the recognizer decided most lines, those with several lists of words by themselves.
    pub fn recognizer_decided_most(&self) -> bool {
        let most = |questions: &Questions| 10 * questions.gave_up <= questions.asked;
        most(&self.one_list) && most(&self.several_lists)
    }
}

impl fmt::Display for Tally {
    fn fmt(&self, f: &mut fmt::Formatter) -> fmt::Result {
        write!(f, "{} cases", self.cases)?;
        if !self.numbers.is_empty() {
            self.write_lines(f)?;
        }
        write!(
            f,
            "; {} item sets compared with the naive closure",
            self.charts_closed
        )?;
        self.write_recognizer(f)?;
        if !self.plans.is_empty() {
            write!(f, "; {}", self.plans.list())?;
        }
        if !self.pairs.is_empty() {
            write!(f, "; {}", self.pairs.list())?;
        }
        if self.shared.lines > 0 {
            self.write_shared(f)?;
        }
        if self.numbers.count(42) > 0 {
            self.write_names(f)?;
        }
        if !self.sheets.is_empty() {
            self.write_sheets(f)?;
        }
        Ok(())
    }
}

impl Tally {
    fn write_lines(&self, f: &mut fmt::Formatter) -> fmt::Result {
        write!(
            f,
            "; lines: read {}, no reading {}, more items than any room holds {}; refusals{}; \
             {} plans replayed",
            self.lines_read,
            self.lines_not_read,
            self.lines_too_large,
            self.numbers.list(&REFUSALS),
            self.plans_replayed
        )
    }

    fn write_recognizer(&self, f: &mut fmt::Formatter) -> fmt::Result {
        let [one, several] = [&self.one_list, &self.several_lists];
        write!(
            f,
            "; the rewriting recognizer was asked {} times and gave up {} times, \
             of lines with several lists of words {} and {}, {} decided by more than one",
            one.asked + several.asked,
            one.gave_up + several.gave_up,
            several.asked,
            several.gave_up,
            several.by_several_lists
        )
    }

    fn write_shared(&self, f: &mut fmt::Formatter) -> fmt::Result {
        let counts = self.shared.counts();
        let counts = counts.map(|(what, count)| format!("{what} {count}"));
        write!(f, "; {}", counts.join(", "))
    }

    fn write_names(&self, f: &mut fmt::Formatter) -> fmt::Result {
        let counts = self.names.counts().into_iter();
        let counts: Vec<String> = counts
            .filter(|(_, count)| *count > 0)
            .map(|(what, count)| format!("{what} {count}"))
            .collect();
        write!(f, "; {}", counts.join(", "))
    }

    fn write_sheets(&self, f: &mut fmt::Formatter) -> fmt::Result {
        write!(
            f,
            "; sheets: accepted {}, {} of them with records, refusals{}, after a read line{}",
            self.sheets.count(0),
            self.sheets_with_records,
            self.sheets.list(&SHEET_REFUSALS),
            self.sheets_in_the_middle.list(&LINE_REFUSALS)
        )
    }
}
