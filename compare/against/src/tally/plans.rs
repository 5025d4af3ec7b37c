//! What came of the plans of lines.

use crate::first::kinds::{KINDS, Kind};
use crate::first::wrong::{ORDERS, Wrong};

/// Which of the ways has found the first plan of a line, and whether the line has several plans,
/// where that is known.
pub struct Readings {
    pub by_enumeration: bool,
    pub by_search: bool,
    pub several: Option<bool>,
}

#[derive(Default)]
pub struct Plans {
    /// Lines with exactly one plan, with two or more, and with one at least.
    one: u64,
    several: u64,
    one_at_least: u64,
    /// Lines whose first plan was found by each of the ways, by both, and by none.
    by_enumeration: u64,
    by_search: u64,
    by_both: u64,
    by_none: u64,
    /// Lines with two plans or more whose first was found.
    several_found: u64,
    another_passes: u64,
    /// Sheets, accepted and with too little room, that have a line with other pairs in another
    /// plan.
    sheets_accepted: u64,
    sheets_without_room: u64,
    /// Lines of each kind, in the order of the kinds.
    kinds: [u64; KINDS.len()],
    /// Lines on which another order shows, of those that were tried.
    shown: [u64; ORDERS.len()],
}

impl Plans {
    pub fn line(&mut self, readings: Readings, kinds: &[Kind]) {
        let [by_enumeration, by_search] = [readings.by_enumeration, readings.by_search];
        self.by_enumeration += u64::from(by_enumeration);
        self.by_search += u64::from(by_search);
        self.by_both += u64::from(by_enumeration && by_search);
        let found = by_enumeration || by_search;
        self.by_none += u64::from(!found);
        match readings.several {
            None => self.one_at_least += 1,
            Some(false) => self.one += 1,
            Some(true) => {
                self.several += 1;
                self.several_found += u64::from(found);
            }
        }
        for (count, (kind, _)) in self.kinds.iter_mut().zip(KINDS) {
            *count += u64::from(kinds.contains(&kind));
        }
    }

    pub fn shown(&mut self, wrong: Wrong) {
        for (count, (order, _)) in self.shown.iter_mut().zip(ORDERS) {
            *count += u64::from(order == wrong);
        }
    }

    pub fn another_passes(&mut self) {
        self.another_passes += 1;
    }

    /// A sheet that has a line with other pairs in another plan.
    pub fn sheet(&mut self, number: u16) {
        self.sheets_accepted += u64::from(number == 0);
        self.sheets_without_room += u64::from(number == 33);
    }

    pub fn is_empty(&self) -> bool {
        self.one + self.several + self.one_at_least == 0
    }

    /// Lines with two plans or more whose first plan was found.
    pub fn several_found(&self) -> u64 {
        self.several_found
    }

    /// What has to occur, and how often it did.
    pub fn counts(&self) -> Vec<(String, u64)> {
        let kinds = KINDS.into_iter().zip(self.kinds);
        let kinds = kinds.map(|((_, what), count)| (format!("told {what}"), count));
        let others = [
            ("other plans that pass", self.another_passes),
            (
                "sheets with other pairs in another plan",
                self.sheets_accepted,
            ),
            ("33 of these", self.sheets_without_room),
        ];
        let others = others.map(|(what, count)| (what.to_string(), count));
        kinds.chain(others).chain(self.orders()).collect()
    }

    /// How often each wrong order showed.
    pub fn orders(&self) -> impl Iterator<Item = (String, u64)> {
        let orders = ORDERS.into_iter().zip(self.shown);
        orders.map(|((_, what), count)| (format!("another plan with {what}"), count))
    }

    pub fn list(&self) -> String {
        let counts = self.counts().into_iter();
        let counts: Vec<String> = counts
            .map(|(what, count)| format!("{what} {count}"))
            .collect();
        format!(
            "plans: exactly one {}, two or more {}, one at least {}; \
             the first found by enumeration {}, by search {}, by both {}, by neither {}; {}",
            self.one,
            self.several,
            self.one_at_least,
            self.by_enumeration,
            self.by_search,
            self.by_both,
            self.by_none,
            counts.join(", ")
        )
    }
}
