//! What came of pairs.

use crate::last::sides::Sides;
use crate::last::wrong::READINGS;

#[derive(Default)]
pub struct Pairs {
    /// Of the plans that pass, and of the accepted sheets.
    plans: Met,
    sheets: Met,
    /// Pairs of plans with several words on both sides: for a give of kind 5 and of kind 6, each
    /// with a take of kind 1 and of kind 2.
    kinds: [[u64; 2]; 2],
}

#[derive(Default)]
struct Met {
    pairs: u64,
    /// Those with several words on the give's side alone, on the take's side alone, and on both.
    give_alone: u64,
    take_alone: u64,
    both: u64,
    /// Words of the longest side.
    longest: usize,
    /// Plans, or sheets, on which each wrong reading shows.
    shown: [u64; READINGS.len()],
}

impl Pairs {
    /// Those of a plan.
    pub fn plan(&mut self, list: &[Sides]) {
        self.plans.add(list);
        for Sides { give, take, .. } in list {
            if [give, take].map(|step| step.side.words() > 1) == [true; 2] {
                let [give, take] = [give, take].map(|step| !step.begins_with_side());
                self.kinds[usize::from(give)][usize::from(take)] += 1;
            }
        }
    }

    /// Those of all lines of an accepted sheet.
    pub fn sheet(&mut self, list: &[Sides]) {
        self.sheets.add(list);
    }

    pub fn is_empty(&self) -> bool {
        self.plans.pairs + self.sheets.pairs == 0
    }

    /// Pairs of plans with several words on both sides.
    pub fn both_long(&self) -> u64 {
        self.plans.both
    }

    /// What has to occur, and how often it did.
    pub fn counts(&self) -> Vec<(String, u64)> {
        let named = self.named().into_iter();
        let lengths = named.flat_map(|(what, met)| met.lengths(what));
        lengths
            .chain(self.by_kinds())
            .chain(self.readings())
            .collect()
    }

    fn named(&self) -> [(&'static str, &Met); 2] {
        [("pairs", &self.plans), ("records", &self.sheets)]
    }

    fn by_kinds(&self) -> impl Iterator<Item = (String, u64)> {
        [5, 6].into_iter().zip(self.kinds).flat_map(|(give, row)| {
            let what = move |take| format!("long on both of kinds {give} and {take}");
            let counts = [1, 2].into_iter().zip(row);
            counts.map(move |(take, count)| (what(take), count))
        })
    }

    /// How often each wrong reading showed.
    pub fn readings(&self) -> impl Iterator<Item = (String, u64)> {
        let named = self.named().into_iter();
        named.flat_map(|(what, met)| {
            let readings = READINGS.into_iter().zip(met.shown);
            readings.map(move |((_, reading), count)| (format!("other {what} by {reading}"), count))
        })
    }

    pub fn list(&self) -> String {
        let counts = self.counts().into_iter();
        let counts: Vec<String> = counts
            .map(|(what, count)| format!("{what} {count}"))
            .collect();
        let Pairs { plans, sheets, .. } = self;
        format!(
            "{} pairs, {} words on the longest side, and {} records, {} words; {}",
            plans.pairs,
            plans.longest,
            sheets.pairs,
            sheets.longest,
            counts.join(", ")
        )
    }
}

impl Met {
    fn add(&mut self, list: &[Sides]) {
        list.iter().for_each(|sides| self.add_pair(sides));
        for (count, (wrong, _)) in self.shown.iter_mut().zip(READINGS) {
            *count += u64::from(wrong.shows(list));
        }
    }

    fn add_pair(&mut self, sides: &Sides) {
        let [give, take] = [sides.give, sides.take].map(|step| step.side.words());
        self.pairs += 1;
        self.give_alone += u64::from(give > 1 && take == 1);
        self.take_alone += u64::from(give == 1 && take > 1);
        self.both += u64::from(give > 1 && take > 1);
        self.longest = self.longest.max(give).max(take);
    }

    fn lengths(&self, what: &str) -> [(String, u64); 3] {
        let counts = [
            ("the give's side alone", self.give_alone),
            ("the take's side alone", self.take_alone),
            ("both", self.both),
        ];
        counts.map(|(sides, count)| (format!("{what} long on {sides}"), count))
    }
}
