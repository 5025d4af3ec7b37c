//! What came of dead names.

use super::numbers::Numbers;
use crate::names::table::{self, Row, is_side};

#[derive(Default)]
pub struct Names {
    /// Cards that get 42: whose dead names are all sides, or all dependents; where one is the
    /// start, or the last that a card can have; where one takes both places of a production; that
    /// pass without the productions that have one.
    sides_alone: u64,
    dependents_alone: u64,
    start: u64,
    last: u64,
    both_places: u64,
    pass_without: u64,
    /// Where the only place of a dead name is: for each kind the first and the second.
    one_place: [[u64; 2]; 6],
    /// Earlier refusals of cards that have a dead name too.
    after: Numbers,
    /// What Read would answer without the productions that never apply, and plans that would pass.
    before: Numbers,
    right_plans: u64,
    /// Lines asked about with these productions and without them, that have a derivation or none.
    derivable: u64,
    not_derivable: u64,
    /// Accepted cards with a name on the right that is on the left of word productions alone, and
    /// of productions alone that have it on the right too.
    left_of_words: u64,
    left_of_itself: u64,
}

const EARLIER: [u16; 5] = [11, 12, 13, 14, 16];
const LATER: [u16; 8] = [0, 21, 22, 23, 24, 25, 31, 32];

impl Names {
    /// A card and its number.
    pub fn card(&mut self, card: &[u8], number: u16) {
        let rows = table::rows(card);
        let dead = table::dead(rows);
        match number {
            0 => self.accepted(rows),
            42 => self.refused(rows, &dead),
            _ if dead.is_empty() => {}
            _ => self.after.add(number),
        }
    }

    fn accepted(&mut self, rows: &[Row]) {
        let names = table::on_the_right(rows);
        let left_only = |of: fn(&Row) -> bool| {
            let only = |name: &u8| rows.iter().filter(|row| row[1] == *name).all(of);
            u64::from(names.iter().any(only))
        };
        self.left_of_words += left_only(|row| row[0] == 0);
        self.left_of_itself += left_only(|row| table::right(row).contains(&row[1]));
    }

    fn refused(&mut self, rows: &[Row], dead: &[u8]) {
        let places = places(rows, dead);
        let sides = places.iter().filter(|(kind, place)| is_side(*kind, *place));
        let sides = sides.count();
        self.sides_alone += u64::from(sides == places.len());
        self.dependents_alone += u64::from(sides == 0);
        self.start += u64::from(dead.contains(&0));
        self.last += u64::from(dead.contains(&15));
        let both = |row: &Row| row[2] == row[3] && dead.contains(&row[2]);
        self.both_places += u64::from(rows.iter().any(|row| row[0] != 0 && both(row)));
        let rest = table::without_dead(rows);
        self.pass_without += u64::from(!rest.is_empty() && table::dead(&rest).is_empty());
        if let [(kind, place)] = places[..] {
            self.one_place[usize::from(kind) - 1][place] += 1;
        }
    }

    pub fn hidden(&mut self, number: u16) {
        self.before.add(number);
    }

    pub fn right_plan(&mut self) {
        self.right_plans += 1;
    }

    pub fn asked_without(&mut self, derives: bool) {
        if derives {
            self.derivable += 1;
        } else {
            self.not_derivable += 1;
        }
    }

    /// What has to occur, and how often it did.
    pub fn counts(&self) -> Vec<(String, u64)> {
        let counts = [
            ("dead names all sides", self.sides_alone),
            ("all dependents", self.dependents_alone),
            ("the start among them", self.start),
            ("nonterminal 15", self.last),
            ("one in both places", self.both_places),
            ("pass without their productions", self.pass_without),
            ("right plans under 42", self.right_plans),
            ("derivable without their productions", self.derivable),
            ("not derivable", self.not_derivable),
            ("accepted names left of words alone", self.left_of_words),
            ("left of themselves alone", self.left_of_itself),
        ];
        let counts = counts.map(|(what, count)| (what.to_string(), count));
        let earlier = EARLIER.map(|number| {
            let what = format!("42 after {number}");
            (what, self.after.count(number))
        });
        let later = LATER.map(|number| {
            let what = format!("42 before {number}");
            (what, self.before.count(number))
        });
        counts
            .into_iter()
            .chain(earlier)
            .chain(later)
            .chain(self.by_place())
            .collect()
    }

    fn by_place(&self) -> impl Iterator<Item = (String, u64)> {
        (1..)
            .zip(self.one_place)
            .flat_map(|(kind, [first, second])| {
                let what = |place| format!("42 by the {place} of kind {kind}");
                [(what("first"), first), (what("second"), second)]
            })
    }
}

/// Kind and place, 0 or 1, of each dead name on the right.
fn places(rows: &[Row], dead: &[u8]) -> Vec<(u8, usize)> {
    let in_row = |row: &Row| {
        let right = table::right(row).iter().enumerate();
        let dead = right.filter(|(_, name)| dead.contains(name));
        let kind = row[0];
        dead.map(|(place, _)| (kind, place)).collect::<Vec<_>>()
    };
    rows.iter().flat_map(in_row).collect()
}
