//! Readings of a pair that are not document 02's.

use super::sides::{Parts, Sides};

#[derive(Clone, Copy, Debug, PartialEq, Eq)]
pub enum Wrong {
    /// The first word of each side.
    FirstWords,
    /// The first word of the give's side alone.
    FirstOfGive,
    /// The first word of the take's side alone.
    FirstOfTake,
    /// The place where a side ends, between two words: that of the word after its last.
    WordsAfter,
    /// The last word that a whole step comes to.
    WholeSteps,
    /// The last word of the dependent.
    Dependents,
    /// The last word of the first element, whether that is the side or not.
    FirstElements,
}

pub const READINGS: [(Wrong, &str); 7] = [
    (Wrong::FirstWords, "the first word of each side"),
    (Wrong::FirstOfGive, "the first word of the give's side"),
    (Wrong::FirstOfTake, "the first word of the take's side"),
    (Wrong::WordsAfter, "the word after the side"),
    (Wrong::WholeSteps, "the last word of the whole step"),
    (Wrong::Dependents, "the last word of the dependent"),
    (Wrong::FirstElements, "the last word of the first element"),
];

/// The wrong readings, in the order of their list.
pub fn all() -> impl Iterator<Item = Wrong> {
    READINGS.into_iter().map(|(wrong, _)| wrong)
}

impl Wrong {
    /// Whether it would make other pairs.
    pub fn shows(self, list: &[Sides]) -> bool {
        list.iter().any(|sides| self.pair(sides) != sides.pair)
    }

    fn pair(self, sides: &Sides) -> [u8; 2] {
        let both = |word: fn(&Parts) -> u8| [&sides.give, &sides.take].map(word);
        let [give, take] = sides.pair;
        match self {
            Wrong::FirstWords => both(|parts| parts.side.first),
            Wrong::FirstOfGive => [sides.give.side.first, take],
            Wrong::FirstOfTake => [give, sides.take.side.first],
            Wrong::WordsAfter => both(|parts| parts.side.last + 1),
            Wrong::WholeSteps => both(|parts| parts.whole.last),
            Wrong::Dependents => both(|parts| parts.dependent.last),
            Wrong::FirstElements => both(|parts| parts.first_element().last),
        }
    }
}
