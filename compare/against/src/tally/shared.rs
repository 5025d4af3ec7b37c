//! What came of spellings that several words share.

use independent::rewriting::Found;

#[derive(Default)]
pub struct Shared {
    /// Lines with a place of several words, and those among them that have a place of 32, that were
    /// read by a word other than the first of its spelling, and that can only be read by the last of
    /// a spelling.
    pub lines: u64,
    pub places_of_32: u64,
    pub read_by_a_later_word: u64,
    pub read_by_the_last_word_alone: u64,
    /// Lines without a reading whose lists of words, more than one, were all refuted.
    pub lists_all_refuted: u64,
    /// Lines with an unknown word under a card that has words spelled alike.
    pub unknown_words: u64,
    pub sheets_with_records: u64,
    /// Plans in which another word was put, one that is spelled alike, and one that is not.
    plans_spelled_alike: u64,
    plans_spelled_otherwise: u64,
}

impl Shared {
    pub fn plan_with_another_word(&mut self, alike: bool) {
        if alike {
            self.plans_spelled_alike += 1;
        } else {
            self.plans_spelled_otherwise += 1;
        }
    }

    pub fn counts(&self) -> [(&'static str, u64); 9] {
        [
            ("lines with several words at a place", self.lines),
            ("with 32", self.places_of_32),
            (
                "read by a word that is not the first",
                self.read_by_a_later_word,
            ),
            ("by the last alone", self.read_by_the_last_word_alone),
            ("all lists of words refuted", self.lists_all_refuted),
            ("24 beside words spelled alike", self.unknown_words),
            ("sheets with records", self.sheets_with_records),
            (
                "plans with another word spelled alike",
                self.plans_spelled_alike,
            ),
            ("spelled otherwise", self.plans_spelled_otherwise),
        ]
    }
}

/// Questions that the rewriting recognizer was asked.
#[derive(Default)]
pub struct Questions {
    pub asked: u64,
    pub gave_up: u64,
    /// Questions that took more than one list of words to decide.
    pub by_several_lists: u64,
}

impl Questions {
    pub fn add(&mut self, found: Option<Found>) {
        self.asked += 1;
        match found {
            Some(found) => self.by_several_lists += u64::from(found.lists > 1),
            None => self.gave_up += 1,
        }
    }
}
