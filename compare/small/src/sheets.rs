//! All sheets of a few bytes: two letters, a space and the end of a line.

use crate::enumerate::lists;
use against::compare::{Comparison, Outcome};

const BYTES: &[u8; 4] = b"ab \n";
pub const MOST_BYTES: usize = 7;

pub fn try_all(card: &[u8], comparison: &mut Comparison) -> Outcome {
    for length in 0..=MOST_BYTES {
        for numbers in lists(BYTES.len(), length) {
            let sheet: Vec<u8> = numbers.iter().map(|&number| BYTES[number]).collect();
            comparison.sheet(card, &sheet)?;
            comparison.tally.cases += 1;
        }
    }
    Ok(())
}
