//! The order reader of document 01, with the sheets, the shared spellings, the dead names, the first
//! plans and the pairs of document 02, written a second time and in several ways:
//!
//! - `card`, `sheet`, `line`: the refusals and the decoding that the slow ways share;
//! - `rewriting`: a recognizer from the definition of rewriting, one list of words after the other;
//! - `closure`: the set of derivable items, from the deduction steps (`steps`, `item`);
//! - `replay`: plans and their pairs, followed on sentential forms;
//! - `enumeration`, `first`: the first plan of a line (`plan`), from all its plans and by a search;
//! - `chart`: the six calls made for speed, with a card check and line splitters of its own.

pub mod answers;
pub mod card;
pub mod chart;
pub mod closure;
pub mod enumeration;
pub mod first;
pub mod item;
pub mod line;
pub mod memory;
pub mod plan;
pub mod random;
pub mod replay;
pub mod rewriting;
pub mod sheet;
pub mod steps;
pub mod write;
