//! Document 02, Paper 6: a pair names the last word of each side. The sides of a plan's pairs, and
//! what readings other than this one make of them.

pub mod edges;
mod known;
pub mod sides;
pub mod wrong;
