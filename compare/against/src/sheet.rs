//! Comparing whole sheets. The number, the line and every record are worked out from the lines'
//! first plans. Only the chart room is taken from the implementation itself: the order of items is
//! free, so a sheet has to leave what its reads of the lines leave, one after the other, and these
//! are verified as they are for a line alone.

pub mod compare;
pub mod draw;
pub mod due;
pub mod edges;
mod input;
mod known;
mod reads;
