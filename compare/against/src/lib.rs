//! Comparing the library under test, and the independent chart parser, with the slow
//! implementations.

pub mod alike;
pub mod calls;
pub mod cards;
pub mod compare;
pub mod damage;
pub mod disagreement;
pub mod edges;
pub mod expected;
pub mod first;
pub mod last;
pub mod lines;
pub mod names;
mod readings;
pub mod room;
pub mod rooms;
mod rows;
pub mod sheet;
mod spellings;
pub mod tally;
pub mod verify;
