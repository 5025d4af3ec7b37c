//! Dead names: nonterminals on the right of a production and on the left of none. Cards are made
//! with them and without, and what 42 says of a card is compared with the cards' derivations.

pub mod edges;
pub mod fault;
mod never;
pub mod repair;
mod six;
pub mod table;
