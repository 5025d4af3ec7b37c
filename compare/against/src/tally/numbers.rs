//! How often each number came.

use std::collections::BTreeMap;

#[derive(Default)]
pub struct Numbers(BTreeMap<u16, u64>);

impl Numbers {
    pub fn add(&mut self, number: u16) {
        *self.0.entry(number).or_default() += 1;
    }

    pub fn is_empty(&self) -> bool {
        self.0.is_empty()
    }

    pub fn count(&self, number: u16) -> u64 {
        self.0.get(&number).copied().unwrap_or(0)
    }

    /// Those of the refusals that never came.
    pub fn missing(&self, refusals: &[u16]) -> Vec<u16> {
        let never = |number: &u16| self.count(*number) == 0;
        refusals.iter().copied().filter(never).collect()
    }

    /// What came and is neither 0 nor one of the refusals.
    pub fn strays(&self, refusals: &[u16]) -> Vec<u16> {
        let is_stray = |number: &u16| *number != 0 && !refusals.contains(number);
        self.0.keys().copied().filter(is_stray).collect()
    }

    pub fn list(&self, refusals: &[u16]) -> String {
        let counted = |number: &u16| format!(" {number}:{}", self.count(*number));
        refusals.iter().map(counted).collect()
    }
}
