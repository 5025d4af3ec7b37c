//! Median times of two ways to do the same, measured in turn.

use std::time::{Duration, Instant};

/// A round is made long enough for the clock to tell it apart.
const ROUND: Duration = Duration::from_micros(500);
const ROUNDS: usize = 41;

/// Nanoseconds a call, of the library and of the rival.
#[derive(Clone, Copy)]
pub struct Times {
    pub library: f64,
    pub rival: f64,
}

impl Times {
    /// How many times as long the library takes.
    pub fn ratio(&self) -> f64 {
        self.library / self.rival
    }
}

pub fn measure(library: impl FnMut(), rival: impl FnMut()) -> Times {
    let [library, rival] = in_turn(library, rival);
    Times { library, rival }
}

/// Nanoseconds a call, of both.
pub fn in_turn(mut one: impl FnMut(), mut other: impl FnMut()) -> [f64; 2] {
    let one_calls = calls_a_round(&mut one);
    let other_calls = calls_a_round(&mut other);
    let mut one_rounds = Vec::new();
    let mut other_rounds = Vec::new();
    for _ in 0..ROUNDS {
        one_rounds.push(round(&mut one, one_calls));
        other_rounds.push(round(&mut other, other_calls));
    }
    [one_rounds, other_rounds].map(median)
}

fn calls_a_round(call: &mut impl FnMut()) -> u32 {
    let mut calls = 1;
    loop {
        let nanoseconds = round(call, calls) * f64::from(calls);
        if nanoseconds >= ROUND.as_nanos() as f64 {
            return calls;
        }
        calls *= 2;
    }
}

/// Nanoseconds a call, over one round.
fn round(call: &mut impl FnMut(), calls: u32) -> f64 {
    let start = Instant::now();
    for _ in 0..calls {
        call();
    }
    start.elapsed().as_nanos() as f64 / f64::from(calls)
}

fn median(mut list: Vec<f64>) -> f64 {
    list.sort_by(f64::total_cmp);
    list[list.len() / 2]
}
