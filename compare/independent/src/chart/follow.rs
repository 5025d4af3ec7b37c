//! Following a plan's steps, for Check and Pairs.
//!
//! The nonterminals still to be replaced stand on a stack, the leftmost on top, each with the
//! stretch it has to come to. Index stacks share their lower parts: an index is a node that points
//! to what is under it. Every index of a passing plan is given once and taken once, so a node also
//! holds its pair.

use super::card::Card;
use super::line::MOST_WORDS;

/// Pairs of a plan, in the order of its give steps: the last word of the give's side, and the last
/// word of the take's side.
pub struct Pairs {
    at: [[u8; 2]; MOST_WORDS],
    count: usize,
}

impl Pairs {
    pub fn as_slice(&self) -> &[[u8; 2]] {
        &self.at[..self.count]
    }
}

#[derive(Clone, Copy, Default)]
struct Open {
    nonterminal: u8,
    start: u8,
    end: u8,
    /// Node of the topmost index.
    stack: u8,
}

#[derive(Clone, Copy, Default)]
struct Node {
    index: u8,
    under: u8,
}

const EMPTY_STACK: u8 = 255;

/// The pairs, if the plan is a leftmost derivation of a line with these sets of words.
pub fn follow(card: &Card, words: &[u32], plan: &[u8]) -> Option<Pairs> {
    let (steps, rest) = plan.as_chunks::<4>();
    if !rest.is_empty() || steps.len() != 2 * words.len() - 1 {
        return None;
    }
    let mut follower = Follower::new(words);
    for step in steps {
        follower.step(card, step)?;
    }
    Some(follower.pairs)
}

struct Follower<'a> {
    /// For each place the words that can stand there, as a set.
    words: &'a [u32],
    /// Open stretches are disjoint and not empty: there are never more of them than words.
    open: [Open; MOST_WORDS],
    depth: usize,
    nodes: [Node; MOST_WORDS],
    pairs: Pairs,
}

impl<'a> Follower<'a> {
    #[inline(always)]
    fn new(words: &'a [u32]) -> Self {
        let mut open = [Open::default(); MOST_WORDS];
        open[0] = Open {
            nonterminal: 0,
            start: 0,
            end: words.len() as u8,
            stack: EMPTY_STACK,
        };
        Follower {
            words,
            open,
            depth: 1,
            nodes: [Node::default(); MOST_WORDS],
            pairs: Pairs {
                at: [[0; 2]; MOST_WORDS],
                count: 0,
            },
        }
    }

    /// None if the step does not fit.
    #[inline(always)]
    fn step(&mut self, card: &Card, &[production, i, k, j]: &[u8; 4]) -> Option<()> {
        self.depth = self.depth.checked_sub(1)?;
        let open = self.open[self.depth];
        let &[kind, a, b, c, g, _] = card.productions.get(usize::from(production))?;
        if (a, i, j) != (open.nonterminal, open.start, open.end) {
            return None;
        }
        if kind == 0 {
            let stretch_fits = k == j && j - i == 1;
            let is_spelled_so = self.words[usize::from(i)] >> b & 1 == 1;
            return (stretch_fits && open.stack == EMPTY_STACK && is_spelled_so).then_some(());
        }
        if k <= i || k >= j {
            return None;
        }
        let side_first = kind % 2 == 1;
        let last_of_side = if side_first { k - 1 } else { j - 1 };
        let dependent = match kind {
            1 | 2 => self.take(open.stack, g, last_of_side)?,
            3 | 4 => open.stack,
            _ => self.give(open.stack, g, last_of_side),
        };
        let (first, second) = if side_first {
            (EMPTY_STACK, dependent)
        } else {
            (dependent, EMPTY_STACK)
        };
        self.push(c, k, j, second);
        self.push(b, i, k, first);
        Some(())
    }

    /// The stack under the topmost index, if that is g.
    #[inline(always)]
    fn take(&mut self, stack: u8, g: u8, last_of_side: u8) -> Option<u8> {
        let node = self.nodes.get(usize::from(stack))?;
        if node.index != g {
            return None;
        }
        self.pairs.at[usize::from(stack)][1] = last_of_side;
        Some(node.under)
    }

    #[inline(always)]
    fn give(&mut self, stack: u8, g: u8, last_of_side: u8) -> u8 {
        let node = self.pairs.count;
        self.nodes[node] = Node {
            index: g,
            under: stack,
        };
        self.pairs.at[node][0] = last_of_side;
        self.pairs.count += 1;
        node as u8
    }

    #[inline(always)]
    fn push(&mut self, nonterminal: u8, start: u8, end: u8, stack: u8) {
        self.open[self.depth] = Open {
            nonterminal,
            start,
            end,
            stack,
        };
        self.depth += 1;
    }
}
