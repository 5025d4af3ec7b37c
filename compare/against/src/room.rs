//! Lent rooms: filled with noise, fenced on both sides, and remembered.

use independent::random::Random;

const FENCE: usize = 24;

#[derive(Clone)]
pub struct Room {
    /// Fence, room, fence.
    bytes: Vec<u8>,
    before: Vec<u8>,
    /// Where the room starts: any alignment.
    start: usize,
    length: usize,
}

impl Room {
    pub fn new(length: usize, random: &mut Random) -> Self {
        let start = FENCE + random.below(8);
        let mut bytes = Vec::with_capacity(start + length + FENCE + 8);
        while bytes.len() < start + length + FENCE {
            bytes.extend(random.draw().to_le_bytes());
        }
        Room {
            before: bytes.clone(),
            bytes,
            start,
            length,
        }
    }

    pub fn length(&self) -> usize {
        self.length
    }

    pub fn lend(&mut self) -> &mut [u8] {
        &mut self.bytes[self.start..self.start + self.length]
    }

    pub fn now(&self) -> &[u8] {
        &self.bytes[self.start..self.start + self.length]
    }

    /// Whether nothing but the first `written` bytes of the room has changed.
    pub fn untouched_after(&self, written: usize) -> bool {
        let end = self.start + written;
        self.bytes[..self.start] == self.before[..self.start]
            && self.bytes[end..] == self.before[end..]
    }

    /// Whether the room is zero and the fences stand.
    pub fn zeroed(&self) -> bool {
        self.now().iter().all(|&byte| byte == 0) && self.untouched_after(self.length)
    }

    /// What is in the room now counts as lent with the next call.
    pub fn keep(&mut self) {
        self.before.copy_from_slice(&self.bytes);
    }

    /// The room as it was lent.
    pub fn restore(&mut self) {
        self.bytes.copy_from_slice(&self.before);
    }
}
