//! What the searches remember, by keys of a few bytes. The hashing of the standard library keeps
//! off keys that were chosen to collide, which costs time and is not needed here.

use std::collections::HashMap;
use std::hash::{BuildHasherDefault, Hasher};

pub type Memory<K, V> = HashMap<K, V, BuildHasherDefault<Mixed>>;

#[derive(Default)]
pub struct Mixed(u64);

impl Mixed {
    fn mix(&mut self, number: u64) {
        self.0 = (self.0.rotate_left(23) ^ number).wrapping_mul(0x9E37_79B9_7F4A_7C15);
    }
}

impl Hasher for Mixed {
    fn write(&mut self, bytes: &[u8]) {
        for part in bytes.chunks(8) {
            let mut padded = [0; 8];
            padded[..part.len()].copy_from_slice(part);
            self.mix(u64::from_le_bytes(padded));
        }
    }

    fn write_u8(&mut self, number: u8) {
        self.mix(number.into());
    }

    fn write_usize(&mut self, number: usize) {
        self.mix(number as u64);
    }

    fn write_u128(&mut self, number: u128) {
        self.mix(number as u64);
        self.mix((number >> 64) as u64);
    }

    /// The table looks at the highest bits and at the lowest.
    fn finish(&self) -> u64 {
        self.0 ^ (self.0 >> 32)
    }
}
