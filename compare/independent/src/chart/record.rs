//! Records of items, as two numbers of eight bytes each.
//!
//! While the chart is being built, the last two bytes of a record hold the item's tail number
//! (see `build`); they are zeroed at the end.

pub const NO_POSITION: u64 = 0xFFFF;

/// γ, B, p and q in the lower half of a record: what a keep or a give copies.
const TAIL: u64 = 0x00FF_FFFF_0000_FF00;

#[derive(Clone, Copy)]
pub struct Record {
    pub low: u64,
    pub high: u64,
}

impl Record {
    #[inline(always)]
    pub fn from_bytes(bytes: &[u8; 16]) -> Self {
        let both = u128::from_le_bytes(*bytes);
        Record {
            low: both as u64,
            high: (both >> 64) as u64,
        }
    }

    #[inline(always)]
    pub fn to_bytes(self) -> [u8; 16] {
        (u128::from(self.low) | u128::from(self.high) << 64).to_le_bytes()
    }

    /// γ.
    #[inline(always)]
    pub fn index(self) -> u32 {
        (self.low >> 8) as u32 & 0xFF
    }

    #[inline(always)]
    pub fn production(self) -> usize {
        (self.low >> 56) as usize
    }

    #[inline(always)]
    pub fn side(self) -> usize {
        (self.high & 0xFFFF) as usize
    }

    #[inline(always)]
    pub fn dependent(self) -> usize {
        (self.high >> 16 & 0xFFFF) as usize
    }

    #[inline(always)]
    pub fn continuation(self) -> usize {
        (self.high >> 32 & 0xFFFF) as usize
    }

    #[inline(always)]
    pub fn tail_number(self) -> usize {
        (self.high >> 48) as usize
    }
}

/// A, i, j and the production of a new item.
#[inline(always)]
pub fn head(nonterminal: usize, i: usize, j: usize, production: usize) -> u64 {
    nonterminal as u64 | (i as u64) << 16 | (j as u64) << 24 | (production as u64) << 56
}

/// γ, B, p and q.
#[inline(always)]
pub fn tail(index: u8, nonterminal: u8, p: usize, q: usize) -> u64 {
    u64::from(index) << 8 | u64::from(nonterminal) << 32 | (p as u64) << 40 | (q as u64) << 48
}

#[inline(always)]
pub fn tail_of(low: u64) -> u64 {
    low & TAIL
}
