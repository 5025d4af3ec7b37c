//! Where the lines of a sheet end, eight bytes at a time.

use super::bytes::equal_to;

pub const MOST_LINES: usize = 64;

/// The place after the last byte of each line, its hex 0A not counted.
pub struct Ends {
    at: [usize; MOST_LINES],
    count: usize,
}

impl Ends {
    /// 41 if there are too many.
    pub fn of(sheet: &[u8]) -> Result<Self, u16> {
        let mut ends = Ends {
            at: [0; MOST_LINES],
            count: 0,
        };
        let (eights, rest) = sheet.as_chunks::<8>();
        for (number, bytes) in eights.iter().enumerate() {
            ends.add_all(*bytes, 8 * number)?;
        }
        let mut padded = [0; 8];
        padded[..rest.len()].copy_from_slice(rest);
        ends.add_all(padded, 8 * eights.len())?;
        if sheet.last().is_some_and(|&last| last != b'\n') {
            ends.add(sheet.len())?;
        }
        Ok(ends)
    }

    pub fn as_slice(&self) -> &[usize] {
        &self.at[..self.count]
    }

    fn add_all(&mut self, bytes: [u8; 8], offset: usize) -> Result<(), u16> {
        let mut ends = equal_to(b'\n', u64::from_le_bytes(bytes));
        while ends != 0 {
            self.add(offset + ends.trailing_zeros() as usize / 8)?;
            ends &= ends - 1;
        }
        Ok(())
    }

    fn add(&mut self, end: usize) -> Result<(), u16> {
        *self.at.get_mut(self.count).ok_or(41_u16)? = end;
        self.count += 1;
        Ok(())
    }
}
