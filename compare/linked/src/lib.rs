//! The library under test, called as a C program calls it.

use independent::answers::{NameAnswer, PairsAnswer, ReadAnswer, SheetAnswer};

unsafe extern "C" {
    fn lig_card_check(card: *const u8, card_length: usize) -> u64;
    fn lig_read(
        card: *const u8,
        card_length: usize,
        line: *const u8,
        line_length: usize,
        chart: *mut u8,
        chart_length: usize,
        plan: *mut u8,
        plan_length: usize,
    ) -> u64;
    fn lig_check(
        card: *const u8,
        card_length: usize,
        line: *const u8,
        line_length: usize,
        plan: *const u8,
        plan_length: usize,
    ) -> u64;
    fn lig_pairs(
        card: *const u8,
        card_length: usize,
        line: *const u8,
        line_length: usize,
        plan: *const u8,
        plan_length: usize,
        pairs: *mut u8,
        pairs_length: usize,
    ) -> u64;
    fn lig_name(card: *const u8, card_length: usize, word: usize) -> u64;
    fn lig_sheet(
        card: *const u8,
        card_length: usize,
        sheet: *const u8,
        sheet_length: usize,
        chart: *mut u8,
        chart_length: usize,
        output: *mut u8,
        output_length: usize,
    ) -> u64;
}

pub fn card_check(card: &[u8]) -> u64 {
    // SAFETY: pointer and length are of one slice.
    unsafe { lig_card_check(card.as_ptr(), card.len()) }
}

pub fn read(card: &[u8], line: &[u8], chart: &mut [u8], plan: &mut [u8]) -> ReadAnswer {
    // SAFETY: each pointer and length are of one slice, and rooms do not overlap.
    let packed = unsafe {
        lig_read(
            card.as_ptr(),
            card.len(),
            line.as_ptr(),
            line.len(),
            chart.as_mut_ptr(),
            chart.len(),
            plan.as_mut_ptr(),
            plan.len(),
        )
    };
    let [number, words, items, steps] = unpacked(packed);
    ReadAnswer {
        number,
        words,
        items,
        steps,
    }
}

pub fn check(card: &[u8], line: &[u8], plan: &[u8]) -> u64 {
    // SAFETY: each pointer and length are of one slice.
    unsafe {
        lig_check(
            card.as_ptr(),
            card.len(),
            line.as_ptr(),
            line.len(),
            plan.as_ptr(),
            plan.len(),
        )
    }
}

/// The upper half of the packed answer is returned too: it has to be zero.
pub fn pairs(card: &[u8], line: &[u8], plan: &[u8], room: &mut [u8]) -> (PairsAnswer, [u16; 2]) {
    // SAFETY: each pointer and length are of one slice, and the room overlaps none.
    let packed = unsafe {
        lig_pairs(
            card.as_ptr(),
            card.len(),
            line.as_ptr(),
            line.len(),
            plan.as_ptr(),
            plan.len(),
            room.as_mut_ptr(),
            room.len(),
        )
    };
    let [number, count, upper @ ..] = unpacked(packed);
    (PairsAnswer { number, count }, upper)
}

/// The highest sixteen bits of the packed answer are returned too: they have to be zero.
pub fn name(card: &[u8], word: usize) -> (NameAnswer, u16) {
    // SAFETY: pointer and length are of one slice.
    let packed = unsafe { lig_name(card.as_ptr(), card.len(), word) };
    let [number, offset, length, upper] = unpacked(packed);
    let answer = NameAnswer {
        number,
        offset,
        length,
    };
    (answer, upper)
}

/// From the low end 16, 8, 20 and 20 bits: no bit is left over.
pub fn sheet(card: &[u8], sheet: &[u8], chart: &mut [u8], output: &mut [u8]) -> SheetAnswer {
    // SAFETY: each pointer and length are of one slice, and rooms do not overlap.
    let packed = unsafe {
        lig_sheet(
            card.as_ptr(),
            card.len(),
            sheet.as_ptr(),
            sheet.len(),
            chart.as_mut_ptr(),
            chart.len(),
            output.as_mut_ptr(),
            output.len(),
        )
    };
    SheetAnswer {
        number: packed as u16,
        line: (packed >> 16) as u8,
        records: (packed >> 24) as u32 & 0xF_FFFF,
        dropped: (packed >> 44) as u32,
    }
}

/// Sixteen bits each, from the low end.
fn unpacked(packed: u64) -> [u16; 4] {
    [0, 16, 32, 48].map(|shift| (packed >> shift) as u16)
}
