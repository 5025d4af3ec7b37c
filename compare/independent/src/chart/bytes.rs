//! Tests of several bytes at once, inside one number.

/// The highest bit of each byte.
pub const HIGH_BITS: u128 = u128::MAX / 255 * 128;

/// `LOW_BYTES[m]` covers the lowest m bytes.
pub const LOW_BYTES: [u128; 12] = {
    let mut masks = [0; 12];
    let mut m = 0;
    while m < 12 {
        masks[m] = (1 << (8 * m)) - 1;
        m += 1;
    }
    masks
};

/// The highest bit of each byte that is one of a–z and 0–9.
pub fn letters_and_digits(bytes: u128) -> u128 {
    let low = spelled(bytes as u64);
    let high = spelled((bytes >> 64) as u64);
    u128::from(low) | u128::from(high) << 64
}

const ONES: u64 = u64::MAX / 255;

/// The highest bit of each of eight bytes.
pub const HIGH: u64 = ONES * 128;

/// The same for eight bytes. With the highest bits cleared first, no sum carries into the next
/// byte, and a sum's highest bit tells on which side of a bound the byte is.
pub fn spelled(bytes: u64) -> u64 {
    let low = bytes & !HIGH;
    let at_least = |bound: u8| low + ONES * u64::from(128 - bound);
    let letters = at_least(b'a') & !at_least(b'z' + 1);
    let digits = at_least(b'0') & !at_least(b'9' + 1);
    (letters | digits) & !bytes & HIGH
}

/// The highest bit of each byte that is `wanted`.
pub fn equal_to(wanted: u8, bytes: u64) -> u64 {
    let other = bytes ^ (ONES * u64::from(wanted));
    let not_zero = ((other & !HIGH) + !HIGH) | other;
    !not_zero & HIGH
}

/// Highest bits of eight bytes, gathered into the lowest eight bits.
pub fn gathered(high_bits: u64) -> u64 {
    (high_bits >> 7).wrapping_mul(0x0102_0408_1020_4080) >> 56
}
