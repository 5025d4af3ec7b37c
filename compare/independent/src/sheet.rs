//! Cutting a sheet into its lines.

pub const MOST_LINES: usize = 64;

/// The lines, each without its hex 0A, which the last one may lack. 41 if they are too many.
pub fn lines(sheet: &[u8]) -> Result<Vec<&[u8]>, u16> {
    let lines: Vec<&[u8]> = sheet
        .split_inclusive(|&byte| byte == b'\n')
        .map(|line| line.strip_suffix(b"\n").unwrap_or(line))
        .collect();
    if lines.len() > MOST_LINES {
        return Err(41);
    }
    Ok(lines)
}
