//! Lines of hexadecimal capitals taken apart: a kind and its arguments.

/// The number of a digit.
fn digit(byte: u8) -> Option<u32> {
    match byte {
        b'0'..=b'9' => Some(u32::from(byte - b'0')),
        b'A'..=b'F' => Some(u32::from(byte - b'A') + 10),
        _ => None,
    }
}

/// The number of at most 8 digits.
fn number(digits: &[u8]) -> Option<u32> {
    digits.iter().try_fold(0u32, |sum, &d| Some(sum << 4 | digit(d)?))
}

/// The kind of a line and its arguments: none, one of 2 digits, one of 8, or one of 8 and a second of 2 or 8, as the length says; none
/// where a byte is no digit or the length is that of no frame. What is not there is 0.
pub fn parse(line: &[u8]) -> Option<(u32, usize, u32, u32)> {
    if !matches!(line.len(), 2 | 4 | 10 | 12 | 18) {
        return None;
    }
    let kind = number(&line[..2])?;
    let first = number(&line[2..line.len().min(10)])?;
    let second = number(line.get(10..).unwrap_or(&[]))?;
    Some((kind, line.len(), first, second))
}
