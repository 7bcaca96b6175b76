//! Bytes as hexadecimal, two digits a byte: read with capitals too, written in lower case.

const DIGITS: &[u8; 16] = b"0123456789abcdef";

/// The digits of these bytes.
pub fn digits(bytes: &[u8]) -> String {
    bytes.iter().flat_map(|b| [b >> 4, b & 15]).map(|d| DIGITS[d as usize] as char).collect()
}

/// The line of a frame, ended by a newline.
pub fn line(frame: &[u8]) -> String {
    digits(frame) + "\n"
}

/// Puts the digits of these bytes behind a text.
pub fn put(text: &mut Vec<u8>, bytes: &[u8]) {
    text.extend(bytes.iter().flat_map(|b| [DIGITS[(b >> 4) as usize], DIGITS[(b & 15) as usize]]));
}

/// The value of one digit.
pub fn value(digit: u8) -> Option<u8> {
    match digit {
        b'0'..=b'9' => Some(digit - b'0'),
        b'a'..=b'f' => Some(digit - b'a' + 10),
        b'A'..=b'F' => Some(digit - b'A' + 10),
        _ => None,
    }
}

/// The bytes that these digits write, or none: an odd number of them, or another character.
pub fn bytes(digits: &[u8]) -> Option<Vec<u8>> {
    if !digits.len().is_multiple_of(2) {
        return None;
    }
    digits.chunks_exact(2).map(|pair| Some(value(pair[0])? << 4 | value(pair[1])?)).collect()
}
