//! What is wrong with a line that is no frame at all.
use crate::hex;

/// A line of a file without its end, by its number from 1; empty behind the last one.
pub fn line_at(file: &[u8], place: u64) -> &[u8] {
    let at = (place as usize).saturating_sub(1);
    file.split(|&c| c == b'\n').nth(at).unwrap_or(&[])
}

/// A character for the eye.
fn character(c: u8) -> String {
    match c {
        b'\r' => "a carriage return (0d): lines end by 0a alone".to_string(),
        b' ' => "a space".to_string(),
        b'\t' => "a tab".to_string(),
        0x21..=0x7e => format!("the character {}", c as char),
        _ => format!("the byte {c:02x}"),
    }
}

/// The sentence about a line that is empty, odd, without its 0a, or has another character.
pub fn sentence(text: &[u8], place: u64) -> String {
    let line = line_at(text, place);
    if line.starts_with(b"#") {
        return "the last line, a remark, is not ended by a newline (0a)".to_string();
    }
    if let Some(k) = line.iter().position(|&c| hex::value(c).is_none()) {
        return format!(
            "column {} has {}; only 0-9, a-f and A-F may stand in a line, or # at its front",
            k + 1,
            character(line[k])
        );
    }
    if line.is_empty() {
        return "the line is empty; every line holds one frame".to_string();
    }
    if !line.len().is_multiple_of(2) {
        return format!("the line has {} digits, an odd number; each byte takes two", line.len());
    }
    "the last line is not ended by a newline (0a)".to_string()
}
