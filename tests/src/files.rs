//! Files of the repository, and text written for the eye.
use std::path::PathBuf;

/// A file of the repository, named from its top.
pub fn path(name: &str) -> PathBuf {
    PathBuf::from(env!("CARGO_MANIFEST_DIR")).join("..").join(name)
}

pub fn read(name: &str) -> Vec<u8> {
    std::fs::read(path(name)).unwrap_or_else(|e| panic!("{name}: {e}"))
}

/// The text whose lines are given with spaces between them: `"01 110000"` is two lines.
pub fn lines(words: &str) -> Vec<u8> {
    words.split_whitespace().flat_map(|line| line.bytes().chain([b'\n'])).collect()
}

/// The line of a frame, ended by 0a.
pub fn line(frame: &[u8]) -> Vec<u8> {
    let mut text = Vec::with_capacity(2 * frame.len() + 1);
    for &byte in frame {
        text.extend([digit(byte >> 4), digit(byte & 15)]);
    }
    text.push(b'\n');
    text
}

/// A number below 16 as a digit.
fn digit(value: u8) -> u8 {
    b"0123456789abcdef"[value as usize]
}

/// The lines of many frames.
pub fn text(frames: &[Vec<u8>]) -> Vec<u8> {
    frames.iter().flat_map(|f| line(f)).collect()
}
