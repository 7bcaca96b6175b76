//! What is wrong with a graph text.
use super::line::{self, line_at};
use crate::ask::Refusal;
use crate::hex;
use crate::program::{Program, LOCATIONS};

/// The sentence about a refusal of a graph text for an accepted program.
pub fn sentence(file: &[u8], text: &[u8], refusal: Refusal) -> String {
    let frame = hex::bytes(line_at(text, refusal.place)).unwrap_or_default();
    match refusal.number {
        30 => line::sentence(text, refusal.place),
        31 => kind(&frame),
        32 => range(&frame, Program::of_accepted(file).threads.len()),
        _ => order(&frame, text, refusal.place),
    }
}

fn kind(frame: &[u8]) -> String {
    let length = frame.len();
    match frame.first() {
        Some(0x40) => format!("40 tells of one read and takes 5 bytes: 40 t i u j; this line has {length}"),
        Some(0x41) => format!("41 takes a location and one event or more, two bytes each; this line has {length} bytes"),
        first => format!("the first byte {:02x} is not known; lines begin with 40 or 41", first.copied().unwrap_or(0)),
    }
}

/// 32: the first number that is out of range.
fn range(frame: &[u8], threads: usize) -> String {
    let (events, source_at) = match frame {
        [0x40, events @ ..] => (events, 1),
        [0x41, l, ..] if *l >= LOCATIONS => return format!("there is no location {l:02x}; locations are 00 to 07"),
        [_, _, events @ ..] => (events, usize::MAX),
        _ => (&[][..], usize::MAX),
    };
    for (k, event) in events.chunks_exact(2).enumerate() {
        let (t, i) = (event[0], event[1]);
        match (t, i) {
            (0xff, 0xff) if k == source_at => continue,
            (0xff, 0xff) => return "the initial write (ff, ff) may stand only as the source of a read".to_string(),
            _ if t as usize >= threads => {
                return format!("there is no thread {t:02x}; the program has {threads}, numbered from 00");
            }
            _ if i > 15 => return format!("there is no access {i:02x}; they are 00 to 0f"),
            _ => {}
        }
    }
    "a thread, access or location is out of range".to_string()
}

/// 33: the order of lines, or an event that is named twice.
fn order(frame: &[u8], text: &[u8], place: u64) -> String {
    let key = |frame: &[u8]| frame.get(..if frame.first() == Some(&0x40) { 3 } else { 2 }).map(<[u8]>::to_vec);
    let above = (1..place).rev().map(|k| line_at(text, k)).find(|line| !line.starts_with(b"#"));
    let last = above.and_then(hex::bytes).unwrap_or_default();
    if above.is_some() && key(frame) <= key(&last) {
        let right = "first 40 by thread and access, then 41 by location, each once";
        return format!("the line does not come after the one above it: {right}");
    }
    "an event of this line stands among the 41 lines already; a write has one place in coherence".to_string()
}
