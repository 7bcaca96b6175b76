//! The initial values of a test: of locations, `x=5`, and of registers, `0:EBX=1`.
use super::operand::{location, register};
use super::part::Part;
use super::part::MOST;
use crate::asm::{constant, Wrong};
use std::collections::BTreeMap;

/// What types may stand in front of a location: every value has 32 bits here, and a test that needs more has no place.
const TYPES: [&str; 8] = ["int", "unsigned", "long", "volatile", "int32_t", "uint32_t", "int64_t", "uint64_t"];

/// What begins with a value: a location, or a register of a thread.
#[derive(Clone, Debug, PartialEq, Eq, PartialOrd, Ord)]
pub enum Place {
    Location(String),
    Register(usize, String),
}

/// A start: where it stands, what begins so, and with which number.
#[derive(Clone, Debug)]
pub struct Start<'a> {
    pub part: Part<'a>,
    pub place: Place,
    pub value: &'a str,
}

impl Start<'_> {
    pub fn is_zero(&self) -> bool {
        matches!(constant(self.value), Some(Ok(0)))
    }
}

/// All starts, and what is wrong with some of them.
pub fn starts(initial: Part) -> (Vec<Start>, Vec<Wrong>) {
    let (mut all, mut wrong): (Vec<Start>, Vec<Wrong>) = (Vec::new(), Vec::new());
    let mut lines: BTreeMap<Place, Part> = BTreeMap::new();
    for part in initial.split(';').into_iter().filter(|part| !part.is_empty()) {
        match start(part) {
            Err(error) => wrong.push(error),
            Ok(start) => match lines.insert(start.place.clone(), part) {
                Some(above) => {
                    let line = above.place().0;
                    wrong.push(part.wrong(format!("this has a starting value already, in line {line}")));
                }
                None => all.push(start),
            },
        }
        if wrong.len() >= MOST {
            break;
        }
    }
    (all, wrong)
}

fn start(part: Part) -> Result<Start, Wrong> {
    let (front, value) = part.split_once('=').map_or((part, None), |(front, value)| (front.trim(), Some(value.trim())));
    let mut named = front;
    while TYPES.contains(&named.word().0.text()) && !named.word().1.is_empty() {
        named = named.word().1;
    }
    let place = place(named)?;
    let Some(value) = value else { return Ok(Start { part, place, value: "0" }) };
    match constant(value.text()) {
        Some(Ok(_)) => Ok(Start { part, place, value: value.text() }),
        _ => {
            let said = format!("{} begins with {}, which is no number of 32 bits", named.text(), value.text());
            Err(value.wrong(said + "; each start ends with ;"))
        }
    }
}

/// A location, in brackets or not, or a register behind its thread.
fn place(part: Part) -> Result<Place, Wrong> {
    let text = part.text();
    if let Some((thread, name)) = part.split_once(':') {
        let number = thread.trim().text().trim_start_matches('P').parse().ok();
        let number = number.ok_or_else(|| part.wrong(format!("a start is written x=5 or 0:EAX=5, not {text}")))?;
        return Ok(Place::Register(number, register(name.trim())?));
    }
    let bare = match text.strip_prefix('[').and_then(|inner| inner.strip_suffix(']')) {
        Some(inner) => part.split_at(1).1.split_at(inner.len()).0.trim(),
        None => part,
    };
    location(bare).map(Place::Location)
}
