//! Kinds of frames and their fields, for what is wrong with a frame by itself.
use crate::program::{LOCATIONS, LONGEST_SKIP, REGISTERS};

/// A field of a frame.
#[derive(Clone, Copy)]
enum Field {
    Register,
    Location,
    Operand,
    Skip,
    /// Four bytes of any value.
    Value,
}

use Field::*;

/// The kinds of lines with fields: the first byte, a name, and the fields behind it.
const KINDS: [(u8, &str, &[Field]); 11] = [
    (0x03, "starting value", &[Location, Value]),
    (0x10, "store", &[Location, Operand]),
    (0x11, "load", &[Register, Location]),
    (0x12, "fetch and add", &[Register, Location, Operand]),
    (0x13, "compare and swap", &[Register, Location, Operand, Operand]),
    (0x20, "register set", &[Register, Operand]),
    (0x21, "register add", &[Register, Operand]),
    (0x22, "skip", &[Register, Operand, Skip]),
    (0x23, "assertion", &[Register, Operand]),
    (0x24, "signed skip", &[Register, Operand, Skip]),
    (0x25, "signed assertion", &[Register, Operand]),
];

impl Field {
    fn length(self) -> usize {
        match self {
            Operand => 5,
            Value => 4,
            _ => 1,
        }
    }

    /// What is wrong with a field of these bytes, if anything is.
    fn wrong(self, bytes: &[u8]) -> Option<String> {
        let first = bytes[0];
        match self {
            Register if first >= REGISTERS => Some(format!("there is no register {first:02x}; registers are 00 to 03")),
            Location if first >= LOCATIONS => Some(format!("there is no location {first:02x}; locations are 00 to 07")),
            Skip if first == 0 || first > LONGEST_SKIP => Some(format!("a skip of {first} is out of range; it may be 1 to 15")),
            Operand if first > 1 => {
                Some(format!("an operand begins with 00 (a constant) or 01 (a register), not with {first:02x}"))
            }
            Operand if first == 1 && bytes[1..] >= [0, 0, 0, REGISTERS][..] => {
                let register = crate::hex::digits(&bytes[1..]);
                Some(format!("the operand names register {register}; registers are 00000000 to 00000003"))
            }
            _ => None,
        }
    }
}

/// The sentence about a first byte or a length that is not of its kind.
pub fn kind(frame: &[u8]) -> String {
    let (first, length) = (frame.first().copied().unwrap_or(0), frame.len());
    match first {
        0x01 => format!("01 opens a thread and stands alone; this line has {length} bytes"),
        0x02 => format!("a 02 line declares two to six threads alike; this one names {}", length - 1),
        _ => match KINDS.iter().find(|(known, ..)| *known == first) {
            Some((_, name, fields)) => {
                let right = 1 + fields.iter().map(|f| f.length()).sum::<usize>();
                format!("{first:02x} is a {name} and takes {right} bytes; this line has {length}")
            }
            None => format!("the first byte {first:02x} is not known; lines begin with 01 to 03, 10 to 13 or 20 to 25"),
        },
    }
}

/// The sentence about the first field that is out of range.
pub fn range(frame: &[u8]) -> String {
    let mut at = 1;
    let fields = KINDS.iter().find(|(known, ..)| frame.first() == Some(known)).map_or(&[][..], |(_, _, fields)| fields);
    for field in fields {
        let bytes = frame.get(at..at + field.length());
        if let Some(sentence) = bytes.and_then(|bytes| field.wrong(bytes)) {
            return sentence;
        }
        at += field.length();
    }
    "a register, location, skip or operand is out of range".to_string()
}
