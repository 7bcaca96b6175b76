//! Fields of records, and the host's number, to put other bytes there than the calls leave.
use tarczolin_sys::{Caller, FILE, MARKS, NAME, SCHEDULE};

#[derive(Clone, Copy, Debug, PartialEq, Eq)]
pub struct Field {
    /// The record, or none for a number of the host.
    pub caller: Option<usize>,
    pub name: Name,
}

#[derive(Clone, Copy, Debug, PartialEq, Eq)]
pub enum Name {
    File,
    Length,
    Count,
    Place,
    Asking,
    Steps,
    Schedule,
    HasNewest,
    Size,
    Newest,
    /// A field of the mark of this number.
    Mark(usize, MarkField),
    Last,
}

#[derive(Clone, Copy, Debug, PartialEq, Eq)]
pub enum MarkField {
    Name,
    Length,
    Place,
    Steps,
    Schedule,
}

/// The fields of a record, each with its size in bytes.
const RECORD: [(&str, Name, usize); 10] = [
    ("file", Name::File, FILE),
    ("length", Name::Length, 8),
    ("count", Name::Count, 8),
    ("place", Name::Place, 1),
    ("asking", Name::Asking, 1),
    ("steps", Name::Steps, 1),
    ("schedule", Name::Schedule, SCHEDULE),
    ("handed", Name::HasNewest, 1),
    ("size", Name::Size, 1),
    ("newest", Name::Newest, SCHEDULE),
];
const MARK: [(&str, MarkField, usize); 5] = [
    ("name", MarkField::Name, NAME),
    ("length", MarkField::Length, 1),
    ("place", MarkField::Place, 1),
    ("steps", MarkField::Steps, 1),
    ("schedule", MarkField::Schedule, SCHEDULE),
];
const HOST: [(&str, Name, usize); 1] = [("last", Name::Last, 8)];

impl Field {
    pub const NAMES: &'static str =
        "file, length, count, place, asking, steps, schedule, handed, size, newest, mark0.name to mark7.schedule";

    pub fn of_record(caller: usize, name: &str) -> Option<Field> {
        let known = RECORD.iter().find(|(known, ..)| *known == name).map(|(_, name, _)| *name);
        let name = known.or_else(|| of_mark(name))?;
        (caller < 4).then_some(Field { caller: Some(caller), name })
    }

    pub fn of_host(name: &str) -> Option<Field> {
        let (_, name, _) = HOST.iter().find(|(known, ..)| *known == name)?;
        Some(Field { caller: None, name: *name })
    }

    /// At most so many bytes fit.
    pub fn size(self) -> usize {
        if let Name::Mark(_, field) = self.name {
            return MARK.iter().find(|(_, known, _)| *known == field).map_or(0, |(.., size)| *size);
        }
        RECORD.iter().chain(&HOST).find(|(_, name, _)| *name == self.name).map_or(0, |(.., size)| *size)
    }
}

/// `mark3.place`.
fn of_mark(text: &str) -> Option<Name> {
    let (at, name) = text.strip_prefix("mark")?.split_once('.')?;
    let at = at.parse().ok().filter(|at| *at < MARKS)?;
    MARK.iter().find(|(known, ..)| *known == name).map(|(_, field, _)| Name::Mark(at, *field))
}

/// The number that these bytes write, most significant first.
pub fn number(bytes: &[u8]) -> u64 {
    bytes.iter().fold(0, |number, byte| number << 8 | *byte as u64)
}

/// Puts bytes in front of a field of bytes, or a number into a field that is one. The bytes fit.
pub fn put(caller: &mut Caller, name: Name, bytes: &[u8]) {
    match name {
        Name::File => caller.file[..bytes.len()].copy_from_slice(bytes),
        Name::Schedule => caller.schedule[..bytes.len()].copy_from_slice(bytes),
        Name::Length => caller.length = number(bytes) as usize,
        Name::Count => caller.count = number(bytes),
        Name::Place => caller.place = bytes[0],
        Name::Asking => caller.asking = bytes[0],
        Name::Steps => caller.steps = bytes[0],
        Name::HasNewest => caller.handed = bytes[0],
        Name::Size => caller.size = bytes[0],
        Name::Newest => caller.newest[..bytes.len()].copy_from_slice(bytes),
        Name::Mark(at, field) => {
            let mark = &mut caller.marks[at];
            match field {
                MarkField::Name => mark.name[..bytes.len()].copy_from_slice(bytes),
                MarkField::Length => mark.length = bytes[0],
                MarkField::Place => mark.place = bytes[0],
                MarkField::Steps => mark.steps = bytes[0],
                MarkField::Schedule => mark.schedule[..bytes.len()].copy_from_slice(bytes),
            }
        }
        Name::Last => unreachable!("no field of a record"),
    }
}
