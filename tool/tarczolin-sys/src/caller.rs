//! A caller's record, as `struct tarczolin_caller` of `include/tarczolin.h` has it.
use crate::SCHEDULE;

/// The longest accepted file.
pub const FILE: usize = 4096;

/// How many marks a record has, and how many bytes a name may have.
pub const MARKS: usize = 8;
pub const NAME: usize = 8;

/// A mark to come back to.
#[repr(C)]
#[derive(Clone, Copy, Debug, PartialEq, Eq)]
pub struct Mark {
    /// The name is the first `length` bytes.
    pub name: [u8; NAME],
    pub length: u8,
    /// 1 at the beginning, 2 behind the first `steps` bytes of `schedule`; else the mark is free.
    pub place: u8,
    pub steps: u8,
    pub schedule: [u8; SCHEDULE],
}

/// One of the four records that a host lends. Any content may stand there: each call goes by what a record reads as.
#[repr(C)]
#[derive(Clone, Copy, Debug, PartialEq, Eq)]
pub struct Caller {
    /// The program file is the first `length` bytes.
    pub file: [u8; FILE],
    pub length: usize,
    /// How many schedules were handed to it since it opened, modulo 2^64.
    pub count: u64,
    /// 1 at the beginning, 2 behind the first `steps` bytes of `schedule`, 3 at the end; else the record is closed.
    pub place: u8,
    /// 1 where it asks.
    pub asking: u8,
    pub steps: u8,
    pub schedule: [u8; SCHEDULE],
    /// The last schedule handed to it since it opened is the first `size` bytes of `newest`, where this is 1.
    pub handed: u8,
    pub size: u8,
    pub newest: [u8; SCHEDULE],
    pub marks: [Mark; MARKS],
    /// Means nothing: zeros where the record opens or closes, else left as it is.
    pub padding: [u8; 3],
}

impl Mark {
    /// A free one: nothing in it.
    pub const FREE: Mark = Mark { name: [0; NAME], length: 0, place: 0, steps: 0, schedule: [0; SCHEDULE] };
}

impl Caller {
    /// A fresh record, as closing leaves it.
    pub const FRESH: Caller = Caller {
        file: [0; FILE],
        length: 0,
        count: 0,
        place: 0,
        asking: 0,
        steps: 0,
        schedule: [0; SCHEDULE],
        handed: 0,
        size: 0,
        newest: [0; SCHEDULE],
        marks: [Mark::FREE; MARKS],
        padding: [0; 3],
    };
}
