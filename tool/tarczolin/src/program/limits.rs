//! The limits that sentences and the text form tell of.

pub const FILE_LIMIT: usize = 4096;
pub const THREADS: usize = 6;
pub const INSTRUCTIONS: usize = 16;
pub const ACCESSES: usize = 24;
/// Under total store order a program has fewer.
pub const ACCESSES_TSO: usize = 16;
pub const REGISTERS: u8 = 4;
pub const LOCATIONS: u8 = 8;
pub const LONGEST_SKIP: u8 = 15;
