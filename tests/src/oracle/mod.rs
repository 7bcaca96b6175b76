//! An oracle: document 01 written a second time, in plain Rust, by its words and without regard to speed.
pub mod across;
pub mod calls;
pub mod covers;
pub mod decode;
pub mod force;
pub mod graph;
pub mod judge;
pub mod listing;
pub mod machine;
pub mod model;
pub mod outcomes;
pub mod robust;
pub mod tso;
pub mod users;

/// A refusal: its number and its place.
#[derive(Clone, Copy, Debug, PartialEq, Eq, PartialOrd, Ord, Hash)]
pub struct Refusal {
    pub number: u8,
    pub place: u64,
}

/// The refusal of that number at that place.
pub fn refused<T>(number: u8, place: usize) -> Result<T, Refusal> {
    Err(Refusal { number, place: place as u64 })
}
