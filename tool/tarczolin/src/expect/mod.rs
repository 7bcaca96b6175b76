//! What is expected of a program, by lines of its own: that some execution ends so, that none does, that all do, that an assertion fails or
//! that none does.
mod expectation;
mod read;

pub use expectation::{Expectation, Kind};
pub use read::{read, wrong_statements};
