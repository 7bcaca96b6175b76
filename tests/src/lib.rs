//! Tests of the static library: an oracle written from document 01 alone, and random inputs.
pub use tarczolin_sys as calls;
pub mod beside;
pub mod files;
pub mod lent;
pub mod oracle;
pub mod painted;
pub mod papers;
pub mod parts;
pub mod random;
pub mod scratch;
pub mod search;
pub mod share;
pub mod spin;
pub mod table;
pub mod users;
