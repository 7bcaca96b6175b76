//! Total store order: document 02's request f written a second time, by its words and without regard to speed.
pub mod calls;
pub mod listing;
pub mod machine;
