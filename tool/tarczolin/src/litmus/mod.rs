//! Litmus tests for x86, as herd reads them: the part that fits, to the text form and back.
mod answers;
mod cell;
mod condition;
mod export;
mod import;
mod operand;
mod part;
mod parts;
mod starts;
mod thread;

pub use export::export;
pub use import::{import, Imported};
