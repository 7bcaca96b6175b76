//! How executions end: final memory, registers and failures, and questions about them.
mod condition;
mod end;
mod exchange;

pub use condition::{Condition, Misread};
pub use end::Final;
pub use exchange::{exchanges, Exchange};
