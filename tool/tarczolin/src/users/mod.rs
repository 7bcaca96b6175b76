//! Four users on one explorer: the lines that drive a host, the records that it lends to the library, and what is answered.
mod call;
mod field;
mod host;
mod said;

pub use call::Call;
pub use host::Host;
pub use said::Said;
