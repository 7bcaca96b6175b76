//! How much memory is lent to calls that remember states: `--memory`, or else what `TARCZOLIN_MEMORY` says.
use super::arguments::Arguments;
use super::opt::Opt;
use crate::error::Error;
use crate::memory::Memory;

pub const MEMORY: Opt = Opt {
    name: "--memory",
    value: Some("BYTES"),
    about: "at most so much memory to remember states in; 16777216 where it is not given",
};

const VARIABLE: &str = "TARCZOLIN_MEMORY";

pub fn memory(arguments: &Arguments) -> Result<Memory, Error> {
    match (arguments.path(MEMORY.name), std::env::var_os(VARIABLE)) {
        (Some(word), _) => Memory::of_word(MEMORY.name, word),
        (None, Some(word)) => Memory::of_word(VARIABLE, &word),
        (None, None) => Ok(Memory::default()),
    }
}
