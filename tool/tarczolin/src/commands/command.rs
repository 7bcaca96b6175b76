//! What a command is: its name, its words, its options, and what is said about it.
use super::arguments::Arguments;
use super::opt::{Opt, EVERYWHERE};
use crate::end::End;
use crate::error::Error;

pub struct Command {
    pub name: &'static str,
    /// The words behind the name.
    pub words: &'static str,
    pub about: &'static str,
    pub options: &'static [Opt],
    pub example: &'static str,
    pub run: fn(&Arguments) -> Result<End, Error>,
}

impl Command {
    /// The command with its words and options: `list FILE [--jobs N]`.
    pub fn usage(&self) -> String {
        let shown = |option: &Opt| match option.value {
            Some(value) => format!(" [{} {value}]", option.name),
            None => format!(" [{}]", option.name),
        };
        let words = if self.words.is_empty() { String::new() } else { format!(" {}", self.words) };
        format!("{}{words}{}", self.name, self.options.iter().map(shown).collect::<String>())
    }

    /// Its own options, and those that every command has.
    pub fn all_options(&self) -> impl Iterator<Item = &Opt> {
        self.options.iter().chain(&EVERYWHERE)
    }
}
