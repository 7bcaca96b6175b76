//! What the command line asks for, a file a command, and how they end.
mod arguments;
mod asm;
mod check;
mod chosen;
mod command;
mod complete;
mod count;
mod covers;
mod cuts;
mod disasm;
mod expected;
mod fences;
mod force;
mod form;
mod graph;
mod help;
mod join;
mod judge;
mod lacking;
mod lent;
mod list;
mod litmus;
mod man;
mod meant;
mod models;
mod opt;
mod outcomes;
mod own;
mod pages;
mod pick;
mod piece;
mod places;
mod rank;
mod record;
mod relaxed;
mod reply;
mod robust;
mod sample;
mod show;
mod spool;
mod table;
mod test;
mod users;
mod violation;
mod x86;

use crate::end::End;
use crate::error::Error;
use crate::output;
use arguments::Arguments;
use std::ffi::{OsStr, OsString};
use std::process::ExitCode;

pub use command::Command;
pub use opt::{Opt, Values, EVERYWHERE};
pub use own::all;

pub const VERSION: &str = concat!("tarczolin ", env!("CARGO_PKG_VERSION"), "\n");

/// Is this word the version's, or that of help?
fn is_version(word: &OsStr) -> bool {
    word == "--version" || word == "-V"
}

fn is_help(word: &OsStr) -> bool {
    word == "--help" || word == "-h"
}

fn command(words: &[OsString]) -> Result<End, Error> {
    if tarczolin_sys::standard_output_was_closed() {
        return Err(Error::Closed);
    }
    let Some((name, rest)) = words.split_first() else { return Err(Error::usage(help::SHORT)) };
    let options = rest.split(|word| word == "--").next().unwrap_or(&[]);
    if is_version(name) || options.iter().any(|word| is_version(word)) {
        return output::answer(VERSION, End::Answered);
    }
    let command = own::known(if is_help(name) { OsStr::new("help") } else { name })?;
    if options.iter().any(|word| is_help(word)) {
        return output::answer(help::one(command), End::Answered);
    }
    Arguments::of(rest, command.options).and_then(|arguments| (command.run)(&arguments)).map_err(|error| match error {
        Error::Words => Error::Usage(format!("usage: tarczolin {}", command.usage())),
        other => other,
    })
}

/// Carries out a command: 0 answered, 1 a violation was found, the judge says no or a program is not covered, 2 refused or bad usage.
pub fn run(words: &[OsString]) -> ExitCode {
    let end = command(words).unwrap_or_else(|error| {
        output::tell(&error.to_string());
        End::Refused
    });
    end.code()
}
