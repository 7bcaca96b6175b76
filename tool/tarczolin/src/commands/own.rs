//! The commands about the command itself, made of the table of all commands.
use super::arguments::Arguments;
use super::command::Command;
use super::meant::meant;
use super::table::COMMANDS;
use super::{complete, help, man};
use crate::end::End;
use crate::error::Error;
use crate::output;
use std::ffi::OsStr;

const OWN: [Command; 3] = [
    Command {
        name: "help",
        words: "[COMMAND]",
        about: "all commands, or one with its options and an example",
        options: &[],
        example: "tarczolin help outcomes",
        run: |arguments| match arguments.at_most_one()? {
            None => output::answer(help::all(&all()), End::Answered),
            Some(name) => output::answer(help::one(known(name)?), End::Answered),
        },
    },
    Command {
        name: "man",
        words: "",
        about: "the manual page, for man(1)",
        options: &[],
        example: "tarczolin man > tarczolin.1",
        run: |arguments| match arguments.at_most_one()? {
            None => output::answer(man::page(&all()), End::Answered),
            Some(_) => Err(Error::Words),
        },
    },
    Command {
        name: "completions",
        words: "bash|zsh|fish",
        about: "completions of commands, options and files, for a shell",
        options: &[],
        example: "tarczolin completions bash > /etc/bash_completion.d/tarczolin",
        run: completions,
    },
];

fn completions(arguments: &Arguments) -> Result<End, Error> {
    let [shell] = arguments.files()?;
    output::answer(complete::script(&all(), &shell.to_string_lossy()).ok_or(Error::Words)?, End::Answered)
}

/// All commands.
pub fn all() -> Vec<&'static Command> {
    COMMANDS.iter().chain(&OWN).collect()
}

/// The command of this name, or what it may have been meant to be.
pub fn known(name: &OsStr) -> Result<&'static Command, Error> {
    let name = name.to_string_lossy();
    let found = all().into_iter().find(|command| command.name == name);
    found.ok_or_else(|| {
        let hint = meant(&name, all().iter().map(|command| command.name).chain(["--version"]));
        Error::usage(format!("there is no command {name}{hint}\n{}", help::SHORT))
    })
}
