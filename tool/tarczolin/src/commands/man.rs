//! The manual page, for man(1).
use super::command::Command;
use super::form::{STATEMENTS, WORDS};
use super::help::{MODELS, STATUS};
use std::fmt::Write;

fn escaped(text: &str) -> String {
    text.replace('\\', "\\e").replace('-', "\\-")
}

pub fn page(commands: &[&Command]) -> String {
    let mut text = String::from(
        ".TH TARCZOLIN 1\n.SH NAME\ntarczolin \\- explores the executions of small concurrent programs\n.SH SYNOPSIS\n\
         .B tarczolin\nCOMMAND ..\n.SH DESCRIPTION\nLists, counts, shows and judges the executions of a program under sequential \
         consistency, or under the total store order of x86. What is listed, counted, judged or refused is the answer of a proved \
         library.\n.SH COMMANDS\n",
    );
    for command in commands {
        write!(text, ".TP\n.B {}\n{}\n", escaped(&command.usage()), escaped(command.about)).expect("text grows");
        for option in command.all_options() {
            write!(text, ".br\n{}: {}\n", escaped(option.name), escaped(option.about)).expect("text grows");
        }
        write!(text, ".br\nExample: {}\n", escaped(command.example)).expect("text grows");
    }
    write!(text, ".SH MODELS\n{}\n.SH TEXT FORM\nA statement a line. {}\n", escaped(MODELS), escaped(WORDS)).expect("text grows");
    for (statement, about) in STATEMENTS {
        write!(text, ".TP\n{}\n{}\n", escaped(statement), escaped(about)).expect("text grows");
    }
    let environment = "TARCZOLIN_PROGRESS: off for no lines of progress, or how often there is one, in milliseconds.\n.br\n\
                       TARCZOLIN_MEMORY: as \\-\\-memory, where that is not given.";
    text + &format!(".SH ENVIRONMENT\n{environment}\n.SH EXIT STATUS\n{}\n", escaped(STATUS))
}
