//! What `tarczolin help` and `-h` behind a command print.
use super::command::Command;
use super::form::{STATEMENTS, WORDS};
use super::opt::Opt;
use std::fmt::Write;

pub const SHORT: &str = "usage: tarczolin COMMAND .., see `tarczolin help`";

const FRONT: &str =
    "tarczolin explores the executions of a small concurrent program, under sequential consistency or, by --model tso, under the
total store order of x86.\n";

const END: &str = "
FILE is a program file, a program in the text form or a litmus test (.litmus), GRAPH a graph text; - is standard input. SCHEDULE is digits,
two a step: 00000101. -- ends the options. `tarczolin COMMAND -h` tells a command's options and an example, --version the version.
";

/// Which commands know which model.
pub const MODELS: &str = "list, count, violation, show, graph, outcomes, rank, cuts and check take --model tso; test asks under the models that a \
file speaks of, fences and robust about total store order, x86 and covers --under about both; judge, force, sample and users stay with sequential consistency. Under total store order a step from 10 to 15 moves the oldest pending store of thread 0 to 5 to memory, and a \
program has at most 16 accesses.";

/// What the exit status says.
pub const STATUS: &str =
    "0 answered; 1 a violation was found, the hostile side can force it (force), an outcome matches (outcomes --where), NEW \
is not covered (covers), the judge says no, a program is not robust (robust, x86), what a file expects does not hold (check, outcomes, violation, test), or no fences help \
(fences); 2 refused, bad usage, not decided, nothing tested (test), or interrupted before a violation was found.";

/// All commands, each with what it does, and what holds for all of them.
pub fn all(commands: &[&Command]) -> String {
    let mut text = FRONT.to_string();
    for command in commands {
        let words = if command.words.is_empty() { String::new() } else { format!(" {}", command.words) };
        write!(text, "\n  {}{words}\n      {}\n", command.name, command.about).expect("text grows");
    }
    let [models, status] = [("Models", MODELS), ("Exit status", STATUS)].map(|(what, about)| folded(&format!("{what}: {about}")));
    text + END + &format!("\n{models}\n{status}\n{}", form())
}

/// Words in lines that fit a window.
fn folded(words: &str) -> String {
    const WIDTH: usize = 110;
    let mut lines = vec![String::new()];
    for word in words.split(' ') {
        let last = lines.last_mut().expect("one line at least");
        match last.len() + word.len() < WIDTH {
            true if last.is_empty() => last.push_str(word),
            true => *last += &format!(" {word}"),
            false => lines.push(word.to_string()),
        }
    }
    lines.join("\n") + "\n"
}

/// The text form.
fn form() -> String {
    let row = |(statement, about): &(&str, &str)| format!("  {statement:<23} {about}\n");
    let front = folded(&format!("The text form, a statement a line. {WORDS}"));
    format!("{front}\n{}", STATEMENTS.iter().map(row).collect::<String>())
}

/// One command: its usage, its options, an example; behind asm the text form.
pub fn one(command: &Command) -> String {
    let mut text = format!("usage: tarczolin {}\n\n{}\n\n", command.usage(), command.about);
    for Opt { name, value, about } in command.all_options() {
        let shown = format!("{name} {}", value.unwrap_or(""));
        writeln!(text, "  {shown:<18} {about}").expect("text grows");
    }
    write!(text, "\nexample: {}\n", command.example).expect("text grows");
    if command.name == "asm" {
        text += &format!("\n{}", form());
    }
    text
}
