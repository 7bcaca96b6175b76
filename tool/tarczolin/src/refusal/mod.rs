//! Refusals in plain words: the number, the place, the offending line, and a sentence about what is wrong there.
mod fields;
mod graph;
mod line;
mod program;
mod schedule;

use crate::ask::Refusal;
use crate::error::{Error, Refused, Subject};
use crate::program::Program;
use line::line_at;
pub use program::sentence;

/// A line for the eye: nothing that a terminal would obey, and not too long.
fn shown(line: &[u8]) -> String {
    const MOST: usize = 72;
    let text = line.escape_ascii().to_string();
    match text.char_indices().nth(MOST) {
        Some((end, _)) => format!("{} .. ({} characters)", &text[..end], line.len()),
        None => text,
    }
}

/// The message about a refusal at a line of a file.
fn at_line(name: &str, file: &[u8], refusal: Refusal, sentence: String) -> Error {
    let shown = if refusal.place == 0 { String::new() } else { shown(line_at(file, refusal.place)) };
    Error::Refused(Refused { subject: Subject::File(name.to_string()), refusal, sentence, shown })
}

/// The message about a refused program file.
pub fn of_program(name: &str, file: &[u8], refusal: Refusal) -> Error {
    at_line(name, file, refusal, sentence(file, refusal))
}

/// Is it the program's own refusal?
fn of_the_program(refusal: Refusal) -> bool {
    refusal.number < 20 || [40, 41].contains(&refusal.number)
}

/// The message about a refused schedule of an accepted program.
pub fn of_schedule(name: &str, program: &Program, schedule: &[u8], refusal: Refusal) -> Error {
    assert!(!of_the_program(refusal), "{name} is accepted");
    let steps: Vec<String> = schedule.iter().map(|t| format!("{t:02x}")).collect();
    let (before, behind) = steps.split_at((refusal.place as usize).min(steps.len()));
    let marked = match behind.split_first() {
        Some((wrong, rest)) => [before, &[format!("[{wrong}]")], rest].concat(),
        None => [before, &["[]".to_string()]].concat(),
    };
    let sentence = schedule::sentence(program, schedule, refusal);
    Error::Refused(Refused { subject: Subject::Schedule, refusal, sentence, shown: marked.join(" ") })
}

/// The message about a refused graph text, or about its refused program.
pub fn of_graph([name, graph]: [&str; 2], file: &[u8], text: &[u8], refusal: Refusal) -> Error {
    if of_the_program(refusal) {
        return of_program(name, file, refusal);
    }
    at_line(graph, text, refusal, graph::sentence(file, text, refusal))
}

/// The message about a refused set of threads, or about its refused program.
pub fn of_threads(name: &str, file: &[u8], threads: usize, refusal: Refusal) -> Error {
    if of_the_program(refusal) {
        return of_program(name, file, refusal);
    }
    let sentence = format!("there is no thread {}; the program has {threads}, numbered from 0", refusal.place);
    Error::Refused(Refused { subject: Subject::Threads, refusal, sentence, shown: String::new() })
}
