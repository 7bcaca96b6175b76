//! Why a command was not carried out, and how that is said.
use crate::ask::{Counts, Refusal};
use crate::json::{list, object, Json};
use std::fmt;
use std::io;

#[derive(Debug)]
pub enum Error {
    /// Bad usage: what is wrong with the words behind the command's name.
    Usage(String),
    /// Bad usage: too few or too many words; the command's own usage says it all.
    Words,
    /// A file that cannot be read or written.
    File { name: String, cause: io::Error },
    /// A text of which more would have to be read than is read.
    TooLong { name: String, most: usize },
    /// What the library refuses.
    Refused(Refused),
    /// What is wrong with a program in the text form.
    Text { name: String, marks: Vec<Mark> },
    /// A condition behind --where that does not fit the program of this file.
    Condition { name: String, message: String },
    /// A litmus test or a program that does not fit the other form, or two programs that do not fit each other.
    Unfit { name: String, message: String },
    /// Ctrl-C, while a page or drawings were made: so much had been listed, and nothing is written.
    Interrupted(Counts),
    /// Standard output cannot be written.
    Output(io::Error),
    /// Standard output was closed from the start.
    Closed,
}

/// What a refusal is about.
#[derive(Clone, Debug, PartialEq, Eq)]
pub enum Subject {
    /// A file of this name: the place is a line.
    File(String),
    /// A schedule: the place is a step.
    Schedule,
    /// A set of threads: the place is a thread's number.
    Threads,
}

/// A refusal of the library: a sentence about what is wrong, and the line or the steps to look at.
#[derive(Clone, Debug, PartialEq, Eq)]
pub struct Refused {
    pub subject: Subject,
    pub refusal: Refusal,
    pub sentence: String,
    pub shown: String,
}

/// A place in a text, line and column from 1, the line as it is shown, and what there is to say.
#[derive(Clone, Debug, PartialEq, Eq)]
pub struct Mark {
    pub line: usize,
    pub column: usize,
    pub shown: String,
    pub message: String,
}

impl Error {
    pub fn usage(message: impl Into<String>) -> Error {
        Error::Usage(message.into())
    }
}

impl Error {
    /// The error for programs: its kind, its message, and the places that it tells of.
    pub fn json(&self) -> Json {
        let kind = match self {
            Error::Usage(_) | Error::Words | Error::Condition { .. } => "usage",
            Error::File { .. } => "file",
            Error::TooLong { .. } => "too-long",
            Error::Refused(_) => "refused",
            Error::Text { .. } => "text",
            Error::Unfit { .. } => "unfit",
            Error::Interrupted(_) => "interrupted",
            Error::Output(_) | Error::Closed => "output",
        };
        let (number, place) = match self {
            Error::Refused(Refused { refusal, .. }) => (Some(refusal.number), Some(refusal.place)),
            _ => (None, None),
        };
        let message = match self {
            Error::Refused(refused) => refused.sentence.clone(),
            Error::Text { marks, .. } => format!("{} errors", marks.len()),
            other => other.to_string(),
        };
        let marks: &[Mark] = if let Error::Text { marks, .. } = self { marks } else { &[] };
        let mark = |mark: &Mark| {
            let place = [("line", Json::from(mark.line as u64)), ("column", Json::from(mark.column as u64))];
            object([place[0].clone(), place[1].clone(), ("message", mark.message.as_str().into())])
        };
        object([
            ("kind", kind.into()),
            ("message", message.into()),
            ("number", number.into()),
            ("place", place.into()),
            ("marks", list(marks.iter().map(mark))),
        ])
    }
}

impl fmt::Display for Error {
    fn fmt(&self, f: &mut fmt::Formatter) -> fmt::Result {
        match self {
            Error::Usage(message) => f.write_str(message),
            Error::Words => f.write_str("too few or too many words"),
            Error::File { name, cause } => write!(f, "{name}: {cause}"),
            Error::TooLong { name, most } => write!(f, "{name}: the text is longer than {most} bytes, and no more are read"),
            Error::Refused(refused) => refused.fmt(f),
            Error::Text { name, marks } => {
                let marks: Vec<String> = marks.iter().map(|mark| mark.told(name)).collect();
                f.write_str(&marks.join("\n"))
            }
            Error::Condition { name, message } => write!(f, "{name}: --where: {message}"),
            Error::Unfit { name, message } => write!(f, "{name}: {message}"),
            Error::Interrupted(Counts { listed, failing }) => {
                write!(f, "interrupted: {listed} listed, {failing} failing so far; nothing is written")
            }
            Error::Output(cause) => write!(f, "the output cannot be written: {cause}"),
            Error::Closed => f.write_str("standard output is closed; there is nowhere to write the answer"),
        }
    }
}

impl fmt::Display for Refused {
    fn fmt(&self, f: &mut fmt::Formatter) -> fmt::Result {
        let Refused { subject, refusal: Refusal { number, place }, sentence, shown } = self;
        match (subject, place) {
            (Subject::File(name), 0) => write!(f, "{name}: refusal {number}: {sentence}"),
            (Subject::File(name), _) => {
                write!(f, "{name}: refusal {number} at line {place}: {sentence}\n{place:>6} | {shown}")
            }
            (Subject::Schedule, _) => write!(f, "refusal {number} at step {place}: {sentence}\n       | {shown}"),
            (Subject::Threads, _) => write!(f, "refusal {number} at thread {place}: {sentence}"),
        }
    }
}

impl Mark {
    /// The message with the file's name, the line, and a mark below it.
    pub fn told(&self, name: &str) -> String {
        let Mark { line, column, shown, message } = self;
        let space = " ".repeat(column - 1);
        format!("{name}:{line}:{column}: {message}\n{line:>6} | {shown}\n       | {space}^")
    }
}
