//! How answers are told: in words or as JSON, for one file or for several.
use super::arguments::Arguments;
use super::opt::Opt;
use crate::accepted::Accepted;
use crate::called::{called, recorded};
use crate::end::End;
use crate::error::Error;
use crate::json::Json;
use crate::model::Model;
use crate::note::{self, Note};
use crate::output;
use std::ffi::OsStr;

/// The option that all commands share.
pub const JSON: Opt = Opt { name: "--json", value: None, about: "answers as JSON, an object a line (docs/JSON.md)" };

/// One question: a command and a file.
#[derive(Clone, Copy)]
pub struct Question<'a> {
    pub command: &'static str,
    pub file: &'a OsStr,
    pub json: bool,
    /// There are several files: each answer has its file's name.
    pub several: bool,
}

impl<'a> Question<'a> {
    pub fn of(command: &'static str, arguments: &Arguments, file: &'a OsStr) -> Question<'a> {
        Question { command, file, json: arguments.flag("--json"), several: false }
    }

    /// The program that it is about, if the library accepts it.
    pub fn source(&self) -> Result<Accepted, Error> {
        self.source_under(Model::Sc)
    }

    /// The same for the listing of this model.
    pub fn source_under(&self, model: Model) -> Result<Accepted, Error> {
        self.source_for(Some(model))
    }

    /// The same for both models, its fences kept: for what does not run it.
    pub fn whole_source(&self) -> Result<Accepted, Error> {
        self.source_for(None)
    }

    /// The same for one model, or for both. What has to be known of it is told in front of the answer.
    pub fn source_for(&self, model: Option<Model>) -> Result<Accepted, Error> {
        let accepted = Accepted::read(self.file, model)?;
        self.noted(&accepted.name, &accepted.notes)?;
        Ok(accepted)
    }

    /// An object of the command, its file and these fields, as a line.
    pub fn object<const N: usize>(&self, fields: [(&str, Json); N]) -> String {
        let front = [("command", self.command.into()), ("file", recorded(self.file).into())];
        let fields = front.into_iter().chain(fields).map(|(name, value)| (name.to_string(), value));
        format!("{}\n", Json::Object(fields.collect()))
    }

    /// What stands in front of a line of words.
    pub fn front(&self) -> String {
        if self.several {
            format!("{}: ", called(self.file))
        } else {
            String::new()
        }
    }

    /// Answers in one line of words, or in one object.
    pub fn answer<const N: usize>(&self, words: &str, fields: [(&str, Json); N], found: End) -> Result<End, Error> {
        let text = if self.json { self.object(fields) } else { format!("{}{words}\n", self.front()) };
        output::answer(text, found)
    }

    /// Answers in many lines of words, or in one object.
    pub fn answer_text<const N: usize>(&self, text: String, fields: [(&str, Json); N], found: End) -> Result<End, Error> {
        output::answer(if self.json { self.object(fields) } else { self.heading() + &text }, found)
    }

    /// What stands above many lines of words, as head(1) has it.
    pub fn heading(&self) -> String {
        if self.several {
            format!("==> {} <==\n", called(self.file))
        } else {
            String::new()
        }
    }

    /// Tells what has to be known of how its file was read: in front of the answer, in an object too.
    pub fn noted(&self, name: &str, notes: &[Note]) -> Result<(), Error> {
        notes.iter().for_each(|note| output::tell(&note.told(name)));
        if self.json && !notes.is_empty() {
            output::answer(self.object([note::field(notes)]), End::Answered)?;
        }
        Ok(())
    }

    /// Tells an error of this question, and that it was not carried out.
    pub fn failed(&self, error: &Error) -> Result<End, Error> {
        output::tell(&error.to_string());
        if self.json {
            return output::answer(self.object([("error", error.json())]), End::Refused);
        }
        Ok(End::Refused)
    }
}

/// Asks a question of each file. What is wrong with one does not stop the others; the worst end is that of all.
pub fn each(command: &'static str, arguments: &Arguments, ask: impl Fn(&Question) -> Result<End, Error>) -> Result<End, Error> {
    let names = arguments.names()?;
    let mut end = End::Answered;
    for (k, name) in names.iter().enumerate() {
        let question = Question { several: names.len() > 1, ..Question::of(command, arguments, name) };
        end = end.max(asked(&question, &ask)?);
        if tarczolin_sys::was_interrupted() && k + 1 < names.len() {
            let left: Vec<String> = names[k + 1..].iter().map(|name| called(name)).collect();
            output::tell(&format!("not begun: {}", left.join(", ")));
            break;
        }
    }
    Ok(end)
}

/// Asks one question, and tells what is wrong with it.
pub fn asked(question: &Question, ask: impl Fn(&Question) -> Result<End, Error>) -> Result<End, Error> {
    match ask(question) {
        Err(error @ (Error::Usage(_) | Error::Words | Error::Output(_) | Error::Closed)) => Err(error),
        Err(error) => question.failed(&error),
        done => done,
    }
}
