//! What was found of one file of a suite.
use super::files::Named;
use crate::accepted::Accepted;
use crate::called::{called, recorded};
use crate::commands::expected::Found;
use crate::decide::{Asking, Verdict};
use crate::end::End;
use crate::error::Error;
use crate::input;
use crate::json::{list, object, Json};
use crate::model::Model;
use crate::note::{self, Note};
use std::ffi::OsStr;
use std::time::{Duration, Instant};

/// How a file ended.
#[derive(Clone, Copy, Debug, PartialEq, Eq, PartialOrd, Ord)]
pub enum Ended {
    Ok,
    Fails,
    /// It is no program, what it expects cannot be read, or is not decided.
    Refused,
    NoExpectation,
}

impl Ended {
    pub fn word(self) -> &'static str {
        match self {
            Ended::Ok => "ok",
            Ended::Fails => "FAILS",
            Ended::Refused => "refused",
            Ended::NoExpectation => "no expectation",
        }
    }
}

pub struct Report {
    /// What the file is called in messages, and in records.
    pub name: String,
    pub recorded: String,
    /// What was found under each model that it speaks of.
    pub found: Vec<Found>,
    /// Why no more was found.
    pub error: Option<Error>,
    /// What looks like a slip in it.
    pub warnings: Vec<Note>,
    pub time: Duration,
}

impl Report {
    /// Tests a file.
    pub fn of(file: &Named, asking: Asking) -> Report {
        let began = Instant::now();
        let mut report = match file {
            Ok(file) => Report::begun(file),
            Err(error) => return Report { error: Some(again(error)), ..Report::begun(OsStr::new("")) }.called_by(error),
        };
        if let Ok(file) = file {
            report.error = report.find(file, asking).err();
        }
        report.time = began.elapsed();
        report
    }

    fn begun(file: &OsStr) -> Report {
        let (name, recorded) = (called(file), recorded(file));
        Report { name, recorded, found: Vec::new(), error: None, warnings: Vec::new(), time: Duration::ZERO }
    }

    /// The same of a path that could not be read, by what its error calls it.
    fn called_by(self, error: &Error) -> Report {
        let name = if let Error::File { name, .. } = error { name.clone() } else { self.name.clone() };
        Report { recorded: name.clone(), name, ..self }
    }

    /// Decides what the file expects, under each model that it speaks of.
    fn find(&mut self, file: &OsStr, asking: Asking) -> Result<(), Error> {
        let content = input::content(file)?;
        // without fences it is accepted wherever it is with them
        let first = Accepted::of(&content, Some(Model::Sc))?;
        // that fences are left out under one of the models is no news where both are asked about
        self.warnings = first.notes.iter().filter(|note| matches!(note, Note::Warning(_))).cloned().collect();
        let all = first.expectations()?;
        for model in Model::BOTH.into_iter().filter(|model| all.iter().any(|one| one.speaks_of(*model))) {
            let source = Accepted::of(&content, Some(model))?;
            self.found.push(Found::of(&source, &all, asking));
        }
        Ok(())
    }

    fn verdicts(&self) -> impl Iterator<Item = Verdict> + '_ {
        self.found.iter().flat_map(|found| found.decided.all.iter().map(|one| one.verdict))
    }

    pub fn expectations(&self) -> usize {
        self.verdicts().count()
    }

    pub fn ended(&self) -> Ended {
        let has = |wanted: fn(Verdict) -> bool| self.verdicts().any(wanted);
        match () {
            _ if has(|verdict| matches!(verdict, Verdict::Fails(_))) => Ended::Fails,
            _ if self.error.is_some() || has(|verdict| verdict == Verdict::Open) => Ended::Refused,
            _ if self.expectations() == 0 => Ended::NoExpectation,
            _ => Ended::Ok,
        }
    }

    /// The worst of what was found; a file that expects nothing is no success and no failure.
    pub fn end(&self) -> End {
        let error = if self.error.is_some() { End::Refused } else { End::Answered };
        self.found.iter().map(Found::end).max().unwrap_or(End::Answered).max(error)
    }

    /// What is wrong, a line each: expectations that fail or are not decided, and why the file is refused.
    pub fn wrong(&self) -> Vec<String> {
        let of = |found: &Found| {
            let bad = found.decisions().filter(|(_, decision)| !matches!(decision.verdict, Verdict::Holds(_)));
            bad.map(|(one, decision)| format!("{}: {}", self.name, found.told(one, decision))).collect::<Vec<_>>()
        };
        self.found.iter().flat_map(of).chain(self.error.iter().map(Error::to_string)).collect()
    }

    /// The file in a line, or a few where more is wrong.
    pub fn told(&self) -> String {
        let ended = self.ended();
        let milliseconds = self.time.as_millis();
        let rest = match ended {
            Ended::Ok => format!("{}: {} hold ({milliseconds} ms)", self.name, self.expectations()),
            Ended::NoExpectation => self.name.clone(),
            _ => format!("{} ({milliseconds} ms)", self.wrong().join("\n                ")),
        };
        format!("{:<14}  {rest}\n", ended.word())
    }

    /// What looks like a slip, as an object of its own.
    pub fn warned(&self) -> Option<Json> {
        let file = ("file", self.recorded.as_str().into());
        (!self.warnings.is_empty()).then(|| object([("command", "test".into()), file, note::field(&self.warnings)]))
    }

    pub fn json(&self) -> Json {
        let of = |found: &Found| found.decisions().map(|(one, decision)| object(found.fields(one, decision))).collect::<Vec<_>>();
        let expectations: Vec<Json> = self.found.iter().flat_map(of).collect();
        object([
            ("command", "test".into()),
            ("file", self.recorded.as_str().into()),
            ("result", self.ended().word().into()),
            ("expectations", list(expectations)),
            ("error", self.error.as_ref().map(Error::json).into()),
            ("milliseconds", (self.time.as_millis() as u64).into()),
        ])
    }
}

/// An error of a path, once more.
fn again(error: &Error) -> Error {
    match error {
        Error::File { name, cause } => {
            Error::File { name: name.clone(), cause: std::io::Error::new(cause.kind(), cause.to_string()) }
        }
        other => Error::Usage(other.to_string()),
    }
}
