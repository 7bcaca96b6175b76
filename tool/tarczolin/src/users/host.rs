//! A host: four records and the caller served last, lent to the library call by call.
use super::call::Call;
use super::field::{number, put, Field};
use super::said::Said;
use crate::ask::Refusal;
use crate::error::Error;
use crate::model::Model;
use crate::note::Note;
use crate::program::Program;
use crate::schedule::Schedule;
use crate::{ask, expect, input, output};
use std::ffi::OsStr;
use tarczolin_sys::users::{self, Shared};
use tarczolin_sys::{Answer, Caller, Served, SCHEDULE};

pub struct Host {
    callers: Box<[Caller; 4]>,
    last: u64,
    notes: Vec<Note>,
}

impl Default for Host {
    /// Four fresh records; before any serve the last caller is 3.
    fn default() -> Host {
        Host { callers: Box::new([Caller::FRESH; 4]), last: 3, notes: Vec::new() }
    }
}

/// What a call says that gives no schedule.
fn done(answer: Answer) -> Said {
    match answer {
        Answer::Refused(number, place) => Said::Refused(Refusal { number, place }),
        _ => Said::Ok,
    }
}

/// That so many expectations of an opened file are passed over.
fn not_looked_at(expectations: usize) -> Option<Note> {
    let one = "1 expectation is not looked at here; check and test decide it".to_string();
    match expectations {
        0 => None,
        1 => Some(Note::Note(one)),
        many => Some(Note::Note(format!("{many} expectations are not looked at here; check and test decide them"))),
    }
}

impl Host {
    fn lent(&mut self) -> Shared<'_> {
        Shared { callers: self.callers.as_mut_slice(), last: &mut self.last }
    }

    /// Carries a call out. A file that cannot be read, or a text form that is wrong, is an error; all else is answered.
    pub fn call(&mut self, call: &Call) -> Result<Said, Error> {
        Ok(match call {
            Call::Open(caller, name) => self.open(*caller, name)?,
            Call::Ask(caller) => done(users::ask(self.lent(), *caller)),
            Call::Serve => self.serve(),
            Call::Close(caller) => done(users::close(self.lent(), *caller)),
            Call::Set(caller, name) => done(users::set(self.lent(), *caller, name)),
            Call::Return(caller, name) => done(users::return_to(self.lent(), *caller, name)),
            Call::Forget(caller, name) => done(users::forget(self.lent(), *caller, name)),
            Call::Count(caller) => Said::Count(*caller, self.callers.get(*caller).map_or(0, |record| record.count)),
            Call::Raw(field, bytes) => self.raw(*field, bytes),
        })
    }

    /// What has to be known of how the last call's file was read; once.
    pub fn notes(&mut self) -> Vec<Note> {
        std::mem::take(&mut self.notes)
    }

    fn open(&mut self, caller: usize, name: &str) -> Result<Said, Error> {
        let mut source = input::program(OsStr::new(name), Some(Model::Sc))?;
        if ask::check(&source.file).is_ok() {
            let program = Program::of_accepted(&source.file).named(&source.names);
            let marks = expect::wrong_statements(&source.said, &program);
            if !marks.is_empty() {
                return Err(Error::Text { name: source.name, marks });
            }
            source.notes.extend(not_looked_at(source.said.len()));
        }
        source.notes.iter().for_each(|note| output::tell(&note.told(&source.name)));
        self.notes = source.notes;
        Ok(done(users::open(self.lent(), caller, &source.file)))
    }

    fn serve(&mut self) -> Said {
        let mut out = [0; SCHEDULE];
        match users::serve(self.lent(), &mut out) {
            Served::Schedule(caller, length) => Said::Schedule(caller, Schedule::of_output(&out[..length as usize])),
            Served::NoMore(caller) => Said::NoMore(caller),
            Served::Idle => Said::Idle,
            Served::Refused(number, place) => Said::Refused(Refusal { number, place }),
        }
    }

    fn raw(&mut self, field: Field, bytes: &[u8]) -> Said {
        match (field.caller, field.name) {
            (Some(caller), name) => put(&mut self.callers[caller], name, bytes),
            (None, _) => self.last = number(bytes),
        }
        Said::Ok
    }
}
