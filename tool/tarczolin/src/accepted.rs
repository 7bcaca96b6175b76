//! A program that the library accepts: its file is read once, asked about once and taken apart once for each command.
use crate::asm::{Remarks, Said};
use crate::error::Error;
use crate::expect::{self, Expectation};
use crate::input::{self, Content, Source};
use crate::model::Model;
use crate::note::Note;
use crate::program::{self, Called, Names, Program};
use crate::{ask, refusal};
use std::ffi::OsStr;

pub struct Accepted {
    /// What it is called in messages.
    pub name: String,
    /// The file as the library takes it.
    pub file: Vec<u8>,
    /// What the file says, by its names, under the model that it was asked for.
    pub program: Program,
    pub remarks: Remarks,
    /// What has to be known of how it was read.
    pub notes: Vec<Note>,
    /// The lines that expect something of it.
    pub said: Vec<Said>,
    /// The lines that repeat or use a definition, and how many accesses each had made.
    pub made: Vec<(usize, usize)>,
}

impl Accepted {
    /// The program of this file, if the library accepts it under this model. Where it is read for both models the fences of a text are kept,
    /// and it is asked about under sequential consistency, which takes all that total store order takes.
    pub fn read(name: &OsStr, model: Option<Model>) -> Result<Accepted, Error> {
        Accepted::of(&input::content(name)?, model)
    }

    /// The same of what a file holds.
    pub fn of(content: &Content, model: Option<Model>) -> Result<Accepted, Error> {
        let Source { name, file, names, remarks, notes, asked, said, made } = content.source(model)?;
        let model = model.unwrap_or_default();
        if !asked || model == Model::Tso {
            ask::accepted(model, &file).map_err(|r| refusal::of_program(&name, &file, r))?;
        }
        let program = Program::of_accepted(&file).named(&names).under(model);
        let wrong = expect::wrong_statements(&said, &program);
        if !wrong.is_empty() {
            return Err(Error::Text { name, marks: wrong });
        }
        Ok(Accepted { name, file, program, remarks, notes, said, made })
    }

    /// What is expected of it, or all that is wrong with the lines that say so.
    pub fn expectations(&self) -> Result<Vec<Expectation>, Error> {
        expect::read(&self.said, &self.program).map_err(|marks| Error::Text { name: self.name.clone(), marks })
    }

    /// The same with its locations moved, no two to one, and called so. It is accepted too and has the same list: which accesses meet
    /// stays as it is, and alike threads stay alike.
    pub fn moved(&self, to: &dyn Fn(u8) -> u8, locations: &Called) -> Accepted {
        let frames = program::frames(&self.file).expect("an accepted file has frames only");
        let file = program::file(&frames.into_iter().map(|frame| frame.moved(to)).collect::<Vec<_>>());
        let names = Names { locations: locations.clone(), ..self.program.names.clone() };
        let program = Program::of_accepted(&file).named(&names).under(self.program.model);
        let (name, remarks, notes) = (self.name.clone(), self.remarks.clone(), self.notes.clone());
        Accepted { name, file, program, remarks, notes, said: self.said.clone(), made: self.made.clone() }
    }
}
