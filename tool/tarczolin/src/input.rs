//! Files named on the command line; `-` is standard input. No more is read than can be of use, and nothing is read twice.
use crate::asm::{self, Assembled, Remarks, Said, Wrong};
use crate::called::called;
use crate::error::{Error, Mark};
use crate::litmus::{self, Imported};
use crate::model::Model;
use crate::note::Note;
use crate::program::{self, Names, FILE_LIMIT};
use crate::{ask, refusal};
use std::ffi::OsStr;
use std::fs::{File, Metadata};
use std::io::{self, Read, Stdin};
use std::os::fd::AsFd;
use std::os::unix::ffi::OsStrExt;
use std::os::unix::fs::MetadataExt;

/// At most so many bytes are read of a graph text, of a schedule and of a program in the text form.
pub const TEXT_LIMIT: usize = 1 << 20;

/// A program: its file as the library takes it, and the names and remark lines of that file or of its text form.
pub struct Source {
    /// What it is called in messages.
    pub name: String,
    pub file: Vec<u8>,
    pub names: Names,
    pub remarks: Remarks,
    /// What has to be known of how it was read.
    pub notes: Vec<Note>,
    /// Whether the library accepts it is known already: it was asked where a text was made a file.
    pub asked: bool,
    /// The lines that expect something of it.
    pub said: Vec<Said>,
    /// The lines that repeat or use a definition, and how many accesses each had made.
    pub made: Vec<(usize, usize)>,
}

/// Standard input, where it is open: one that was closed from the start is no empty file.
pub fn standard() -> io::Result<Stdin> {
    if tarczolin_sys::standard_input_was_closed() {
        return Err(io::Error::other("it is closed; there is nothing to read"));
    }
    Ok(io::stdin())
}

/// A file that is read from its beginning.
fn opened(name: &OsStr) -> Result<Box<dyn Read>, Error> {
    let opened = match name.as_bytes() {
        b"-" => standard().map(|input| Box::new(input) as Box<dyn Read>),
        _ => File::open(name).map(|file| Box::new(file) as Box<dyn Read>),
    };
    opened.map_err(|cause| Error::File { name: called(name), cause })
}

/// Reads on behind these bytes, until there are so many of them.
fn read_on(name: &OsStr, reader: &mut dyn Read, bytes: &mut Vec<u8>, most: usize) -> Result<(), Error> {
    let read = reader.take((most - bytes.len()) as u64).read_to_end(bytes);
    read.map(|_| ()).map_err(|cause| Error::File { name: called(name), cause })
}

/// How a program is written.
enum Form {
    File,
    Text,
    /// A litmus test, and its text form, by the places in the test that the lines come from.
    Litmus(Imported),
}

/// What a file holds: a program, read once, for one memory model or for another.
pub struct Content {
    /// What it is called in messages.
    pub name: String,
    bytes: Vec<u8>,
    form: Form,
}

/// The program of a file, as a program file, in the text form or as a litmus test: that is told by the name's end, or by how the content
/// begins. Of a program file that is too long only so much is read as shows that to the library.
pub fn content(name: &OsStr) -> Result<Content, Error> {
    let (mut reader, mut bytes) = (opened(name)?, Vec::new());
    read_on(name, &mut *reader, &mut bytes, FILE_LIMIT + 1)?;
    let known = called(name);
    let litmus = name.as_bytes().ends_with(b".litmus");
    if !litmus && !name.as_bytes().ends_with(b".asm") && !asm::is_text(&bytes) {
        return Ok(Content { name: known, bytes, form: Form::File });
    }
    read_on(name, &mut *reader, &mut bytes, TEXT_LIMIT + 1)?;
    let bytes = limited(name, bytes)?;
    if !litmus {
        return Ok(Content { name: known, bytes, form: Form::Text });
    }
    let imported = litmus::import(&String::from_utf8_lossy(&bytes));
    let imported = imported.map_err(|marks| Error::Text { name: known.clone(), marks })?;
    Ok(Content { name: known, bytes, form: Form::Litmus(imported) })
}

impl Content {
    /// A text in the text form, by what it is called.
    pub fn of_text(name: &str, text: &[u8]) -> Content {
        Content { name: name.to_string(), bytes: text.to_vec(), form: Form::Text }
    }

    /// The program in the text form, and what to say of its lines where they are not those of the file.
    pub fn text_form(&self) -> Result<(Vec<u8>, &'static str), Error> {
        match &self.form {
            Form::Text => Ok((self.bytes.clone(), "")),
            Form::Litmus(Imported { form, .. }) => Ok((form.clone().into_bytes(), " as import-litmus has it")),
            Form::File => {
                let Source { name, file, names, remarks, .. } = self.file();
                ask::check(&file).map_err(|refused| refusal::of_program(&name, &file, refused))?;
                let frames = program::frames(&file).expect("an accepted file has frames only");
                Ok((asm::text(&frames, &names, &remarks).into_bytes(), " as disasm has it"))
            }
        }
    }

    /// The program for one memory model, or for both: what is run under sequential consistency has no fences.
    pub fn source(&self, model: Option<Model>) -> Result<Source, Error> {
        let name = self.name.clone();
        let text = match &self.form {
            Form::File => return Ok(self.file()),
            Form::Text => &self.bytes[..],
            Form::Litmus(Imported { form, .. }) => form.as_bytes(),
        };
        let made = asm::assemble_for(text, model).map_err(|marks| self.wrong(marks))?;
        let Assembled { file, names, remarks, warnings, left_out, said, made } = made;
        let (notes, said) = (notes(self.at_home(warnings), left_out), self.said(said));
        Ok(Source { name, file, names, remarks, notes, asked: true, said, made })
    }

    /// A program file, whatever it holds.
    fn file(&self) -> Source {
        let (file, (names, remarks)) = (self.bytes.clone(), asm::named(&self.bytes));
        let (notes, said) = (notes(asm::slips_of_file(&file), 0), asm::said(&file, false));
        Source { name: self.name.clone(), file, names, remarks, notes, asked: false, said, made: Vec::new() }
    }

    fn wrong(&self, marks: Vec<Mark>) -> Error {
        Error::Text { name: self.name.clone(), marks: self.at_home(marks) }
    }

    /// Places of the text form, as places of what the file holds.
    fn at_home(&self, marks: Vec<Mark>) -> Vec<Mark> {
        let Form::Litmus(Imported { places, .. }) = &self.form else { return marks };
        let home = |mark: Mark| {
            let (line, column) = places.get(mark.line - 1).copied().unwrap_or((1, 1));
            asm::mark(&self.bytes, Wrong { line, column, message: mark.message })
        };
        marks.into_iter().map(home).collect()
    }

    /// The same of expectations, which in a litmus test are its condition.
    fn said(&self, said: Vec<Said>) -> Vec<Said> {
        let Form::Litmus(Imported { places, .. }) = &self.form else { return said };
        let home = |said: Said| Said { line: places.get(said.line - 1).map_or(1, |(line, _)| *line), ..said };
        said.into_iter().map(home).collect()
    }
}

/// The program of a file for one memory model, or for both.
pub fn program(name: &OsStr, model: Option<Model>) -> Result<Source, Error> {
    content(name)?.source(model)
}

/// What has to be known of a text: what looks like a slip, and that so many fences are left out, and why they may be.
pub fn notes(warnings: Vec<Mark>, left_out: usize) -> Vec<Note> {
    let fences = match left_out {
        0 => None,
        1 => Some("1 fence is left out: under sequential consistency it means nothing".to_string()),
        _ => Some(format!("{left_out} fences are left out: under sequential consistency they mean nothing")),
    };
    warnings.into_iter().map(Note::Warning).chain(fences.map(Note::Note)).collect()
}

/// A graph text, a schedule, or a program in the text form.
pub fn text(name: &OsStr) -> Result<Vec<u8>, Error> {
    let mut bytes = Vec::new();
    read_on(name, &mut *opened(name)?, &mut bytes, TEXT_LIMIT + 1)?;
    limited(name, bytes)
}

fn limited(name: &OsStr, bytes: Vec<u8>) -> Result<Vec<u8>, Error> {
    if bytes.len() > TEXT_LIMIT {
        return Err(Error::TooLong { name: called(name), most: TEXT_LIMIT });
    }
    Ok(bytes)
}

/// Would writing to this path change the input? Another path, a link, or the file that standard input comes from.
pub fn is_input(path: &OsStr, name: &OsStr) -> bool {
    let input = match name.as_bytes() {
        b"-" => io::stdin().as_fd().try_clone_to_owned().map(File::from).and_then(|file| file.metadata()),
        _ => std::fs::metadata(name),
    };
    let known = |at: Metadata| (at.dev(), at.ino());
    match (input, std::fs::metadata(path)) {
        (Ok(input), Ok(output)) => input.is_file() && known(input) == known(output),
        _ => false,
    }
}
